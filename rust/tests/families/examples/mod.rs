//! Worked examples in tables: those of document 01 and the manual, and one at each edge. What is expected is what the
//! rules in the crates' specs/ say, written out and not computed here; the library and the oracle are both held to it.

mod copying;
mod cues;
mod cutting;
mod editing;
mod labels;
mod number;

use std::fmt::Debug;
use strlib::{CueRefusal, LabelRefusal, Refusal, StrPtr};

/// Bytes that stand one behind the other.
type Bytes = &'static [&'static [u8]];

/// The answer, or the refusal's number and what comes with it.
type Want<A, E = u8> = Result<A, E>;

/// The answer and what the lent memory is then, or the refusal, and the memory is as it was.
type Wrote<A, E = u8> = Want<(A, Bytes), E>;

/// A refusal as the tables write it: its number, with the offset of a label list's and the word of a cue line's.
trait Plain {
    type As: PartialEq + Debug;
    fn plain(self) -> Self::As;
}

impl Plain for Refusal {
    type As = u8;
    fn plain(self) -> u8 {
        self.0
    }
}

impl Plain for LabelRefusal {
    type As = (u8, usize);
    fn plain(self) -> (u8, usize) {
        (self.number, self.offset)
    }
}

impl Plain for CueRefusal {
    type As = (u8, Option<u8>);
    fn plain(self) -> (u8, Option<u8>) {
        (self.number, self.word)
    }
}

const fn p(start: usize, length: usize, maximum: usize) -> StrPtr {
    StrPtr::new(start, length, maximum)
}

/// The library's and the oracle's, with whose it is.
fn both<I: IntoIterator>(two: I) -> impl Iterator<Item = (&'static str, I::Item)> {
    ["the library", "the oracle"].into_iter().zip(two)
}

fn answers<A, E>(example: &str, whose: &str, answer: Result<A, E>, want: Want<A, E::As>)
where
    A: PartialEq + Debug,
    E: Plain,
{
    assert_eq!(answer.map_err(E::plain), want, "{example} by {whose}");
}

/// Compares the answer, and every byte that was lent.
fn writes<A: PartialEq + Debug, E: Plain>(
    example: &str,
    whose: &str,
    lent: Bytes,
    want: Wrote<A, E::As>,
    call: impl FnOnce(&mut [u8]) -> Result<A, E>,
) {
    let mut memory = lent.concat();
    let answer = call(&mut memory);
    let (want, after) = match want {
        Ok((want, after)) => (Ok(want), after),
        Err(refusal) => (Err(refusal), lent),
    };
    answers(example, whose, answer, want);
    let shown = |bytes: &[u8]| bytes.escape_ascii().to_string();
    let (memory, after) = (shown(&memory), shown(&after.concat()));
    assert_eq!(memory, after, "{example}, memory after {whose}");
}
