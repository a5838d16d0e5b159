//! Cuts of one label.

use super::{answers, both, p, Want};
use crate::families::place;
use crate::oracle::cutting;
use strlib::{Refusal, StrPtr};

/// A label, then a byte that is no character; its eight characters, in a room of nine.
const LABELLED: &[u8] = b"LSP 31  \xc8";
const LABEL: StrPtr = p(0, 8, 9);

enum Cut {
    Relative(usize),
    Counted(usize, usize),
    Between(usize, usize),
    Trimmed,
}
use Cut::{Between, Counted, Relative, Trimmed};

#[rustfmt::skip]
const CUTS: &[(&str, StrPtr, Cut, Want<StrPtr>)] = &[
    ("relative", LABEL, Relative(4), Ok(p(4, 4, 5))),
    // an offset of the whole length is the empty string at the end; one more is refused
    ("at-end", LABEL, Relative(8), Ok(p(8, 0, 1))),
    ("past-end", LABEL, Relative(9), Err(4)),
    // the loudspeaker's number, and not one character more
    ("counted", LABEL, Counted(5, 2), Ok(p(4, 2, 5))),
    // a count may reach past the length, up to the maximum
    ("to-maximum", LABEL, Counted(1, 9), Ok(p(0, 9, 9))),
    ("over-maximum", LABEL, Counted(1, 10), Err(4)),
    ("position-zero", LABEL, Counted(0, 1), Err(4)),
    // the maximum of a part between positions ends with the length
    ("between", LABEL, Between(5, 7), Ok(p(4, 2, 4))),
    ("between-open", LABEL, Between(5, 0), Ok(p(4, 4, 4))),
    ("between-end", LABEL, Between(9, 9), Ok(p(8, 0, 0))),
    ("between-past", LABEL, Between(5, 10), Err(4)),
    ("between-turned", LABEL, Between(5, 4), Err(4)),
    ("trimmed", LABEL, Trimmed, Ok(p(0, 6, 9))),
    // trimming reads the string, the other cuts do not
    ("trim-reads", p(0, 9, 9), Trimmed, Err(2)),
    ("cut-reads-not", p(0, 9, 9), Relative(8), Ok(p(8, 1, 1))),
    // 1 goes before 4; a sum of 2^64 makes no good pointer, though its remainder would
    ("bad-pointer", p(1, 8, 9), Relative(9), Err(1)),
    ("no-wrap", p(usize::MAX, 1, 1), Relative(0), Err(1)),
];

#[test]
fn examples_of_cutting() {
    let s = LABELLED;
    for (example, p, cut, want) in CUTS {
        let two = match *cut {
            Relative(a) => [strlib::relative(s, *p, a), cutting::relative(s, *p, a)],
            Counted(a, n) => [strlib::counted(s, *p, a, n), cutting::counted(s, *p, a, n)],
            Between(a, b) => [strlib::between(s, *p, a, b), cutting::between(s, *p, a, b)],
            Trimmed => [strlib::trim(s, *p), cutting::trim(s, *p)],
        };
        for (whose, answer) in both(two) {
            answers(example, whose, answer, *want);
        }
    }
    // of a slice, bad positions give the empty part at the front, and a good empty part lies where it was cut
    #[rustfmt::skip]
    let parts = [
        ("slice-bad", strlib::counted_part(s, 9, 2), cutting::counted_part(s, 9, 2), (0, 0)),
        ("slice-end", strlib::relative_part(s, 9), cutting::relative_part(s, 9), (9, 0)),
    ];
    for (example, part, oracle, want) in parts {
        for (whose, part) in both([place(s, part), oracle]) {
            answers::<_, Refusal>(example, whose, Ok(part), Ok(want));
        }
    }
}
