//! Comparing.

use super::laid_out;
use crate::oracle::comparing as oracle;
use crate::support::rng::Rng;
use crate::support::{raw, rounds, shapes, Call, ROUNDS};
use strlib::{compare, ffi, Comparison, Refusal, StrPtr};

/// Two strings that are alike: string 2 is string 1 with the translation taken off, then changed a little at its end or
/// inside.
fn alike(rng: &mut Rng, translation: i64) -> (Vec<u8>, StrPtr, StrPtr) {
    let length = match rng.below(4) {
        0 => rng.up_to(100),
        _ => rng.up_to(8),
    };
    let one = shapes::characters(rng, length);
    let mut two: Vec<u8> = one
        .iter()
        .map(|character| (*character as i64 - translation).clamp(0, 127) as u8)
        .collect();
    match rng.below(5) {
        0 => two.truncate(rng.up_to(length)),
        1 | 2 => {
            let blank = (32 - translation).clamp(0, 127) as u8;
            let tail = rng.pick(&[1, 3, 70]);
            two.resize(length + rng.up_to(tail), rng.pick(&[32, blank]));
        }
        _ => {}
    }
    if !two.is_empty() && rng.one_in(3) {
        let i = rng.below(two.len());
        two[i] = rng.below(129) as u8;
    }
    let (mut store, strings) = laid_out(&[&one, &two]);
    store.resize(store.len() + rng.up_to(4), 32);
    let blanks = strings[0].length + rng.up_to(strings[1].length);
    let string1 = match rng.below(6) {
        0 => StrPtr::new(0, blanks, blanks),
        _ => strings[0],
    };
    (store, string1, strings[1])
}

#[test]
fn compares_as_the_document_says() {
    const YES: [&str; 6] = ["0 yes", "1 yes", "2 yes", "3 yes", "4 yes", "5 yes"];
    const NO: [&str; 6] = ["0 no", "1 no", "2 no", "3 no", "4 no", "5 no"];
    let tally = rounds("comparing", ROUNDS, |round| {
        let rng = &mut round.rng;
        let translation = match rng.below(30) {
            0 => rng.pick(&[-128, 128, i64::MIN, i64::MAX, -(1 << 32)]),
            1..=3 => rng.pick(&[-127, 127, -126, 126]),
            4..=9 => rng.up_to(64) as i64 - 32,
            10..=13 => rng.pick(&[-1, 1]),
            _ => 0,
        };
        let (store, string1, string2) = if rng.one_in(2) {
            alike(rng, translation.clamp(-127, 127))
        } else {
            let store = shapes::store(rng);
            let string1 = shapes::pointer(rng, store.len());
            let string2 = shapes::pointer(rng, store.len());
            (store, string1, string2)
        };
        let code = match rng.below(40) {
            0 => rng.pick(&[6, 7, 256, usize::MAX]),
            _ => rng.below(6),
        };
        let style = match rng.below(40) {
            0 => rng.pick(&[3, 4, 256, usize::MAX]),
            _ => rng.below(3),
        };
        let arguments = (string1, string2, code, style, translation);
        let answer = round.check(
            Call::new("compare", &store, arguments),
            |s| oracle::compare(s, string1, string2, code, style, translation),
            |s| compare(s, string1, string2, code, style, translation),
            |s| unsafe {
                let store = s.as_mut_ptr();
                ffi::strlib_compare(store, s.len(), string1, string2, code, style, translation)
            },
            raw::comparison,
        );
        if let Ok(Comparison { yes, sign, split }) = answer {
            round.met("compare", if yes { YES[code] } else { NO[code] });
            round.met(
                "compare",
                ["shorter", "as long", "longer"][(sign + 1) as usize],
            );
            let shorter = string1.length.min(string2.length);
            let kind = match (style, split) {
                (0, 0) => "padded, equal",
                (0, split) if split <= shorter => "padded, unequal pair",
                (0, _) => "padded, unequal to a pad",
                (1, 0) => "exact, equal",
                (1, split) if split <= shorter => "exact, unequal pair",
                (1, _) => "exact, by length",
                (_, 0) => "ignore, equal",
                (_, _) => "ignore, unequal pair",
            };
            round.met("compare", kind);
        }
    });
    tally.expect("compare", &[1, 2, 3], &[YES, NO].concat());
    tally.expect("compare", &[1, 2, 3], &["shorter", "as long", "longer"]);
    tally.expect(
        "compare",
        &[1, 2, 3],
        &[
            "padded, equal",
            "padded, unequal pair",
            "padded, unequal to a pad",
            "exact, equal",
            "exact, unequal pair",
            "exact, by length",
            "ignore, equal",
            "ignore, unequal pair",
        ],
    );
}

/// Two texts compared by both the library and the oracle.
fn compared(one: &[u8], two: &[u8], code: usize, style: usize, by: i64) -> (bool, i8, usize) {
    let (store, strings) = laid_out(&[one, two]);
    let answer = compare(&store, strings[0], strings[1], code, style, by);
    assert_eq!(
        answer,
        oracle::compare(&store, strings[0], strings[1], code, style, by)
    );
    let Comparison { yes, sign, split } = answer.unwrap();
    (yes, sign, split)
}

#[test]
fn printed_examples() {
    assert_eq!(compared(b"abc", b"abc  ", 0, 0, 0), (true, -1, 0)); // J
    assert_eq!(compared(b"abc", b"abc  ", 0, 1, 0), (false, -1, 4)); // K
    assert_eq!(compared(b"abcde", b"abc", 4, 2, 0), (false, 1, 0)); // L
}

/// The request's examples, the manual's calls 1300 and 1400, each the other way round too; and more of string 2's pad
/// and of string 2 past string 1's end.
#[test]
fn the_translation_ends_with_the_shorter_string() {
    assert_eq!(compared(b"ABCD0", b"1234 ", 0, 0, 16), (true, 0, 0)); // a real blank
    assert_eq!(compared(b"1234 ", b"ABCD0", 0, 0, -16), (true, 0, 0));
    assert_eq!(compared(b"ABCD0", b"1234", 0, 0, 16), (false, 1, 5)); // a pad blank
    assert_eq!(compared(b"ABCD0", b"1234", 4, 0, 16), (true, 1, 5));
    assert_eq!(compared(b"1234", b"ABCD0", 0, 0, -16), (false, -1, 5));
    assert_eq!(compared(b"1234", b"ABCD0", 5, 0, -16), (true, -1, 5));
    assert_eq!(compared(b"!", b"", 0, 0, 1), (false, 1, 1));
    assert_eq!(compared(b" ", b"", 0, 0, 1), (true, 1, 0));
    assert_eq!(compared(b"", b"\x1f", 0, 0, 1), (false, -1, 1));
    assert_eq!(compared(b"", b" ", 0, 0, 5), (true, -1, 0));
    assert_eq!(compared(b"A", b"1 ", 0, 0, 16), (true, -1, 0));
    assert_eq!(compared(b"A ", b"1\x10", 0, 0, 16), (true, 0, 0)); // the shorter by its length
    for style in [1, 2] {
        let by_length = [(false, 1, 5), (true, 1, 0)][style - 1];
        assert_eq!(compared(b"ABCD0", b"1234", 0, style, 16), by_length);
        assert_eq!(compared(b"ABCD0", b"1234 ", 0, style, 16), (true, 0, 0));
    }
}

/// A translation out of range is 3, also where nothing would be translated.
#[test]
fn a_translation_out_of_range_is_refused() {
    let empty = StrPtr::new(0, 0, 0);
    for style in 0..3 {
        for by in [-128, 128] {
            let answer = compare(b"", empty, empty, 0, style, by);
            assert_eq!(answer, Err(Refusal(3)));
        }
        assert!(compare(b"", empty, empty, 0, style, 127).is_ok());
    }
}

/// Every length up to two of the longest blocks and more: equal texts, and texts with one unequal pair at each place;
/// and each tail of blanks with one other character at each place, either string the longer one.
#[test]
fn every_length_and_every_place() {
    for by in [0, 5, -5] {
        for length in 0..=150 {
            let one: Vec<u8> = (0..length).map(|i| 40 + (i * 7 % 80) as u8).collect();
            let two: Vec<u8> = one.iter().map(|c| (*c as i64 - by) as u8).collect();
            assert_eq!(compared(&one, &two, 0, 0, by), (true, 0, 0));
            for place in 0..length {
                for other in [one[place] - 1, one[place] + 1] {
                    let mut one = one.clone();
                    one[place] = other;
                    assert_eq!(compared(&one, &two, 1, 0, by), (true, 0, place + 1));
                    assert_eq!(compared(&two, &one, 1, 1, -by), (true, 0, place + 1));
                }
            }
        }
        for front in [0, 1, 2, 17] {
            let one = vec![b'x'; front];
            let two = vec![(b'x' as i64 - by) as u8; front];
            for tail in 1..=150 {
                let mut longer = one.clone();
                longer.resize(front + tail, b' ');
                assert_eq!(compared(&longer, &two, 0, 0, by), (true, 1, 0));
                assert_eq!(compared(&two, &longer, 0, 0, -by), (true, -1, 0));
                for place in front..front + tail {
                    for (other, less) in [(31, true), (33, false)] {
                        longer[place] = other;
                        assert_eq!(compared(&longer, &two, 5, 0, by), (less, 1, place + 1));
                        assert_eq!(compared(&two, &longer, 5, 0, -by), (!less, -1, place + 1));
                    }
                    longer[place] = b' ';
                }
            }
        }
    }
}

#[test]
fn sums_may_be_negative_and_over_127() {
    assert_eq!(compared(b"\0", b"\0", 4, 1, -127), (true, 0, 1));
    assert_eq!(compared(b"\x7f", b"\x7f", 5, 1, 127), (true, 0, 1));
    assert_eq!(compared(b"\x7f", b"\0", 0, 1, 127), (true, 0, 0));
    assert_eq!(compared(b"", b"", 0, 0, 127), (true, 0, 0));
}

#[test]
fn every_style_by_every_code() {
    let texts: [(&[u8], &[u8]); 4] = [(b"ab", b"b"), (b"b", b"b"), (b"b ", b"b"), (b"c", b"b")];
    for (one, two) in texts {
        for code in 0..6 {
            for style in 0..3 {
                compared(one, two, code, style, 0);
                compared(two, one, code, style, 0);
            }
        }
    }
    assert_eq!(compared(b"ab", b"abc", 5, 0, 0), (true, -1, 3));
    assert_eq!(compared(b"ab", b"abc", 5, 1, 0), (true, -1, 3));
    assert_eq!(compared(b"ab", b"abc", 5, 2, 0), (false, -1, 0));
    assert_eq!(compared(b"ab\x1f", b"ab", 5, 0, 0), (true, 1, 3)); // under the pad, though longer
}
