//! Replacing and reversing: the manual's 3.5, then what 01 settles.

use super::{both, p, writes, Bytes, Wrote};
use crate::oracle::editing;
use strlib::StrPtr;

/// Twenty characters and room for five more, then 'abc  '.
const TWENTY: Bytes = &[b"ABCDEFGHIJKLMNOPQRST.....", ABC];
const ABC: &[u8] = b"abc  ";
const EIGHT: Bytes = &[b"4321..ab"];

/// Strings 1, 2 and 3.
#[rustfmt::skip]
const REPLACED: &[(&str, Bytes, StrPtr, StrPtr, StrPtr, Wrote<StrPtr>)] = &[
    // 3.5, repstr: 'abc  ' put in before character 2, with the maximum 20 and 25; 'abc' alone
    ("full", TWENTY, p(0, 20, 20), p(1, 0, 19), p(25, 5, 5), Err(6)),
    ("five", TWENTY, p(0, 20, 25), p(1, 0, 19), p(25, 5, 5),
        Ok((p(0, 25, 25), &[b"Aabc  BCDEFGHIJKLMNOPQRST", ABC]))),
    ("trimmed", TWENTY, p(0, 20, 25), p(1, 0, 19), p(25, 3, 5),
        Ok((p(0, 23, 25), &[b"AabcBCDEFGHIJKLMNOPQRST..", ABC]))),
    // 3.5, repstr: the second and third characters of '4321' removed; the bytes past the new length are as at entry
    ("removed", &[b"4321"], p(0, 4, 4), p(1, 2, 3), p(4, 0, 0), Ok((p(0, 2, 4), &[b"4121"]))),
    // by place: of two equal characters the one that is pointed at; the same characters elsewhere are no part
    ("second", &[b"1221xy"], p(0, 4, 4), p(3, 1, 1), p(4, 1, 1), Ok((p(0, 4, 4), &[b"122xxy"]))),
    ("elsewhere", &[b"1234523bc"], p(0, 5, 5), p(5, 2, 2), p(7, 2, 2), Err(4)),
    // put in at the end; in the unused room behind it is no part
    ("behind", EIGHT, p(0, 4, 6), p(4, 0, 0), p(6, 2, 2), Ok((p(0, 6, 6), &[b"4321abab"]))),
    ("unused", EIGHT, p(0, 4, 6), p(5, 0, 0), p(6, 2, 2), Err(4)),
    // string 3 in string 1's room gives 5, and 4 goes before it
    ("shared", EIGHT, p(0, 4, 6), p(1, 2, 2), p(5, 1, 1), Err(5)),
    ("four-first", EIGHT, p(0, 4, 6), p(5, 0, 0), p(5, 1, 1), Err(4)),
];

/// In place.
#[rustfmt::skip]
const REVERSED: &[(&str, Bytes, StrPtr, Wrote<StrPtr>)] = &[
    // 3.5, revstr
    ("turned", &[b"12344321efg"], p(0, 4, 4), Ok((p(0, 4, 4), &[b"43214321efg"]))),
];

/// Destination and source.
#[rustfmt::skip]
const REVERSED_FROM: &[(&str, Bytes, StrPtr, StrPtr, Wrote<StrPtr>)] = &[
    // 3.5, revstr: '1234' from the source
    ("from", &[b"1234abcdefg"], p(4, 7, 7), p(0, 4, 4), Ok((p(4, 4, 7), &[b"12344321efg"]))),
    // a source over the maximum gives 6, the destination as its own source 5
    ("over", EIGHT, p(4, 0, 1), p(6, 2, 2), Err(6)),
    ("itself", EIGHT, p(0, 4, 4), p(0, 4, 4), Err(5)),
];

#[test]
fn examples_of_editing() {
    for &(example, store, one, two, three, want) in REPLACED {
        for (whose, replace) in both([strlib::replace, editing::replace]) {
            let call = |store: &mut [u8]| replace(store, one, two, three);
            writes(example, whose, store, want, call);
        }
    }
    for &(example, store, string, want) in REVERSED {
        for (whose, reverse) in both([strlib::reverse, editing::reverse]) {
            writes(example, whose, store, want, |store| reverse(store, string));
        }
    }
    for &(example, store, to, from, want) in REVERSED_FROM {
        for (whose, reverse_from) in both([strlib::reverse_from, editing::reverse_from]) {
            let call = |store: &mut [u8]| reverse_from(store, to, from);
            writes(example, whose, store, want, call);
        }
    }
}
