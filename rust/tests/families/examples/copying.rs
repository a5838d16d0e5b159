//! Copying, appending and joining: the manual's 3.2 and 5.2, then what 01 settles.

use super::{both, p, writes, Bytes, Wrote};
use crate::oracle::copying;
use strlib::{Copied, Place, StrList, StrPtr};

/// The manual's strings of 3.2.
const VARYING: &[u8] = b"a data-varying string a d-p one abc more ";

/// Those of 5.2, cmbstr.
const HALVES: &[u8] = b"first halfsecond half";

/// Those of 5.2, chkstr, and their pointers.
const FOUR: &[u8] = b"1122 3344 5566 7788 ";
const ALL: &[StrPtr] = &[p(0, 5, 5), p(5, 5, 5), p(10, 5, 5), p(15, 5, 5)];

/// abc, the null string, de.
const LETTERS: &[u8] = b"abcde";
const THREE: &[StrPtr] = &[p(0, 3, 3), p(2, 0, 1), p(3, 2, 2)];

/// Five letters in front of five free bytes.
const TEN: Bytes = &[LETTERS, b"....."];

#[rustfmt::skip]
const COPIES: &[(&str, Bytes, StrPtr, StrPtr, bool, Wrote<(StrPtr, bool)>)] = &[
    // cut at the maximum: the byte past it stays
    ("cut", TEN, p(5, 1, 4), p(0, 5, 5), false, Ok(((p(5, 4, 4), false), &[LETTERS, b"abcd."]))),
    // shorter than the old length, without and with padding
    ("short", TEN, p(5, 3, 5), p(0, 1, 1), false, Ok(((p(5, 1, 5), true), &[LETTERS, b"a...."]))),
    ("padded", TEN, p(5, 3, 5), p(0, 1, 1), true, Ok(((p(5, 3, 5), true), &[LETTERS, b"a  .."]))),
    // a source in the unused end of the room gives 5, one directly in front of the room does not; 1 goes before 5
    ("shared", TEN, p(4, 0, 5), p(8, 1, 1), false, Err(5)),
    ("beside", TEN, p(5, 0, 2), p(0, 5, 5), false, Ok(((p(5, 2, 2), false), &[LETTERS, b"ab..."]))),
    ("one-first", TEN, p(5, 0, 6), p(8, 1, 1), false, Err(1)),
];

#[rustfmt::skip]
const APPENDED: &[(&str, Bytes, StrPtr, StrPtr, Wrote<(StrPtr, bool)>)] = &[
    // 3.2, appstr: 'a d-p one' behind 'a data-varying string '
    ("appended", &[VARYING, b"a data-varying string ........."], p(41, 22, 31), p(22, 9, 9),
        Ok(((p(41, 31, 31), true), &[VARYING, b"a data-varying string a d-p one"]))),
    // 5.2, cmbstr: appended one by one
    ("more", &[b"startmore1.....more2"], p(0, 10, 15), p(15, 5, 5),
        Ok(((p(0, 15, 15), true), &[b"startmore1more2more2"]))),
    // cut at the maximum: the byte past it stays
    ("cut-behind", TEN, p(5, 2, 4), p(0, 3, 3), Ok(((p(5, 4, 4), false), &[LETTERS, b"..ab."]))),
];

/// The strings of the list, its count, and whether to pad.
#[rustfmt::skip]
const JOINED: &[(&str, Bytes, StrPtr, &[StrPtr], usize, bool, Wrote<(StrPtr, bool)>)] = &[
    // 3.2, catstr: with ' abc ' and 'more '
    ("joins", &[VARYING, &[b'.'; 41]], p(41, 0, 41), &[p(0, 31, 31), p(31, 5, 5), p(36, 5, 5)], 3, false,
        Ok(((p(41, 41, 41), true), &[VARYING, b"a data-varying string a d-p one abc more "]))),
    // 3.2, alnstr: padded to 50
    ("aligned", &[VARYING, &[b'.'; 50]], p(41, 50, 50), &[p(0, 31, 31)], 1, true,
        Ok(((p(41, 50, 50), true), &[VARYING, b"a data-varying string a d-p one                   "]))),
    // 5.2, cmbstr: padded to the old length 40
    ("half", &[HALVES, &[b'.'; 40]], p(21, 40, 40), &[p(0, 10, 10), p(10, 11, 11)], 2, true,
        Ok(((p(21, 40, 40), true), &[HALVES, b"first halfsecond half                   "]))),
    // nothing joined
    ("none", TEN, p(5, 2, 5), THREE, 0, true, Ok(((p(5, 2, 5), true), &[LETTERS, b"  ..."]))),
];

/// A place: a string of the list and a character of it.
type At = (usize, usize);

/// The strings of the list, all of which count, the place, and the place where the next round resumes.
#[rustfmt::skip]
const JOINED_FROM: &[(&str, Bytes, StrPtr, &[StrPtr], At, Wrote<(StrPtr, bool, At)>)] = &[
    // 5.2, chkstr: three rounds of seven characters
    ("one", &[FOUR, b"........"], p(20, 0, 7), ALL, (1, 1), Ok(((p(20, 7, 7), false, (2, 3)), &[FOUR, b"1122 33."]))),
    ("two", &[FOUR, b"1122 33."], p(20, 7, 7), ALL, (2, 3), Ok(((p(20, 7, 7), false, (3, 5)), &[FOUR, b"44 5566."]))),
    ("last", &[FOUR, b"44 5566."], p(20, 7, 7), ALL, (3, 5), Ok(((p(20, 6, 7), true, (5, 1)), &[FOUR, b" 7788 6."]))),
    // 4 goes before 5
    ("four-first", TEN, p(0, 0, 5), THREE, (4, 2), Err(4)),
    // the end of a string is carried on to a character that exists, with the maximum 0 too; behind the last string
    // nothing is left
    ("carried", TEN, p(5, 0, 3), THREE, (1, 1), Ok(((p(5, 3, 3), false, (3, 1)), &[LETTERS, b"abc.."]))),
    ("nothing", TEN, p(5, 0, 0), THREE, (1, 4), Ok(((p(5, 0, 0), false, (3, 1)), TEN))),
    ("empty", TEN, p(5, 0, 0), THREE, (4, 1), Ok(((p(5, 0, 0), true, (4, 1)), TEN))),
];

#[test]
fn examples_of_copying() {
    let copied = |Copied { to, completed }| (to, completed);
    for &(example, store, to, from, pad, want) in COPIES {
        for (whose, copy) in both([strlib::copy, copying::copy]) {
            let call = |store: &mut [u8]| copy(store, to, from, pad).map(copied);
            writes(example, whose, store, want, call);
        }
    }
    for &(example, store, to, from, want) in APPENDED {
        for (whose, append) in both([strlib::append, copying::append]) {
            let call = |store: &mut [u8]| append(store, to, from).map(copied);
            writes(example, whose, store, want, call);
        }
    }
    for &(example, store, to, strings, count, pad, want) in JOINED {
        let mut list = StrList::new(strings);
        list.count = count;
        for (whose, join) in both([strlib::join, copying::join]) {
            let call = |store: &mut [u8]| join(store, to, &list, pad).map(copied);
            writes(example, whose, store, want, call);
        }
    }
    for &(example, store, to, strings, (string, character), want) in JOINED_FROM {
        let list = StrList::new(strings);
        for (whose, join_from) in both([strlib::join_from, copying::join_from]) {
            let call = |store: &mut [u8]| {
                let round = join_from(store, to, &list, Place { string, character });
                round.map(|round| {
                    let next = (round.next.string, round.next.character);
                    (round.to, round.completed, next)
                })
            };
            writes(example, whose, store, want, call);
        }
    }
}
