//! The label list.

use super::{answers, both, writes, Bytes, Want, Wrote};
use crate::families::place;
use crate::oracle::desk;
use strlib::{Name, Refusal};

/// Microphone 7 and loudspeaker 31.
const CELLO: &[u8] = b"\x01\0\x07CELLO           ";
const STALLS: &[u8] = b"\x02\0\x1fSTALLS LEFT     ";

/// A record whose name is all blanks but for its first byte.
const fn plain(kind: u8, high: u8, low: u8, x: u8) -> [u8; 19] {
    let mut record = [32; 19];
    (record[0], record[1], record[2], record[3]) = (kind, high, low, x);
    record
}

/// A record's refusal comes with the offset of its kind byte.
#[rustfmt::skip]
const LISTS: &[(&str, Bytes, Want<usize, (u8, usize)>)] = &[
    ("empty", &[], Ok(0)),
    ("two", &[CELLO, STALLS], Ok(2)),
    // kinds, and the greatest numbers of each; a number has two bytes
    ("no-kind", &[CELLO, &plain(3, 0, 1, 65)], Err((11, 19))),
    ("microphone-64", &[&plain(1, 0, 64, 65)], Ok(1)),
    ("microphone-65", &[&plain(1, 0, 65, 65)], Err((12, 0))),
    ("loudspeaker-128", &[&plain(2, 0, 128, 65)], Ok(1)),
    ("loudspeaker-129", &[STALLS, &plain(2, 0, 129, 65)], Err((12, 19))),
    ("number-zero", &[&plain(1, 0, 0, 65)], Err((12, 0))),
    ("number-high", &[&plain(1, 1, 7, 65)], Err((12, 0))),
    // the characters of a name; all blanks are a name
    ("character-126", &[&plain(1, 0, 1, 126)], Ok(1)),
    ("character-127", &[CELLO, STALLS, &plain(1, 0, 1, 127)], Err((2, 38))),
    ("character-31", &[&plain(1, 0, 1, 31)], Err((2, 0))),
    ("all-blanks", &[&plain(1, 0, 1, 32)], Ok(1)),
    // one kind and number twice: the later one is at fault; the same number of another kind is none
    ("repeated", &[CELLO, &plain(1, 0, 7, 65)], Err((14, 19))),
    ("repeated-later", &[CELLO, STALLS, CELLO, STALLS], Err((14, 38))),
    ("other-kind", &[CELLO, &plain(2, 0, 7, 65)], Ok(2)),
    // a short body, found before its number and its name and behind its kind
    ("short", &[CELLO, &[1, 255, 255, 200]], Err((13, 19))),
    ("short-by-one", &[CELLO, STALLS.split_at(18).0], Err((13, 19))),
    ("kind-alone", &[&[1]], Err((13, 0))),
    ("short-no-kind", &[CELLO, &[3]], Err((11, 19))),
    // the number before the name, the name before the repetition, and the first faulty record before all others
    ("number-first", &[&plain(1, 0, 65, 127)], Err((12, 0))),
    ("name-first", &[CELLO, &plain(1, 0, 7, 127)], Err((2, 19))),
    ("first-record", &[&plain(1, 0, 1, 127), &plain(3, 0, 0, 127)], Err((2, 0))),
];

/// Kind and number, and the name's place from 0 and its trimmed length.
#[rustfmt::skip]
const LOOKUPS: &[(&str, Bytes, usize, usize, Want<Option<(usize, usize)>, (u8, usize)>)] = &[
    ("found", &[CELLO, STALLS], 2, 31, Ok(Some((22, 11)))),
    ("found-first", &[CELLO, STALLS], 1, 7, Ok(Some((3, 5)))),
    ("found-blank", &[&plain(1, 0, 1, 32)], 1, 1, Ok(Some((3, 0)))),
    ("missing", &[CELLO, STALLS], 1, 31, Ok(None)),
    // the list's refusals, then the kind, then the number, these with the list's length
    ("find-list", &[CELLO, &plain(1, 0, 1, 127)], 3, 0, Err((2, 19))),
    ("find-kind", &[CELLO], 3, 0, Err((11, 19))),
    ("find-kind-257", &[CELLO], 257, 7, Err((11, 19))),
    ("find-kind-empty", &[], 9, 7, Err((11, 0))),
    ("find-number", &[CELLO, STALLS], 1, 65, Err((12, 38))),
    ("find-wide", &[CELLO], 2, 65_567, Err((12, 19))),
];

/// The read-only form: an empty name is cut at its place, and nothing at the front.
#[rustfmt::skip]
const NAMES: &[(&str, Bytes, usize, usize, (usize, usize))] = &[
    ("part-found", &[CELLO, STALLS], 2, 31, (22, 11)),
    ("part-blank", &[&plain(1, 0, 1, 32)], 1, 1, (3, 0)),
    ("part-missing", &[CELLO], 1, 8, (0, 0)),
    ("part-refused", &[CELLO], 3, 1, (0, 0)),
    ("part-257", &[CELLO], 257, 7, (0, 0)),
];

/// The buffer and the list's length in it, kind, number and name, and the list's new length.
#[rustfmt::skip]
const ADDED: &[(&str, Bytes, usize, usize, usize, &[u8], Wrote<usize, (u8, usize)>)] = &[
    ("added", &[CELLO, &[0; 21]], 19, 2, 31, b"STALLS LEFT", Ok((38, &[CELLO, STALLS, &[0; 2]]))),
    ("added-first", &[&[0; 19]], 0, 1, 7, b"CELLO", Ok((19, &[CELLO]))),
    ("added-empty", &[&[0; 19]], 0, 1, 64, b"", Ok((19, &[&plain(1, 0, 64, 32)]))),
    // the length before all else, which comes back itself, then the list
    ("add-length", &[CELLO], 20, 3, 0, &[127; 17], Err((4, 20))),
    ("add-length-most", &[CELLO], usize::MAX, 3, 0, &[127; 17], Err((4, usize::MAX))),
    ("add-list", &[&plain(1, 0, 1, 127)], 19, 3, 0, &[127; 17], Err((2, 0))),
    ("add-short", &[CELLO, STALLS], 20, 3, 0, &[127; 17], Err((13, 19))),
    // then the kind, the number, the name's length, its characters, the repetition, and the room, each with the list's
    // length, not the buffer's, and not the place of the record that is there
    ("add-kind", &[CELLO, &[0; 21]], 19, 3, 0, &[127; 17], Err((11, 19))),
    ("add-kind-257", &[CELLO, &[0; 21]], 19, 257, 8, b"VIOLA", Err((11, 19))),
    ("add-number", &[CELLO], 19, 1, 65, &[127; 17], Err((12, 19))),
    ("add-wide", &[CELLO], 19, 1, 7, &[127; 17], Err((4, 19))),
    ("add-blanks", &[CELLO, &[0; 21]], 19, 1, 8, &[32; 17], Err((4, 19))),
    ("add-name", &[CELLO], 19, 1, 7, &[127; 16], Err((2, 19))),
    ("add-repeated", &[CELLO, STALLS], 38, 1, 7, &[126; 16], Err((14, 38))),
    ("add-room", &[CELLO, &[0; 18]], 19, 1, 8, &[126; 16], Err((6, 19))),
];

#[test]
fn examples_of_label_lists() {
    for &(example, list, want) in LISTS {
        for (whose, read_labels) in both([strlib::read_labels, desk::read_labels]) {
            answers(example, whose, read_labels(&list.concat()), want);
        }
    }
    for &(example, list, kind, number, want) in LOOKUPS {
        for (whose, find_label) in both([strlib::find_label, desk::find_label]) {
            let found = find_label(&list.concat(), kind, number);
            let found = found.map(|name| name.map(|Name { place, length }| (place, length)));
            answers(example, whose, found, want);
        }
    }
    for &(example, list, kind, number, want) in NAMES {
        let list = list.concat();
        let part = place(&list, strlib::label_name(&list, kind, number));
        for (whose, part) in both([part, desk::label_name(&list, kind, number)]) {
            answers::<_, Refusal>(example, whose, Ok(part), Ok(want));
        }
    }
    for &(example, buffer, length, kind, number, name, want) in ADDED {
        for (whose, add_label) in both([strlib::add_label, desk::add_label]) {
            let call = |buffer: &mut [u8]| add_label(buffer, length, kind, number, name);
            writes(example, whose, buffer, want, call);
        }
    }
}
