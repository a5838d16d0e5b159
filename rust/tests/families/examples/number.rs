//! Texts and numbers.

use super::{answers, both, p, writes, Bytes, Want, Wrote};
use crate::oracle::number;
use strlib::StrPtr;

#[rustfmt::skip]
const READ: &[(&str, usize, &[u8], Want<i64>)] = &[
    // both ends of the range, and one past the lower
    ("highest", 10, b"34359738367", Ok(34_359_738_367)),
    ("lowest", 10, b"-34359738368", Ok(-34_359_738_368)),
    ("under", 10, b"-34359738369", Err(8)),
    // blanks and zeros in front are free
    ("blanks", 10, b"  -0031", Ok(-31)),
    // a blank behind the minus, a minus alone, blanks alone, nothing, a plus
    ("minus-blank", 10, b"- 1", Err(7)),
    ("minus-alone", 10, b"-", Err(7)),
    ("blanks-alone", 10, b"  ", Err(7)),
    ("nothing", 10, b"", Err(7)),
    ("plus", 10, b"+1", Err(7)),
    // a foreign last character is 7, also behind digits that are out of range; a blank is foreign there
    ("foreign", 10, b"3435973836999x", Err(7)),
    ("blank-last", 10, b"31 ", Err(7)),
    // the digit of the base is none; bases out of range
    ("two-in-two", 2, b"12", Err(7)),
    ("base-one", 1, b"0", Err(3)),
    ("base-eleven", 11, b"0", Err(3)),
];

/// A room of five in a store of seven bytes, the last of which is no character.
const SEVEN: Bytes = &[b"x12345\xc8"];

#[rustfmt::skip]
const WRITTEN: &[(&str, Bytes, StrPtr, i64, usize, Wrote<StrPtr>)] = &[
    // 31 into the room: every byte past the length stays
    ("write", SEVEN, p(1, 0, 5), 31, 10, Ok((p(1, 2, 5), &[b"x31345\xc8"]))),
    // the destination is not read: neither its old length nor a byte over 127 in it counts
    ("not-read", SEVEN, p(1, 6, 6), 31, 10, Ok((p(1, 2, 6), &[b"x31345\xc8"]))),
    // −15 in base 2 fills the room, −31 is one too long
    ("fits", SEVEN, p(1, 0, 5), -15, 2, Ok((p(1, 5, 5), &[b"x-1111\xc8"]))),
    ("too-long", SEVEN, p(1, 0, 5), -31, 2, Err(6)),
    // 8 goes before 6
    ("out-of-range", SEVEN, p(1, 0, 5), 34_359_738_368, 10, Err(8)),
    // the lower end, and the longest text of all, 37 characters
    ("lowest-written", &[&[b'.'; 12]], p(0, 0, 12), -34_359_738_368, 10, Ok((p(0, 12, 12), &[b"-34359738368"]))),
    ("longest", &[&[b'.'; 40]], p(0, 0, 40), -34_359_738_368, 2, Ok((p(0, 37, 40), &[b"-1", &[b'0'; 35], b"..."]))),
];

#[test]
fn examples_of_numbers() {
    for &(example, base, text, want) in READ {
        let whole = p(0, text.len(), text.len());
        for (whose, read_number) in both([strlib::read_number, number::read_number]) {
            answers(example, whose, read_number(text, whole, base), want);
        }
    }
    for &(example, store, to, value, base, want) in WRITTEN {
        for (whose, write_number) in both([strlib::write_number, number::write_number]) {
            let call = |store: &mut [u8]| write_number(store, to, value, base);
            writes(example, whose, store, want, call);
        }
    }
}
