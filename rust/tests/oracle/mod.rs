//! Document 01, and 02 where it says so, in plain Rust, section by section, written from the documents and not from the library.
//!
//! Each call gives its answer or a refusal; what it was lent to write it changes as the document says. Naive on purpose.

pub mod bursts;
pub mod charset;
pub mod comparing;
pub mod copying;
pub mod cutting;
pub mod desk;
pub mod editing;
pub mod number;
pub mod searching;
pub mod table;

use std::ops::Range;
use strlib::{Refusal, StrList, StrPtr};

pub const BLANK: u8 = 32;

/// Refuses with `number` if its condition holds; calls of this stand in the order of "Refusal numbers".
pub fn refuse(number: u8, condition: bool) -> Result<(), Refusal> {
    if condition {
        Err(Refusal(number))
    } else {
        Ok(())
    }
}

pub fn store_too_long(store: &[u8]) -> bool {
    store.len() > 65_536
}

pub fn good(store_length: usize, string: StrPtr) -> bool {
    let end = string.start as u128 + string.maximum as u128;
    string.length <= string.maximum && end <= store_length as u128
}

pub fn any_not_good(store: &[u8], strings: &[StrPtr]) -> bool {
    strings.iter().any(|string| !good(store.len(), *string))
}

/// The places of a good string's characters in its store.
pub fn places(string: StrPtr) -> Range<usize> {
    string.start..string.start + string.length
}

pub fn characters(store: &[u8], string: StrPtr) -> &[u8] {
    &store[places(string)]
}

pub fn any_over_127(store: &[u8], strings: &[StrPtr]) -> bool {
    strings
        .iter()
        .any(|string| characters(store, *string).iter().any(|byte| *byte > 127))
}

/// Whether one of the sources' characters lies in the destination's room.
pub fn any_in_room(destination: StrPtr, sources: &[StrPtr]) -> bool {
    let room = destination.start..destination.start + destination.maximum;
    sources
        .iter()
        .any(|source| places(*source).any(|place| room.contains(&place)))
}

pub fn count_out_of_range(list: &StrList) -> bool {
    list.count > 32
}

/// The pointers up to the count, which is in range.
pub fn strings(list: &StrList) -> &[StrPtr] {
    &list.items[..list.count]
}

/// How many of these bytes are left without trailing blanks.
pub fn trimmed_length(bytes: &[u8]) -> usize {
    let mut length = bytes.len();
    while length > 0 && bytes[length - 1] == BLANK {
        length -= 1;
    }
    length
}

/// Puts the characters at the string's front and gives the string with that length.
pub fn put(store: &mut [u8], string: StrPtr, characters: &[u8]) -> StrPtr {
    for (i, character) in characters.iter().enumerate() {
        store[string.start + i] = *character;
    }
    StrPtr::new(string.start, characters.len(), string.maximum)
}
