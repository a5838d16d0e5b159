//! Cutting strings of a store, and plain bytes.

use crate::ffi::{self, PartAnswer, StringAnswer};
use crate::{Refusal, StrPtr};

impl StringAnswer {
    pub(crate) fn answer(self) -> Result<StrPtr, Refusal> {
        Refusal::check(self.refusal)?;
        Ok(self.string)
    }
}

impl PartAnswer {
    pub(crate) fn of(self, bytes: &[u8]) -> &[u8] {
        &bytes[self.offset..self.offset + self.length]
    }
}

/// The string without its first `offset` characters, 0 ≤ `offset` ≤ length. Refusals 3, 1, 4.
pub fn relative(store: &[u8], string: StrPtr, offset: usize) -> Result<StrPtr, Refusal> {
    unsafe { ffi::strlib_relative(store.as_ptr(), store.len(), string, offset) }.answer()
}

/// `count` characters of the string's room from `position` (from 1) on, up to its maximum. Refusals 3, 1, 4.
pub fn counted(
    store: &[u8],
    string: StrPtr,
    position: usize,
    count: usize,
) -> Result<StrPtr, Refusal> {
    unsafe { ffi::strlib_counted(store.as_ptr(), store.len(), string, position, count) }.answer()
}

/// The characters between two positions, `pos2` = 0 being length + 1. Refusals 3, 1, 4.
pub fn between(store: &[u8], string: StrPtr, pos1: usize, pos2: usize) -> Result<StrPtr, Refusal> {
    unsafe { ffi::strlib_between(store.as_ptr(), store.len(), string, pos1, pos2) }.answer()
}

/// The string without its trailing blanks. Refusals 3, 1, 2.
pub fn trim(store: &[u8], string: StrPtr) -> Result<StrPtr, Refusal> {
    unsafe { ffi::strlib_trim(store.as_ptr(), store.len(), string) }.answer()
}

/// [`relative`] of plain bytes; a bad offset gives the empty part at the front.
pub fn relative_part(bytes: &[u8], offset: usize) -> &[u8] {
    unsafe { ffi::strlib_relative_part(bytes.as_ptr(), bytes.len(), offset) }.of(bytes)
}

/// [`counted`] of plain bytes; bad positions give the empty part at the front.
pub fn counted_part(bytes: &[u8], position: usize, count: usize) -> &[u8] {
    unsafe { ffi::strlib_counted_part(bytes.as_ptr(), bytes.len(), position, count) }.of(bytes)
}

/// [`between`] of plain bytes; bad positions give the empty part at the front.
pub fn between_part(bytes: &[u8], pos1: usize, pos2: usize) -> &[u8] {
    unsafe { ffi::strlib_between_part(bytes.as_ptr(), bytes.len(), pos1, pos2) }.of(bytes)
}

/// [`trim`] of plain bytes.
pub fn trimmed_part(bytes: &[u8]) -> &[u8] {
    unsafe { ffi::strlib_trimmed_part(bytes.as_ptr(), bytes.len()) }.of(bytes)
}

/// The label shown on the desk: the trimmed production name, or the trimmed house name where that is blank or empty.
pub fn desk_label<'a>(production: &'a [u8], house: &'a [u8]) -> &'a [u8] {
    let label = unsafe {
        ffi::strlib_desk_label(
            production.as_ptr(),
            production.len(),
            house.as_ptr(),
            house.len(),
        )
    };
    let lent = if label.house { house } else { production };
    &lent[label.offset..label.offset + label.length]
}
