//! Character sets: a block is 128 words, one a character; a mask, under 2^36, names tables by its bits.

use crate::ffi::{self, CharacterAnswer};
use crate::{Refusal, StrPtr};

/// A host character: its code, and its position from 1.
#[derive(Clone, Copy, Debug, PartialEq, Eq)]
pub struct Character {
    pub code: u8,
    pub position: usize,
}

impl CharacterAnswer {
    fn answer(self) -> Result<Option<Character>, Refusal> {
        Refusal::check(self.refusal)?;
        Ok(self.found.then_some(Character {
            code: self.code,
            position: self.position,
        }))
    }
}

/// Takes every character out of the masked tables. Refusal 3.
pub fn clear_tables(block: &mut [u64], mask: u64) -> Result<(), Refusal> {
    Refusal::check(unsafe { ffi::strlib_clear_tables(block.as_mut_ptr(), block.len(), mask) })
}

/// Puts every character into the masked tables. Refusal 3.
pub fn fill_tables(block: &mut [u64], mask: u64) -> Result<(), Refusal> {
    Refusal::check(unsafe { ffi::strlib_fill_tables(block.as_mut_ptr(), block.len(), mask) })
}

/// Puts the string's characters into the masked tables. Refusals 3, 1, 2.
pub fn add_characters(
    store: &[u8],
    string: StrPtr,
    block: &mut [u64],
    mask: u64,
) -> Result<(), Refusal> {
    Refusal::check(unsafe {
        ffi::strlib_add_characters(
            store.as_ptr(),
            store.len(),
            string,
            block.as_mut_ptr(),
            block.len(),
            mask,
        )
    })
}

/// Takes the string's characters out of the masked tables. Refusals 3, 1, 2.
pub fn remove_characters(
    store: &[u8],
    string: StrPtr,
    block: &mut [u64],
    mask: u64,
) -> Result<(), Refusal> {
    Refusal::check(unsafe {
        ffi::strlib_remove_characters(
            store.as_ptr(),
            store.len(),
            string,
            block.as_mut_ptr(),
            block.len(),
            mask,
        )
    })
}

/// The first host character in any masked table. Refusals 3, 1, 2.
pub fn find_first(
    store: &[u8],
    host: StrPtr,
    block: &[u64],
    mask: u64,
) -> Result<Option<Character>, Refusal> {
    unsafe {
        ffi::strlib_find_first(
            store.as_ptr(),
            store.len(),
            host,
            block.as_ptr(),
            block.len(),
            mask,
        )
    }
    .answer()
}

/// The last host character in any masked table. Refusals 3, 1, 2.
pub fn find_last(
    store: &[u8],
    host: StrPtr,
    block: &[u64],
    mask: u64,
) -> Result<Option<Character>, Refusal> {
    unsafe {
        ffi::strlib_find_last(
            store.as_ptr(),
            store.len(),
            host,
            block.as_ptr(),
            block.len(),
            mask,
        )
    }
    .answer()
}
