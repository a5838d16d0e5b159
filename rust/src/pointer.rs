//! String pointers, lists, refusals and the library's limits.

use crate::ffi;

/// Bytes in a store.
pub const STORE_MAX: usize = 65_536;
/// Strings in a list.
pub const LIST_MAX: usize = 32;
/// The characters of a list together, where it is translated.
pub const LIST_CHARACTERS_MAX: usize = 240;
/// Words in a table's room.
pub const TABLE_MIN: usize = 31_461;
/// Characters in a burst.
pub const BURST_MAX: usize = 300;
/// Words in a block of character sets.
pub const BLOCK_WORDS: usize = 128;

/// The number of a refusal, as README.md lists them; nothing that was lent has changed.
#[derive(Clone, Copy, Debug, PartialEq, Eq)]
pub struct Refusal(pub u8);

impl Refusal {
    /// An answer's refusal field, 0 being none.
    pub(crate) fn check(number: u8) -> Result<(), Refusal> {
        match number {
            0 => Ok(()),
            number => Err(Refusal(number)),
        }
    }
}

impl std::fmt::Display for Refusal {
    fn fmt(&self, f: &mut std::fmt::Formatter) -> std::fmt::Result {
        write!(f, "refusal {}", self.0)
    }
}

impl std::error::Error for Refusal {}

/// A string in a store: where it starts (from 0), its length, and the maximum that its room takes.
#[repr(C)]
#[derive(Clone, Copy, Debug, Default, PartialEq, Eq)]
pub struct StrPtr {
    pub start: usize,
    pub length: usize,
    pub maximum: usize,
}

impl StrPtr {
    /// The pointer with these three numbers; each call tests whether it is good for its store.
    pub const fn new(start: usize, length: usize, maximum: usize) -> StrPtr {
        StrPtr {
            start,
            length,
            maximum,
        }
    }

    /// Whether length ≤ maximum and start + maximum ≤ the store's length.
    pub fn is_good(self, store_length: usize) -> bool {
        unsafe { ffi::strlib_is_good(store_length, self) }
    }
}

/// The first `count` of 32 pointers, 0 to 32; the others are ignored.
#[repr(C)]
#[derive(Clone, Copy, Debug, PartialEq, Eq)]
pub struct StrList {
    pub items: [StrPtr; LIST_MAX],
    pub count: usize,
}

impl StrList {
    /// The list of these strings; more than 32 make a list that every call refuses with 3.
    pub fn new(strings: &[StrPtr]) -> StrList {
        let mut items = [StrPtr::default(); LIST_MAX];
        for (item, string) in items.iter_mut().zip(strings) {
            *item = *string;
        }
        StrList {
            items,
            count: strings.len(),
        }
    }
}
