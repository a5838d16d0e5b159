//! Replacing and reversing; bytes past the new length stay.

use crate::{ffi, Refusal, StrPtr};

/// Replaces string 2, a part of string 1 by place, by string 3; an empty string 2 inserts. Gives string 1 with its new
/// length. Refusals 3, 1, 2, 4, 5, 6.
pub fn replace(
    store: &mut [u8],
    string1: StrPtr,
    string2: StrPtr,
    string3: StrPtr,
) -> Result<StrPtr, Refusal> {
    unsafe { ffi::strlib_replace(store.as_mut_ptr(), store.len(), string1, string2, string3) }
        .answer()
}

/// Reverses the string in place. Refusals 3, 1, 2.
pub fn reverse(store: &mut [u8], string: StrPtr) -> Result<StrPtr, Refusal> {
    unsafe { ffi::strlib_reverse(store.as_mut_ptr(), store.len(), string) }.answer()
}

/// Puts the source's characters in reverse order into the destination. Refusals 3, 1, 2, 5, 6.
pub fn reverse_from(
    store: &mut [u8],
    destination: StrPtr,
    source: StrPtr,
) -> Result<StrPtr, Refusal> {
    unsafe { ffi::strlib_reverse_from(store.as_mut_ptr(), store.len(), destination, source) }
        .answer()
}
