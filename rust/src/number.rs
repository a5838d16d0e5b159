//! Numbers from −34,359,738,368 to 34,359,738,367 in base 2 to 10.

use crate::{ffi, Refusal, StrPtr};

/// Reads blanks, an optional minus, and digits of the base. Refusals 3, 1, 2, 7, 8.
pub fn read_number(store: &[u8], string: StrPtr, base: usize) -> Result<i64, Refusal> {
    let answer = unsafe { ffi::strlib_read_number(store.as_ptr(), store.len(), string, base) };
    Refusal::check(answer.refusal)?;
    Ok(answer.value)
}

/// Writes the value in the fewest digits, and gives the destination with its new length. Refusals 3, 1, 8, 6.
pub fn write_number(
    store: &mut [u8],
    destination: StrPtr,
    value: i64,
    base: usize,
) -> Result<StrPtr, Refusal> {
    unsafe { ffi::strlib_write_number(store.as_mut_ptr(), store.len(), destination, value, base) }
        .answer()
}
