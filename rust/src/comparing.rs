//! Comparing two strings of a store.

use crate::{ffi, Refusal, StrPtr};

/// What a comparison answers.
#[derive(Clone, Copy, Debug, PartialEq, Eq)]
pub struct Comparison {
    /// Whether the code's relation holds.
    pub yes: bool,
    /// The sign of length 1 − length 2.
    pub sign: i8,
    /// The position of the first unequal pair; the shorter length + 1 where the lengths decide, in exact style; else 0.
    pub split: usize,
}

/// Compares string 1 with string 2. `translation` (−127 to 127) is added to string 2's characters for the extent of the
/// shorter string: not to its pad blanks, and not to its characters past string 1's end; a sum may be negative. Code 0
/// equal, 1 not equal, 2 greater or equal, 3 less or equal, 4 greater, 5 less; style 0 padded with blanks, 1 exact
/// (equal over the shorter: the longer is greater), 2 ignore (the longer is cut). Refusals 3, 1, 2.
pub fn compare(
    store: &[u8],
    string1: StrPtr,
    string2: StrPtr,
    code: usize,
    style: usize,
    translation: i64,
) -> Result<Comparison, Refusal> {
    let answer = unsafe {
        ffi::strlib_compare(
            store.as_ptr(),
            store.len(),
            string1,
            string2,
            code,
            style,
            translation,
        )
    };
    Refusal::check(answer.refusal)?;
    Ok(Comparison {
        yes: answer.yes,
        sign: answer.sign,
        split: answer.split,
    })
}
