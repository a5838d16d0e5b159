//! Copying, appending and joining into a destination, which then holds the characters cut at its maximum.

use crate::ffi::{self, CopiedAnswer};
use crate::{Refusal, StrList, StrPtr};

/// The destination with its new length, and whether nothing was cut.
#[derive(Clone, Copy, Debug, PartialEq, Eq)]
pub struct Copied {
    pub to: StrPtr,
    pub completed: bool,
}

/// Where a checkpointed join resumes: a string of the list and a character of it, both from 1.
#[repr(C)]
#[derive(Clone, Copy, Debug, Default, PartialEq, Eq)]
pub struct Place {
    pub string: usize,
    pub character: usize,
}

/// A round of a checkpointed join; `next` is (count + 1, 1) exactly when completed.
#[derive(Clone, Copy, Debug, PartialEq, Eq)]
pub struct Round {
    pub to: StrPtr,
    pub completed: bool,
    pub next: Place,
}

impl CopiedAnswer {
    fn answer(self) -> Result<Copied, Refusal> {
        Refusal::check(self.refusal)?;
        Ok(Copied {
            to: self.to,
            completed: self.completed,
        })
    }
}

/// Copies the source; with `pad`, blanks fill the destination to its old length. Refusals 3, 1, 2, 5.
pub fn copy(
    store: &mut [u8],
    destination: StrPtr,
    source: StrPtr,
    pad: bool,
) -> Result<Copied, Refusal> {
    unsafe { ffi::strlib_copy(store.as_mut_ptr(), store.len(), destination, source, pad) }.answer()
}

/// Appends the source to the destination's characters. Refusals 3, 1, 2, 5.
pub fn append(store: &mut [u8], destination: StrPtr, source: StrPtr) -> Result<Copied, Refusal> {
    unsafe { ffi::strlib_append(store.as_mut_ptr(), store.len(), destination, source) }.answer()
}

/// Joins the list's strings; with `pad`, blanks fill the destination to its old length. Refusals 3, 1, 2, 5.
pub fn join(
    store: &mut [u8],
    destination: StrPtr,
    list: &StrList,
    pad: bool,
) -> Result<Copied, Refusal> {
    unsafe { ffi::strlib_join(store.as_mut_ptr(), store.len(), destination, *list, pad) }.answer()
}

/// One round of a join: the characters from the place on, and where the next round resumes. Refusals 3, 1, 2, 4, 5.
pub fn join_from(
    store: &mut [u8],
    destination: StrPtr,
    list: &StrList,
    from: Place,
) -> Result<Round, Refusal> {
    let answer =
        unsafe { ffi::strlib_join_from(store.as_mut_ptr(), store.len(), destination, *list, from) };
    Refusal::check(answer.refusal)?;
    Ok(Round {
        to: answer.to,
        completed: answer.completed,
        next: answer.next,
    })
}
