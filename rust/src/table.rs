//! The search table: translated once from a list, run over any number of hosts.

use crate::{ffi, Refusal, StrList, StrPtr};

/// A note of a run: the string's number in the list, and where it starts and ends in the host.
#[derive(Clone, Copy, Debug, PartialEq, Eq)]
pub struct Note {
    pub string: usize,
    pub pos1: usize,
    pub pos2: usize,
}

/// A run's last note, where there is one, and the number of characters read: of a translated table at most one past the first
/// place at which the answer is sure, whatever follows.
#[derive(Clone, Copy, Debug, PartialEq, Eq)]
pub struct Run {
    pub note: Option<Note>,
    pub read: usize,
}

/// Translates the list, of at most 240 characters, into at least 31,461 words. Refusals 3, 1, 2, 9.
pub fn translate(store: &[u8], list: &StrList, table: &mut [u16]) -> Result<(), Refusal> {
    Refusal::check(unsafe {
        ffi::strlib_translate(
            store.as_ptr(),
            store.len(),
            *list,
            table.as_mut_ptr(),
            table.len(),
        )
    })
}

/// Runs the table over the host. Refusals 3, 1, 2, 10.
pub fn run(store: &[u8], host: StrPtr, table: &[u16]) -> Result<Run, Refusal> {
    let answer = unsafe {
        ffi::strlib_run(
            store.as_ptr(),
            store.len(),
            host,
            table.as_ptr(),
            table.len(),
        )
    };
    Refusal::check(answer.refusal)?;
    Ok(Run {
        note: answer.found.then_some(Note {
            string: answer.string,
            pos1: answer.pos1,
            pos2: answer.pos2,
        }),
        read: answer.read,
    })
}
