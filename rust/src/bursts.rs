//! The run of a search table over a host that comes in bursts.

use crate::{ffi, Note, Refusal, Run};

/// What a run carries from burst to burst. A table's states are numbered from 0, at which a run has stopped.
#[derive(Clone, Copy, Debug, PartialEq, Eq)]
pub struct Carried {
    pub state: usize,
    /// Characters read; those that come after the stop are not.
    pub read: usize,
    /// Characters delivered, those after the stop included.
    pub total: usize,
    pub note: Option<Note>,
    pub stopped: bool,
}

/// A run that takes its host in bursts, and owns what it carries.
///
/// ```
/// use strlib::{translate, BurstRun, Note, StrList, StrPtr, TABLE_MIN};
///
/// let mut table = vec![0; TABLE_MIN];
/// translate(b"VIOLA", &StrList::new(&[StrPtr::new(0, 5, 5)]), &mut table).unwrap();
/// let mut run = BurstRun::fresh();
/// run.push(b"lower the VIO", &table).unwrap();
/// assert!(run.push(b"L\xc4", &table).is_err()); // not a character: none of that burst counts
/// let answer = run.push(b"LA", &table).unwrap();
/// assert_eq!(answer.note, Some(Note { string: 1, pos1: 11, pos2: 16 }));
/// ```
#[derive(Clone, Debug, PartialEq, Eq)]
pub struct BurstRun {
    carried: Carried,
}

impl BurstRun {
    /// In state 1, with nothing read, delivered or noted.
    pub fn fresh() -> BurstRun {
        BurstRun::carrying(from_raw(unsafe { ffi::strlib_fresh_run() }))
    }

    /// Takes a run up again, from anything that is said to be carried: each burst tests it.
    pub fn carrying(carried: Carried) -> BurstRun {
        BurstRun { carried }
    }

    pub fn carried(&self) -> Carried {
        self.carried
    }

    /// Takes a burst of at most 300 characters, 65,536 in all, and gives the answer for all bursts taken so far: with the last,
    /// which may be empty, the whole host's. Refusals 3, 2, 10; a refused burst leaves the run as it was, and counts for nothing.
    pub fn push(&mut self, burst: &[u8], table: &[u16]) -> Result<Run, Refusal> {
        let answer = unsafe {
            ffi::strlib_burst(
                to_raw(self.carried),
                burst.as_ptr(),
                burst.len(),
                table.as_ptr(),
                table.len(),
            )
        };
        Refusal::check(answer.refusal)?;
        self.carried = from_raw(answer.carried);
        Ok(Run {
            note: self.carried.note,
            read: self.carried.read,
        })
    }
}

fn from_raw(raw: ffi::Carried) -> Carried {
    Carried {
        state: raw.state,
        read: raw.read,
        total: raw.total,
        note: raw.noted.then_some(Note {
            string: raw.string,
            pos1: raw.pos1,
            pos2: raw.pos2,
        }),
        stopped: raw.stopped,
    }
}

fn to_raw(carried: Carried) -> ffi::Carried {
    let (string, pos1, pos2) = match carried.note {
        Some(Note { string, pos1, pos2 }) => (string, pos1, pos2),
        None => (0, 0, 0),
    };
    ffi::Carried {
        state: carried.state,
        read: carried.read,
        total: carried.total,
        noted: carried.note.is_some(),
        string,
        pos1,
        pos2,
        stopped: carried.stopped,
    }
}
