//! The desk: cue lines and the label list.

use crate::ffi;
use std::fmt;

/// A cue: microphone, loudspeaker, and the gain in tenths of a decibel.
#[derive(Clone, Copy, Debug, PartialEq, Eq)]
pub struct Cue {
    pub microphone: usize,
    pub loudspeaker: usize,
    pub gain: i64,
}

/// The number of a cue line's refusal. With 11 comes a word, and with no other number: 0 for a line over 80 characters,
/// else the first wrong or missing fixed word or missing number, counted from 1, else 8 for an eighth word.
#[derive(Clone, Copy, Debug, PartialEq, Eq)]
pub struct CueRefusal {
    pub number: u8,
    pub word: Option<u8>,
}

impl fmt::Display for CueRefusal {
    fn fmt(&self, f: &mut fmt::Formatter) -> fmt::Result {
        match self.word {
            None => write!(f, "refusal {}", self.number),
            Some(0) => write!(f, "refusal {}, over 80 characters", self.number),
            Some(word) => write!(f, "refusal {} at word {word}", self.number),
        }
    }
}

impl std::error::Error for CueRefusal {}

/// The number of a label call's refusal, and the offset (from 0) of the kind byte of the record that is at fault, or
/// the list's length where no record in the list is; for `add_label` that is the length it was told. Nothing that was
/// lent has changed.
#[derive(Clone, Copy, Debug, PartialEq, Eq)]
pub struct LabelRefusal {
    pub number: u8,
    pub offset: usize,
}

impl LabelRefusal {
    /// An answer's refusal fields, the number 0 being none.
    fn check(number: u8, offset: usize) -> Result<(), LabelRefusal> {
        match number {
            0 => Ok(()),
            number => Err(LabelRefusal { number, offset }),
        }
    }
}

impl fmt::Display for LabelRefusal {
    fn fmt(&self, f: &mut fmt::Formatter) -> fmt::Result {
        write!(f, "refusal {} at offset {}", self.number, self.offset)
    }
}

impl std::error::Error for LabelRefusal {}

/// Where a trimmed name lies in a label list (from 0), and its length.
#[derive(Clone, Copy, Debug, PartialEq, Eq)]
pub struct Name {
    pub place: usize,
    pub length: usize,
}

/// Reads `MIC n TO LSP m GAIN g` for a matrix of 1 to 64 by 1 to 128. Refusals 3, 2, 11, then 7 or 8 from left to
/// right, 12.
pub fn read_cue(line: &[u8], microphones: usize, loudspeakers: usize) -> Result<Cue, CueRefusal> {
    let answer =
        unsafe { ffi::strlib_read_cue(line.as_ptr(), line.len(), microphones, loudspeakers) };
    match answer.refusal {
        0 => Ok(Cue {
            microphone: answer.microphone,
            loudspeaker: answer.loudspeaker,
            gain: answer.gain,
        }),
        number => Err(CueRefusal {
            number,
            word: (number == 11).then_some(answer.word),
        }),
    }
}

/// Counts the records of a label list. Refusals, record by record: 11 (kind), 13 (body cut short), 12, 2, 14 (kind and
/// number repeated).
pub fn read_labels(list: &[u8]) -> Result<usize, LabelRefusal> {
    let answer = unsafe { ffi::strlib_read_labels(list.as_ptr(), list.len()) };
    LabelRefusal::check(answer.refusal, answer.offset)?;
    Ok(answer.value)
}

/// Finds the name of a microphone (kind 1) or loudspeaker (kind 2). Refusals: the list's, then 11 (kind), 12.
pub fn find_label(list: &[u8], kind: usize, number: usize) -> Result<Option<Name>, LabelRefusal> {
    let answer = unsafe { ffi::strlib_find_label(list.as_ptr(), list.len(), kind, number) };
    LabelRefusal::check(answer.refusal, answer.offset)?;
    Ok(answer.found.then_some(Name {
        place: answer.place,
        length: answer.length,
    }))
}

/// The name itself; on a refusal or no record, the empty part at the list's front.
pub fn label_name(list: &[u8], kind: usize, number: usize) -> &[u8] {
    unsafe { ffi::strlib_label_name(list.as_ptr(), list.len(), kind, number) }.of(list)
}

/// Adds a record behind the list that is the buffer's first `length` bytes, and gives the list's new length. Refusals:
/// 4 (length over the buffer's), the list's, 11 (kind), 12, 4 (name over 16 characters), 2, 14 (repeated), 6.
pub fn add_label(
    buffer: &mut [u8],
    length: usize,
    kind: usize,
    number: usize,
    name: &[u8],
) -> Result<usize, LabelRefusal> {
    let answer = unsafe {
        ffi::strlib_add_label(
            buffer.as_mut_ptr(),
            buffer.len(),
            length,
            kind,
            number,
            name.as_ptr(),
            name.len(),
        )
    };
    LabelRefusal::check(answer.refusal, answer.offset)?;
    Ok(answer.value)
}
