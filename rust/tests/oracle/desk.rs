//! "Cue lines and labels", and W2.

use super::cutting::Part;
use super::number::number_of;
use super::*;
use std::collections::HashSet;
use strlib::{Cue, CueRefusal, LabelRefusal, Name};

/// W2: the number of the first wrong or missing fixed word or missing number, else 8 if there is an eighth word; 0 for
/// none.
fn word_at_fault(words: &[&[u8]]) -> u8 {
    const FORM: [Option<&[u8]>; 7] = [
        Some(b"MIC"),
        None,
        Some(b"TO"),
        Some(b"LSP"),
        None,
        Some(b"GAIN"),
        None,
    ];
    for (i, fixed) in FORM.iter().enumerate() {
        match (words.get(i), fixed) {
            (None, _) => return i as u8 + 1,
            (Some(word), Some(fixed)) if word != fixed => return i as u8 + 1,
            _ => {}
        }
    }
    if words.len() > 7 {
        8
    } else {
        0
    }
}

pub fn read_cue(line: &[u8], microphones: usize, loudspeakers: usize) -> Result<Cue, CueRefusal> {
    let wordless = |refusal: Refusal| CueRefusal {
        number: refusal.0,
        word: None,
    };
    let eleven = |word| CueRefusal {
        number: 11,
        word: Some(word),
    };
    let sizes = (1..=64).contains(&microphones) && (1..=128).contains(&loudspeakers);
    refuse(3, store_too_long(line) || !sizes).map_err(wordless)?;
    refuse(2, line.iter().any(|byte| *byte > 127)).map_err(wordless)?;

    if line.len() > 80 {
        return Err(eleven(0));
    }
    let words: Vec<&[u8]> = line
        .split(|byte| *byte == BLANK)
        .filter(|word| !word.is_empty())
        .collect();
    let word = word_at_fault(&words);
    if word > 0 {
        return Err(eleven(word));
    }

    let n = number_of(words[1], 10).map_err(wordless)?;
    let m = number_of(words[4], 10).map_err(wordless)?;
    let g = number_of(words[6], 10).map_err(wordless)?;
    let matrix = (1..=microphones as i64).contains(&n) && (1..=loudspeakers as i64).contains(&m);
    refuse(12, !matrix || !(-960..=120).contains(&g)).map_err(wordless)?;
    Ok(Cue {
        microphone: n as usize,
        loudspeaker: m as usize,
        gain: g,
    })
}

/// W2: a label list's refusal comes with an offset.
fn refuse_at(offset: usize, number: u8, condition: bool) -> Result<(), LabelRefusal> {
    if condition {
        Err(LabelRefusal { number, offset })
    } else {
        Ok(())
    }
}

/// A kind byte, two bytes of number, sixteen of name.
const RECORD: usize = 19;

struct Label {
    kind: usize,
    number: usize,
    place: usize,
}

fn kind_is_bad(kind: usize) -> bool {
    kind != 1 && kind != 2
}

fn number_is_bad(kind: usize, number: usize) -> bool {
    let most = if kind == 1 { 64 } else { 128 };
    number < 1 || number > most
}

fn name_is_bad(name: &[u8]) -> bool {
    name.iter().any(|byte| *byte < 32 || *byte > 126)
}

/// The records of a good list, or the refusal of its first bad one.
fn labels(list: &[u8]) -> Result<Vec<Label>, LabelRefusal> {
    let mut labels = Vec::new();
    let mut seen = HashSet::new();
    for (i, record) in list.chunks(RECORD).enumerate() {
        let at = i * RECORD;
        let kind = record[0] as usize;
        refuse_at(at, 11, kind_is_bad(kind))?;
        refuse_at(at, 13, record.len() < RECORD)?;
        let number = record[1] as usize * 256 + record[2] as usize;
        refuse_at(at, 12, number_is_bad(kind, number))?;
        refuse_at(at, 2, name_is_bad(&record[3..]))?;
        refuse_at(at, 14, !seen.insert((kind, number)))?;
        labels.push(Label {
            kind,
            number,
            place: at + 3,
        });
    }
    Ok(labels)
}

pub fn read_labels(list: &[u8]) -> Result<usize, LabelRefusal> {
    Ok(labels(list)?.len())
}

pub fn find_label(list: &[u8], kind: usize, number: usize) -> Result<Option<Name>, LabelRefusal> {
    let labels = labels(list)?;
    refuse_at(list.len(), 11, kind_is_bad(kind))?;
    refuse_at(list.len(), 12, number_is_bad(kind, number))?;
    let label = labels.iter().find(|l| l.kind == kind && l.number == number);
    Ok(label.map(|label| Name {
        place: label.place,
        length: trimmed_length(&list[label.place..label.place + 16]),
    }))
}

pub fn label_name(list: &[u8], kind: usize, number: usize) -> Part {
    match find_label(list, kind, number) {
        Ok(Some(name)) => (name.place, name.length),
        _ => (0, 0),
    }
}

pub fn add_label(
    buffer: &mut [u8],
    length: usize,
    kind: usize,
    number: usize,
    name: &[u8],
) -> Result<usize, LabelRefusal> {
    refuse_at(length, 4, length > buffer.len())?;
    let labels = labels(&buffer[..length])?;
    refuse_at(length, 11, kind_is_bad(kind))?;
    refuse_at(length, 12, number_is_bad(kind, number))?;
    refuse_at(length, 4, name.len() > 16)?;
    refuse_at(length, 2, name_is_bad(name))?;
    let repeated = labels.iter().any(|l| l.kind == kind && l.number == number);
    refuse_at(length, 14, repeated)?;
    refuse_at(length, 6, buffer.len() - length < RECORD)?;

    let mut record = vec![kind as u8, 0, number as u8];
    record.extend_from_slice(name);
    record.resize(RECORD, BLANK);
    buffer[length..length + RECORD].copy_from_slice(&record);
    Ok(length + RECORD)
}
