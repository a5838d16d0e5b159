//! "Cutting".

use super::*;

/// A cut of a string that has `length` characters and room for `maximum`: how far in it starts, its length and its maximum.
type Cut = Option<(usize, usize, usize)>;

fn relative_cut(length: usize, maximum: usize, offset: usize) -> Cut {
    if offset <= length {
        Some((offset, length - offset, maximum - offset))
    } else {
        None
    }
}

fn counted_cut(maximum: usize, position: usize, count: usize) -> Cut {
    if 1 <= position && position <= maximum + 1 && count <= maximum + 1 - position {
        Some((position - 1, count, maximum + 1 - position))
    } else {
        None
    }
}

fn between_cut(length: usize, pos1: usize, pos2: usize) -> Cut {
    let pos2 = if pos2 == 0 { length + 1 } else { pos2 };
    if 1 <= pos1 && pos1 <= pos2 && pos2 <= length + 1 {
        Some((pos1 - 1, pos2 - pos1, length + 1 - pos1))
    } else {
        None
    }
}

fn cut_string(store: &[u8], string: StrPtr, cut: impl FnOnce() -> Cut) -> Result<StrPtr, Refusal> {
    refuse(3, store_too_long(store))?;
    refuse(1, !good(store.len(), string))?;
    let (front, length, maximum) = cut().ok_or(Refusal(4))?;
    Ok(StrPtr::new(string.start + front, length, maximum))
}

pub fn relative(store: &[u8], string: StrPtr, offset: usize) -> Result<StrPtr, Refusal> {
    cut_string(store, string, || {
        relative_cut(string.length, string.maximum, offset)
    })
}

pub fn counted(
    store: &[u8],
    string: StrPtr,
    position: usize,
    count: usize,
) -> Result<StrPtr, Refusal> {
    cut_string(store, string, || {
        counted_cut(string.maximum, position, count)
    })
}

pub fn between(store: &[u8], string: StrPtr, pos1: usize, pos2: usize) -> Result<StrPtr, Refusal> {
    cut_string(store, string, || between_cut(string.length, pos1, pos2))
}

pub fn trim(store: &[u8], string: StrPtr) -> Result<StrPtr, Refusal> {
    refuse(3, store_too_long(store))?;
    refuse(1, !good(store.len(), string))?;
    refuse(2, any_over_127(store, &[string]))?;
    let length = trimmed_length(characters(store, string));
    Ok(StrPtr::new(string.start, length, string.maximum))
}

/// Where a part of plain bytes lies, and its length; bad positions give the empty part at the front.
pub type Part = (usize, usize);

fn cut_part(cut: Cut) -> Part {
    match cut {
        Some((front, length, _)) => (front, length),
        None => (0, 0),
    }
}

pub fn relative_part(bytes: &[u8], offset: usize) -> Part {
    cut_part(relative_cut(bytes.len(), bytes.len(), offset))
}

pub fn counted_part(bytes: &[u8], position: usize, count: usize) -> Part {
    cut_part(counted_cut(bytes.len(), position, count))
}

pub fn between_part(bytes: &[u8], pos1: usize, pos2: usize) -> Part {
    cut_part(between_cut(bytes.len(), pos1, pos2))
}

pub fn trimmed_part(bytes: &[u8]) -> Part {
    (0, trimmed_length(bytes))
}

/// Whether the label is of the house name, and which part of it.
pub fn desk_label(production: &[u8], house: &[u8]) -> (bool, Part) {
    if production.iter().all(|byte| *byte == BLANK) {
        (true, trimmed_part(house))
    } else {
        (false, trimmed_part(production))
    }
}
