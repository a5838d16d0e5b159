//! Tests by family of calls.

mod bursts;
mod charset;
mod comparing;
mod copying;
mod cues;
mod cutting;
mod editing;
mod examples;
mod exhaustive;
mod labels;
mod null;
mod number;
mod pointer;
mod searching;
mod table;

use strlib::StrPtr;

/// A store that holds these texts one behind the other, and a pointer to each with maximum = length.
fn laid_out(texts: &[&[u8]]) -> (Vec<u8>, Vec<StrPtr>) {
    let mut store = Vec::new();
    let mut strings = Vec::new();
    for text in texts {
        strings.push(StrPtr::new(store.len(), text.len(), text.len()));
        store.extend_from_slice(text);
    }
    (store, strings)
}

/// Where a part lies in the bytes that it is a part of, and its length.
fn place(bytes: &[u8], part: &[u8]) -> (usize, usize) {
    let offset = (part.as_ptr() as usize).wrapping_sub(bytes.as_ptr() as usize);
    (offset, part.len())
}
