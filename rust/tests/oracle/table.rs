//! "The search table". What a translated table's words are is free: only the translator's refusals stand here.

use super::*;
use strlib::{Note, Run};

pub fn translate_refusal(store: &[u8], list: &StrList, table_length: usize) -> Result<(), Refusal> {
    refuse(3, store_too_long(store) || count_out_of_range(list))?;
    let strings = strings(list);
    refuse(1, any_not_good(store, strings))?;
    refuse(2, any_over_127(store, strings))?;
    let total: usize = strings.iter().map(|string| string.length).sum();
    refuse(9, total > 240 || table_length < 31_461)
}

pub fn run(store: &[u8], host: StrPtr, words: &[u16]) -> Result<Run, Refusal> {
    refuse(3, store_too_long(store))?;
    refuse(1, !good(store.len(), host))?;
    refuse(2, any_over_127(store, &[host]))?;

    refuse(10, words.is_empty())?;
    let states = words[0] as usize;
    refuse(10, !(2..=242).contains(&states))?;
    refuse(10, words.len() < 1 + 130 * states)?;
    let word = |state: usize, i: usize| words[1 + 130 * state + i] as usize;

    let characters = characters(store, host);
    let mut note = None;
    let mut read = 0;
    let mut state = 1;
    loop {
        let f = word(state, 128);
        refuse(10, f > 32)?;
        if f > 0 {
            let length = word(state, 129);
            refuse(10, length > read)?;
            note = Some(Note {
                string: f,
                pos1: read - length + 1,
                pos2: read + 1,
            });
        }
        if read == characters.len() {
            break;
        }
        state = word(state, characters[read] as usize);
        read += 1;
        refuse(10, state >= states)?;
        if state == 0 {
            break;
        }
    }
    Ok(Run { note, read })
}
