//! "Copying": replace and reverse.

use super::*;

pub fn replace(
    store: &mut [u8],
    string1: StrPtr,
    string2: StrPtr,
    string3: StrPtr,
) -> Result<StrPtr, Refusal> {
    refuse(3, store_too_long(store))?;
    refuse(1, any_not_good(store, &[string1, string2, string3]))?;
    refuse(2, any_over_127(store, &[string1, string3]))?;
    let part = string1.start <= string2.start && places(string2).end <= places(string1).end;
    refuse(4, !part)?;
    refuse(5, any_in_room(string1, &[string3]))?;
    let text = [
        &store[string1.start..string2.start],
        characters(store, string3),
        &store[places(string2).end..places(string1).end],
    ]
    .concat();
    refuse(6, text.len() > string1.maximum)?;
    Ok(put(store, string1, &text))
}

fn reversed(store: &[u8], string: StrPtr) -> Vec<u8> {
    let mut text = characters(store, string).to_vec();
    text.reverse();
    text
}

pub fn reverse(store: &mut [u8], string: StrPtr) -> Result<StrPtr, Refusal> {
    refuse(3, store_too_long(store))?;
    refuse(1, !good(store.len(), string))?;
    refuse(2, any_over_127(store, &[string]))?;
    let text = reversed(store, string);
    Ok(put(store, string, &text))
}

pub fn reverse_from(
    store: &mut [u8],
    destination: StrPtr,
    source: StrPtr,
) -> Result<StrPtr, Refusal> {
    refuse(3, store_too_long(store))?;
    refuse(1, any_not_good(store, &[destination, source]))?;
    refuse(2, any_over_127(store, &[source]))?;
    refuse(5, any_in_room(destination, &[source]))?;
    refuse(6, source.length > destination.maximum)?;
    let text = reversed(store, source);
    Ok(put(store, destination, &text))
}
