//! "Copying": copy, append, join and the checkpointed join.

use super::*;
use strlib::{Copied, Place, Round};

/// The destination's new characters are `joined`, cut at its maximum; with padding, filled to its old length.
fn fill(store: &mut [u8], destination: StrPtr, joined: &[u8], pad: bool) -> Copied {
    let mut held = joined.to_vec();
    held.truncate(destination.maximum);
    while pad && held.len() < destination.length {
        held.push(BLANK);
    }
    Copied {
        to: put(store, destination, &held),
        completed: joined.len() <= destination.maximum,
    }
}

fn joined(store: &[u8], strings: &[StrPtr]) -> Vec<u8> {
    let mut joined = Vec::new();
    for string in strings {
        joined.extend_from_slice(characters(store, *string));
    }
    joined
}

pub fn copy(
    store: &mut [u8],
    destination: StrPtr,
    source: StrPtr,
    pad: bool,
) -> Result<Copied, Refusal> {
    refuse(3, store_too_long(store))?;
    refuse(1, any_not_good(store, &[destination, source]))?;
    refuse(2, any_over_127(store, &[source]))?;
    refuse(5, any_in_room(destination, &[source]))?;
    let joined = joined(store, &[source]);
    Ok(fill(store, destination, &joined, pad))
}

pub fn append(store: &mut [u8], destination: StrPtr, source: StrPtr) -> Result<Copied, Refusal> {
    refuse(3, store_too_long(store))?;
    refuse(1, any_not_good(store, &[destination, source]))?;
    refuse(2, any_over_127(store, &[source]))?;
    refuse(5, any_in_room(destination, &[source]))?;
    let joined = joined(store, &[destination, source]);
    Ok(fill(store, destination, &joined, false))
}

pub fn join(
    store: &mut [u8],
    destination: StrPtr,
    list: &StrList,
    pad: bool,
) -> Result<Copied, Refusal> {
    refuse(3, store_too_long(store) || count_out_of_range(list))?;
    let sources = strings(list);
    refuse(
        1,
        any_not_good(store, &[destination]) || any_not_good(store, sources),
    )?;
    refuse(2, any_over_127(store, sources))?;
    refuse(5, any_in_room(destination, sources))?;
    let joined = joined(store, sources);
    Ok(fill(store, destination, &joined, pad))
}

pub fn join_from(
    store: &mut [u8],
    destination: StrPtr,
    list: &StrList,
    from: Place,
) -> Result<Round, Refusal> {
    refuse(3, store_too_long(store) || count_out_of_range(list))?;
    let sources = strings(list);
    refuse(
        1,
        any_not_good(store, &[destination]) || any_not_good(store, sources),
    )?;
    refuse(2, any_over_127(store, sources))?;
    refuse(4, !place_in_bounds(sources, from))?;
    refuse(5, any_in_room(destination, sources))?;

    let left: Vec<Place> = existing_places(sources)
        .into_iter()
        .filter(|place| (place.string, place.character) >= (from.string, from.character))
        .collect();
    let moved = left.len().min(destination.maximum);
    let piece: Vec<u8> = left[..moved]
        .iter()
        .map(|place| characters(store, sources[place.string - 1])[place.character - 1])
        .collect();
    let end = Place {
        string: sources.len() + 1,
        character: 1,
    };
    Ok(Round {
        to: put(store, destination, &piece),
        completed: moved == left.len(),
        next: left.get(moved).copied().unwrap_or(end),
    })
}

fn place_in_bounds(sources: &[StrPtr], place: Place) -> bool {
    let k = place.string;
    if k == sources.len() + 1 {
        place.character == 1
    } else if 1 <= k && k <= sources.len() {
        1 <= place.character && place.character <= sources[k - 1].length + 1
    } else {
        false
    }
}

/// The place of every character of every string, in order.
fn existing_places(sources: &[StrPtr]) -> Vec<Place> {
    let mut places = Vec::new();
    for (k, source) in sources.iter().enumerate() {
        for character in 1..=source.length {
            places.push(Place {
                string: k + 1,
                character,
            });
        }
    }
    places
}
