//! "Searching".

use super::*;
use strlib::{Match, Split};

/// The smallest position, then the smallest string number, where a string occurs: (number, pos1, pos2).
pub fn first_occurrence(host: &[u8], strings: &[&[u8]]) -> Option<(usize, usize, usize)> {
    for pos1 in 1..=host.len() + 1 {
        for (j, string) in strings.iter().enumerate() {
            if host[pos1 - 1..].starts_with(string) {
                return Some((j + 1, pos1, pos1 + string.len()));
            }
        }
    }
    None
}

/// 02, W12: with none of these continuations does the search name another string, start or end than in the front alone.
///
/// The paper asks it of every continuation. One that changes the answer ends a listed string behind the front, and that
/// string begins in the front or at its end, or, where nothing was named, may as well begin there: so all texts of the
/// list's letters that are no longer than its longest string show it, and of these the ends of the listed strings.
pub fn is_sure<'a>(
    front: &[u8],
    strings: &[&[u8]],
    continuations: impl IntoIterator<Item = &'a [u8]>,
) -> bool {
    let named = first_occurrence(front, strings);
    continuations
        .into_iter()
        .all(|more| first_occurrence(&[front, more].concat(), strings) == named)
}

fn find(
    store: &[u8],
    host: StrPtr,
    list: &StrList,
) -> Result<Option<(usize, usize, usize)>, Refusal> {
    refuse(3, store_too_long(store) || count_out_of_range(list))?;
    let listed = strings(list);
    refuse(
        1,
        any_not_good(store, &[host]) || any_not_good(store, listed),
    )?;
    refuse(
        2,
        any_over_127(store, &[host]) || any_over_127(store, listed),
    )?;
    let listed: Vec<&[u8]> = listed.iter().map(|s| characters(store, *s)).collect();
    Ok(first_occurrence(characters(store, host), &listed))
}

/// A host's part from pos1 to pos2 with maximum = length.
fn closed(host: StrPtr, pos1: usize, pos2: usize) -> StrPtr {
    StrPtr::new(host.start + pos1 - 1, pos2 - pos1, pos2 - pos1)
}

/// A host's part from `pos` to its end, with what is left of the host's maximum.
fn open(host: StrPtr, pos: usize) -> StrPtr {
    StrPtr::new(
        host.start + pos - 1,
        host.length + 1 - pos,
        host.maximum + 1 - pos,
    )
}

pub fn search(store: &[u8], host: StrPtr, list: &StrList) -> Result<Option<Match>, Refusal> {
    let found = find(store, host, list)?;
    Ok(found.map(|(number, pos1, pos2)| Match {
        number,
        before: closed(host, 1, pos1),
        matched: closed(host, pos1, pos2),
        after: open(host, pos2),
    }))
}

pub fn search_match_after(
    store: &[u8],
    host: StrPtr,
    list: &StrList,
) -> Result<Option<Split>, Refusal> {
    let found = find(store, host, list)?;
    Ok(found.map(|(number, pos1, _)| Split {
        number,
        front: closed(host, 1, pos1),
        back: open(host, pos1),
    }))
}

pub fn search_before_match(
    store: &[u8],
    host: StrPtr,
    list: &StrList,
) -> Result<Option<Split>, Refusal> {
    let found = find(store, host, list)?;
    Ok(found.map(|(number, _, pos2)| Split {
        number,
        front: closed(host, 1, pos2),
        back: open(host, pos2),
    }))
}
