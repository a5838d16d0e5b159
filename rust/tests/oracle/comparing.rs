//! "Comparing", and W4: the translation is added to string 2 for the extent of the shorter string only.

use super::*;
use std::cmp::Ordering;
use strlib::Comparison;

pub fn compare(
    store: &[u8],
    string1: StrPtr,
    string2: StrPtr,
    code: usize,
    style: usize,
    translation: i64,
) -> Result<Comparison, Refusal> {
    let range = code > 5 || style > 2 || !(-127..=127).contains(&translation);
    refuse(3, store_too_long(store) || range)?;
    refuse(1, any_not_good(store, &[string1, string2]))?;
    refuse(2, any_over_127(store, &[string1, string2]))?;

    let one = characters(store, string1);
    let two = characters(store, string2);
    let shorter = one.len().min(two.len());
    let left = |i: usize| one.get(i).copied().unwrap_or(BLANK) as i64;
    let right = |i: usize| match two.get(i) {
        Some(character) if i < one.len() => *character as i64 + translation,
        Some(character) => *character as i64,
        None => BLANK as i64,
    };
    let pairs = match style {
        0 => one.len().max(two.len()),
        _ => shorter,
    };

    let (outcome, split) = match (0..pairs).find(|i| left(*i) != right(*i)) {
        Some(i) => (left(i).cmp(&right(i)), i + 1),
        None if style == 1 && one.len() != two.len() => (one.len().cmp(&two.len()), shorter + 1),
        None => (Ordering::Equal, 0),
    };
    let yes = match code {
        0 => outcome == Ordering::Equal,
        1 => outcome != Ordering::Equal,
        2 => outcome != Ordering::Less,
        3 => outcome != Ordering::Greater,
        4 => outcome == Ordering::Greater,
        _ => outcome == Ordering::Less,
    };
    let sign = match one.len().cmp(&two.len()) {
        Ordering::Less => -1,
        Ordering::Equal => 0,
        Ordering::Greater => 1,
    };
    Ok(Comparison { yes, sign, split })
}
