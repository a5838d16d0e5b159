//! "Numbers".

use super::*;

pub const LEAST: i64 = -34_359_738_368;
pub const GREATEST: i64 = 34_359_738_367;

fn base_out_of_range(base: usize) -> bool {
    !(2..=10).contains(&base)
}

/// The number that a text of any length is: 7 if it isn't one, 8 if it is out of range.
pub fn number_of(text: &[u8], base: usize) -> Result<i64, Refusal> {
    let blanks = text.iter().take_while(|byte| **byte == BLANK).count();
    let text = &text[blanks..];
    let (negative, digits) = match text.first() {
        Some(b'-') => (true, &text[1..]),
        _ => (false, text),
    };
    let is_digit = |byte: &u8| (b'0'..b'0' + base as u8).contains(byte);
    refuse(7, digits.is_empty() || !digits.iter().all(is_digit))?;
    let mut value: i128 = 0;
    for digit in digits {
        let digit = (digit - b'0') as i128;
        value = value.saturating_mul(base as i128).saturating_add(digit);
    }
    let value = if negative { -value } else { value };
    refuse(8, value < LEAST as i128 || value > GREATEST as i128)?;
    Ok(value as i64)
}

/// The fewest digits, with a minus if negative.
pub fn text_of(value: i64, base: usize) -> Vec<u8> {
    let mut rest = (value as i128).abs();
    let mut text = Vec::new();
    loop {
        text.push(b'0' + (rest % base as i128) as u8);
        rest /= base as i128;
        if rest == 0 {
            break;
        }
    }
    if value < 0 {
        text.push(b'-');
    }
    text.reverse();
    text
}

pub fn read_number(store: &[u8], string: StrPtr, base: usize) -> Result<i64, Refusal> {
    refuse(3, store_too_long(store) || base_out_of_range(base))?;
    refuse(1, !good(store.len(), string))?;
    refuse(2, any_over_127(store, &[string]))?;
    number_of(characters(store, string), base)
}

pub fn write_number(
    store: &mut [u8],
    destination: StrPtr,
    value: i64,
    base: usize,
) -> Result<StrPtr, Refusal> {
    refuse(3, store_too_long(store) || base_out_of_range(base))?;
    refuse(1, !good(store.len(), destination))?;
    refuse(8, !(LEAST..=GREATEST).contains(&value))?;
    let text = text_of(value, base);
    refuse(6, text.len() > destination.maximum)?;
    Ok(put(store, destination, &text))
}
