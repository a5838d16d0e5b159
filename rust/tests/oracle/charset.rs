//! "Character sets".

use super::*;
use strlib::Character;

fn block_or_mask_out_of_range(block: &[u64], mask: u64) -> bool {
    block.len() != 128 || mask >= 1 << 36
}

pub fn clear_tables(block: &mut [u64], mask: u64) -> Result<(), Refusal> {
    refuse(3, block_or_mask_out_of_range(block, mask))?;
    for word in block {
        *word &= !mask;
    }
    Ok(())
}

pub fn fill_tables(block: &mut [u64], mask: u64) -> Result<(), Refusal> {
    refuse(3, block_or_mask_out_of_range(block, mask))?;
    for word in block {
        *word |= mask;
    }
    Ok(())
}

fn read(store: &[u8], string: StrPtr, block: &[u64], mask: u64) -> Result<Vec<u8>, Refusal> {
    let range = block_or_mask_out_of_range(block, mask);
    refuse(3, store_too_long(store) || range)?;
    refuse(1, !good(store.len(), string))?;
    refuse(2, any_over_127(store, &[string]))?;
    Ok(characters(store, string).to_vec())
}

pub fn add_characters(
    store: &[u8],
    string: StrPtr,
    block: &mut [u64],
    mask: u64,
) -> Result<(), Refusal> {
    for character in read(store, string, block, mask)? {
        block[character as usize] |= mask;
    }
    Ok(())
}

pub fn remove_characters(
    store: &[u8],
    string: StrPtr,
    block: &mut [u64],
    mask: u64,
) -> Result<(), Refusal> {
    for character in read(store, string, block, mask)? {
        block[character as usize] &= !mask;
    }
    Ok(())
}

/// Every host character in a masked table, in order.
fn members(
    store: &[u8],
    host: StrPtr,
    block: &[u64],
    mask: u64,
) -> Result<Vec<Character>, Refusal> {
    let mut members = Vec::new();
    for (i, code) in read(store, host, block, mask)?.into_iter().enumerate() {
        if block[code as usize] & mask != 0 {
            members.push(Character {
                code,
                position: i + 1,
            });
        }
    }
    Ok(members)
}

pub fn find_first(
    store: &[u8],
    host: StrPtr,
    block: &[u64],
    mask: u64,
) -> Result<Option<Character>, Refusal> {
    Ok(members(store, host, block, mask)?.first().copied())
}

pub fn find_last(
    store: &[u8],
    host: StrPtr,
    block: &[u64],
    mask: u64,
) -> Result<Option<Character>, Refusal> {
    Ok(members(store, host, block, mask)?.last().copied())
}
