//! Character sets.

use crate::oracle::charset as oracle;
use crate::support::rng::Rng;
use crate::support::{raw, rounds, shapes, Call, ROUNDS};
use strlib::{ffi, Character, Refusal, StrPtr, BLOCK_WORDS};

fn mask(rng: &mut Rng) -> u64 {
    match rng.below(24) {
        0 => rng.pick(&[1 << 36, (1 << 36) + 1, 1 << 37, 1 << 63, u64::MAX]),
        1 => (1 << 36) - 1,
        2 => 0,
        3 => 1 << 35,
        4..=13 => 1 << rng.below(36),
        _ => rng.next() & rng.next() & rng.next() & ((1 << 36) - 1),
    }
}

/// A block of 128 words mostly: of all bits, of few, or empty but for a few words.
fn block(rng: &mut Rng) -> Vec<u64> {
    let words = match rng.below(24) {
        0 => rng.pick(&[0, 1, 127, 129]),
        _ => 128,
    };
    match rng.below(3) {
        0 => (0..words).map(|_| rng.next()).collect(),
        1 => {
            let rare = rng.next();
            (0..words).map(|_| rare & rng.next() & rng.next()).collect()
        }
        _ => {
            let outside = rng.next() << 36;
            let mut block = vec![outside; words];
            for _ in 0..rng.up_to(3) {
                if words > 0 {
                    let i = rng.below(words);
                    block[i] |= rng.next();
                }
            }
            block
        }
    }
}

#[test]
fn sets_change_as_the_document_says() {
    let tally = rounds("charset", ROUNDS, |round| {
        let block = block(&mut round.rng);
        let mask = mask(&mut round.rng);
        let cleared = round.check(
            Call::new("clear_tables", &block, mask),
            |b| oracle::clear_tables(b, mask),
            |b| strlib::clear_tables(b, mask),
            |b| unsafe { ffi::strlib_clear_tables(b.as_mut_ptr(), b.len(), mask) },
            raw::done,
        );
        let filled = round.check(
            Call::new("fill_tables", &block, mask),
            |b| oracle::fill_tables(b, mask),
            |b| strlib::fill_tables(b, mask),
            |b| unsafe { ffi::strlib_fill_tables(b.as_mut_ptr(), b.len(), mask) },
            raw::done,
        );
        let store = shapes::store(&mut round.rng);
        let string = shapes::pointer(&mut round.rng, store.len());
        let lent = (store, block);
        let added = round.check(
            Call::new("add_characters", &lent, (string, mask)),
            |(s, b)| oracle::add_characters(s, string, b, mask),
            |(s, b)| strlib::add_characters(s, string, b, mask),
            |(s, b)| unsafe {
                let (store, block) = (s.as_mut_ptr(), b.as_mut_ptr());
                ffi::strlib_add_characters(store, s.len(), string, block, b.len(), mask)
            },
            raw::done,
        );
        let removed = round.check(
            Call::new("remove_characters", &lent, (string, mask)),
            |(s, b)| oracle::remove_characters(s, string, b, mask),
            |(s, b)| strlib::remove_characters(s, string, b, mask),
            |(s, b)| unsafe {
                let (store, block) = (s.as_mut_ptr(), b.as_mut_ptr());
                ffi::strlib_remove_characters(store, s.len(), string, block, b.len(), mask)
            },
            raw::done,
        );
        let first = round.check(
            Call::new("find_first", &lent, (string, mask)),
            |(s, b)| oracle::find_first(s, string, b, mask),
            |(s, b)| strlib::find_first(s, string, b, mask),
            |(s, b)| unsafe {
                let (store, block) = (s.as_mut_ptr(), b.as_mut_ptr());
                ffi::strlib_find_first(store, s.len(), string, block, b.len(), mask)
            },
            raw::character,
        );
        let last = round.check(
            Call::new("find_last", &lent, (string, mask)),
            |(s, b)| oracle::find_last(s, string, b, mask),
            |(s, b)| strlib::find_last(s, string, b, mask),
            |(s, b)| unsafe {
                let (store, block) = (s.as_mut_ptr(), b.as_mut_ptr());
                ffi::strlib_find_last(store, s.len(), string, block, b.len(), mask)
            },
            raw::character,
        );
        for (call, answer) in [
            ("clear_tables", cleared),
            ("fill_tables", filled),
            ("add_characters", added),
            ("remove_characters", removed),
        ] {
            match mask {
                _ if answer.is_err() => {}
                0 => round.met(call, "no table"),
                0xf_ffff_ffff => round.met(call, "every table"),
                _ => round.met(call, "some tables"),
            }
        }
        for (call, answer) in [("find_first", first), ("find_last", last)] {
            match answer {
                Err(_) => {}
                Ok(None) => round.met(call, "nothing found"),
                Ok(Some(Character { code: 0, .. })) => round.met(call, "found code 0"),
                Ok(Some(_)) if first == last => round.met(call, "found the only one"),
                Ok(Some(_)) => round.met(call, "found one of many"),
            }
        }
    });
    let kinds = ["no table", "some tables", "every table"];
    tally.expect("clear_tables", &[3], &kinds);
    tally.expect("fill_tables", &[3], &kinds);
    tally.expect("add_characters", &[1, 2, 3], &kinds);
    tally.expect("remove_characters", &[1, 2, 3], &kinds);
    let kinds = [
        "nothing found",
        "found code 0",
        "found the only one",
        "found one of many",
    ];
    tally.expect("find_first", &[1, 2, 3], &kinds);
    tally.expect("find_last", &[1, 2, 3], &kinds);
}

#[test]
fn blocks_and_masks_at_their_bounds() {
    assert_eq!(BLOCK_WORDS, 128);
    let most = (1 << 36) - 1;
    let mut block = vec![0; 129];
    assert_eq!(strlib::fill_tables(&mut block[..127], 1), Err(Refusal(3)));
    assert_eq!(strlib::fill_tables(&mut block, 1), Err(Refusal(3)));
    assert_eq!(
        strlib::fill_tables(&mut block[..128], 1 << 36),
        Err(Refusal(3))
    );
    assert!(block.iter().all(|word| *word == 0));
    assert_eq!(strlib::fill_tables(&mut block[..128], most), Ok(()));
    assert!(block[..128].iter().all(|word| *word == most));
    assert_eq!(block[128], 0);
}

#[test]
fn words_take_a_vowel() {
    let store = b"strength and vowels aeiou";
    let host = StrPtr::new(0, 19, 19);
    let vowels = StrPtr::new(20, 5, 5);
    let mut block = [1 << 40; 128];
    assert_eq!(
        strlib::add_characters(store, vowels, &mut block, 0b100),
        Ok(())
    );
    let found = |code, position| Ok(Some(Character { code, position }));
    let first = strlib::find_first(store, host, &block, 0b110);
    assert_eq!(first, found(b'e', 4));
    let last = strlib::find_last(store, host, &block, 0b110);
    assert_eq!(last, found(b'e', 17));
    assert_eq!(strlib::find_last(store, host, &block, 0b010), Ok(None));
    assert_eq!(strlib::find_last(store, host, &block, 0), Ok(None));
    assert_eq!(
        strlib::remove_characters(store, vowels, &mut block, 0b111),
        Ok(())
    );
    assert_eq!(block, [1 << 40; 128]);
}
