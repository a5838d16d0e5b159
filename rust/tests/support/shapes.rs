//! Random stores, string pointers, lists and positions: good ones mostly, damaged ones often enough to meet every refusal.

use super::rng::Rng;
use strlib::{StrList, StrPtr};

const ALPHABETS: [&[u8]; 8] = [
    b"a",
    b"ab",
    b"ab ",
    b"abc",
    b" ",
    b"aAbB 09-",
    b"\0\x01\x1f\x21\x7e\x7f",
    b"",
];

/// So many characters over a small alphabet, or over all 128.
pub fn characters(rng: &mut Rng, length: usize) -> Vec<u8> {
    let alphabet = rng.pick(&ALPHABETS);
    (0..length)
        .map(|_| match alphabet {
            b"" => rng.below(128) as u8,
            _ => rng.pick(alphabet),
        })
        .collect()
}

/// Changes up to three bytes into ones over 127.
pub fn put_bytes_over_127(rng: &mut Rng, bytes: &mut [u8]) {
    for _ in 0..1 + rng.below(3) {
        if !bytes.is_empty() {
            let place = rng.below(bytes.len());
            bytes[place] = rng.pick(&[128, 128 + 32, 128 + b'a', 200, 255]);
        }
    }
}

/// A store of 0 to 40 bytes, now and then of 65,536 or just over; one in six with bytes over 127.
pub fn store(rng: &mut Rng) -> Vec<u8> {
    let length = match rng.below(600) {
        0 => 65_536,
        1 => rng.pick(&[65_537, 65_537, 70_000]),
        _ => rng.up_to(40).max(rng.up_to(30)),
    };
    let mut store = characters(rng, length);
    if rng.one_in(6) {
        put_bytes_over_127(rng, &mut store);
    }
    store
}

/// A size up to a limit, small mostly.
pub fn size(rng: &mut Rng, limit: usize) -> usize {
    match rng.below(8) {
        0 => limit,
        1 => rng.up_to(limit),
        2 => rng.up_to(limit.min(2)),
        _ => limit.min(1 + rng.up_to(14)),
    }
}

/// A good pointer whose room lies in `from` to `to`, seldom empty.
pub fn good(rng: &mut Rng, from: usize, to: usize) -> StrPtr {
    let start = match rng.below(12) {
        0 | 1 => from,
        2 => to,
        _ => from + rng.up_to((to - from).saturating_sub(1)),
    };
    let maximum = size(rng, to - start);
    let length = match rng.below(8) {
        0 => rng.up_to(maximum.min(1)),
        1..=3 => maximum,
        _ => maximum - rng.up_to(maximum.saturating_sub(1)),
    };
    StrPtr::new(start, length, maximum)
}

/// The pointer made not good for a store of `n` bytes, in one of the ways in which that can be.
pub fn damaged(rng: &mut Rng, string: StrPtr, n: usize) -> StrPtr {
    let StrPtr {
        start,
        length,
        maximum,
    } = string;
    let most = usize::MAX;
    match rng.below(8) {
        0 => StrPtr::new(start, maximum + 1, maximum),
        1 => StrPtr::new(start, maximum + 1 + rng.up_to(9), maximum),
        2 => StrPtr::new(start, length, n - start + 1),
        3 => StrPtr::new(n + 1, 0, 0),
        4 => StrPtr::new(most - rng.up_to(3), length, maximum.max(4)),
        5 => {
            // A sum that would wrap to within the store.
            let start = most - rng.up_to(9);
            let room = most - start + 1 + rng.up_to(n);
            StrPtr::new(start, length.min(room), room)
        }
        6 => StrPtr::new(start, length, most - rng.up_to(start.min(3))),
        _ => StrPtr::new(start, most, most),
    }
}

/// A pointer into a store of `n` bytes, good mostly.
pub fn pointer(rng: &mut Rng, n: usize) -> StrPtr {
    let string = good(rng, 0, n);
    if rng.one_in(14) {
        damaged(rng, string, n)
    } else {
        string
    }
}

/// A source for this destination: mostly clear of its room, before or behind it.
pub fn source(rng: &mut Rng, n: usize, destination: StrPtr) -> StrPtr {
    let room = destination.start as u128 + destination.maximum as u128;
    if room > n as u128 || rng.one_in(6) {
        pointer(rng, n)
    } else if rng.one_in(2) {
        good(rng, 0, destination.start)
    } else {
        good(rng, destination.start + destination.maximum, n)
    }
}

/// A string to be searched for: short, seldom null.
pub fn piece(rng: &mut Rng, n: usize) -> StrPtr {
    if n == 0 || rng.one_in(12) {
        return StrPtr::new(rng.up_to(n), 0, 0);
    }
    let start = rng.below(n);
    let length = 1 + rng.below((n - start).min(4));
    let maximum = length + size(rng, n - start - length);
    StrPtr::new(start, length, maximum)
}

/// A list of 0 to 32 strings, few mostly; now and then one of them damaged, or the count out of range.
pub fn list(rng: &mut Rng, n: usize, mut string: impl FnMut(&mut Rng) -> StrPtr) -> StrList {
    let count = match rng.below(20) {
        0 => 0,
        1 => 32,
        2 => rng.up_to(32),
        _ => 1 + rng.below(5),
    };
    let ignored = StrPtr::new(usize::MAX, 5, rng.up_to(9));
    let mut list = StrList {
        items: [ignored; 32],
        count,
    };
    for item in &mut list.items[..count] {
        *item = string(rng);
    }
    if count > 1 && rng.one_in(8) {
        // One string over and over, and another at the end.
        let first = list.items[0];
        list.items[1..count - 1].fill(first);
    }
    if count > 0 && rng.one_in(15) {
        let i = rng.below(count);
        let start = rng.up_to(n);
        list.items[i] = damaged(rng, StrPtr::new(start, 0, 0), n);
    }
    if rng.one_in(25) {
        list.count = rng.pick(&[33, 34, 64, 1 << 32, usize::MAX]);
    }
    list
}

/// A position around one of the bounds, or anywhere, or huge.
pub fn position(rng: &mut Rng, bounds: &[usize]) -> usize {
    match rng.below(10) {
        0 => rng.pick(&[usize::MAX, usize::MAX - 1, 1 << 63, 1 << 32]),
        1 => rng.up_to(45),
        2..=5 => {
            let bound = rng.pick(bounds);
            rng.pick(&[bound.wrapping_sub(1), bound, bound, bound.wrapping_add(1)])
        }
        _ => {
            let bound = rng.pick(bounds);
            rng.up_to(bound.min(70_000))
        }
    }
}

/// The strings of a list that a call looks at, for messages.
pub fn shown(list: &StrList) -> (usize, &[StrPtr]) {
    (list.count, &list.items[..list.count.min(32)])
}
