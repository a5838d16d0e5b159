//! Joining, copying, comparing and reading numbers, beside C's own functions.

use std::ffi::{c_char, c_int, c_longlong, c_void};
use std::hint::black_box;
use strlib::StrList;

use crate::{best, full, row};

extern "C" {
    fn memcpy(to: *mut c_void, from: *const c_void, n: usize) -> *mut c_void;
    fn memcmp(a: *const c_void, b: *const c_void, n: usize) -> c_int;
    fn strtoll(text: *const c_char, end: *mut *mut c_char, base: c_int) -> c_longlong;
}

pub fn all() {
    joins();
    copies();
    comparisons();
    numbers();
}

/// 32 strings into one, of 60,000 characters at most.
fn joins() {
    for (length, what) in [
        (1_875, "join of 32 strings, 60,000 characters"),
        (64, "join of 32 strings of 64"),
        (8, "join of 32 strings of 8"),
    ] {
        let mut store = vec![b'a'; 61_875];
        let list = StrList::new(&[full(60_000, length); 32]);
        let ours = best(|| {
            for _ in 0..10 {
                strlib::join(
                    black_box(&mut store),
                    full(0, 60_000),
                    black_box(&list),
                    false,
                )
                .unwrap();
            }
        });
        let mut bytes = vec![b'a'; 61_875];
        let theirs = best(|| {
            for _ in 0..10 {
                let at = black_box(&mut bytes).as_mut_ptr();
                for i in 0..32 {
                    // 32 pieces are the first 60,000 at most, and the source lies behind them
                    unsafe {
                        memcpy(
                            at.add(length * i).cast(),
                            at.add(60_000).cast(),
                            black_box(length),
                        )
                    };
                }
            }
        });
        row(what, "memcpy of the same", ours, theirs);
    }
}

fn copies() {
    let mut store = vec![b'a'; 60_000];
    let ours = best(|| {
        strlib::copy(
            black_box(&mut store),
            full(0, 30_000),
            full(30_000, 30_000),
            false,
        )
        .unwrap();
    });
    let mut bytes = vec![b'a'; 60_000];
    let theirs = best(|| {
        let at = black_box(&mut bytes).as_mut_ptr();
        // the two halves of `bytes`
        unsafe { memcpy(at.cast(), at.add(30_000).cast(), black_box(30_000)) };
    });
    row("copy of 30,000 characters", "memcpy", ours, theirs);
}

fn comparisons() {
    // string 2 stands behind string 1; as many characters as the longer has are what memcmp compares
    for (style, by, lengths, name) in [
        (0, 0, [30_000, 30_000], "30,000 equal characters, padded"),
        (1, 0, [30_000, 30_000], "30,000 equal characters, exact"),
        (
            0,
            5,
            [30_000, 30_000],
            "30,000 characters equal by a translation",
        ),
        (0, 5, [30_000, 0], "30,000 blanks with the pad"),
        (0, 5, [0, 30_000], "the pad with 30,000 blanks"),
    ] {
        let mut store = vec![b' '; 60_000];
        store[lengths[0]..][..lengths[1].min(lengths[0])].fill(b' ' - by);
        let ours = best(|| {
            let said = strlib::compare(
                black_box(&store),
                full(0, lengths[0]),
                full(lengths[0], lengths[1]),
                0,
                style,
                by.into(),
            );
            assert!(said.unwrap().yes);
        });
        let same = [b' '; 60_000];
        let theirs = best(|| {
            let at = black_box(&same).as_ptr();
            // the two halves of `same`
            assert!(unsafe { memcmp(at.cast(), at.add(30_000).cast(), black_box(30_000)) } == 0);
        });
        row(&format!("compare of {name}"), "memcmp", ours, theirs);
    }
}

/// 1,000 numbers, each in 16 bytes of its own with a 0 behind it, which is where strtoll stops.
fn numbers() {
    for (least, what) in [(1_i64, "1 to 3 digits"), (10_000_000_000, "11 digits")] {
        let mut store = vec![0; 16_000];
        let mut strings = Vec::new();
        for i in 0..1_000 {
            let text = format!("{}", least + i % 128);
            store[16 * i as usize..][..text.len()].copy_from_slice(text.as_bytes());
            strings.push(full(16 * i as usize, text.len()));
        }
        let ours = best(|| {
            for string in black_box(&strings) {
                black_box(strlib::read_number(black_box(&store), *string, 10).unwrap());
            }
        });
        let theirs = best(|| {
            for string in black_box(&strings) {
                let text = black_box(&store)[string.start..].as_ptr();
                // a 0 stands behind each number
                black_box(unsafe { strtoll(text.cast(), std::ptr::null_mut(), black_box(10)) });
            }
        });
        row(&format!("number read, {what}"), "strtoll", ours, theirs);
    }
}
