//! Reading and writing numbers.

use crate::oracle::number as oracle;
use crate::oracle::number::{GREATEST, LEAST};
use crate::support::rng::Rng;
use crate::support::{raw, rounds, shapes, Call, ROUNDS};
use strlib::{ffi, Refusal, StrPtr};

fn base(rng: &mut Rng) -> usize {
    match rng.below(20) {
        0 => rng.pick(&[0, 1, 11, 12, 256 + 10, usize::MAX]),
        1..=8 => 10,
        _ => 2 + rng.below(9),
    }
}

/// A value in the range or around its ends, around a power of the base, or any at all.
fn value(rng: &mut Rng, base: usize) -> i64 {
    match rng.below(12) {
        0 | 1 => rng.pick(&[LEAST, GREATEST]) + rng.up_to(6) as i64 - 3,
        2 => rng.pick(&[i64::MIN, i64::MIN + 1, i64::MAX, 1 << 36, -(1 << 36)]),
        3 => rng.next() as i64,
        4 | 5 => rng.up_to(40) as i64 - 20,
        6 | 7 => {
            let power = (base.clamp(2, 10) as i64).saturating_pow(rng.below(36) as u32);
            let near = power.min(1 << 62) + rng.up_to(2) as i64 - 1;
            rng.pick(&[near, -near])
        }
        _ => (rng.next() >> 28) as i64 + LEAST,
    }
}

fn digits(rng: &mut Rng, base: usize, length: usize) -> Vec<u8> {
    (0..length)
        .map(|_| b'0' + rng.below(base.clamp(1, 10)) as u8)
        .collect()
}

/// A number's text of every kind, spoilt in one of three.
fn number_text(rng: &mut Rng, base: usize) -> Vec<u8> {
    let mut text = vec![32; rng.below(6).saturating_sub(3)];
    if rng.one_in(8) {
        text.push(b'-');
    }
    match rng.below(600) {
        0 => {
            let length = 30_000 + rng.below(35_000);
            text.extend(vec![b'0'; length]);
            text.extend(digits(rng, base, 9));
        }
        1 => {
            let length = 30_000 + rng.below(35_000);
            text.extend(digits(rng, base, length));
        }
        2..=99 => {
            let length = rng.up_to(45);
            text.extend(digits(rng, base, length));
        }
        100..=160 => {
            let length = rng.up_to(9);
            text.extend((0..length).map(|_| rng.pick(b"0123456789- +a\t")));
        }
        _ => {
            let written = oracle::text_of(value(rng, base), base.clamp(2, 10));
            let minus = written.starts_with(b"-") as usize;
            text.extend_from_slice(&written[..minus]);
            text.extend(vec![b'0'; rng.below(6).saturating_sub(3)]);
            text.extend_from_slice(&written[minus..]);
        }
    }
    if rng.one_in(4) {
        let spoilt = rng.pick(b"-+ \t\0/:9aA.\x80\xff");
        let inside = rng.up_to(text.len());
        let i = rng.pick(&[0, text.len(), inside]);
        text.insert(i, spoilt);
    }
    text
}

#[test]
fn numbers_as_the_document_says() {
    let tally = rounds("number", ROUNDS, |round| {
        let rng = &mut round.rng;
        let read_base = base(rng);
        let text = number_text(rng, read_base);
        let before = rng.up_to(3);
        let mut store = shapes::characters(rng, before);
        let length = text.len();
        store.extend(text);
        let behind = rng.up_to(3);
        store.extend(shapes::characters(rng, behind));
        if rng.one_in(500) {
            store.resize(rng.pick(&[65_536, 65_537]), b'1');
        }
        let n = store.len();
        let string = match rng.below(12) {
            0 => shapes::pointer(rng, n),
            1 => shapes::damaged(rng, StrPtr::new(before.min(n), 0, 0), n),
            _ => StrPtr::new(before, length, length + rng.up_to(behind)),
        };
        let read = round.check(
            Call::new("read_number", &store, (string, read_base)),
            |s| oracle::read_number(s, string, read_base),
            |s| strlib::read_number(s, string, read_base),
            |s| unsafe { ffi::strlib_read_number(s.as_mut_ptr(), s.len(), string, read_base) },
            raw::number,
        );
        match read {
            Ok(LEAST) => round.met("read_number", "least"),
            Ok(GREATEST) => round.met("read_number", "greatest"),
            Ok(0) => round.met("read_number", "0"),
            _ => {}
        }

        let rng = &mut round.rng;
        let write_base = base(rng);
        let value = value(rng, write_base);
        let store = shapes::store(rng);
        let n = store.len();
        let room = oracle::text_of(value, write_base.clamp(2, 10)).len();
        let to = match rng.below(3) {
            0 => shapes::pointer(rng, n),
            _ => {
                let maximum = rng.pick(&[room, room + 1, room - 1]).min(n);
                let start = rng.up_to(n - maximum);
                StrPtr::new(start, rng.up_to(maximum), maximum)
            }
        };
        let written = round.check(
            Call::new("write_number", &store, (to, value, write_base)),
            |s| oracle::write_number(s, to, value, write_base),
            |s| strlib::write_number(s, to, value, write_base),
            |s| unsafe { ffi::strlib_write_number(s.as_mut_ptr(), s.len(), to, value, write_base) },
            raw::string,
        );
        if let Ok(string) = written {
            round.returned("write_number", &store, string);
            let filled = string.length == string.maximum;
            round.met("write_number", if filled { "filled" } else { "room left" });
            match value {
                LEAST => round.met("write_number", "least"),
                GREATEST => round.met("write_number", "greatest"),
                0 => round.met("write_number", "0"),
                _ => {}
            }
        }
    });
    let ends = ["least", "greatest", "0"];
    tally.expect("read_number", &[1, 2, 3, 7, 8], &ends);
    tally.expect("write_number", &[1, 3, 6, 8], &ends);
    tally.expect("write_number", &[1, 3, 6, 8], &["filled", "room left"]);
}

/// Writes the value and reads it back.
fn round_trip(value: i64, base: usize) -> i64 {
    let mut store = *b"?????????????????????????????????????";
    let to = StrPtr::new(0, 0, store.len());
    let string = strlib::write_number(&mut store, to, value, base).unwrap();
    assert_eq!(
        store[..string.length],
        oracle::text_of(value, base),
        "{value} in base {base}"
    );
    strlib::read_number(&store, string, base).unwrap()
}

#[test]
fn what_is_written_reads_back() {
    for base in 2..=10 {
        for near in 0..1_000 {
            for value in [LEAST + near, GREATEST - near, near, -near] {
                assert_eq!(round_trip(value, base), value);
            }
        }
    }
    let tally = rounds("round trip", ROUNDS, |round| {
        let base = 2 + round.rng.below(9);
        let value = value(&mut round.rng, base).clamp(LEAST, GREATEST);
        let call = Call::new("round trip", &(), (value, base));
        round.same(&call, "reads back", &round_trip(value, base), &value);
        round.met("round trip", "answered");
    });
    tally.expect("round trip", &[], &[]);
}

fn read(text: &[u8], base: usize) -> Result<i64, Refusal> {
    strlib::read_number(text, StrPtr::new(0, text.len(), text.len()), base)
}

#[test]
fn texts_at_the_bounds() {
    let seven = Err(Refusal(7));
    let eight = Err(Refusal(8));
    assert_eq!(read(b"-0", 10), Ok(0)); // M
    assert_eq!(read(b"34359738368", 10), eight); // N
    assert_eq!(read(b"34359738367", 10), Ok(GREATEST));
    assert_eq!(read(b"-34359738368", 10), Ok(LEAST));
    assert_eq!(read(b"-34359738369", 10), eight);
    assert_eq!(read(&[b'1'; 35], 2), Ok(GREATEST));
    assert_eq!(read(&[b'1'; 36], 2), eight);
    assert_eq!(read(b"-100000000000000000000000000000000000", 2), Ok(LEAST));
    assert_eq!(read(b"-100000000000000000000000000000000001", 2), eight);
    assert_eq!(read(b"  -7", 8), Ok(-7));
    for text in [
        b"".as_slice(),
        b" ",
        b"-",
        b"  -",
        b"- 1",
        b"1 ",
        b"+1",
        b"--1",
        b"1-",
        b"\t1",
        b"8",
        b"99999999999999999999x",
    ] {
        assert_eq!(read(text, 8), seven);
    }
    for wrapping in [
        b"18446744073709551616".as_slice(),
        b"18446744073709551617",
        b"340282366920938463463374607431768211456",
        b"-9223372036854775808",
    ] {
        assert_eq!(read(wrapping, 10), eight);
    }
}

#[test]
fn texts_of_65_536_digits() {
    let mut text = vec![b'0'; 65_536];
    assert_eq!(read(&text, 2), Ok(0));
    text[65_535] = b'1';
    assert_eq!(read(&text, 2), Ok(1));
    text[0] = b'1';
    assert_eq!(read(&text, 2), Err(Refusal(8)));
    text[65_535] = b'2';
    assert_eq!(read(&text, 2), Err(Refusal(7)));
    text[65_535] = 128;
    assert_eq!(read(&text, 2), Err(Refusal(2)));
    text.push(b'0');
    assert_eq!(read(&text, 2), Err(Refusal(3)));
}

#[test]
fn a_number_of_37_characters_is_the_longest() {
    let mut store = [b'?'; 38];
    let short = StrPtr::new(1, 0, 36);
    assert_eq!(
        strlib::write_number(&mut store, short, LEAST, 2),
        Err(Refusal(6))
    );
    assert_eq!(store, [b'?'; 38]);
    let long = StrPtr::new(1, 0, 37);
    assert_eq!(
        strlib::write_number(&mut store, long, LEAST, 2),
        Ok(StrPtr::new(1, 37, 37))
    );
    assert_eq!(&store, b"?-100000000000000000000000000000000000");
    assert_eq!(
        strlib::write_number(&mut store, StrPtr::new(0, 0, 0), LEAST - 1, 2),
        Err(Refusal(8))
    );
}
