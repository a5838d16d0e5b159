//! The label list.

use super::place;
use crate::oracle::desk as oracle;
use crate::support::rng::Rng;
use crate::support::{raw, rounds, Always, Call, ROUNDS};
use strlib::ffi::{self, PartAnswer};
use strlib::{LabelRefusal, Name};

const RECORD: usize = 19;

fn record(kind: usize, number: usize, name: &[u8]) -> Vec<u8> {
    let mut record = vec![kind as u8, (number >> 8) as u8, number as u8];
    record.extend_from_slice(name);
    record.resize(RECORD, 32);
    record
}

fn name(rng: &mut Rng) -> Vec<u8> {
    let length = rng.pick(&[0, 1, 2, 5, 15, 16]);
    (0..length).map(|_| rng.pick(b"Ab ~ \x21")).collect()
}

fn kind_and_number(rng: &mut Rng) -> (usize, usize) {
    let kind = 1 + rng.below(2);
    let most = if kind == 1 { 64 } else { 128 };
    let number = match rng.below(4) {
        0 => rng.pick(&[1, most]),
        1 => 1 + rng.below(most),
        _ => 1 + rng.below(6),
    };
    (kind, number)
}

/// A list without repeated records mostly, damaged in a third of the rounds; one in 200 is long.
fn list(rng: &mut Rng) -> Vec<u8> {
    let mut records = Vec::new();
    if rng.one_in(200) {
        records.extend((1..=64).map(|number| (1, number)));
        records.extend((1..=128).map(|number| (2, number)));
        for i in 0..records.len() {
            let j = rng.up_to(i);
            records.swap(i, j);
        }
        records.truncate(rng.up_to(192));
    } else {
        let repeats = rng.one_in(8);
        for _ in 0..rng.below(6) {
            let record = kind_and_number(rng);
            if repeats || !records.contains(&record) {
                records.push(record);
            }
        }
    }
    let mut list = Vec::new();
    for (kind, number) in records {
        list.extend(record(kind, number, &name(rng)));
    }
    if !list.is_empty() && rng.one_in(3) {
        for _ in 0..1 + rng.below(2) {
            damage(rng, &mut list);
        }
    }
    list
}

fn damage(rng: &mut Rng, list: &mut Vec<u8>) {
    if list.len() < RECORD {
        return;
    }
    let front = RECORD * rng.below(list.len() / RECORD);
    match rng.below(7) {
        0 => list[front] = rng.pick(&[0, 3, 32, 255, list[front] ^ 3]),
        1 => list[front + 1] = rng.pick(&[1, 255]),
        2 => list[front + 2] = rng.pick(&[0, 64, 65, 128, 129, 255]),
        3 | 4 => {
            let i = front + 3 + rng.below(16);
            list[i] = rng.pick(&[0, 31, 126, 127, 128, 255]);
        }
        5 => list.truncate(front + rng.below(RECORD)),
        _ => {
            let length = 1 + rng.below(RECORD);
            list.extend_from_within(front..front + length);
        }
    }
}

/// A kind and number, often those of a record, now and then out of range.
fn lookup(rng: &mut Rng, list: &[u8]) -> (usize, usize) {
    let (kind, number) = kind_and_number(rng);
    match rng.below(16) {
        3..=9 if list.len() >= RECORD => {
            let front = RECORD * rng.below(list.len() / RECORD);
            (list[front] as usize, list[front + 2] as usize)
        }
        0 => {
            let kinds = [0, 3, 255, 256 + 1, 65_536 + 2, (1 << 32) + 1, usize::MAX];
            (rng.pick(&kinds), number)
        }
        1 => (1, rng.pick(&[0, 65, 128, 256 + 1, 65_536 + 1, usize::MAX])),
        2 => (2, rng.pick(&[0, 129, 256 + 1, 65_536 + 1, usize::MAX])),
        _ => (kind, number),
    }
}

#[test]
fn labels_as_the_document_says() {
    let tally = rounds("labels", ROUNDS, |round| {
        let list = list(&mut round.rng);
        let records = round.check(
            Call::new("read_labels", &list, ()),
            |l| oracle::read_labels(l),
            |l| strlib::read_labels(l),
            |l| unsafe { ffi::strlib_read_labels(l.as_mut_ptr(), l.len()) },
            raw::size,
        );
        match records {
            Ok(0) => round.met("read_labels", "no records"),
            Ok(100..) => round.met("read_labels", "100 records or more"),
            Ok(_) => {}
            Err(refusal) => {
                assert!(refusal.offset < list.len(), "{refusal}");
                let before = strlib::read_labels(&list[..refusal.offset]);
                assert_eq!(before, Ok(refusal.offset / RECORD));
                if refusal.offset > 0 {
                    round.met("read_labels", "a later record at fault");
                }
            }
        }

        let (kind, number) = lookup(&mut round.rng, &list);
        let found = round.check(
            Call::new("find_label", &list, (kind, number)),
            |l| oracle::find_label(l, kind, number),
            |l| strlib::find_label(l, kind, number),
            |l| unsafe { ffi::strlib_find_label(l.as_mut_ptr(), l.len(), kind, number) },
            raw::name,
        );
        match found {
            Err(_) => {}
            Ok(None) => round.met("find_label", "no record"),
            Ok(Some(Name { length: 0, .. })) => round.met("find_label", "blank name"),
            Ok(Some(Name { length: 16, .. })) => round.met("find_label", "whole name"),
            Ok(Some(_)) => round.met("find_label", "trimmed name"),
        }
        let part = round.check(
            Call::new("label_name", &list, (kind, number)),
            |l| Always(oracle::label_name(l, kind, number)),
            |l| Always(place(l, strlib::label_name(l, kind, number))),
            |l| unsafe { ffi::strlib_label_name(l.as_mut_ptr(), l.len(), kind, number) },
            |Always((offset, length))| PartAnswer {
                offset: *offset,
                length: *length,
            },
        );
        let kind = match part {
            Always((0, 0)) => "empty at the front",
            Always((_, 0)) => "empty at its place",
            Always(_) => "a name",
        };
        round.met("label_name", kind);

        add(round, list);
    });
    let kinds = [
        "no records",
        "100 records or more",
        "a later record at fault",
    ];
    tally.expect("read_labels", &[2, 11, 12, 13, 14], &kinds);
    let kinds = ["no record", "blank name", "whole name", "trimmed name"];
    tally.expect("find_label", &[2, 11, 12, 13, 14], &kinds);
    let kinds = ["empty at the front", "empty at its place", "a name"];
    tally.expect("label_name", &[], &kinds);
    let kinds = [
        "room for more",
        "buffer filled",
        "4 for the name",
        "14 behind a good list",
        "14 in the list",
    ];
    tally.expect("add_label", &[2, 4, 6, 11, 12, 13, 14], &kinds);
}

/// Adds a record behind the list in a buffer.
fn add(round: &mut crate::support::Round, list: Vec<u8>) {
    let rng = &mut round.rng;
    let length = match rng.below(24) {
        0 => list.len() + 1 + rng.below(60),
        1 => rng.pick(&[usize::MAX, usize::MAX - 18, 1 << 63]),
        2 => rng.up_to(list.len()),
        _ => list.len(),
    };
    let mut buffer = list;
    let room = rng.pick(&[0, 5, 18, 19, 19, 20, 38, 50]);
    buffer.extend((0..room).map(|i| 200 + i as u8));
    let (kind, number) = match rng.below(2) {
        0 => lookup(rng, &buffer),
        _ => kind_and_number(rng),
    };
    let mut name = name(rng);
    match rng.below(12) {
        0 => name.resize(17, 32),
        1 => name.resize(17 + rng.below(30), 128),
        2 => name.push(rng.pick(&[31, 127, 128, 255, 0])),
        _ => {}
    }
    let answer = round.check(
        Call::new("add_label", &(buffer, name.clone()), (length, kind, number)),
        |(b, name)| oracle::add_label(b, length, kind, number, name),
        |(b, name)| strlib::add_label(b, length, kind, number, name),
        |(b, name)| unsafe {
            let (buffer, text) = (b.as_mut_ptr(), name.as_mut_ptr());
            ffi::strlib_add_label(buffer, b.len(), length, kind, number, text, name.len())
        },
        raw::size,
    );
    match answer {
        Ok(_) if room == RECORD => round.met("add_label", "buffer filled"),
        Ok(_) => round.met("add_label", "room for more"),
        Err(LabelRefusal { number, offset }) => match number {
            4 if name.len() > 16 => round.met("add_label", "4 for the name"),
            14 if offset == length => round.met("add_label", "14 behind a good list"),
            14 => round.met("add_label", "14 in the list"),
            _ => {}
        },
    }
}

/// All 192 records that a good list can hold.
fn fullest_list() -> Vec<u8> {
    let microphones = (1..=64).map(|number| record(1, number, b"Mic"));
    let loudspeakers = (1..=128).map(|number| record(2, number, b"Speaker"));
    microphones.chain(loudspeakers).flatten().collect()
}

#[test]
fn a_list_of_192_records_is_the_fullest() {
    let mut list = fullest_list();
    assert_eq!(list.len(), 3_648);
    assert_eq!(strlib::read_labels(&list), Ok(192));
    assert_eq!(strlib::label_name(&list, 1, 64), b"Mic");
    assert_eq!(strlib::label_name(&list, 2, 128), b"Speaker");
    let name = strlib::find_label(&list, 2, 128).unwrap().unwrap();
    assert_eq!((name.place, name.length), (191 * 19 + 3, 7));
    list.extend(record(2, 128, b"again"));
    let repeated = LabelRefusal {
        number: 14,
        offset: 3_648,
    };
    assert_eq!(strlib::read_labels(&list), Err(repeated));
    assert_eq!(strlib::find_label(&list, 3, 0), Err(repeated));
    let added = strlib::add_label(&mut list, 3_648, 1, 64, b"again");
    assert_eq!(added, Err(repeated));
    assert_eq!(repeated.to_string(), "refusal 14 at offset 3648");
}

#[test]
fn a_list_is_written_record_by_record() {
    let full = fullest_list();
    let mut buffer = vec![255; full.len() + 7];
    let mut length = 0;
    for record in full.chunks(RECORD) {
        let number = record[2] as usize;
        let name: &[u8] = if record[0] == 1 { b"Mic" } else { b"Speaker" };
        let kind = record[0] as usize;
        length = strlib::add_label(&mut buffer, length, kind, number, name).unwrap();
    }
    assert_eq!(length, full.len());
    assert_eq!(buffer[..length], full);
    assert_eq!(buffer[length..], [255; 7]);
}

#[test]
fn records_by_hand() {
    let read = |list: &[u8]| strlib::read_labels(list).map_err(|r| (r.number, r.offset));
    assert_eq!(read(b""), Ok(0));
    assert_eq!(read(&[0]), Err((11, 0)));
    assert_eq!(read(&[1]), Err((13, 0)));
    assert_eq!(read(&record(1, 64, b"x")), Ok(1));
    assert_eq!(read(&record(1, 65, b"x")), Err((12, 0)));
    assert_eq!(read(&record(2, 128, b"x")), Ok(1));
    assert_eq!(read(&record(2, 129, b"x")), Err((12, 0)));
    assert_eq!(read(&record(2, 0, b"x")), Err((12, 0)));
    assert_eq!(read(&record(2, 256 + 1, b"x")), Err((12, 0)));
    assert_eq!(read(&record(2, 0, b"\x7f")), Err((12, 0))); // 12 before 2
    assert_eq!(read(&record(3, 0, b"\x7f")), Err((11, 0)));
    assert_eq!(read(&record(2, 1, b"\x7f")), Err((2, 0)));
    assert_eq!(read(&record(2, 1, b"\x1f")), Err((2, 0)));
    assert_eq!(read(&record(2, 1, b" ~")), Ok(1));
    assert_eq!(read(&record(2, 0, b"x")[..18]), Err((13, 0))); // a short body before its number
    let twice = [record(1, 1, b"x"), record(1, 1, b"\x7f")].concat();
    assert_eq!(read(&twice), Err((2, 19))); // 2 before 14
    let twice = [record(1, 1, b"x"), record(2, 1, b"x"), record(1, 1, b"x")].concat();
    assert_eq!(read(&twice), Err((14, 38)));
    assert_eq!(read(&twice[..38]), Ok(2));
    let blank = record(1, 9, b"");
    let name = strlib::label_name(&blank, 1, 9);
    assert_eq!((name.len(), name.as_ptr()), (0, blank[3..].as_ptr()));
    let none = strlib::label_name(&blank, 1, 8);
    assert_eq!((none.len(), none.as_ptr()), (0, blank.as_ptr()));
}

#[test]
fn the_writer_refuses_in_order() {
    let mut buffer = record(1, 1, b"x");
    buffer.resize(38, 7);
    let before = buffer.clone();
    let mut add = |length, kind, number, name: &[u8]| {
        strlib::add_label(&mut buffer, length, kind, number, name).map_err(|r| (r.number, r.offset))
    };
    let long = b"seventeen letters";
    assert_eq!(add(39, 3, 0, long), Err((4, 39)));
    assert_eq!(add(usize::MAX, 3, 0, long), Err((4, usize::MAX)));
    assert_eq!(add(38, 3, 0, long), Err((11, 19))); // the list's second record
    assert_eq!(add(20, 1, 2, b""), Err((11, 19)));
    assert_eq!(add(19, 3, 0, long), Err((11, 19)));
    assert_eq!(add(19, 1, 0, long), Err((12, 19)));
    assert_eq!(add(19, 1, 65, long), Err((12, 19)));
    assert_eq!(add(19, 1, 1, b"\x7f0123456789abcdef"), Err((4, 19)));
    assert_eq!(add(19, 1, 1, b"\x7f"), Err((2, 19)));
    assert_eq!(add(19, 1, 1, b""), Err((14, 19)));
    assert_eq!(add(19, 1, 2, b"0123456789abcdef"), Ok(38));
    assert_eq!(add(38, 2, 1, b"\x7f"), Err((2, 38)));
    assert_eq!(add(38, 1, 2, b""), Err((14, 38)));
    assert_eq!(add(38, 2, 1, b""), Err((6, 38)));
    assert_eq!(add(0, 2, 128, b""), Ok(19));
    assert_eq!(buffer[19..], record(1, 2, b"0123456789abcdef"));
    assert_eq!(buffer[..19], record(2, 128, b""));
    assert_eq!(before[..19], record(1, 1, b"x"));
}
