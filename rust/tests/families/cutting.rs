//! Cutting, the parts of plain bytes, and the desk label.

use super::place;
use crate::oracle::cutting as oracle;
use crate::support::rng::Rng;
use crate::support::{raw, rounds, shapes, Always, Call, ROUNDS};
use strlib::ffi::{self, LabelAnswer, PartAnswer};
use strlib::{Refusal, StrPtr, STORE_MAX};

#[test]
fn cuts_strings_as_the_document_says() {
    let tally = rounds("cutting", ROUNDS, |round| {
        let rng = &mut round.rng;
        let store = shapes::store(rng);
        let string = shapes::pointer(rng, store.len());
        let StrPtr {
            length, maximum, ..
        } = string;

        let offset = shapes::position(rng, &[length, length]);
        let relative = round.check(
            Call::new("relative", &store, (string, offset)),
            |s| oracle::relative(s, string, offset),
            |s| strlib::relative(s, string, offset),
            |s| unsafe { ffi::strlib_relative(s.as_mut_ptr(), s.len(), string, offset) },
            raw::string,
        );

        let rng = &mut round.rng;
        let position = shapes::position(rng, &[1, maximum.saturating_add(1)]);
        let rest = maximum.wrapping_sub(position).wrapping_add(1);
        let count = shapes::position(rng, &[rest, rest, 0]);
        let counted = round.check(
            Call::new("counted", &store, (string, position, count)),
            |s| oracle::counted(s, string, position, count),
            |s| strlib::counted(s, string, position, count),
            |s| unsafe { ffi::strlib_counted(s.as_mut_ptr(), s.len(), string, position, count) },
            raw::string,
        );
        if matches!(counted, Ok(part) if part.length + position > length + 1) {
            round.met("counted", "past the length");
        }

        let (pos1, pos2) = two_positions(&mut round.rng, length);
        let between = round.check(
            Call::new("between", &store, (string, pos1, pos2)),
            |s| oracle::between(s, string, pos1, pos2),
            |s| strlib::between(s, string, pos1, pos2),
            |s| unsafe { ffi::strlib_between(s.as_mut_ptr(), s.len(), string, pos1, pos2) },
            raw::string,
        );
        if between.is_ok() && pos2 == 0 {
            round.met("between", "to the end");
        }

        let trim = round.check(
            Call::new("trim", &store, string),
            |s| oracle::trim(s, string),
            |s| strlib::trim(s, string),
            |s| unsafe { ffi::strlib_trim(s.as_mut_ptr(), s.len(), string) },
            raw::string,
        );
        if let Ok(part) = trim {
            let kept = part.length == length;
            round.met("trim", if kept { "kept" } else { "trimmed" });
        }

        for answer in [relative, counted, between, trim].into_iter().flatten() {
            round.returned("cut", &store, answer);
        }
    });
    tally.expect("relative", &[1, 3, 4], &[]);
    tally.expect("counted", &[1, 3, 4], &["past the length"]);
    tally.expect("between", &[1, 3, 4], &["to the end"]);
    tally.expect("trim", &[1, 2, 3], &["kept", "trimmed"]);
}

/// Two positions around the bounds of so many characters, in order mostly; the second is often 0.
fn two_positions(rng: &mut Rng, length: usize) -> (usize, usize) {
    let end = length.saturating_add(1);
    let pos1 = shapes::position(rng, &[1, end]);
    let pos2 = match rng.below(4) {
        0 => 0,
        1 => shapes::position(rng, &[pos1]),
        _ => shapes::position(rng, &[end]),
    };
    (pos1, pos2)
}

fn raw_part(answer: &Always<(usize, usize)>) -> PartAnswer {
    let Always((offset, length)) = *answer;
    PartAnswer { offset, length }
}

/// Bytes of any kind and length.
fn any_bytes(rng: &mut Rng) -> Vec<u8> {
    match rng.below(4) {
        0 => {
            let length = rng.up_to(6);
            vec![32; length]
        }
        _ => shapes::store(rng),
    }
}

#[test]
fn cuts_plain_bytes_as_the_document_says() {
    let tally = rounds("parts", ROUNDS, |round| {
        let rng = &mut round.rng;
        let bytes = any_bytes(rng);
        let length = bytes.len();
        let offset = shapes::position(rng, &[length]);
        let position = shapes::position(rng, &[1, length + 1]);
        let rest = length.wrapping_sub(position).wrapping_add(1);
        let count = shapes::position(rng, &[rest, rest, 0]);
        let (pos1, pos2) = two_positions(rng, length);
        let relative = round.check(
            Call::new("relative_part", &bytes, offset),
            |b| Always(oracle::relative_part(b, offset)),
            |b| Always(place(b, strlib::relative_part(b, offset))),
            |b| unsafe { ffi::strlib_relative_part(b.as_mut_ptr(), b.len(), offset) },
            raw_part,
        );
        let counted = round.check(
            Call::new("counted_part", &bytes, (position, count)),
            |b| Always(oracle::counted_part(b, position, count)),
            |b| Always(place(b, strlib::counted_part(b, position, count))),
            |b| unsafe { ffi::strlib_counted_part(b.as_mut_ptr(), b.len(), position, count) },
            raw_part,
        );
        let between = round.check(
            Call::new("between_part", &bytes, (pos1, pos2)),
            |b| Always(oracle::between_part(b, pos1, pos2)),
            |b| Always(place(b, strlib::between_part(b, pos1, pos2))),
            |b| unsafe { ffi::strlib_between_part(b.as_mut_ptr(), b.len(), pos1, pos2) },
            raw_part,
        );
        let trimmed = round.check(
            Call::new("trimmed_part", &bytes, ()),
            |b| Always(oracle::trimmed_part(b)),
            |b| Always(place(b, strlib::trimmed_part(b))),
            |b| unsafe { ffi::strlib_trimmed_part(b.as_mut_ptr(), b.len()) },
            raw_part,
        );
        for (call, answer) in [
            ("relative_part", relative),
            ("counted_part", counted),
            ("between_part", between),
            ("trimmed_part", trimmed),
        ] {
            let kind = match answer {
                Always((0, 0)) => "empty at the front",
                Always((_, 0)) => "empty elsewhere",
                Always((0, _)) => "at the front",
                Always(_) => "elsewhere",
            };
            round.met(call, kind);
        }
    });
    let kinds = [
        "empty at the front",
        "at the front",
        "empty elsewhere",
        "elsewhere",
    ];
    for call in ["relative_part", "counted_part", "between_part"] {
        tally.expect(call, &[], &kinds);
    }
    tally.expect("trimmed_part", &[], &kinds[..2]);
}

#[test]
fn shows_the_label_as_the_document_says() {
    let tally = rounds("desk label", ROUNDS, |round| {
        let names = (any_bytes(&mut round.rng), any_bytes(&mut round.rng));
        let answer = round.check(
            Call::new("desk_label", &names, ()),
            |(production, house)| Always(oracle::desk_label(production, house)),
            |(production, house)| {
                let label = strlib::desk_label(production, house);
                let of_house = label.as_ptr() == house.as_ptr();
                let part = place(if of_house { house } else { production }, label);
                Always((of_house, part))
            },
            |(production, house)| unsafe {
                let (one, two) = (production.as_mut_ptr(), house.as_mut_ptr());
                ffi::strlib_desk_label(one, production.len(), two, house.len())
            },
            |Always((house, (offset, length)))| LabelAnswer {
                house: *house,
                offset: *offset,
                length: *length,
            },
        );
        let kind = match answer {
            Always((false, _)) => "production",
            Always((true, (_, 0))) => "house, empty",
            Always((true, _)) => "house",
        };
        round.met("desk_label", kind);
    });
    tally.expect("desk_label", &[], &["production", "house", "house, empty"]);
}

#[test]
fn bounds_of_the_cuts() {
    let store = [b'x'; 10];
    let string = StrPtr::new(2, 3, 5);
    let most = usize::MAX;
    for (answer, want) in [
        (strlib::relative(&store, string, 0), Ok((2, 3, 5))),
        (strlib::relative(&store, string, 3), Ok((5, 0, 2))),
        (strlib::relative(&store, string, 4), Err(4)),
        (strlib::counted(&store, string, 1, 5), Ok((2, 5, 5))),
        (strlib::counted(&store, string, 6, 0), Ok((7, 0, 0))),
        (strlib::counted(&store, string, 7, 0), Err(4)),
        (strlib::counted(&store, string, 0, 0), Err(4)),
        (strlib::counted(&store, string, 2, 5), Err(4)),
        (strlib::counted(&store, string, most, 2), Err(4)),
        (strlib::counted(&store, string, 2, most), Err(4)),
        (strlib::between(&store, string, 1, 0), Ok((2, 3, 3))),
        (strlib::between(&store, string, 4, 0), Ok((5, 0, 0))),
        (strlib::between(&store, string, 4, 4), Ok((5, 0, 0))),
        (strlib::between(&store, string, 2, 3), Ok((3, 1, 2))),
        (strlib::between(&store, string, 3, 2), Err(4)),
        (strlib::between(&store, string, 1, 5), Err(4)),
        (strlib::between(&store, string, 5, 0), Err(4)),
        (strlib::between(&store, string, 0, 0), Err(4)),
        (strlib::between(&store, string, most, most), Err(4)),
    ] {
        let want = want
            .map(|(start, length, maximum)| StrPtr::new(start, length, maximum))
            .map_err(Refusal);
        assert_eq!(answer, want);
    }
}

#[test]
fn a_store_of_65_536_bytes_is_the_longest() {
    assert_eq!(STORE_MAX, 65_536);
    let bytes = vec![b'x'; 65_537];
    let whole = StrPtr::new(0, 65_536, 65_536);
    assert_eq!(strlib::trim(&bytes[..65_536], whole), Ok(whole));
    assert_eq!(strlib::trim(&bytes, whole), Err(Refusal(3)));
    assert_eq!(strlib::trimmed_part(&bytes).len(), 65_537);
    assert_eq!(strlib::relative_part(&bytes, 65_537).len(), 0);
    assert_eq!(strlib::counted_part(&bytes, 65_537, 1), b"x");
}

#[test]
fn a_label_is_the_lent_name_itself() {
    let (production, house) = (*b"Othello  ", *b"Stage left ");
    let label = strlib::desk_label(&production, &house);
    assert_eq!(label, b"Othello");
    assert_eq!(label.as_ptr(), production.as_ptr());
    let label = strlib::desk_label(b"   ", &house);
    assert_eq!(label, b"Stage left");
    assert_eq!(label.as_ptr(), house.as_ptr());
    assert_eq!(strlib::desk_label(b"", b"  ").len(), 0);
    assert_eq!(strlib::desk_label(b"\t", b"x"), b"\t");
}
