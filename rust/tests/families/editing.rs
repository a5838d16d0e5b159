//! Replacing and reversing.

use super::laid_out;
use crate::oracle::{self, editing};
use crate::support::rng::Rng;
use crate::support::{raw, rounds, shapes, Call, ROUNDS};
use strlib::{ffi, Refusal, StrPtr};

/// A string with characters and room for more, and with bytes before or behind its room.
fn with_room(rng: &mut Rng, n: usize) -> StrPtr {
    let maximum = rng.up_to(n.min(30));
    let start = rng.pick(&[0, (n - maximum) / 2, n - maximum]);
    let length = maximum - rng.up_to(maximum.min(8));
    StrPtr::new(start, length, maximum)
}

/// A part of a good string by place mostly; else just outside it, or anywhere.
fn part(rng: &mut Rng, n: usize, string: StrPtr) -> StrPtr {
    if !oracle::good(n, string) || rng.one_in(8) {
        return shapes::pointer(rng, n);
    }
    let end = string.start + string.length;
    let mut start = string.start + rng.up_to(string.length);
    let mut length = rng.up_to(end - start);
    match rng.below(12) {
        0 if start > 0 => start = string.start.saturating_sub(1),
        1 if start + length < n => length = (end - start + 1).min(n - start),
        2 if end < n => (start, length) = (end + 1, 0),
        _ => {}
    }
    let maximum = length + shapes::size(rng, n - start - length);
    StrPtr::new(start, length, maximum)
}

#[test]
fn edits_as_the_document_says() {
    let tally = rounds("editing", ROUNDS, |round| {
        let rng = &mut round.rng;
        let store = shapes::store(rng);
        let n = store.len();
        let one = match rng.below(2) {
            0 => shapes::pointer(rng, n),
            _ => with_room(rng, n),
        };
        let two = part(rng, n, one);
        let three = shapes::source(rng, n, one);
        let replaced = round.check(
            Call::new("replace", &store, (one, two, three)),
            |s| editing::replace(s, one, two, three),
            |s| strlib::replace(s, one, two, three),
            |s| unsafe { ffi::strlib_replace(s.as_mut_ptr(), n, one, two, three) },
            raw::string,
        );
        if let Ok(string) = replaced {
            let kind = match (two.length, three.length) {
                (0, 0) => "nothing by nothing",
                (0, _) => "inserted",
                (_, 0) => "taken out",
                (old, new) if new > old => "by a longer",
                (old, new) if new < old => "by a shorter",
                _ => "by as long a one",
            };
            round.met("replace", kind);
            if string.length == string.maximum && string.length > one.length {
                round.met("replace", "room filled");
            }
        }
        let reversed = round.check(
            Call::new("reverse", &store, one),
            |s| editing::reverse(s, one),
            |s| strlib::reverse(s, one),
            |s| unsafe { ffi::strlib_reverse(s.as_mut_ptr(), n, one) },
            raw::string,
        );
        let reversed_from = round.check(
            Call::new("reverse_from", &store, (one, three)),
            |s| editing::reverse_from(s, one, three),
            |s| strlib::reverse_from(s, one, three),
            |s| unsafe { ffi::strlib_reverse_from(s.as_mut_ptr(), n, one, three) },
            raw::string,
        );
        for string in [replaced, reversed, reversed_from].into_iter().flatten() {
            round.returned("edit", &store, string);
        }
    });
    tally.expect(
        "replace",
        &[1, 2, 3, 4, 5, 6],
        &[
            "nothing by nothing",
            "inserted",
            "taken out",
            "by a longer",
            "by a shorter",
            "by as long a one",
            "room filled",
        ],
    );
    tally.expect("reverse", &[1, 2, 3], &[]);
    tally.expect("reverse_from", &[1, 2, 3, 5, 6], &[]);
}

/// 02, W3: a tail of each length moved by each distance, towards the back (characters put in front of it) and towards the
/// front (taken out again), the string at the store's front and at its end.
#[test]
fn a_tail_moves_by_any_distance() {
    let near =
        |places: &[usize]| -> Vec<usize> { places.iter().flat_map(|&k| k - 1..=k + 1).collect() };
    let lengths = [(0..=17).collect(), near(&[64, 128, 1_024, 2_048])].concat();
    let distances = [(1..=9).collect(), near(&[64, 1_024])].concat();
    for &length in &lengths {
        for &distance in &distances {
            let n = length + 2 * distance;
            let store: Vec<u8> = (0..n).map(|i| (i % 127) as u8).collect();
            // the string, then what is put in front of it; or the other way round
            for (start, other) in [(0, length + distance), (distance, 0)] {
                let other = StrPtr::new(other, distance, distance);
                let room = StrPtr::new(start, length, length + distance);
                let front = StrPtr::new(start, 0, 0);
                let (mut want, mut got) = (store.clone(), store.clone());
                let said = editing::replace(&mut want, room, front, other);
                assert_eq!(strlib::replace(&mut got, room, front, other), said);
                assert!(
                    got == want,
                    "{length} towards the back by {distance}, at {start}"
                );
                let longer = said.expect("there is room");
                let front = StrPtr::new(start, distance, distance);
                let nothing = StrPtr::new(other.start, 0, 0);
                let said = editing::replace(&mut want, longer, front, nothing);
                assert_eq!(strlib::replace(&mut got, longer, front, nothing), said);
                assert!(
                    got == want,
                    "{length} towards the front by {distance}, at {start}"
                );
            }
        }
    }
}

#[test]
fn a_shorter_text_leaves_the_bytes_past_it() {
    let mut store = *b"4321";
    let string = StrPtr::new(0, 4, 4);
    let answer = strlib::replace(
        &mut store,
        string,
        StrPtr::new(1, 2, 2),
        StrPtr::new(4, 0, 0),
    );
    assert_eq!(answer, Ok(StrPtr::new(0, 2, 4)));
    assert_eq!(&store, b"4121");
}

#[test]
fn the_replaced_text_is_taken_by_place() {
    let (mut store, strings) = laid_out(&[b"abab__", b"xyz"]);
    let string = StrPtr::new(0, 4, 6);
    let answer = strlib::replace(&mut store, string, StrPtr::new(2, 2, 4), strings[1]);
    assert_eq!(answer, Ok(StrPtr::new(0, 5, 6)));
    assert_eq!(store, b"abxyz_xyz");
}

#[test]
fn places_at_the_bounds_of_string_1() {
    let (mut store, strings) = laid_out(&[b"-", b"ab", b"..", b"x"]);
    let string = StrPtr::new(1, 2, 4);
    let x = strings[3];
    let replace = |start, length| {
        let mut store = store.clone();
        strlib::replace(&mut store, string, StrPtr::new(start, length, length), x)
            .map(|string| string.length)
    };
    assert_eq!(replace(3, 0), Ok(3));
    assert_eq!(replace(1, 0), Ok(3));
    assert_eq!(replace(1, 2), Ok(1));
    assert_eq!(replace(4, 0), Err(Refusal(4)));
    assert_eq!(replace(0, 0), Err(Refusal(4)));
    assert_eq!(replace(2, 2), Err(Refusal(4)));
    let full = StrPtr::new(1, 4, 4);
    let answer = strlib::replace(&mut store, full, StrPtr::new(5, 0, 0), x);
    assert_eq!(answer, Err(Refusal(6)));
}

#[test]
fn the_whole_of_a_longest_store_is_reversed() {
    let mut store: Vec<u8> = (0..65_536).map(|i| (i % 127) as u8).collect();
    let mut expected = store.clone();
    expected.reverse();
    let whole = StrPtr::new(0, 65_536, 65_536);
    assert_eq!(strlib::reverse(&mut store, whole), Ok(whole));
    assert_eq!(store, expected);
}
