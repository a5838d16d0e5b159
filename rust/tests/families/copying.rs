//! Copying, appending, joining, and joining in rounds.

use super::laid_out;
use crate::oracle::{self, copying};
use crate::support::rng::Rng;
use crate::support::{raw, rounds, shapes, Call, ROUNDS};
use strlib::{ffi, Copied, Place, Refusal, Round, StrList, StrPtr};

fn place(rng: &mut Rng, list: &StrList) -> Place {
    let string = match rng.below(8) {
        0 => shapes::position(rng, &[1, list.count.saturating_add(1)]),
        1 => list.count.saturating_add(1),
        _ => 1 + rng.below(list.count.clamp(1, 32)),
    };
    let length = match string {
        1..=32 => list.items[string - 1].length,
        _ => 0,
    };
    let character = match rng.below(6) {
        0 => shapes::position(rng, &[1, length.saturating_add(1)]),
        1 => length.saturating_add(1),
        2 => 1,
        _ => 1 + rng.up_to(length.min(70_000)),
    };
    Place { string, character }
}

#[test]
fn copies_as_the_document_says() {
    let tally = rounds("copying", ROUNDS, |round| {
        let rng = &mut round.rng;
        let store = shapes::store(rng);
        let n = store.len();
        let to = shapes::pointer(rng, n);
        let from = shapes::source(rng, n, to);
        let pad = rng.one_in(2);
        let copied = round.check(
            Call::new("copy", &store, (to, from, pad)),
            |s| copying::copy(s, to, from, pad),
            |s| strlib::copy(s, to, from, pad),
            |s| unsafe { ffi::strlib_copy(s.as_mut_ptr(), n, to, from, pad) },
            raw::copied,
        );
        let appended = round.check(
            Call::new("append", &store, (to, from)),
            |s| copying::append(s, to, from),
            |s| strlib::append(s, to, from),
            |s| unsafe { ffi::strlib_append(s.as_mut_ptr(), n, to, from) },
            raw::copied,
        );
        let clear = round.rng.one_in(2);
        let list = shapes::list(&mut round.rng, n, |rng| match clear {
            true => clear_source(rng, n, to),
            false => shapes::source(rng, n, to),
        });
        let joined = round.check(
            Call::new("join", &store, (to, shapes::shown(&list), pad)),
            |s| copying::join(s, to, &list, pad),
            |s| strlib::join(s, to, &list, pad),
            |s| unsafe { ffi::strlib_join(s.as_mut_ptr(), n, to, list, pad) },
            raw::copied,
        );
        let from = place(&mut round.rng, &list);
        let resumed = round.check(
            Call::new("join_from", &store, (to, shapes::shown(&list), from)),
            |s| copying::join_from(s, to, &list, from),
            |s| strlib::join_from(s, to, &list, from),
            |s| unsafe { ffi::strlib_join_from(s.as_mut_ptr(), n, to, list, from) },
            raw::round,
        );

        for (call, answer) in [("copy", copied), ("append", appended), ("join", joined)] {
            if let Ok(Copied { to, completed }) = answer {
                round.returned(call, &store, to);
                round.met(call, if completed { "completed" } else { "cut" });
            }
        }
        for (call, answer) in [("copy", copied), ("join", joined)] {
            let old = to.length;
            match answer {
                Ok(Copied { to, .. }) if pad && to.length == old && old > 0 => {
                    round.met(call, "to the old length")
                }
                Ok(Copied { to, .. }) if to.length < old => round.met(call, "shorter"),
                _ => {}
            }
        }
        if let Ok(Round {
            to,
            completed,
            next,
        }) = resumed
        {
            round.returned("join_from", &store, to);
            let kind = match (completed, next == from) {
                (true, _) => "completed",
                (false, true) => "nothing moved",
                (false, false) => "to be resumed",
            };
            round.met("join_from", kind);
            if to.length == 0 && !completed && next != from {
                round.met("join_from", "carried on to a character");
            }
        }
    });
    tally.expect("copy", &[1, 2, 3, 5], &["completed", "cut"]);
    tally.expect("copy", &[1, 2, 3, 5], &["to the old length", "shorter"]);
    tally.expect("append", &[1, 2, 3, 5], &["completed", "cut"]);
    tally.expect("join", &[1, 2, 3, 5], &["completed", "cut"]);
    tally.expect("join", &[1, 2, 3, 5], &["to the old length", "shorter"]);
    tally.expect(
        "join_from",
        &[1, 2, 3, 4, 5],
        &[
            "completed",
            "to be resumed",
            "nothing moved",
            "carried on to a character",
        ],
    );
}

/// A good source that shares no byte with a good destination's room.
fn clear_source(rng: &mut Rng, n: usize, to: StrPtr) -> StrPtr {
    if !oracle::good(n, to) {
        shapes::pointer(rng, n)
    } else if rng.one_in(2) {
        shapes::good(rng, 0, to.start)
    } else {
        shapes::good(rng, to.start + to.maximum, n)
    }
}

/// Joins in rounds from (1, 1) until completed; gives the pieces.
fn pieces(store: &mut [u8], to: StrPtr, list: &StrList, most: usize) -> Vec<Vec<u8>> {
    let mut pieces = Vec::new();
    let mut from = Place {
        string: 1,
        character: 1,
    };
    loop {
        let round = strlib::join_from(store, to, list, from).unwrap();
        pieces.push(oracle::characters(store, round.to).to_vec());
        if round.completed || pieces.len() > most {
            return pieces;
        }
        from = round.next;
    }
}

#[test]
fn rounds_of_a_join_complete_when_due() {
    let tally = rounds("round rule", 20_000, |round| {
        let rng = &mut round.rng;
        let room = 1 + rng.up_to(12);
        let length = rng.up_to(30);
        let mut store = vec![b'.'; room];
        store.extend(shapes::characters(rng, length));
        let to = StrPtr::new(0, rng.up_to(room), room);
        let count = rng.pick(&[0, 1, 2, 3, 5, 32]);
        let sources: Vec<StrPtr> = (0..count)
            .map(|_| shapes::good(rng, room, room + length))
            .collect();
        let whole: Vec<u8> = sources
            .iter()
            .flat_map(|source| oracle::characters(&store, *source).to_vec())
            .collect();
        let due = whole.len().div_ceil(room).max(1);

        let pieces = pieces(&mut store.clone(), to, &StrList::new(&sources), due);
        let call = Call::new("rounds", &store, (to, sources));
        round.same(&call, "rounds", &pieces.len(), &due);
        round.same(&call, "pieces", &pieces.concat(), &whole);
        round.met("rounds", if due == 1 { "one" } else { "more" });
        round.met("rounds", "answered");
    });
    tally.expect("rounds", &[], &["one", "more"]);
}

#[test]
fn a_join_of_65_520_characters_in_rounds() {
    let mut store = vec![b'a'; 65_536];
    let to = StrPtr::new(0, 0, 16);
    let list = StrList::new(&[
        StrPtr::new(16, 30_001, 65_520),
        StrPtr::new(9, 0, 0),
        StrPtr::new(30_017, 35_519, 35_519),
    ]);
    let pieces = pieces(&mut store, to, &list, 4_095);
    assert_eq!(pieces.len(), 4_095);
    assert!(pieces.iter().all(|piece| piece == &[b'a'; 16]));
}

#[test]
fn resume_places() {
    let (mut store, strings) = laid_out(&[b"...", b"ab", b"", b"c", b""]);
    let to = strings[0];
    let list = StrList::new(&strings[1..]);
    let mut from = |string, character, maximum| {
        let to = StrPtr::new(to.start, 0, maximum);
        strlib::join_from(&mut store, to, &list, Place { string, character })
            .map(|round| (round.to.length, round.next.string, round.next.character))
            .map_err(|refusal| refusal.0)
    };
    assert_eq!(from(1, 1, 2), Ok((2, 3, 1))); // over the empty string to 'c'
    assert_eq!(from(1, 1, 3), Ok((3, 5, 1))); // only an empty string follows: completed
    assert_eq!(from(1, 3, 1), Ok((1, 5, 1)));
    assert_eq!(from(1, 3, 0), Ok((0, 3, 1)));
    assert_eq!(from(2, 1, 0), Ok((0, 3, 1)));
    assert_eq!(from(3, 2, 0), Ok((0, 5, 1)));
    assert_eq!(from(5, 1, 0), Ok((0, 5, 1)));
    assert_eq!(from(5, 2, 0), Err(4));
    assert_eq!(from(6, 1, 0), Err(4));
    assert_eq!(from(0, 1, 0), Err(4));
    assert_eq!(from(1, 0, 0), Err(4));
    assert_eq!(from(1, 4, 0), Err(4));
    assert_eq!(from(2, 2, 0), Err(4));
    assert_eq!(from(usize::MAX, 1, 0), Err(4));
    assert_eq!(from(1, usize::MAX, 0), Err(4));
}

#[test]
fn the_room_counts_whole() {
    let mut store = *b"abcdefgh";
    let to = StrPtr::new(2, 1, 4);
    let mut copy =
        |start, length| strlib::copy(&mut store, to, StrPtr::new(start, length, 1), false);
    assert_eq!(copy(5, 1), Err(Refusal(5))); // in the unused end of the room
    assert_eq!(copy(2, 1), Err(Refusal(5)));
    assert!(copy(6, 1).is_ok());
    assert!(copy(1, 1).is_ok());
    assert!(copy(3, 0).is_ok());
}

#[test]
fn padding_and_bytes_past_the_length() {
    let (store, strings) = laid_out(&[b"vwxyz", b"ab"]);
    let to = StrPtr::new(0, 4, 5);
    let mut padded = store.clone();
    let answer = strlib::copy(&mut padded, to, strings[1], true).unwrap();
    assert_eq!((answer.to.length, answer.completed), (4, true));
    assert_eq!(padded, b"ab  zab");
    let mut plain = store.clone();
    let answer = strlib::copy(&mut plain, to, strings[1], false).unwrap();
    assert_eq!((answer.to.length, answer.completed), (2, true));
    assert_eq!(plain, b"abxyzab");
    let mut blanked = store.clone();
    let answer = strlib::join(&mut blanked, to, &StrList::new(&[]), true).unwrap();
    assert_eq!((answer.to.length, answer.completed), (4, true));
    assert_eq!(blanked, b"    zab");
    let mut appended = store;
    let answer = strlib::append(&mut appended, to, strings[1]).unwrap();
    assert_eq!((answer.to.length, answer.completed), (5, false));
    assert_eq!(appended, b"vwxyaab");
}
