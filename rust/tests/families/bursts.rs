//! 02, W5: a host in bursts, over translated, damaged and made-up tables, and from anything that is said to be carried.

use super::table::{damaged, host_of, made_up, random_words, Rooms};
use crate::oracle::{self, bursts, table};
use crate::support::rng::Rng;
use crate::support::{rounds, shapes, Call, Outcome, Round, ROUNDS};
use strlib::{ffi, BurstRun, Carried, Note, Refusal, Run, StrPtr, BURST_MAX};

/// As C has it; without a note the three numbers say nothing, and `noise` stands there.
fn raw(carried: &Carried, noise: usize) -> ffi::Carried {
    let none = Note {
        string: noise,
        pos1: noise,
        pos2: noise,
    };
    let Note { string, pos1, pos2 } = carried.note.unwrap_or(none);
    ffi::Carried {
        state: carried.state,
        read: carried.read,
        total: carried.total,
        noted: carried.note.is_some(),
        string,
        pos1,
        pos2,
        stopped: carried.stopped,
    }
}

fn answer_of(carried: &Carried) -> Run {
    Run {
        note: carried.note,
        read: carried.read,
    }
}

/// One burst in the three ways. On a refusal C gives back what it was given, noise included, and the wrapper's run is as it was.
fn burst(
    round: &mut Round,
    name: &'static str,
    given: &Carried,
    bytes: &Vec<u8>,
    words: &[u16],
) -> Result<Carried, Refusal> {
    let noise = round.rng.pick(&[0, 1, 33, usize::MAX]);
    let front: Vec<u16> = words.iter().take(3).copied().collect();
    round.check(
        Call::new(name, bytes, (given, words.len(), front)),
        |b| bursts::burst(given, b, words),
        |b| {
            let mut run = BurstRun::carrying(*given);
            let answer = run.push(b, words);
            match answer {
                Ok(answer) => assert_eq!(answer, answer_of(&run.carried())),
                Err(_) => assert_eq!(run.carried(), *given),
            }
            answer.map(|_| run.carried())
        },
        |b| unsafe {
            let (words, n) = (words.as_ptr(), words.len());
            ffi::strlib_burst(raw(given, noise), b.as_ptr(), b.len(), words, n)
        },
        |answer| match answer {
            Ok(carried) => ffi::BurstAnswer {
                refusal: 0,
                carried: raw(carried, 0),
            },
            Err(Refusal(refusal)) => ffi::BurstAnswer {
                refusal: *refusal,
                carried: raw(given, noise),
            },
        },
    )
}

/// The host cut at random into bursts of at most 300, one at least, empty ones among them.
fn cut(rng: &mut Rng, host: &[u8]) -> Vec<Vec<u8>> {
    let most = match host.len() {
        0..1_000 => rng.pick(&[0, 1, 2, 5, 20, 299, 300]),
        _ => 300,
    };
    let mut bursts = Vec::new();
    let mut rest = host;
    while !rest.is_empty() || bursts.is_empty() {
        let length = match (most, rng.below(4)) {
            (0, _) | (_, 0) => rng.pick(&[0, 1, 300]),
            _ => rng.up_to(most),
        };
        let (burst, behind) = rest.split_at(length.min(rest.len()));
        bursts.push(burst.to_vec());
        rest = behind;
    }
    if rng.one_in(4) {
        bursts.push(Vec::new());
    }
    bursts
}

fn whole(host: &[u8], words: &[u16]) -> Result<Run, Refusal> {
    let pointer = StrPtr::new(0, host.len(), host.len());
    let answer = table::run(host, pointer, words);
    assert_eq!(strlib::run(host, pointer, words), answer);
    answer
}

/// From a fresh run: after every burst that is taken the answer is that of a whole run over what was delivered, and a burst is refused
/// exactly if that run is, with its number.
fn in_bursts(round: &mut Round, name: &'static str, host: &[u8], words: &[u16]) {
    let mut carried = bursts::fresh();
    let mut delivered = Vec::new();
    let cuts = cut(&mut round.rng, host);
    for bytes in &cuts {
        if round.rng.one_in(30) {
            // A burst that is refused, and of which nothing stays.
            let mut refused = bytes.clone();
            match round.rng.one_in(2) {
                true => refused.resize(301, b'a'),
                false => refused.extend([200; 1]),
            }
            assert!(burst(round, "burst, refused", &carried, &refused, words).is_err());
        }
        let stopped = carried.stopped;
        delivered.extend_from_slice(bytes);
        let answer = burst(round, name, &carried, bytes, words);
        let call = Call::new(name, bytes, (&carried, host));
        let whole = whole(&delivered, words);
        match answer {
            Ok(after) => {
                round.same(&call, "the whole", &whole, &Ok(answer_of(&after)));
                round.same(&call, "the total", &after.total, &delivered.len());
                if stopped {
                    round.met(name, "after the stop");
                } else if after.stopped {
                    round.met(name, "stopped");
                } else if bytes.is_empty() {
                    round.met(name, "empty");
                }
                carried = after;
            }
            Err(refusal) => {
                round.same(&call, "the whole refused", &whole, &Err(refusal));
                if delivered.len() > bytes.len() {
                    round.met(name, "refused behind others");
                }
                return;
            }
        }
    }
    round.met(
        name,
        if carried.note.is_some() {
            "found"
        } else {
            "not found"
        },
    );
}

const KINDS: [&str; 5] = ["after the stop", "stopped", "empty", "found", "not found"];

#[test]
fn the_last_answer_is_the_whole_hosts() {
    let mut rooms = Rooms::new();
    let tally = rounds("bursts", ROUNDS, |round| {
        let rng = &mut round.rng;
        let store = shapes::characters(rng, 24);
        let list = shapes::list(rng, store.len(), |rng| shapes::piece(rng, 24));
        if list.count > 32 || oracle::any_not_good(&store, oracle::strings(&list)) {
            return;
        }
        assert!(rooms.translate(round, &store, &list, 31_461));
        let strings: Vec<&[u8]> = oracle::strings(&list)
            .iter()
            .map(|string| oracle::characters(&store, *string))
            .collect();
        let rng = &mut round.rng;
        let mut host = host_of(rng, &strings);
        if rng.one_in(500) {
            let length = rng.pick(&[299, 300, 301, 4_000, 65_536]);
            let letter = shapes::characters(rng, 1)[0];
            host.resize(length, letter);
        }
        if round.rng.one_in(40) {
            shapes::put_bytes_over_127(&mut round.rng, &mut host);
        }
        in_bursts(round, "burst", &host, &rooms.c[..31_461]);
        let words = damaged(&mut round.rng, &rooms.c);
        in_bursts(round, "burst, damaged", &host, &words);
    });
    // Of a translated table no burst of characters is refused.
    tally.expect("burst", &[2], &KINDS);
    tally.expect("burst, damaged", &[2, 10], &KINDS);
    tally.expect("burst, damaged", &[2, 10], &["refused behind others"]);
}

#[test]
fn made_up_words_in_bursts() {
    let tally = rounds("bursts of made-up tables", ROUNDS, |round| {
        let rng = &mut round.rng;
        let letters = rng.pick(&[b"ab".as_slice(), b"abc", b"\0\x7f", b"a"]);
        let words = match rng.below(12) {
            0 => random_words(rng),
            _ => made_up(rng, letters),
        };
        let length = rng.up_to(14);
        let host: Vec<u8> = (0..length).map(|_| rng.pick(letters)).collect();
        in_bursts(round, "burst", &host, &words);
    });
    tally.expect("burst", &[10], &KINDS);
    tally.expect("burst", &[10], &["refused behind others"]);
}

/// Something that is carried without a fault over a table of so many states.
fn carried(rng: &mut Rng, states: usize) -> Carried {
    let read = rng.pick(&[0, 1, 2, 9, 300, 65_000, 65_535, 65_536]);
    let total = match rng.below(3) {
        0 => read,
        _ => read + rng.up_to(65_536 - read),
    };
    let state = rng.below(states);
    let note = rng.one_in(2).then(|| {
        let pos2 = 1 + rng.pick(&[0, read / 2, read]);
        Note {
            string: rng.pick(&[1, 2, 31, 32]),
            pos1: 1 + rng.up_to(pos2 - 1),
            pos2,
        }
    });
    Carried {
        state,
        read,
        total,
        note,
        stopped: state == 0,
    }
}

const SPOILED: [&str; 10] = [
    "state S",
    "state 0, not stopped",
    "stopped, state 1",
    "total under read",
    "string 0",
    "string 33",
    "pos2 over read + 1",
    "pos1 0",
    "pos1 over pos2",
    "total over 65,536",
];

/// Puts one fault in; gives what it is and the refusal.
fn spoiled(rng: &mut Rng, states: usize, carried: &mut Carried) -> (&'static str, u8) {
    let note = carried.note.get_or_insert(Note {
        string: 1,
        pos1: 1,
        pos2: 1,
    });
    let huge = usize::MAX - rng.up_to(3);
    match rng.below(10) {
        0 => {
            (carried.state, carried.stopped) = (rng.pick(&[states, states + 1, huge]), false);
            ("state S", 10)
        }
        1 => {
            (carried.state, carried.stopped) = (0, false);
            ("state 0, not stopped", 10)
        }
        2 => {
            (carried.state, carried.stopped) = (1 + rng.below(states - 1), true);
            ("stopped, state 1", 10)
        }
        3 => {
            // The note stays one that a run could make.
            (carried.read, carried.total) = (carried.read + 1, rng.up_to(carried.read));
            ("total under read", 10)
        }
        4 => {
            note.string = 0;
            ("string 0", 10)
        }
        5 => {
            note.string = rng.pick(&[33, 34, 256 + 5, huge]);
            ("string 33", 10)
        }
        6 => {
            note.pos2 = rng.pick(&[carried.read + 2, carried.read + 3, huge]);
            ("pos2 over read + 1", 10)
        }
        7 => {
            note.pos1 = 0;
            ("pos1 0", 10)
        }
        8 => {
            note.pos1 = rng.pick(&[note.pos2 + 1, note.pos2 + 2, huge]);
            ("pos1 over pos2", 10)
        }
        _ => {
            carried.total = rng.pick(&[65_537, 70_000, huge]);
            ("total over 65,536", 3)
        }
    }
}

#[test]
fn anything_may_be_said_to_be_carried() {
    let tally = rounds("carried", ROUNDS, |round| {
        let rng = &mut round.rng;
        let words = made_up(rng, b"ab");
        let states = 2 + rng.below(6);
        let mut given = carried(rng, states);
        let mut bytes: Vec<u8> = match rng.below(12) {
            0 => vec![b'a'; rng.pick(&[299, 300, 301, 302])],
            _ => {
                let length = rng.up_to(4);
                (0..length).map(|_| rng.pick(b"ab")).collect()
            }
        };
        if rng.one_in(12) {
            shapes::put_bytes_over_127(rng, &mut bytes);
        }
        let answer = burst(round, "burst", &given, &bytes, &words);
        if answer.is_ok() && given.stopped {
            round.met("burst", "after the stop");
        }
        if answer.refusal() != 0 && given.stopped {
            round.met("burst", "refused after the stop");
        }
        if answer.is_ok() && given.note.is_some_and(|note| note.pos2 == given.read + 1) {
            round.met("burst", "pos2 read + 1");
        }
        // One thing wrong, a table that is none of the reasons, and a burst of few characters.
        let mut words = vec![0; 1 + 130 * states];
        words[0] = states as u16;
        let rng = &mut round.rng;
        given.total = given.total.min(65_536 - 4);
        given.read = given.read.min(given.total);
        if let Some(note) = &mut given.note {
            note.pos2 = note.pos2.min(given.read + 1);
            note.pos1 = note.pos1.min(note.pos2);
        }
        bytes.clear();
        bytes.resize(rng.up_to(4), b'b');
        assert!(burst(round, "burst, one fault", &given, &bytes, &words).is_ok());
        let (kind, refusal) = spoiled(&mut round.rng, states, &mut given);
        let answer = burst(round, "burst, one fault", &given, &bytes, &words);
        let call = Call::new("burst, one fault", &bytes, (kind, &given, states));
        round.same(&call, kind, &answer, &Err(Refusal(refusal)));
        round.met("burst, one fault", kind);
    });
    tally.expect(
        "burst",
        &[2, 3, 10],
        &["after the stop", "refused after the stop", "pos2 read + 1"],
    );
    tally.expect("burst, one fault", &[3, 10], &SPOILED);
}

/// A table of two states: state 1 has f and L, every character leads to `next`; the words of state 0 are 999.
fn two(next: u16, f: u16, l: u16) -> Vec<u16> {
    let mut words = vec![2];
    words.extend([999; 130]);
    words.extend([next; 128]);
    words.extend([f, l]);
    words
}

#[test]
fn a_chain_reaches_65_536_and_no_more() {
    // A run that goes on, and one that stops at its first character.
    for words in [two(1, 0, 0), two(0, 0, 0)] {
        let mut run = BurstRun::fresh();
        for _ in 0..218 {
            run.push(&[b'a'; 300], &words).unwrap();
        }
        let before = run.clone();
        assert_eq!(run.push(&[b'a'; 137], &words), Err(Refusal(3)));
        assert_eq!(run, before);
        let answer = run.push(&[b'a'; 136], &words);
        assert_eq!(answer, whole(&[b'a'; 65_536], &words));
        assert_eq!(run.carried().total, 65_536);
        assert_eq!(run.push(b"a", &words), Err(Refusal(3)));
        assert_eq!(run.push(b"", &words), answer);
    }
}

#[test]
fn edges() {
    assert_eq!(BURST_MAX, 300);
    assert_eq!(BurstRun::fresh().carried(), bursts::fresh());
    let at = |state, read, total, note, stopped| Carried {
        state,
        read,
        total,
        note,
        stopped,
    };
    let note = |string, pos1, pos2| Some(Note { string, pos1, pos2 });
    let refused = |number| Err(Refusal(number));
    for (given, bytes, words, want) in [
        // a fresh run has entered nothing: the answer comes with a burst, an empty one too
        (
            bursts::fresh(),
            vec![],
            two(9, 1, 0),
            Ok(at(1, 0, 0, note(1, 1, 1), false)),
        ),
        // the state is entered anew
        (
            at(1, 3, 3, note(2, 1, 1), false),
            vec![],
            two(9, 1, 0),
            Ok(at(1, 3, 3, note(1, 4, 4), false)),
        ),
        // the state that a burst ends in is entered in that burst
        (bursts::fresh(), vec![b'a'], two(1, 33, 0), refused(10)),
        // after the stop no word of a state is met, and the total grows
        (
            at(0, 1, 2, None, true),
            vec![b'a'; 300],
            two(9, 99, 9),
            Ok(at(0, 1, 302, None, true)),
        ),
        (
            at(0, 1, 2, None, true),
            vec![b'a'; 301],
            two(9, 99, 9),
            refused(3),
        ),
        (
            at(0, 1, 65_536, None, true),
            vec![b'a'],
            two(1, 0, 0),
            refused(3),
        ),
        (
            at(0, 1, 65_536, None, true),
            vec![],
            two(1, 0, 0),
            Ok(at(0, 1, 65_536, None, true)),
        ),
        (at(0, 1, 2, None, true), vec![128], two(1, 0, 0), refused(2)),
        (at(0, 1, 2, None, true), vec![], vec![], refused(10)),
        (at(0, 1, 2, None, true), vec![], vec![1; 131], refused(10)),
        // 3 before 10, and a sum that does not wrap
        (
            at(1, 0, 65_537, None, false),
            vec![],
            two(1, 0, 0),
            refused(3),
        ),
        (
            at(1, 0, usize::MAX, None, false),
            vec![b'a'; 2],
            two(1, 0, 0),
            refused(3),
        ),
        // the carried total, without this burst
        (
            at(1, 4, 3, None, false),
            vec![b'a'; 2],
            two(1, 0, 0),
            refused(10),
        ),
        // no run makes these, and they are taken: the request does not refuse them
        (
            at(1, 4, 9, None, false),
            vec![],
            two(1, 0, 0),
            Ok(at(1, 4, 9, None, false)),
        ),
        (
            at(0, 0, 0, None, true),
            vec![],
            two(1, 0, 0),
            Ok(at(0, 0, 0, None, true)),
        ),
        (
            at(1, 4, 4, note(1, 2, 2), false),
            vec![],
            two(1, 0, 0),
            Ok(at(1, 4, 4, note(1, 2, 2), false)),
        ),
    ] {
        assert_eq!(bursts::burst(&given, &bytes, &words), want);
        let mut run = BurstRun::carrying(given);
        let answer = run.push(&bytes, &words);
        assert_eq!(answer, want.map(|carried| answer_of(&carried)));
        assert_eq!(run.carried(), want.unwrap_or(given));
    }
}
