//! The search table: translated lists run over hosts, and runs over made-up words.

use super::laid_out;
use crate::oracle::searching::{first_occurrence, is_sure};
use crate::oracle::{self, table};
use crate::support::rng::Rng;
use crate::support::{raw, rounds, shapes, Call, Outcome, Round, ROUNDS};
use strlib::{ffi, Note, Refusal, Run, StrList, StrPtr, LIST_CHARACTERS_MAX, TABLE_MIN};

const ROOM: usize = 31_600;

/// Three tables with the same words: one for each way to call, and the words as they were.
pub(super) struct Rooms {
    wrapper: Vec<u16>,
    pub(super) c: Vec<u16>,
    before: Vec<u16>,
}

impl Rooms {
    pub(super) fn new() -> Rooms {
        let noise: Vec<u16> = (0..ROOM).map(|i| (i as u16).wrapping_mul(40_503)).collect();
        Rooms {
            wrapper: noise.clone(),
            c: noise.clone(),
            before: noise,
        }
    }

    /// Translates both ways. A refusal leaves every word; else S is 2 to 242 and every word past 1 + 130S stays.
    pub(super) fn translate(
        &mut self,
        round: &mut Round,
        store: &Vec<u8>,
        list: &StrList,
        length: usize,
    ) -> bool {
        let wrapper = &mut self.wrapper;
        let c = &mut self.c;
        let answer = round.check(
            Call::new("translate", store, (shapes::shown(list), length)),
            |s| table::translate_refusal(s, list, length),
            |s| strlib::translate(s, list, &mut wrapper[..length]),
            |s| unsafe {
                ffi::strlib_translate(s.as_mut_ptr(), s.len(), *list, c.as_mut_ptr(), length)
            },
            raw::done,
        );
        let free = match answer {
            Ok(()) => 1 + 130 * self.c[0] as usize,
            Err(_) => 0,
        };
        let call = Call::new("translate", store, (shapes::shown(list), length, free));
        if answer.is_ok() {
            let states = self.c[0];
            round.same(&call, "S in 2 to 242", &(2..=242).contains(&states), &true);
        }
        let kept = self.c[free..] == self.before[free..];
        round.same(&call, "words past the table stay", &kept, &true);
        self.unchanged(round, store);
        self.before[..free].copy_from_slice(&self.c[..free]);
        answer.is_ok()
    }

    fn unchanged(&self, round: &Round, store: &Vec<u8>) {
        let call = Call::new("table", store, ());
        round.same(&call, "both tables", &(self.wrapper == self.c), &true);
    }
}

/// A host made of the list's strings, beginnings of them and other characters.
pub(super) fn host_of(rng: &mut Rng, strings: &[&[u8]]) -> Vec<u8> {
    let mut host = Vec::new();
    for _ in 0..rng.up_to(8) {
        if strings.is_empty() || rng.one_in(4) {
            let length = rng.up_to(3);
            host.extend(shapes::characters(rng, length));
        } else {
            let string = rng.pick(strings);
            let from = if rng.one_in(3) {
                rng.up_to(string.len())
            } else {
                0
            };
            let to = from + rng.up_to(string.len() - from);
            host.extend_from_slice(&string[from..to]);
        }
    }
    host
}

/// Runs the table over a host in a store of its own, and compares with the oracle's run.
fn run(
    round: &mut Round,
    name: &'static str,
    store: &Vec<u8>,
    host: StrPtr,
    words: &[u16],
) -> Result<Run, Refusal> {
    let front: Vec<u16> = words.iter().take(3).copied().collect();
    let answer = round.check(
        Call::new(name, store, (host, words.len(), front)),
        |s| table::run(s, host, words),
        |s| strlib::run(s, host, words),
        |s| unsafe { ffi::strlib_run(s.as_mut_ptr(), s.len(), host, words.as_ptr(), words.len()) },
        raw::run,
    );
    let kind = match answer {
        Err(_) => return answer,
        Ok(Run { note: None, read }) if read < host.length => "nothing found, stopped",
        Ok(Run { note: None, .. }) => "nothing found, to the end",
        Ok(Run { read, .. }) if read < host.length => "found, stopped",
        Ok(_) => "found, to the end",
    };
    round.met(name, kind);
    answer
}

fn table_length(rng: &mut Rng) -> usize {
    match rng.below(20) {
        0 => rng.pick(&[0, 1, 131, 31_330, 31_459, 31_460]),
        1 => rng.pick(&[31_462, 31_463, ROOM]),
        _ => 31_461,
    }
}

#[test]
fn a_translated_list_finds_what_the_plain_search_finds() {
    let mut rooms = Rooms::new();
    let tally = rounds("table", ROUNDS, |round| {
        let rng = &mut round.rng;
        let store = shapes::store(rng);
        let n = store.len();
        let longer = rng.one_in(6);
        let list = shapes::list(rng, n, |rng| match longer {
            true => shapes::good(rng, 0, n),
            false => shapes::piece(rng, n),
        });
        let length = table_length(rng);
        if !rooms.translate(round, &store, &list, length) {
            return;
        }
        let strings: Vec<&[u8]> = oracle::strings(&list)
            .iter()
            .map(|string| oracle::characters(&store, *string))
            .collect();
        for _ in 0..2 {
            let rng = &mut round.rng;
            let mut host_store = host_of(rng, &strings);
            let whole = StrPtr::new(0, host_store.len(), host_store.len());
            let host = match rng.below(12) {
                0 => shapes::pointer(rng, host_store.len()),
                _ => whole,
            };
            match rng.below(2_000) {
                0 => host_store.resize(65_537, b'a'),
                1 => host_store.resize(65_536, b'a'),
                2..=60 => shapes::put_bytes_over_127(rng, &mut host_store),
                _ => {}
            }
            let answer = run(round, "run", &host_store, host, &rooms.c[..length]);
            if let Ok(Run { note, .. }) = answer {
                let found = first_occurrence(oracle::characters(&host_store, host), &strings);
                let found = found.map(|(string, pos1, pos2)| Note { string, pos1, pos2 });
                let call = Call::new("run", &host_store, (host, &strings));
                round.same(&call, "what the plain search finds", &note, &found);
            }
            rooms.unchanged(round, &host_store);
            if round.rng.one_in(4) {
                let words = damaged(&mut round.rng, &rooms.c);
                let lent = words.clone();
                run(round, "run, damaged", &host_store, host, &lent).ok();
                let call = Call::new("run, damaged", &host_store, host);
                round.same(&call, "words", &(lent == words), &true);
            }
        }
    });
    tally.expect("translate", &[1, 2, 3, 9], &[]);
    // A translated table is never refused.
    tally.expect("run", &[1, 2, 3], &RUN_KINDS);
    tally.expect("run, damaged", &[1, 2, 3, 10], &RUN_KINDS);
}

/// A translated table with up to 40 words changed, most of them in a way that still makes it a table.
pub(super) fn damaged(rng: &mut Rng, table: &[u16]) -> Vec<u16> {
    let states = table[0] as usize;
    let mut words = table[..1 + 130 * states].to_vec();
    for _ in 0..rng.up_to(40) {
        let row = 1 + 130 * rng.below(states);
        match rng.below(24) {
            0 => words[row + rng.below(130)] = rng.next() as u16,
            1..=3 => words[row + 128] = rng.up_to(32) as u16,
            4..=6 => words[row + 129] = rng.up_to(4) as u16,
            7..=15 => words[row + 97 + rng.below(2)] = rng.below(states) as u16,
            _ => words[row + rng.below(128)] = rng.below(states) as u16,
        }
    }
    words
}

const RUN_KINDS: [&str; 4] = [
    "nothing found, stopped",
    "nothing found, to the end",
    "found, stopped",
    "found, to the end",
];

/// Words in which the rows of a few letters are good, everything else being noise; then damaged in some rounds.
pub(super) fn made_up(rng: &mut Rng, letters: &[u8]) -> Vec<u16> {
    let states = 2 + rng.below(5);
    let mut words: Vec<u16> = (0..1 + 130 * states).map(|_| rng.next() as u16).collect();
    words[0] = states as u16;
    for state in 1..states {
        let row = 1 + 130 * state;
        for letter in letters {
            words[row + *letter as usize] = match rng.below(4) {
                0 => rng.below(states) as u16,
                _ => 1 + rng.below(states - 1) as u16,
            };
        }
        words[row + 128] = match rng.below(3) {
            0 => rng.pick(&[1, 2, 3, 31, 32]),
            _ => 0,
        };
        if words[row + 128] > 0 {
            words[row + 129] = if state == 1 { 0 } else { rng.up_to(2) as u16 };
        }
    }
    if rng.one_in(200) {
        // As many states as there may be, or one more.
        words[0] = rng.pick(&[242, 243]);
        words.resize(1 + 130 * words[0] as usize, 32);
    }
    let state = 1 + 130 * (1 + rng.below(states - 1));
    let letter = rng.pick(letters) as usize;
    match rng.below(24) {
        0 => words[0] = rng.pick(&[0, 1, 243, 244, 65_535]),
        1 => words[0] += 1,
        2 => words.truncate(130 * states),
        3 => words.truncate(rng.below(3)),
        4 => words[state + 128] = rng.pick(&[33, 34, 255, 256 + 5, 65_535]),
        5 => (words[state + 128], words[state + 129]) = (32, rng.pick(&[3, 5, 40, 65_535])),
        6 => words[state + letter] = states as u16,
        7 => words[state + letter] = rng.pick(&[states as u16 + 1, 255, 256, 65_535]),
        8 => words.extend([1, 2, 3]),
        _ => {}
    }
    words
}

/// Words that are small numbers, of any length; S may be in range.
pub(super) fn random_words(rng: &mut Rng) -> Vec<u16> {
    let length = rng.up_to(800);
    let most = rng.pick(&[2, 3, 4, 7, 300]);
    (0..length).map(|_| rng.below(most) as u16).collect()
}

#[test]
fn made_up_words_run_as_the_document_says() {
    let tally = rounds("made-up table", ROUNDS, |round| {
        let rng = &mut round.rng;
        let letters = rng.pick(&[b"ab".as_slice(), b"abc", b"\0\x7f", b"a"]);
        let words = match rng.below(12) {
            0 => random_words(rng),
            _ => made_up(rng, letters),
        };
        let length = rng.up_to(14);
        let mut store: Vec<u8> = (0..length).map(|_| rng.pick(letters)).collect();
        if length > 0 && rng.one_in(12) {
            let i = rng.below(length);
            store[i] = rng.below(128) as u8;
        }
        match rng.below(600) {
            0 => store.resize(65_536, letters[0]),
            1 => store.resize(65_537, letters[0]),
            2..=20 => shapes::put_bytes_over_127(rng, &mut store),
            _ => {}
        }
        let host = match rng.below(4) {
            0 => shapes::pointer(rng, store.len()),
            _ => StrPtr::new(0, store.len(), store.len()),
        };
        let lent = words.clone();
        let answer = run(round, "run", &store, host, &lent);
        let call = Call::new("run", &store, (host, &words));
        round.same(&call, "words", &lent, &words);
        if answer.refusal() == 10
            && matches!(words.first(), Some(s @ 2..=6) if words.len() > 130 * *s as usize)
        {
            round.met("run", "refused on the way");
        }
        if answer.is_ok() && words[0] == 242 {
            round.met("run", "242 states");
        }
        if matches!(answer, Ok(Run { note: Some(note), .. }) if note.string == 32) {
            round.met("run", "string 32");
        }
    });
    tally.expect("run", &[1, 2, 3, 10], &RUN_KINDS);
    tally.expect(
        "run",
        &[1, 2, 3, 10],
        &["refused on the way", "string 32", "242 states"],
    );
}

/// A table with one letter's rows good and everything else out of range.
fn words_over_a(states: usize, rows: &[(u16, u16, u16)]) -> Vec<u16> {
    let mut words = vec![65_535; 1 + 130 * states];
    words[0] = states as u16;
    for (i, (next, f, length)) in rows.iter().enumerate() {
        let row = 1 + 130 * (i + 1);
        words[row + b'a' as usize] = *next;
        words[row + 128] = *f;
        words[row + 129] = *length;
    }
    words
}

fn run_over_a(characters: usize, words: &[u16]) -> Result<(Option<Note>, usize), u8> {
    let store = vec![b'a'; characters];
    let host = StrPtr::new(0, characters, characters);
    let answer = strlib::run(&store, host, words);
    assert_eq!(answer, table::run(&store, host, words));
    answer
        .map(|run| (run.note, run.read))
        .map_err(|refusal| refusal.0)
}

#[test]
fn only_words_that_are_met_are_tested() {
    let note = |string, pos1, pos2| Some(Note { string, pos1, pos2 });
    let words = words_over_a(3, &[(2, 0, 65_535), (0, 32, 1)]);
    assert_eq!(run_over_a(0, &words), Ok((None, 0)));
    assert_eq!(run_over_a(1, &words), Ok((note(32, 1, 2), 1)));
    assert_eq!(run_over_a(9, &words), Ok((note(32, 1, 2), 2)));
    assert_eq!(run_over_a(1, &words[..390]), Err(10));
    assert_eq!(run_over_a(0, &[]), Err(10));
    assert_eq!(run_over_a(0, &words_over_a(1, &[])), Err(10));
    assert_eq!(run_over_a(0, &words_over_a(243, &[(0, 0, 0)])), Err(10));
    assert_eq!(
        run_over_a(1, &words_over_a(242, &[(0, 0, 0)])),
        Ok((None, 1))
    );
    assert_eq!(
        run_over_a(1, &words_over_a(3, &[(2, 0, 0), (0, 33, 0)])),
        Err(10)
    );
    assert_eq!(
        run_over_a(1, &words_over_a(3, &[(2, 0, 0), (0, 1, 2)])),
        Err(10)
    );
    assert_eq!(run_over_a(1, &words_over_a(3, &[(3, 0, 0)])), Err(10));
    assert_eq!(
        run_over_a(0, &words_over_a(3, &[(3, 1, 0)])),
        Ok((note(1, 1, 1), 0))
    );
    assert_eq!(run_over_a(0, &words_over_a(3, &[(3, 1, 1)])), Err(10));
    let longest = words_over_a(2, &[(1, 7, 0)]);
    assert_eq!(
        run_over_a(65_536, &longest),
        Ok((note(7, 65_537, 65_537), 65_536))
    );
}

/// Translates the list; gives the refusal, or the note of a run over the host.
fn translated(store: &[u8], strings: &[StrPtr], host: &[u8]) -> Result<Option<Note>, u8> {
    let mut words = vec![9; 31_461];
    strlib::translate(store, &StrList::new(strings), &mut words).map_err(|refusal| refusal.0)?;
    let host_pointer = StrPtr::new(0, host.len(), host.len());
    let answer = strlib::run(host, host_pointer, &words);
    assert_eq!(answer, table::run(host, host_pointer, &words));
    let listed: Vec<&[u8]> = strings
        .iter()
        .map(|string| oracle::characters(store, *string))
        .collect();
    let found = first_occurrence(host, &listed);
    let note = answer.unwrap().note;
    assert_eq!(note.map(|note| (note.string, note.pos1, note.pos2)), found);
    Ok(note)
}

#[test]
fn a_list_of_240_characters_is_the_longest() {
    assert_eq!((LIST_CHARACTERS_MAX, TABLE_MIN), (240, 31_461));
    let mut rng = Rng::of_round(0, "240", 0);
    let store: Vec<u8> = (0..241).map(|_| rng.below(128) as u8).collect();
    let one = [StrPtr::new(0, 240, 241)];
    let found = translated(&store, &one, &store).unwrap();
    assert_eq!(found.map(|note| (note.pos1, note.pos2)), Some((1, 241)));
    assert_eq!(translated(&store, &one, &store[1..]), Ok(None));
    assert_eq!(translated(&store, &[StrPtr::new(0, 241, 241)], b""), Err(9));

    // 32 strings: 31 of 7 characters and one of 23 are 240.
    let mut strings: Vec<StrPtr> = (0..31).map(|i| StrPtr::new(7 * i, 7, 7)).collect();
    strings.push(StrPtr::new(200, 23, 23));
    for string in &strings {
        let host = oracle::characters(&store, *string);
        assert!(translated(&store, &strings, host).unwrap().is_some());
    }
    strings[31].length = 24;
    strings[31].maximum = 24;
    assert_eq!(translated(&store, &strings, b""), Err(9));
    assert_eq!(translated(&store, &[one[0]; 2], b""), Err(9)); // repeated strings count each time

    let list = StrList::new(&one);
    assert_eq!(
        strlib::translate(&store, &list, &mut [0; 31_460]),
        Err(Refusal(9))
    );
}

#[test]
fn long_lists_over_hosts_made_of_them() {
    let mut rooms = Rooms::new();
    let tally = rounds("long lists", 2_000, |round| {
        let rng = &mut round.rng;
        let letters = rng.pick(&[b"ab".as_slice(), b"abc", b"\0\x01\x7f"]);
        let store: Vec<u8> = (0..240).map(|_| rng.pick(letters)).collect();
        let mut strings = Vec::new();
        let mut start = 0;
        while strings.len() < 32 && start < 240 {
            let length = (1 + rng.below(20)).min(240 - start);
            strings.push(StrPtr::new(start, length, length));
            start += length;
        }
        let list = StrList::new(&strings);
        assert!(rooms.translate(round, &store, &list, 31_461));
        let texts: Vec<&[u8]> = strings
            .iter()
            .map(|string| oracle::characters(&store, *string))
            .collect();
        for nth in 0..10 {
            let host_store = host_of(&mut round.rng, &texts);
            let host = StrPtr::new(0, host_store.len(), host_store.len());
            let answer = run(round, "run", &host_store, host, &rooms.c[..31_461]);
            let found = first_occurrence(&host_store, &texts);
            let found = found.map(|(string, pos1, pos2)| Note { string, pos1, pos2 });
            let call = Call::new("run", &host_store, &texts);
            let Run { note, read } = answer.unwrap();
            round.same(&call, "demand 3", &note, &found);
            if nth > 0 {
                continue;
            }
            // 02, W12: what was left unread could change nothing; before the last two that were read, the answer was not sure yet
            let ends = || {
                texts
                    .iter()
                    .flat_map(|text| (0..text.len()).map(|from| &text[from..]))
            };
            let stopped = read == host_store.len() || is_sure(&host_store[..read], &texts, ends());
            round.same(&call, "sure where it stopped", &stopped, &true);
            if read > 1 {
                let late = is_sure(&host_store[..read - 2], &texts, ends());
                round.same(&call, "sure two before", &late, &false);
            }
        }
    });
    tally.expect("translate", &[], &[]);
    tally.expect("run", &[], &["found, stopped", "found, to the end"]);
}

#[test]
fn printed_examples() {
    for (host, list, want) in [
        (
            b"0123456789".as_slice(),
            [b"56789".as_slice(), b"34", b"23"],
            (3, 3, 5),
        ),
        (b"0123456789", [b"34", b"34567", b"34"], (1, 4, 6)),
        (b"0123456789", [b"34567", b"34", b"34"], (1, 4, 9)),
        (b"0123456789", [b"01234", b"", b""], (1, 1, 6)),
        (b"0123456789", [b"23456", b"", b""], (2, 1, 1)),
        (b"abcx", [b"abcd", b"bc", b"bc"], (2, 2, 4)),
        (b"abcdex", [b"abcdef", b"bc", b"de"], (2, 2, 4)),
        (b"abcd", [b"abcd", b"bc", b"d"], (1, 1, 5)),
        (b"", [b"a", b"", b"b"], (2, 1, 1)),
    ] {
        let (store, strings) = laid_out(&list);
        let note = translated(&store, &strings, host).unwrap().unwrap();
        assert_eq!((note.string, note.pos1, note.pos2), want);
    }
    assert_eq!(translated(b"", &[], b"abc"), Ok(None));
    assert_eq!(translated(b"a", &[StrPtr::new(0, 1, 1)], b""), Ok(None));
}
