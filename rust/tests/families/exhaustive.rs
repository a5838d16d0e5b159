//! The plain search and the translated table on every small list and host.

use super::laid_out;
use crate::oracle::searching::{first_occurrence, is_sure, search};
use crate::support::{cases, Call};
use strlib::{Note, StrList, StrPtr};

/// Every text of up to `longest` letters of the alphabet, the null one first.
fn texts(alphabet: &[u8], longest: usize) -> Vec<Vec<u8>> {
    let mut texts = vec![Vec::new()];
    let mut from = 0;
    for _ in 0..longest {
        let to = texts.len();
        for i in from..to {
            for letter in alphabet {
                let mut text = texts[i].clone();
                text.push(*letter);
                texts.push(text);
            }
        }
        from = to;
    }
    texts
}

/// The strings of list number `i` of all lists of exactly `count` strings.
fn list_number(strings: &[Vec<u8>], count: u32, i: usize) -> Vec<&[u8]> {
    (0..count)
        .map(|k| strings[i / strings.len().pow(k) % strings.len()].as_slice())
        .collect()
}

/// Every list of so many strings of up to `longest` letters of the alphabet, over every one of the hosts.
fn every_list(
    family: &'static str,
    alphabet: &[u8],
    longest: usize,
    count: u32,
    hosts: &[Vec<u8>],
) {
    let strings = texts(alphabet, longest);
    let mut words = vec![0; 31_461];
    cases(family, strings.len().pow(count) as u64, |round| {
        let list = list_number(&strings, count, round.number() as usize);
        let (mut store, pointers) = laid_out(&list);
        let listed = StrList::new(&pointers);
        strlib::translate(&store, &listed, &mut words).unwrap();
        let front = store.len();
        for host in hosts {
            store.truncate(front);
            store.extend_from_slice(host);
            let call = Call::new("search", &store, &list);
            let pointer = StrPtr::new(front, host.len(), host.len());
            let plain = strlib::search(&store, pointer, &listed);
            round.same(&call, "plain", &plain, &search(&store, pointer, &listed));
            let found = first_occurrence(host, &list);
            let found = found.map(|(string, pos1, pos2)| Note { string, pos1, pos2 });
            let run = strlib::run(&store, pointer, &words).map(|run| run.note);
            round.same(&call, "table", &run, &Ok(found));
        }
    });
}

#[test]
fn every_list_of_up_to_3_strings_of_up_to_3_letters() {
    let hosts = texts(b"ab", 8);
    every_list("none", b"ab", 3, 0, &hosts);
    every_list("1 of 3", b"ab", 3, 1, &hosts);
    every_list("2 of 3", b"ab", 3, 2, &hosts);
    every_list("3 of 3", b"ab", 3, 3, &hosts);
}

#[test]
fn every_list_of_4_strings_of_up_to_3_letters() {
    every_list("4 of 3", b"ab", 3, 4, &texts(b"ab", 6));
}

#[test]
fn every_list_of_2_strings_of_up_to_5_letters() {
    every_list("2 of 5", b"ab", 5, 2, &texts(b"ab", 9));
}

#[test]
fn every_list_of_3_strings_of_up_to_2_of_3_letters() {
    let hosts = texts(b"\0b\x7f", 6);
    every_list("3 of 2", b"\0b\x7f", 2, 3, &hosts);
}

#[test]
fn hosts_with_a_character_that_no_string_has() {
    let mut hosts = texts(b"abc", 5);
    hosts.retain(|host| host.contains(&b'c'));
    every_list("foreign", b"ab", 3, 3, &hosts);
}

/// 02, W12: over every host of up to `host_longest` letters, the lists' among them, a run of every list's table reads to the
/// first place at which the answer is sure or one character further, and the whole host where there is no such place.
fn every_run_ends_early(
    family: &'static str,
    alphabet: &[u8],
    longest: usize,
    count: u32,
    host_alphabet: &[u8],
    host_longest: usize,
) {
    let strings = texts(alphabet, longest);
    let hosts = texts(host_alphabet, host_longest);
    let mut words = vec![0; 31_461];
    let mut first_sure = vec![None; hosts.len()];
    let lists = strings.len().pow(count);
    let (mut tried, mut stopped_there, mut one_past, mut nowhere) = (0, 0, 0, 0);
    cases(family, lists as u64, |round| {
        tried += 1;
        let list = list_number(&strings, count, round.number() as usize);
        let (store, pointers) = laid_out(&list);
        strlib::translate(&store, &StrList::new(&pointers), &mut words).unwrap();
        for (i, host) in hosts.iter().enumerate() {
            // with n letters, text p and one letter more are the texts n p + 1 to n p + n
            let shorter = match i {
                0 => None,
                _ => first_sure[(i - 1) / host_alphabet.len()],
            };
            let continuations = strings.iter().map(Vec::as_slice);
            first_sure[i] = match shorter {
                None if is_sure(host, &list, continuations) => Some(host.len()),
                known => known,
            };
            let call = Call::new("run", host, &list);
            let run = strlib::run(host, StrPtr::new(0, host.len(), host.len()), &words).unwrap();
            let Some(place) = first_sure[i] else {
                round.same(&call, "all is read", &run.read, &host.len());
                nowhere += 1;
                continue;
            };
            let named = first_occurrence(&host[..place], &list);
            let note = run.note.map(|note| (note.string, note.pos1, note.pos2));
            round.same(&call, "what is named at the place", &note, &named);
            if run.read != place {
                round.same(&call, "one past the place", &run.read, &(place + 1));
                one_past += 1;
            } else if place < host.len() {
                stopped_there += 1;
            }
        }
    });
    println!("{family}: stopped at the first sure place {stopped_there}, one past it {one_past}; no such place {nowhere}");
    match count {
        _ if tried < lists => {}
        0 => assert_eq!((stopped_there, one_past, nowhere), (0, hosts.len() - 1, 0)),
        1 => assert!(stopped_there == 0 && one_past > 0 && nowhere > 0),
        _ => assert!(stopped_there > 0 && one_past > 0 && nowhere > 0),
    }
}

#[test]
fn every_run_ends_early_over_the_lists_letters() {
    every_run_ends_early("early, none", b"ab", 3, 0, b"abc", 3);
    every_run_ends_early("early, 1 of 4", b"ab", 4, 1, b"ab", 9);
    every_run_ends_early("early, 2 of 4", b"ab", 4, 2, b"ab", 9);
    every_run_ends_early("early, 3 of 3", b"ab", 3, 3, b"ab", 8);
    every_run_ends_early("early, 3 of 2 of 3", b"\0b\x7f", 2, 3, b"\0b\x7f", 6);
}

#[test]
fn every_run_ends_early_over_other_letters_too() {
    every_run_ends_early("early, 2 of 3, foreign", b"ab", 3, 2, b"abc", 6);
    every_run_ends_early("early, 3 of 2, foreign", b"ab", 2, 3, b"abc", 6);
}
