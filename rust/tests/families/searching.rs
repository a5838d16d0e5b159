//! The plain search.

use super::laid_out;
use crate::oracle::searching as oracle;
use crate::support::{raw, rounds, shapes, Call, ROUNDS};
use strlib::{ffi, StrList, StrPtr};

#[test]
fn searches_as_the_document_says() {
    let tally = rounds("searching", ROUNDS, |round| {
        let rng = &mut round.rng;
        let store = shapes::store(rng);
        let n = store.len();
        let host = match rng.below(2) {
            0 => shapes::pointer(rng, n),
            _ => StrPtr::new(0, n / 2, n - n / 3),
        };
        let list = shapes::list(rng, n, |rng| shapes::piece(rng, n));
        let arguments = (host, shapes::shown(&list));
        let found = round.check(
            Call::new("search", &store, arguments),
            |s| oracle::search(s, host, &list),
            |s| strlib::search(s, host, &list),
            |s| unsafe { ffi::strlib_search(s.as_mut_ptr(), n, host, list) },
            raw::matched,
        );
        let first = round.check(
            Call::new("search_match_after", &store, arguments),
            |s| oracle::search_match_after(s, host, &list),
            |s| strlib::search_match_after(s, host, &list),
            |s| unsafe { ffi::strlib_search_match_after(s.as_mut_ptr(), n, host, list) },
            raw::split,
        );
        let second = round.check(
            Call::new("search_before_match", &store, arguments),
            |s| oracle::search_before_match(s, host, &list),
            |s| strlib::search_before_match(s, host, &list),
            |s| unsafe { ffi::strlib_search_before_match(s.as_mut_ptr(), n, host, list) },
            raw::split,
        );
        for split in [first, second].into_iter().flatten().flatten() {
            round.returned("search", &store, split.front);
            round.returned("search", &store, split.back);
        }
        match found {
            Err(_) => {}
            Ok(None) => round.met("search", "nothing found"),
            Ok(Some(found)) => {
                for part in [found.before, found.matched, found.after] {
                    round.returned("search", &store, part);
                }
                let kind = match (found.matched.length, found.before.length) {
                    (0, 0) => "null string",
                    (_, 0) => "at the front",
                    (_, _) if found.after.length == 0 => "at the end",
                    _ => "inside",
                };
                round.met("search", kind);
                if found.number > 1 {
                    round.met("search", "not the first string");
                }
            }
        }
    });
    let kinds = [
        "nothing found",
        "null string",
        "at the front",
        "at the end",
        "inside",
        "not the first string",
    ];
    tally.expect("search", &[1, 2, 3], &kinds);
    tally.expect("search_match_after", &[1, 2, 3], &[]);
    tally.expect("search_before_match", &[1, 2, 3], &[]);
}

/// The string found in a host, its start and its end.
fn found(host: &[u8], list: &[&[u8]]) -> Option<(usize, usize, usize)> {
    let (store, strings) = laid_out(&[&[host], list].concat());
    let found = strlib::search(&store, strings[0], &StrList::new(&strings[1..])).unwrap()?;
    let pos1 = found.matched.start + 1;
    Some((found.number, pos1, pos1 + found.matched.length))
}

#[test]
fn printed_examples() {
    let host = b"0123456789";
    assert_eq!(found(host, &[b"56789", b"34", b"23"]), Some((3, 3, 5))); // A
    assert_eq!(found(host, &[b"34", b"34567"]), Some((1, 4, 6))); // B
    assert_eq!(found(host, &[b"34567", b"34"]), Some((1, 4, 9))); // C
    assert_eq!(found(host, &[b""]), Some((1, 1, 1))); // D
    assert_eq!(found(host, &[b"01234", b""]), Some((1, 1, 6))); // E
    assert_eq!(found(host, &[b"23456", b""]), Some((2, 1, 1))); // F
    assert_eq!(found(b"", &[b"a"]), None); // G
    assert_eq!(found(b"abcx", &[b"abcd", b"bc"]), Some((2, 2, 4))); // H
    assert_eq!(
        found(b"abcdex", &[b"abcdef", b"bc", b"de"]),
        Some((2, 2, 4))
    ); // I
    assert_eq!(found(b"abcd", &[b"abcd", b"bc"]), Some((1, 1, 5)));
    assert_eq!(found(b"", &[b""]), Some((1, 1, 1)));
    assert_eq!(found(b"", &[]), None);
}

#[test]
fn maxima_of_the_parts() {
    let store = b"..abcd....bc";
    let host = StrPtr::new(2, 4, 7);
    let list = StrList::new(&[StrPtr::new(10, 2, 2)]);
    let found = strlib::search(store, host, &list).unwrap().unwrap();
    assert_eq!(found.before, StrPtr::new(2, 1, 1));
    assert_eq!(found.matched, StrPtr::new(3, 2, 2));
    assert_eq!(found.after, StrPtr::new(5, 1, 4));
    let first = strlib::search_match_after(store, host, &list);
    let first = first.unwrap().unwrap();
    assert_eq!(first.front, StrPtr::new(2, 1, 1));
    assert_eq!(first.back, StrPtr::new(3, 3, 6));
    let second = strlib::search_before_match(store, host, &list);
    let second = second.unwrap().unwrap();
    assert_eq!(second.front, StrPtr::new(2, 3, 3));
    assert_eq!(second.back, StrPtr::new(5, 1, 4));
}

#[test]
fn a_longest_host() {
    let mut store = vec![b'a'; 65_536];
    let host = StrPtr::new(0, 65_536, 65_536);
    let last = StrPtr::new(65_534, 2, 2);
    store[65_535] = b'b';
    let found = strlib::search(&store, host, &StrList::new(&[last])).unwrap();
    assert_eq!(found.unwrap().matched, last);
    store.push(b'b');
    let refused = strlib::search(&store, host, &StrList::new(&[last]));
    assert_eq!(refused.unwrap_err().0, 3);
}
