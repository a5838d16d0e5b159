//! Pointers, lists and the limits.

use crate::oracle;
use crate::support::{rounds, shapes, Always, Call, ROUNDS};
use strlib::{ffi, StrList, StrPtr};

#[test]
fn is_good_as_the_document_says() {
    let tally = rounds("pointer", ROUNDS, |round| {
        let n = match round.rng.below(4) {
            0 => round
                .rng
                .pick(&[0, 65_536, 65_537, 1 << 32, usize::MAX - 20]),
            _ => round.rng.up_to(40),
        };
        let string = shapes::pointer(&mut round.rng, n);
        let answer = round.check(
            Call::new("is_good", &(), (n, string)),
            |_| Always(oracle::good(n, string)),
            |_| Always(string.is_good(n)),
            |_| unsafe { ffi::strlib_is_good(n, string) },
            |answer| answer.0,
        );
        round.met("is_good", if answer.0 { "good" } else { "not good" });
    });
    tally.expect("is_good", &[], &["good", "not good"]);
}

#[test]
fn sums_do_not_wrap() {
    let most = usize::MAX;
    assert!(StrPtr::new(7, 0, 0).is_good(7));
    assert!(StrPtr::new(0, 7, 7).is_good(7));
    assert!(!StrPtr::new(8, 0, 0).is_good(7));
    assert!(!StrPtr::new(0, 7, 8).is_good(7));
    assert!(!StrPtr::new(0, 5, 4).is_good(7));
    assert!(!StrPtr::new(most, 1, 1).is_good(7));
    assert!(!StrPtr::new(most, 0, 1).is_good(7));
    assert!(!StrPtr::new(most - 3, 2, 5).is_good(7));
    assert!(!StrPtr::new(1, 1, most).is_good(7));
    assert!(!StrPtr::new(most, most, most).is_good(7));
    assert!(StrPtr::new(most, 0, 0).is_good(most));
    assert!(!StrPtr::new(most, 0, 1).is_good(most));
}

#[test]
fn a_list_keeps_its_count() {
    let string = StrPtr::new(0, 0, 0);
    for count in [0, 1, 31, 32, 33, 100] {
        let list = StrList::new(&vec![string; count]);
        assert_eq!(list.count, count);
        let expected = if count <= 32 { Ok(()) } else { Err(3) };
        let answer = strlib::search(b"", string, &list);
        assert_eq!(answer.map(|_| ()).map_err(|refusal| refusal.0), expected);
    }
}
