//! The plain parallel search: the earliest start, and of strings starting there the first listed.

use crate::ffi::{self, SplitAnswer};
use crate::{Refusal, StrList, StrPtr};

/// The found string's number in the list (from 1), and the host's three parts.
#[derive(Clone, Copy, Debug, PartialEq, Eq)]
pub struct Match {
    pub number: usize,
    pub before: StrPtr,
    pub matched: StrPtr,
    pub after: StrPtr,
}

/// The found string's number in the list (from 1), and the host's two parts.
#[derive(Clone, Copy, Debug, PartialEq, Eq)]
pub struct Split {
    pub number: usize,
    pub front: StrPtr,
    pub back: StrPtr,
}

impl SplitAnswer {
    fn answer(self) -> Result<Option<Split>, Refusal> {
        Refusal::check(self.refusal)?;
        Ok(self.found.then_some(Split {
            number: self.number,
            front: self.front,
            back: self.back,
        }))
    }
}

/// Searches the host for the list's strings: before, match and after. Refusals 3, 1, 2.
pub fn search(store: &[u8], host: StrPtr, list: &StrList) -> Result<Option<Match>, Refusal> {
    let answer = unsafe { ffi::strlib_search(store.as_ptr(), store.len(), host, *list) };
    Refusal::check(answer.refusal)?;
    Ok(answer.found.then_some(Match {
        number: answer.number,
        before: answer.before,
        matched: answer.matched,
        after: answer.after,
    }))
}

/// The same search: before, and match with after. Refusals 3, 1, 2.
pub fn search_match_after(
    store: &[u8],
    host: StrPtr,
    list: &StrList,
) -> Result<Option<Split>, Refusal> {
    unsafe { ffi::strlib_search_match_after(store.as_ptr(), store.len(), host, *list) }.answer()
}

/// The same search: before with match, and after. Refusals 3, 1, 2.
pub fn search_before_match(
    store: &[u8],
    host: StrPtr,
    list: &StrList,
) -> Result<Option<Split>, Refusal> {
    unsafe { ffi::strlib_search_before_match(store.as_ptr(), store.len(), host, *list) }.answer()
}
