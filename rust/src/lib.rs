//! Pathferrous for Rust: the proved string library and the desk above it.
//!
//! A store is a slice of bytes that the caller lends, at most 65,536 of them; a string is a [`StrPtr`] into it. Every
//! call takes any bytes, pointers and numbers and checks them itself. A [`Refusal`] changes nothing that was lent; that
//! of a cue line says which word is at fault, if one is ([`CueRefusal`]), that of a label call which record
//! ([`LabelRefusal`]).
//!
//! `tools/build` in the folder above makes the library that this package links; `cargo test --release` compares every
//! call with documents 01 and 02.
//!
//! ```
//! use strlib::{search, StrList, StrPtr};
//!
//! let store = b"0123456789567893423";
//! let host = StrPtr::new(0, 10, 10);
//! let list = StrList::new(&[
//!     StrPtr::new(10, 5, 5), // 56789
//!     StrPtr::new(15, 2, 2), // 34
//!     StrPtr::new(17, 2, 2), // 23
//! ]);
//! let found = search(store, host, &list).unwrap().unwrap();
//! assert_eq!((found.number, found.matched), (3, StrPtr::new(2, 2, 2)));
//! ```

mod bursts;
mod charset;
mod comparing;
mod copying;
mod cutting;
mod desk;
mod editing;
pub mod ffi;
mod number;
mod pointer;
mod searching;
mod table;

pub use bursts::{BurstRun, Carried};
pub use charset::{
    add_characters, clear_tables, fill_tables, find_first, find_last, remove_characters, Character,
};
pub use comparing::{compare, Comparison};
pub use copying::{append, copy, join, join_from, Copied, Place, Round};
pub use cutting::{
    between, between_part, counted, counted_part, desk_label, relative, relative_part, trim,
    trimmed_part,
};
pub use desk::{
    add_label, find_label, label_name, read_cue, read_labels, Cue, CueRefusal, LabelRefusal, Name,
};
pub use editing::{replace, reverse, reverse_from};
pub use number::{read_number, write_number};
pub use pointer::{
    Refusal, StrList, StrPtr, BLOCK_WORDS, BURST_MAX, LIST_CHARACTERS_MAX, LIST_MAX, STORE_MAX,
    TABLE_MIN,
};
pub use searching::{search, search_before_match, search_match_after, Match, Split};
pub use table::{run, translate, Note, Run};
