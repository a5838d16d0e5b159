//! The calls and answers of include/strlib.h as they stand there.
//!
//! Memory is lent as a pointer and a number of elements; what is lent to be written shares no byte with anything else lent to
//! the same call.

use crate::copying::Place;
use crate::pointer::{StrList, StrPtr};

#[repr(C)]
#[derive(Clone, Copy, Debug, Default, PartialEq, Eq)]
pub struct StringAnswer {
    pub refusal: u8,
    pub string: StrPtr,
}

#[repr(C)]
#[derive(Clone, Copy, Debug, Default, PartialEq, Eq)]
pub struct ComparisonAnswer {
    pub refusal: u8,
    pub yes: bool,
    pub sign: i8,
    pub split: usize,
}

#[repr(C)]
#[derive(Clone, Copy, Debug, Default, PartialEq, Eq)]
pub struct CopiedAnswer {
    pub refusal: u8,
    pub completed: bool,
    pub to: StrPtr,
}

#[repr(C)]
#[derive(Clone, Copy, Debug, Default, PartialEq, Eq)]
pub struct RoundAnswer {
    pub refusal: u8,
    pub completed: bool,
    pub to: StrPtr,
    pub next: Place,
}

#[repr(C)]
#[derive(Clone, Copy, Debug, Default, PartialEq, Eq)]
pub struct PartAnswer {
    pub offset: usize,
    pub length: usize,
}

#[repr(C)]
#[derive(Clone, Copy, Debug, Default, PartialEq, Eq)]
pub struct LabelAnswer {
    pub house: bool,
    pub offset: usize,
    pub length: usize,
}

#[repr(C)]
#[derive(Clone, Copy, Debug, Default, PartialEq, Eq)]
pub struct MatchAnswer {
    pub refusal: u8,
    pub found: bool,
    pub number: usize,
    pub before: StrPtr,
    pub matched: StrPtr,
    pub after: StrPtr,
}

#[repr(C)]
#[derive(Clone, Copy, Debug, Default, PartialEq, Eq)]
pub struct SplitAnswer {
    pub refusal: u8,
    pub found: bool,
    pub number: usize,
    pub front: StrPtr,
    pub back: StrPtr,
}

#[repr(C)]
#[derive(Clone, Copy, Debug, Default, PartialEq, Eq)]
pub struct NoteAnswer {
    pub refusal: u8,
    pub found: bool,
    pub string: usize,
    pub pos1: usize,
    pub pos2: usize,
    pub read: usize,
}

/// What a run carries from burst to burst; `string`, `pos1` and `pos2` say nothing unless `noted`.
#[repr(C)]
#[derive(Clone, Copy, Debug, Default, PartialEq, Eq)]
pub struct Carried {
    pub state: usize,
    pub read: usize,
    pub total: usize,
    pub noted: bool,
    pub string: usize,
    pub pos1: usize,
    pub pos2: usize,
    pub stopped: bool,
}

/// On a refusal `carried` is what was given.
#[repr(C)]
#[derive(Clone, Copy, Debug, Default, PartialEq, Eq)]
pub struct BurstAnswer {
    pub refusal: u8,
    pub carried: Carried,
}

#[repr(C)]
#[derive(Clone, Copy, Debug, Default, PartialEq, Eq)]
pub struct CharacterAnswer {
    pub refusal: u8,
    pub found: bool,
    pub code: u8,
    pub position: usize,
}

#[repr(C)]
#[derive(Clone, Copy, Debug, Default, PartialEq, Eq)]
pub struct NumberAnswer {
    pub refusal: u8,
    pub value: i64,
}

#[repr(C)]
#[derive(Clone, Copy, Debug, Default, PartialEq, Eq)]
pub struct CueAnswer {
    pub refusal: u8,
    pub word: u8,
    pub microphone: usize,
    pub loudspeaker: usize,
    pub gain: i64,
}

#[repr(C)]
#[derive(Clone, Copy, Debug, Default, PartialEq, Eq)]
pub struct SizeAnswer {
    pub refusal: u8,
    pub offset: usize,
    pub value: usize,
}

#[repr(C)]
#[derive(Clone, Copy, Debug, Default, PartialEq, Eq)]
pub struct NameAnswer {
    pub refusal: u8,
    pub found: bool,
    pub offset: usize,
    pub place: usize,
    pub length: usize,
}

extern "C" {
    pub fn strlib_is_good(store_length: usize, string: StrPtr) -> bool;

    pub fn strlib_compare(
        store: *const u8,
        store_length: usize,
        string1: StrPtr,
        string2: StrPtr,
        code: usize,
        style: usize,
        translation: i64,
    ) -> ComparisonAnswer;

    pub fn strlib_relative(
        store: *const u8,
        store_length: usize,
        string: StrPtr,
        offset: usize,
    ) -> StringAnswer;
    pub fn strlib_counted(
        store: *const u8,
        store_length: usize,
        string: StrPtr,
        position: usize,
        count: usize,
    ) -> StringAnswer;
    pub fn strlib_between(
        store: *const u8,
        store_length: usize,
        string: StrPtr,
        pos1: usize,
        pos2: usize,
    ) -> StringAnswer;
    pub fn strlib_trim(store: *const u8, store_length: usize, string: StrPtr) -> StringAnswer;

    pub fn strlib_relative_part(bytes: *const u8, bytes_length: usize, offset: usize)
        -> PartAnswer;
    pub fn strlib_counted_part(
        bytes: *const u8,
        bytes_length: usize,
        position: usize,
        count: usize,
    ) -> PartAnswer;
    pub fn strlib_between_part(
        bytes: *const u8,
        bytes_length: usize,
        pos1: usize,
        pos2: usize,
    ) -> PartAnswer;
    pub fn strlib_trimmed_part(bytes: *const u8, bytes_length: usize) -> PartAnswer;
    pub fn strlib_desk_label(
        production: *const u8,
        production_length: usize,
        house: *const u8,
        house_length: usize,
    ) -> LabelAnswer;

    pub fn strlib_copy(
        store: *mut u8,
        store_length: usize,
        destination: StrPtr,
        source: StrPtr,
        pad: bool,
    ) -> CopiedAnswer;
    pub fn strlib_append(
        store: *mut u8,
        store_length: usize,
        destination: StrPtr,
        source: StrPtr,
    ) -> CopiedAnswer;
    pub fn strlib_join(
        store: *mut u8,
        store_length: usize,
        destination: StrPtr,
        list: StrList,
        pad: bool,
    ) -> CopiedAnswer;
    pub fn strlib_join_from(
        store: *mut u8,
        store_length: usize,
        destination: StrPtr,
        list: StrList,
        from: Place,
    ) -> RoundAnswer;

    pub fn strlib_replace(
        store: *mut u8,
        store_length: usize,
        string1: StrPtr,
        string2: StrPtr,
        string3: StrPtr,
    ) -> StringAnswer;
    pub fn strlib_reverse(store: *mut u8, store_length: usize, string: StrPtr) -> StringAnswer;
    pub fn strlib_reverse_from(
        store: *mut u8,
        store_length: usize,
        destination: StrPtr,
        source: StrPtr,
    ) -> StringAnswer;

    pub fn strlib_search(
        store: *const u8,
        store_length: usize,
        host: StrPtr,
        list: StrList,
    ) -> MatchAnswer;
    pub fn strlib_search_match_after(
        store: *const u8,
        store_length: usize,
        host: StrPtr,
        list: StrList,
    ) -> SplitAnswer;
    pub fn strlib_search_before_match(
        store: *const u8,
        store_length: usize,
        host: StrPtr,
        list: StrList,
    ) -> SplitAnswer;

    pub fn strlib_translate(
        store: *const u8,
        store_length: usize,
        list: StrList,
        table: *mut u16,
        table_length: usize,
    ) -> u8;
    pub fn strlib_run(
        store: *const u8,
        store_length: usize,
        host: StrPtr,
        table: *const u16,
        table_length: usize,
    ) -> NoteAnswer;

    pub fn strlib_fresh_run() -> Carried;
    pub fn strlib_burst(
        carried: Carried,
        burst: *const u8,
        burst_length: usize,
        table: *const u16,
        table_length: usize,
    ) -> BurstAnswer;

    pub fn strlib_clear_tables(block: *mut u64, block_length: usize, mask: u64) -> u8;
    pub fn strlib_fill_tables(block: *mut u64, block_length: usize, mask: u64) -> u8;
    pub fn strlib_add_characters(
        store: *const u8,
        store_length: usize,
        string: StrPtr,
        block: *mut u64,
        block_length: usize,
        mask: u64,
    ) -> u8;
    pub fn strlib_remove_characters(
        store: *const u8,
        store_length: usize,
        string: StrPtr,
        block: *mut u64,
        block_length: usize,
        mask: u64,
    ) -> u8;
    pub fn strlib_find_first(
        store: *const u8,
        store_length: usize,
        host: StrPtr,
        block: *const u64,
        block_length: usize,
        mask: u64,
    ) -> CharacterAnswer;
    pub fn strlib_find_last(
        store: *const u8,
        store_length: usize,
        host: StrPtr,
        block: *const u64,
        block_length: usize,
        mask: u64,
    ) -> CharacterAnswer;

    pub fn strlib_read_number(
        store: *const u8,
        store_length: usize,
        string: StrPtr,
        base: usize,
    ) -> NumberAnswer;
    pub fn strlib_write_number(
        store: *mut u8,
        store_length: usize,
        destination: StrPtr,
        value: i64,
        base: usize,
    ) -> StringAnswer;

    pub fn strlib_read_cue(
        line: *const u8,
        line_length: usize,
        microphones: usize,
        loudspeakers: usize,
    ) -> CueAnswer;
    pub fn strlib_read_labels(list: *const u8, list_length: usize) -> SizeAnswer;
    pub fn strlib_find_label(
        list: *const u8,
        list_length: usize,
        kind: usize,
        number: usize,
    ) -> NameAnswer;
    pub fn strlib_label_name(
        list: *const u8,
        list_length: usize,
        kind: usize,
        number: usize,
    ) -> PartAnswer;
    pub fn strlib_add_label(
        buffer: *mut u8,
        buffer_length: usize,
        length: usize,
        kind: usize,
        number: usize,
        name: *const u8,
        name_length: usize,
    ) -> SizeAnswer;
}
