//! NULL with 0 elements, as the header allows it, is the empty memory.

use std::fmt::Debug;
use std::ptr::{null_mut, NonNull};
use strlib::ffi::*;
use strlib::{Place, StrList, StrPtr};

/// The call answers the same for NULL as for the pointer of an empty slice.
fn same<R: PartialEq + Debug>(call: impl Fn(*mut u8) -> R) {
    let empty = NonNull::<u64>::dangling().as_ptr().cast();
    assert_eq!(call(null_mut()), call(empty));
}

#[test]
fn null_with_0_elements_is_empty() {
    let p = StrPtr::new(0, 0, 0);
    let list = StrList::new(&[p, p]);
    let from = Place {
        string: 1,
        character: 1,
    };
    unsafe {
        same(|m| strlib_compare(m, 0, p, p, 0, 0, 0));
        same(|m| strlib_relative(m, 0, p, 0));
        same(|m| strlib_counted(m, 0, p, 1, 0));
        same(|m| strlib_between(m, 0, p, 1, 0));
        same(|m| strlib_trim(m, 0, p));
        same(|m| strlib_relative_part(m, 0, 0));
        same(|m| strlib_counted_part(m, 0, 1, 0));
        same(|m| strlib_between_part(m, 0, 1, 0));
        same(|m| strlib_trimmed_part(m, 0));
        same(|m| strlib_desk_label(m, 0, m, 0));
        same(|m| strlib_copy(m, 0, p, p, true));
        same(|m| strlib_append(m, 0, p, p));
        same(|m| strlib_join(m, 0, p, list, true));
        same(|m| strlib_join_from(m, 0, p, list, from));
        same(|m| strlib_replace(m, 0, p, p, p));
        same(|m| strlib_reverse(m, 0, p));
        same(|m| strlib_reverse_from(m, 0, p, p));
        same(|m| strlib_search(m, 0, p, list));
        same(|m| strlib_search_match_after(m, 0, p, list));
        same(|m| strlib_search_before_match(m, 0, p, list));
        same(|m| strlib_translate(m, 0, list, m.cast(), 0));
        same(|m| strlib_run(m, 0, p, m.cast(), 0));
        same(|m| strlib_burst(strlib_fresh_run(), m, 0, m.cast(), 0));
        same(|m| strlib_clear_tables(m.cast(), 0, 1));
        same(|m| strlib_fill_tables(m.cast(), 0, 1));
        same(|m| strlib_add_characters(m, 0, p, m.cast(), 0, 1));
        same(|m| strlib_remove_characters(m, 0, p, m.cast(), 0, 1));
        same(|m| strlib_find_first(m, 0, p, m.cast(), 0, 1));
        same(|m| strlib_find_last(m, 0, p, m.cast(), 0, 1));
        same(|m| strlib_read_number(m, 0, p, 10));
        same(|m| strlib_write_number(m, 0, p, 1, 10));
        same(|m| strlib_read_cue(m, 0, 64, 128));
        same(|m| strlib_read_labels(m, 0));
        same(|m| strlib_find_label(m, 0, 1, 1));
        same(|m| strlib_label_name(m, 0, 1, 1));
        same(|m| strlib_add_label(m, 0, 0, 1, 1, m, 0));
    }
    // work is done on NULL too: a table from an empty store, run over an empty host
    let mut words = vec![0; strlib::TABLE_MIN];
    let translated =
        unsafe { strlib_translate(null_mut(), 0, list, words.as_mut_ptr(), words.len()) };
    assert_eq!(translated, 0);
    let note = unsafe { strlib_run(null_mut(), 0, p, words.as_ptr(), words.len()) };
    assert_eq!((note.refusal, note.found, note.string), (0, true, 1));
    let burst = unsafe {
        strlib_burst(
            strlib_fresh_run(),
            null_mut(),
            0,
            words.as_ptr(),
            words.len(),
        )
    };
    let carried = burst.carried;
    assert_eq!((burst.refusal, carried.noted, carried.string), (0, true, 1));
}
