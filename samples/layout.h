/* Where every field of every struct of strlib.h stands, and its type, on x86-64: as in the library's structs of the
 * same fields (#[repr(C)] in crates/, most of them in flat and flat_finds) and in those of rust/src. So are the
 * limits. */
#ifndef LAYOUT_H
#define LAYOUT_H

#include "strlib.h"

#define SIZE(of, size) _Static_assert(sizeof(of) == (size), #of " has another size")
#define FIELD(of, field, offset, type)                                                                         \
    _Static_assert(offsetof(of, field) == (offset) && _Generic(((of *)0)->field, type: true, default: false), \
                   #of "." #field " stands elsewhere or is of another type")

SIZE(size_t, 8);
SIZE(bool, 1);

SIZE(strlib_ptr, 24);
FIELD(strlib_ptr, start, 0, size_t);
FIELD(strlib_ptr, length, 8, size_t);
FIELD(strlib_ptr, maximum, 16, size_t);

SIZE(strlib_list, 776);
SIZE(((strlib_list *)0)->items, 768);
FIELD(strlib_list, items, 0, strlib_ptr *);
FIELD(strlib_list, count, 768, size_t);

SIZE(strlib_place, 16);
FIELD(strlib_place, string, 0, size_t);
FIELD(strlib_place, character, 8, size_t);

SIZE(strlib_carried, 64);
FIELD(strlib_carried, state, 0, size_t);
FIELD(strlib_carried, read, 8, size_t);
FIELD(strlib_carried, total, 16, size_t);
FIELD(strlib_carried, noted, 24, bool);
FIELD(strlib_carried, string, 32, size_t);
FIELD(strlib_carried, pos1, 40, size_t);
FIELD(strlib_carried, pos2, 48, size_t);
FIELD(strlib_carried, stopped, 56, bool);

SIZE(strlib_string, 32);
FIELD(strlib_string, refusal, 0, uint8_t);
FIELD(strlib_string, string, 8, strlib_ptr);

SIZE(strlib_comparison, 16);
FIELD(strlib_comparison, refusal, 0, uint8_t);
FIELD(strlib_comparison, yes, 1, bool);
FIELD(strlib_comparison, sign, 2, int8_t);
FIELD(strlib_comparison, split, 8, size_t);

SIZE(strlib_copied, 32);
FIELD(strlib_copied, refusal, 0, uint8_t);
FIELD(strlib_copied, completed, 1, bool);
FIELD(strlib_copied, to, 8, strlib_ptr);

SIZE(strlib_round, 48);
FIELD(strlib_round, refusal, 0, uint8_t);
FIELD(strlib_round, completed, 1, bool);
FIELD(strlib_round, to, 8, strlib_ptr);
FIELD(strlib_round, next, 32, strlib_place);

SIZE(strlib_part, 16);
FIELD(strlib_part, offset, 0, size_t);
FIELD(strlib_part, length, 8, size_t);

SIZE(strlib_label, 24);
FIELD(strlib_label, house, 0, bool);
FIELD(strlib_label, offset, 8, size_t);
FIELD(strlib_label, length, 16, size_t);

SIZE(strlib_match, 88);
FIELD(strlib_match, refusal, 0, uint8_t);
FIELD(strlib_match, found, 1, bool);
FIELD(strlib_match, number, 8, size_t);
FIELD(strlib_match, before, 16, strlib_ptr);
FIELD(strlib_match, matched, 40, strlib_ptr);
FIELD(strlib_match, after, 64, strlib_ptr);

SIZE(strlib_split, 64);
FIELD(strlib_split, refusal, 0, uint8_t);
FIELD(strlib_split, found, 1, bool);
FIELD(strlib_split, number, 8, size_t);
FIELD(strlib_split, front, 16, strlib_ptr);
FIELD(strlib_split, back, 40, strlib_ptr);

SIZE(strlib_note, 40);
FIELD(strlib_note, refusal, 0, uint8_t);
FIELD(strlib_note, found, 1, bool);
FIELD(strlib_note, string, 8, size_t);
FIELD(strlib_note, pos1, 16, size_t);
FIELD(strlib_note, pos2, 24, size_t);
FIELD(strlib_note, read, 32, size_t);

SIZE(strlib_burst_answer, 72);
FIELD(strlib_burst_answer, refusal, 0, uint8_t);
FIELD(strlib_burst_answer, carried, 8, strlib_carried);

SIZE(strlib_character, 16);
FIELD(strlib_character, refusal, 0, uint8_t);
FIELD(strlib_character, found, 1, bool);
FIELD(strlib_character, code, 2, uint8_t);
FIELD(strlib_character, position, 8, size_t);

SIZE(strlib_number, 16);
FIELD(strlib_number, refusal, 0, uint8_t);
FIELD(strlib_number, value, 8, int64_t);

SIZE(strlib_cue, 32);
FIELD(strlib_cue, refusal, 0, uint8_t);
FIELD(strlib_cue, word, 1, uint8_t);
FIELD(strlib_cue, microphone, 8, size_t);
FIELD(strlib_cue, loudspeaker, 16, size_t);
FIELD(strlib_cue, gain, 24, int64_t);

SIZE(strlib_size, 24);
FIELD(strlib_size, refusal, 0, uint8_t);
FIELD(strlib_size, offset, 8, size_t);
FIELD(strlib_size, value, 16, size_t);

SIZE(strlib_name, 32);
FIELD(strlib_name, refusal, 0, uint8_t);
FIELD(strlib_name, found, 1, bool);
FIELD(strlib_name, offset, 8, size_t);
FIELD(strlib_name, place, 16, size_t);
FIELD(strlib_name, length, 24, size_t);

_Static_assert(STRLIB_STORE_MAX == 65536 && STRLIB_LIST_MAX == 32 && STRLIB_LIST_CHARACTERS_MAX == 240 &&
                   STRLIB_TABLE_MIN == 31461 && STRLIB_BURST_MAX == 300 && STRLIB_BLOCK_WORDS == 128,
               "a limit is another");

#undef SIZE
#undef FIELD

#endif
