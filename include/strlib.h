/* Pathferrous: the calls of the string library and of the desk, for C.
 *
 * Every call takes any bytes, string pointers and numbers and checks them itself. A refusal gives its number (README.md has
 * the table), 0 being none, and changes nothing that was lent. On a refusal all other fields of the answer are 0, down
 * to those of a pointer or place in it, but for three: what strlib_burst's answer carries, which is what was given (see
 * strlib_burst_answer), the `word` of a strlib_cue, and the `offset` of a strlib_size and of a strlib_name. Nothing
 * found is no refusal; then too all fields are 0, `found` with them, but for the number read in a strlib_note and for
 * what a burst's run carries on.
 *
 * Memory is lent as a pointer and a number of elements; with the number 0 the pointer may be NULL. What is lent to be
 * written (a pointer without const) shares no byte with anything else lent to the same call. Each call is proved to
 * answer what its rule says, in crates/<name>/specs.
 */
#ifndef STRLIB_H
#define STRLIB_H

#include <stdbool.h>
#include <stddef.h>
#include <stdint.h>

#ifdef __cplusplus
extern "C" {
#endif

enum {
    STRLIB_STORE_MAX = 65536,         /* bytes in a store */
    STRLIB_LIST_MAX = 32,             /* strings in a list */
    STRLIB_LIST_CHARACTERS_MAX = 240, /* their characters together, where the list is translated */
    STRLIB_TABLE_MIN = 31461,         /* words, at least, where a list is translated */
    STRLIB_BURST_MAX = 300,           /* characters in a burst */
    STRLIB_BLOCK_WORDS = 128          /* words in a block of character sets */
};

/* ---- what is passed */

/* A string in a store: where it starts (from 0), its length, and the maximum that its room takes. It is good if length
 * <= maximum and start + maximum <= the store's length. */
typedef struct { size_t start, length, maximum; } strlib_ptr;

/* The first `count` of these, 0 to 32; the others are ignored. */
typedef struct { strlib_ptr items[STRLIB_LIST_MAX]; size_t count; } strlib_list;

/* Where a checkpointed join resumes: a string of the list and a character of it, both from 1. */
typedef struct { size_t string, character; } strlib_place;

/* What a run carries from burst to burst: its state, the number of characters read, the total delivered, those after
 * the stop included, its last note if `noted` (else string, pos1 and pos2 say nothing), and whether it has stopped. The
 * bools are C's, 0 or 1. */
typedef struct { size_t state, read, total; bool noted; size_t string, pos1, pos2; bool stopped; } strlib_carried;

/* ---- what is answered */

typedef struct { uint8_t refusal; strlib_ptr string; } strlib_string;

/* yes or no; -1, 0 or 1 as string 1 is shorter than, as long as or longer than string 2; the position of the first
 * unequal pair, or the shorter length + 1 where only exact style's length rule decides, or 0 if nothing differs: for
 * yes and no alike */
typedef struct { uint8_t refusal; bool yes; int8_t sign; size_t split; } strlib_comparison;

/* the destination with its new length; completed if nothing was cut */
typedef struct { uint8_t refusal; bool completed; strlib_ptr to; } strlib_copied;

/* the same, and where the next round resumes: (count + 1, 1) exactly when completed */
typedef struct { uint8_t refusal; bool completed; strlib_ptr to; strlib_place next; } strlib_round;

/* a part of the bytes that were lent: where it begins (from 0), and its length */
typedef struct { size_t offset, length; } strlib_part;

/* the desk label: a part of the house name where `house`, else of the production name */
typedef struct { bool house; size_t offset, length; } strlib_label;

/* where found: the string's number in the list (from 1), and the host's parts: before, matched and the two together
 * with maximum = length, what goes to the host's end with the rest of its maximum. Nothing found: 0, and pointers of
 * three times 0. */
typedef struct { uint8_t refusal; bool found; size_t number; strlib_ptr before, matched, after; } strlib_match;
typedef struct { uint8_t refusal; bool found; size_t number; strlib_ptr front, back; } strlib_split;

/* the last note of a table's run where there is one, `found`: string, start and end; without one these three are 0.
 * `read` is the number of characters read, found or not; on a refusal 0. A translated table's run reads at most one
 * character past the first place at which the answer is sure, whatever follows: for a list of no strings at most one.
 * Refusal 2 is of the whole host, read or not. */
typedef struct { uint8_t refusal; bool found; size_t string, pos1, pos2, read; } strlib_note;

/* What is carried on; noted, string, pos1, pos2 and read are the answer for all bursts taken so far (without a note the
 * first four are 0). On a refusal every field of `carried` is as it was given, string, pos1 and pos2 without a note
 * too: a caller may go on from it, and then a refused burst counts for nothing: the answers are those of the text
 * without it. */
typedef struct { uint8_t refusal; strlib_carried carried; } strlib_burst_answer;

/* where found: a host character's code, which may be 0, and its position (from 1); nothing found: both 0 */
typedef struct { uint8_t refusal; bool found; uint8_t code; size_t position; } strlib_character;

typedef struct { uint8_t refusal; int64_t value; } strlib_number;

/* `word` comes with refusal 11 and is 0 else: 0 for a line over 80 characters, else the number of the first wrong or
 * missing fixed word or missing number, the words counted from 1 by their places, else 8 if there is an eighth word */
typedef struct { uint8_t refusal; uint8_t word; size_t microphone, loudspeaker; int64_t gain; } strlib_cue;

/* how many records, or the list's new length; `offset` comes with every refusal and is 0 else: where the faulty
 * record's kind byte lies (from 0), or the list's length where no record in the list is at fault; for strlib_add_label
 * that is the length it was told */
typedef struct { uint8_t refusal; size_t offset; size_t value; } strlib_size;

/* a lookup in the label list; where found: the trimmed name's place in it (from 0) and its length, 0 for a blank name;
 * no record: both 0; `offset` as in strlib_size */
typedef struct { uint8_t refusal; bool found; size_t offset; size_t place, length; } strlib_name;

/* ---- pointers */

bool strlib_is_good(size_t store_length, strlib_ptr string);

/* ---- comparing: refusals 3, 1, 2
 * code 0 equal, 1 not equal, 2 greater or equal, 3 less or equal, 4 greater, 5 less; style 0 padded with blanks, 1
 * exact (equal over the shorter: the longer is greater), 2 ignore (the longer is cut); translation -127 to 127, added
 * to string 2's characters for the extent of the shorter string: not to its pad blanks, and not to its characters past
 * string 1's end; a sum may be negative */

strlib_comparison strlib_compare(const uint8_t *store, size_t store_length, strlib_ptr string1, strlib_ptr string2, size_t code,
                                 size_t style, int64_t translation);

/* ---- cutting: refusals 3, 1, 4; trim 3, 1, 2. Between, pos2 = 0 means length + 1. */

strlib_string strlib_relative(const uint8_t *store, size_t store_length, strlib_ptr string, size_t offset);
strlib_string strlib_counted(const uint8_t *store, size_t store_length, strlib_ptr string, size_t position, size_t count);
strlib_string strlib_between(const uint8_t *store, size_t store_length, strlib_ptr string, size_t pos1, size_t pos2);
strlib_string strlib_trim(const uint8_t *store, size_t store_length, strlib_ptr string);

/* The same cuts of plain bytes of any length: no refusal; bad positions give the empty part at the front. */
strlib_part strlib_relative_part(const uint8_t *bytes, size_t bytes_length, size_t offset);
strlib_part strlib_counted_part(const uint8_t *bytes, size_t bytes_length, size_t position, size_t count);
strlib_part strlib_between_part(const uint8_t *bytes, size_t bytes_length, size_t pos1, size_t pos2);
strlib_part strlib_trimmed_part(const uint8_t *bytes, size_t bytes_length);

/* The label shown on the desk: the trimmed production name; the trimmed house name where the production name is all
 * blanks or empty. */
strlib_label strlib_desk_label(const uint8_t *production, size_t production_length, const uint8_t *house, size_t house_length);

/* ---- copying: refusals 3, 1, 2, 5; join_from 3, 1, 2, 4, 5
 *
 * The destination then holds the characters cut at its maximum; every byte past its new length stays. With `pad`,
 * blanks fill a result that is shorter than the old length up to it. */

strlib_copied strlib_copy(uint8_t *store, size_t store_length, strlib_ptr destination, strlib_ptr source, bool pad);
strlib_copied strlib_append(uint8_t *store, size_t store_length, strlib_ptr destination, strlib_ptr source);
strlib_copied strlib_join(uint8_t *store, size_t store_length, strlib_ptr destination, strlib_list list, bool pad);
strlib_round strlib_join_from(uint8_t *store, size_t store_length, strlib_ptr destination, strlib_list list, strlib_place from);

/* ---- editing: replace 3, 1, 2, 4, 5, 6; reverse 3, 1, 2; reverse_from 3, 1, 2, 5, 6 */

/* string 2, a part of string 1 by place, is replaced by string 3; an empty string 2 inserts */
strlib_string strlib_replace(uint8_t *store, size_t store_length, strlib_ptr string1, strlib_ptr string2, strlib_ptr string3);
strlib_string strlib_reverse(uint8_t *store, size_t store_length, strlib_ptr string);
strlib_string strlib_reverse_from(uint8_t *store, size_t store_length, strlib_ptr destination, strlib_ptr source);

/* ---- searching: refusals 3, 1, 2. The earliest start, and of strings starting there the first listed. */

strlib_match strlib_search(const uint8_t *store, size_t store_length, strlib_ptr host, strlib_list list);
/* front before, back match with after */
strlib_split strlib_search_match_after(const uint8_t *store, size_t store_length, strlib_ptr host, strlib_list list);
/* front before with match, back after */
strlib_split strlib_search_before_match(const uint8_t *store, size_t store_length, strlib_ptr host, strlib_list list);

/* ---- the search table: translate once (refusals 3, 1, 2, 9), run over any number of hosts (3, 1, 2, 10), also in
 * bursts (3, 2, 10)
 *
 * Translated, the table is its first 1 + 130 * S words, S being the first of them, 2 to 242; the words behind them
 * stay. */

uint8_t strlib_translate(const uint8_t *store, size_t store_length, strlib_list list, uint16_t *table, size_t table_length);
strlib_note strlib_run(const uint8_t *store, size_t store_length, strlib_ptr host, const uint16_t *table, size_t table_length);

/* A host in bursts of 0 to 300 characters, at most 65,536 in all: from a fresh run, if none is refused and all are given the
 * same table words, the answer with the last burst, which may be empty, is the whole host's, however it was cut. A run
 * that has not stopped enters its carried state anew at each burst. Refusals, of a run that has stopped too: 3 (the
 * burst's length; the total with it), 2, 10 (the table's size), 10 (what is carried: a state that the table has not,
 * state 0 and not stopped or another and stopped, a total under the number read, or a note with string outside 1 to 32,
 * pos2 over read + 1 or pos1 outside 1 to pos2); then, as words are met, 10. Any numbers may be given as carried. */
strlib_carried strlib_fresh_run(void);
strlib_burst_answer strlib_burst(strlib_carried carried, const uint8_t *burst, size_t burst_length, const uint16_t *table,
                                 size_t table_length);

/* ---- character sets: refusals 3, and 1, 2 where there is a string
 * A block is exactly 128 words, one a character; a mask, under 2^36, names tables by its bits. */

uint8_t strlib_clear_tables(uint64_t *block, size_t block_length, uint64_t mask);
uint8_t strlib_fill_tables(uint64_t *block, size_t block_length, uint64_t mask);
uint8_t strlib_add_characters(const uint8_t *store, size_t store_length, strlib_ptr string, uint64_t *block, size_t block_length,
                              uint64_t mask);
uint8_t strlib_remove_characters(const uint8_t *store, size_t store_length, strlib_ptr string, uint64_t *block, size_t block_length,
                                 uint64_t mask);
strlib_character strlib_find_first(const uint8_t *store, size_t store_length, strlib_ptr host, const uint64_t *block, size_t block_length,
                                   uint64_t mask);
strlib_character strlib_find_last(const uint8_t *store, size_t store_length, strlib_ptr host, const uint64_t *block, size_t block_length,
                                  uint64_t mask);

/* ---- numbers: base 2 to 10, -34359738368 to 34359738367; reading 3, 1, 2, 7, 8; writing 3, 1, 8, 6 */

strlib_number strlib_read_number(const uint8_t *store, size_t store_length, strlib_ptr string, size_t base);
strlib_string strlib_write_number(uint8_t *store, size_t store_length, strlib_ptr destination, int64_t value, size_t base);

/* ---- the desk */

/* `MIC n TO LSP m GAIN g`, for a matrix of 1 to 64 by 1 to 128: refusals 3 (a line over 65,536 bytes, the sizes), 2,
 * 11 with a word, then 7 or 8 from left to right, 12 */
strlib_cue strlib_read_cue(const uint8_t *line, size_t line_length, size_t microphones, size_t loudspeakers);

/* how many records: refusals, record by record, 11 (kind), 13 (body cut short), 12, 2, 14 (kind and number repeated) */
strlib_size strlib_read_labels(const uint8_t *list, size_t list_length);

/* kind 1 microphone, 2 loudspeaker; every other kind is refused, 257 too: the list's refusals, then 11 (kind), 12 */
strlib_name strlib_find_label(const uint8_t *list, size_t list_length, size_t kind, size_t number);

/* the same as a part: on a refusal or no record the empty part at the front */
strlib_part strlib_label_name(const uint8_t *list, size_t list_length, size_t kind, size_t number);

/* adds a record behind the list that is the buffer's first `length` bytes; the value is the list's new length.
 * Refusals: 4 (length over the buffer's), the list's, 11 (kind), 12, 4 (name over 16), 2, 14 (repeated), 6 */
strlib_size strlib_add_label(uint8_t *buffer, size_t buffer_length, size_t length, size_t kind, size_t number, const uint8_t *name,
                             size_t name_length);

#ifdef __cplusplus
}
#endif

#endif
