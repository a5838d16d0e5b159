/* Every call of strlib.h, on inputs that it takes and on some that it refuses. Each call is printed with every field of
 * its answer and, where it writes, what was lent and the element behind it. every_call.out has what documents 01 and 02
 * say of these inputs, worked out by hand. A to N are the examples of 01. */
#include "answers.h"
#include "layout.h"

static void pointers(void) {
    good(CALL(strlib_is_good(10, at(2, 8, 8))));
    good(CALL(strlib_is_good(9, at(2, 8, 8))));
    good(CALL(strlib_is_good(10, at(2, 9, 8))));
    good(CALL(strlib_is_good(10, at(SIZE_MAX, 1, 1))));
}

static void comparing(void) {
    PUT("abcdeabc  abxaby\200");
    const strlib_ptr abc = at(0, 3, 3), padded = at(5, 5, 5), abcde = at(0, 5, 5), outside = at(0, 3, 18);
    const strlib_ptr abx = at(10, 3, 3), aby = at(13, 3, 3), x = at(12, 1, 1), y = at(15, 1, 1), over = at(16, 1, 1);
    compared(CALL(strlib_compare(store, used, abc, padded, 0, 0, 0))); /* J */
    compared(CALL(strlib_compare(store, used, abc, padded, 0, 1, 0))); /* K */
    compared(CALL(strlib_compare(store, used, abcde, abc, 4, 2, 0)));  /* L */
    for (size_t code = 0; code <= 5; code++) {
        printf("code %zu, ", code);
        compared(CALL(strlib_compare(store, used, abx, aby, code, 1, 0)));
    }
    compared(CALL(strlib_compare(store, used, x, y, 0, 1, -1)));
    compared(CALL(strlib_compare(store, used, x, y, 4, 1, -127)));
    compared(CALL(strlib_compare(store, used, outside, y, 6, 1, 0)));
    compared(CALL(strlib_compare(store, used, x, y, 0, 3, 0)));
    compared(CALL(strlib_compare(store, used, x, y, 0, 1, -128)));
    compared(CALL(strlib_compare(store, used, over, outside, 0, 1, 0)));
    compared(CALL(strlib_compare(store, used, x, over, 1, 1, 0)));
    PUT("ABCD01234 ");
    const strlib_ptr abcd0 = at(0, 5, 5), blank = at(5, 5, 5), s1234 = at(5, 4, 4), none = at(0, 0, 0);
    compared(CALL(strlib_compare(store, used, abcd0, blank, 0, 0, 16))); /* W4 */
    compared(CALL(strlib_compare(store, used, abcd0, s1234, 0, 0, 16)));
    compared(CALL(strlib_compare(store, used, s1234, abcd0, 0, 0, -16)));
    compared(CALL(strlib_compare(store, used, none, at(9, 1, 1), 0, 0, 5)));
}

static void cutting(void) {
    PUT("[ab c  ..]");
    const strlib_ptr s = at(1, 6, 8), outside = at(3, 6, 8);
    cut(CALL(strlib_relative(store, used, s, 2)));
    cut(CALL(strlib_relative(store, used, s, 6)));
    cut(CALL(strlib_relative(store, used, s, 7)));
    cut(CALL(strlib_relative(store, used, outside, 7)));
    cut(CALL(strlib_counted(store, used, s, 3, 5)));
    cut(CALL(strlib_counted(store, used, s, 9, 0)));
    cut(CALL(strlib_counted(store, used, s, 3, 7)));
    cut(CALL(strlib_counted(store, used, s, SIZE_MAX, 2)));
    cut(CALL(strlib_between(store, used, s, 2, 4)));
    cut(CALL(strlib_between(store, used, s, 2, 0)));
    cut(CALL(strlib_between(store, used, s, 4, 2)));
    cut(CALL(strlib_between(store, used, s, 2, 8)));
    cut(CALL(strlib_trim(store, used, s)));
    PUT("[ab \200  ..]");
    cut(CALL(strlib_trim(store, used, s)));

    part(CALL(strlib_relative_part(LENT("ab\200c  "), 2)));
    part(CALL(strlib_relative_part(LENT("ab\200c  "), 7)));
    part(CALL(strlib_counted_part(LENT("ab\200c  "), 3, 4)));
    part(CALL(strlib_counted_part(LENT("ab\200c  "), 3, 5)));
    part(CALL(strlib_between_part(LENT("ab\200c  "), 2, 0)));
    part(CALL(strlib_between_part(LENT("ab\200c  "), 4, 2)));
    part(CALL(strlib_trimmed_part(LENT("ab\200c  "))));
    part(CALL(strlib_trimmed_part(NULL, 0)));

    put_many('a', STRLIB_STORE_MAX + 1);
    cut(CALL(strlib_trim(store, used, at(0, 9, 8))));
    part(CALL(strlib_trimmed_part(store, used)));

    label(CALL(strlib_desk_label(LENT("LEAD 1  "), LENT("MIKE 12 "))));
    label(CALL(strlib_desk_label(LENT("   "), LENT("MIKE 12 "))));
    label(CALL(strlib_desk_label(NULL, 0, LENT("  "))));
}

static void copying(void) {
    PUT("[abc..]vwxyz");
    const strlib_ptr abc = at(1, 3, 5), vwxyz = at(7, 5, 5), vw = at(7, 2, 5), yz = at(10, 2, 2), outside = at(7, 6, 6);
    copied(CALL(strlib_copy(store, used, abc, vwxyz, false)));
    copied(CALL(strlib_copy(store, used, at(1, 3, 4), vwxyz, false)));
    copied(CALL(strlib_copy(store, used, abc, vw, false)));
    copied(CALL(strlib_copy(store, used, abc, vw, true)));
    copied(CALL(strlib_copy(store, used, abc, at(3, 0, 2), false)));
    copied(CALL(strlib_copy(store, used, abc, at(5, 2, 2), false)));
    copied(CALL(strlib_copy(store, used, abc, outside, false)));
    copied(CALL(strlib_append(store, used, abc, vw)));
    copied(CALL(strlib_append(store, used, abc, vwxyz)));
    copied(CALL(strlib_append(store, used, abc, at(1, 1, 1))));

    copied(CALL(strlib_join(store, used, abc, LIST(vw, yz), false)));
    copied(CALL(strlib_join(store, used, at(1, 5, 5), LIST(vw, yz), true)));
    copied(CALL(strlib_join(store, used, at(1, 3, 3), LIST(vw, yz), false)));
    copied(CALL(strlib_join(store, used, abc, (strlib_list){.items = {vw, yz, outside}, .count = 2}, false)));
    copied(CALL(strlib_join(store, used, abc, (strlib_list){.count = 0}, false)));
    copied(CALL(strlib_join(store, used, abc, (strlib_list){.items = {outside}, .count = 33}, false)));

    joined(CALL(strlib_join_from(store, used, at(1, 0, 3), LIST(vwxyz, vw), (strlib_place){1, 1})));
    joined(CALL(strlib_join_from(store, used, at(1, 0, 3), LIST(vwxyz, vw), (strlib_place){1, 4})));
    joined(CALL(strlib_join_from(store, used, at(1, 0, 3), LIST(vwxyz, vw), (strlib_place){2, 2})));
    joined(CALL(strlib_join_from(store, used, at(1, 0, 3), LIST(vwxyz, vw), (strlib_place){1, 3})));
    joined(CALL(strlib_join_from(store, used, at(1, 0, 3), LIST(vwxyz, vw), (strlib_place){1, 6})));
    joined(CALL(strlib_join_from(store, used, at(1, 0, 0), LIST(vwxyz, vw), (strlib_place){1, 1})));
    joined(CALL(strlib_join_from(store, used, at(1, 0, 3), LIST(vwxyz, vw), (strlib_place){1, 7})));
    joined(CALL(strlib_join_from(store, used, at(1, 0, 3), LIST(vwxyz, vw), (strlib_place){3, 2})));

    PUT("[a\200c..]vwxyz"); /* a destination isn't read, a source is */
    copied(CALL(strlib_append(store, used, abc, vw)));
    copied(CALL(strlib_append(store, used, abc, at(2, 1, 1))));
}

static void editing(void) {
    PUT("[abcabc..]XY");
    const strlib_ptr s = at(1, 6, 8), xy = at(10, 2, 2);
    written(CALL(strlib_replace(store, used, s, at(4, 3, 3), xy)));
    written(CALL(strlib_replace(store, used, s, at(2, 2, 2), at(10, 0, 0))));
    written(CALL(strlib_replace(store, used, s, at(4, 0, 0), xy)));
    written(CALL(strlib_replace(store, used, s, at(6, 2, 2), at(8, 1, 1))));
    written(CALL(strlib_replace(store, used, s, at(4, 3, 3), at(8, 1, 1))));
    written(CALL(strlib_replace(store, used, s, at(4, 0, 0), at(9, 3, 3))));
    written(CALL(strlib_reverse(store, used, at(1, 5, 8))));
    written(CALL(strlib_reverse(store, used, at(1, 9, 8))));
    written(CALL(strlib_reverse_from(store, used, s, xy)));
    written(CALL(strlib_reverse_from(store, used, s, at(8, 2, 2))));
    written(CALL(strlib_reverse_from(store, used, at(1, 1, 1), xy)));
    PUT("[ab\200..]");
    written(CALL(strlib_reverse(store, used, at(1, 3, 5))));
}

static uint16_t table[STRLIB_TABLE_MIN + 1];
enum { FILL = 0x5a5a };

static void fill_table(void) {
    for (size_t i = 0; i <= STRLIB_TABLE_MIN; i++) {
        table[i] = FILL;
    }
}

/* the words behind the rows stay, on a refusal all; S, the number of rows, is free */
static void translated(const char *call, uint8_t refusal) {
    size_t from = refusal != 0 ? 0 : 1 + 130 * (size_t)table[0];
    bool kept = refusal != 0 || (2 <= table[0] && table[0] <= 242);
    for (size_t i = from; i <= STRLIB_TABLE_MIN; i++) {
        kept = kept && table[i] == FILL;
    }
    printf(REFUSAL ", other words %s\n", call, refusal, kept ? "kept" : "lost");
}

/* every search, over a list and a host; 01 and W12 settle how many characters the run reads, but for F: 1 or 2 */
static void find(const char *example, strlib_ptr host, strlib_list list) {
    printf("example %s\n", example);
    match(CALL(strlib_search(store, used, host, list)));
    split(CALL(strlib_search_match_after(store, used, host, list)));
    split(CALL(strlib_search_before_match(store, used, host, list)));
    fill_table();
    translated(CALL(strlib_translate(store, used, list, table, STRLIB_TABLE_MIN)));
    note(CALL(strlib_run(store, used, host, table, STRLIB_TABLE_MIN)));
}

static void searching(void) {
    PUT("[0123456789..]");
    const strlib_ptr host = at(1, 10, 12), null = at(0, 0, 0);
    find("A", host, LIST(at(6, 5, 5), at(4, 2, 2), at(3, 2, 2)));
    find("B", host, LIST(at(4, 2, 2), at(4, 5, 5)));
    find("C", host, LIST(at(4, 5, 5), at(4, 2, 2)));
    find("D", host, LIST(null));
    find("E", host, LIST(at(1, 5, 5), null));
    find("F", host, LIST(at(3, 5, 5), null));
    find("without strings", host, (strlib_list){.count = 0});
    PUT("a");
    find("G", at(1, 0, 0), LIST(at(0, 1, 1)));
    PUT("abcxabcdbc");
    find("H", at(0, 4, 4), LIST(at(4, 4, 4), at(8, 2, 2)));
    PUT("abcdexabcdef");
    find("I", at(0, 6, 6), LIST(at(6, 6, 6), at(7, 2, 2), at(9, 2, 2)));
    put_many('a', 241);
    find("of 240 characters", at(0, 240, 240), LIST(at(0, 120, 120), at(120, 120, 120)));
    fill_table();
    translated(CALL(strlib_translate(store, used, LIST(at(0, 120, 120), at(0, 121, 121)), table, STRLIB_TABLE_MIN)));
    translated(CALL(strlib_translate(store, used, LIST(null), table, STRLIB_TABLE_MIN - 1)));
    translated(CALL(strlib_translate(store, used, LIST(null, at(240, 2, 2)), table, 0)));

    PUT("xy\200");
    strlib_list list = {.count = 32};
    for (size_t i = 0; i < 32; i++) {
        list.items[i] = at(0, 1, 1);
    }
    list.items[31] = at(1, 1, 1);
    find("of 32 strings", at(1, 1, 1), list);
    find("refused, 1", at(1, 1, 3), list);
    find("refused, 2", at(1, 2, 2), list);
    list.items[31] = at(2, 1, 1);
    find("refused, a string of the list", at(1, 1, 1), list);
    list.count = 33;
    find("refused, the count", at(1, 1, 3), list);
}

/* State 1 goes on to 2 at an a, state 2 notes string 7 of one character and stops; row 0 is never read. */
static void hand_table(void) {
    fill_table();
    table[0] = 3;
    for (size_t i = 0; i < 128; i++) {
        table[131 + i] = i == 'a' ? 2 : 1;
        table[261 + i] = 0;
    }
    table[131 + 128] = 0;
    table[261 + 128] = 7;
    table[261 + 129] = 1;
}

static void running(void) {
    const size_t words = 391;
    const strlib_ptr host = at(0, 5, 5);
    PUT("xxab!\200");
    hand_table();
    note(CALL(strlib_run(store, used, host, table, words)));
    note(CALL(strlib_run(store, used, at(0, 2, 2), table, words)));
    note(CALL(strlib_run(store, used, at(0, 6, 6), table, 0)));
    note(CALL(strlib_run(store, used, host, NULL, 0)));
    note(CALL(strlib_run(store, used, host, table, words - 1)));
    const struct { size_t word, at_fault; } faults[] = {{0, 1}, {261 + 128, 33}, {261 + 129, 4}, {131 + 'a', 3}};
    for (size_t i = 0; i < 4; i++) {
        hand_table();
        table[faults[i].word] = (uint16_t)faults[i].at_fault;
        printf("word %zu is %zu\n", faults[i].word, faults[i].at_fault);
        note(CALL(strlib_run(store, used, host, table, words)));
        taken(CALL(strlib_burst(strlib_fresh_run(), LENT("xxab!"), table, words)));
    }

    hand_table();
    strlib_carried run = strlib_fresh_run();
    printf("strlib_fresh_run()");
    carried(run);
    run = taken(CALL(strlib_burst(run, LENT("xx"), table, words)));
    run = taken(CALL(strlib_burst(run, LENT("a"), table, words)));
    run = taken(CALL(strlib_burst(run, NULL, 0, table, words)));
    run = taken(CALL(strlib_burst(run, LENT("b!"), table, words)));
    run = taken(CALL(strlib_burst(run, LENT("zz"), table, words)));
    run = taken(CALL(strlib_burst(run, LENT("z\200"), table, words)));

    put_many('x', 301);
    run = (strlib_carried){1, 5, 9, false, 8, 7, 6, false}; /* without a note 8, 7 and 6 say nothing */
    taken(CALL(strlib_burst(run, store, 300, table, words)));
    taken(CALL(strlib_burst(run, store, 301, table, words)));
    taken(CALL(strlib_burst(run, store, 300, table, words - 1)));
    run.total = STRLIB_STORE_MAX;
    taken(CALL(strlib_burst(run, NULL, 0, table, words)));
    taken(CALL(strlib_burst(run, LENT("\200"), table, words)));
    run.total = SIZE_MAX;
    taken(CALL(strlib_burst(run, LENT("x"), table, words)));
    const strlib_carried bad[] = {
        {3, 5, 9, false, 0, 0, 0, false}, {0, 5, 9, false, 0, 0, 0, false}, {1, 5, 9, false, 0, 0, 0, true},
        {1, 5, 4, false, 0, 0, 0, false}, {1, 5, 9, true, 0, 1, 6, false},  {1, 5, 9, true, 33, 1, 6, false},
        {1, 5, 9, true, 32, 1, 7, false}, {1, 5, 9, true, 32, 0, 6, false}, {1, 5, 9, true, 32, 6, 5, false}};
    for (size_t i = 0; i < 9; i++) {
        taken(CALL(strlib_burst(bad[i], LENT("x"), table, words)));
    }
    taken(CALL(strlib_burst(bad[0], LENT("\200"), table, words)));
    taken(CALL(strlib_burst((strlib_carried){1, 5, 9, true, 32, 1, 6, false}, LENT("x"), table, words)));
}

static uint64_t block[STRLIB_BLOCK_WORDS + 1]; /* a word stands behind those that are lent */

/* a refusal's number, and the block: words that are alike together */
static void set(const char *call, uint8_t refusal) {
    printf(REFUSAL, call, refusal);
    for (size_t i = 0, end; i <= STRLIB_BLOCK_WORDS; i = end) {
        for (end = i + 1; end <= STRLIB_BLOCK_WORDS && block[end] == block[i]; end++) {
        }
        printf(", %zu to %zu %" PRIx64, i, end - 1, block[i]);
    }
    puts("");
}

static void sets(void) {
    const uint64_t over = UINT64_C(1) << 36;
    for (size_t i = 0; i <= STRLIB_BLOCK_WORDS; i++) {
        block[i] = i < STRLIB_BLOCK_WORDS ? UINT64_C(0xf000000000000009) : 0x77;
    }
    PUT("[abca..\200]");
    set(CALL(strlib_fill_tables(block, 128, 2)));
    set(CALL(strlib_fill_tables(block, 128, over)));
    set(CALL(strlib_add_characters(store, used, at(1, 2, 2), block, 128, 4)));
    set(CALL(strlib_add_characters(store, used, at(1, 7, 9), block, 128, 4)));
    set(CALL(strlib_add_characters(store, used, at(1, 7, 9), block, 128, over)));
    set(CALL(strlib_remove_characters(store, used, at(2, 1, 1), block, 128, 6)));
    set(CALL(strlib_remove_characters(store, used, at(1, 7, 7), block, 128, 6)));
    set(CALL(strlib_clear_tables(block, 128, 1)));
    set(CALL(strlib_clear_tables(block, 127, 1)));
    character(CALL(strlib_find_first(store, used, at(1, 4, 6), block, 128, 4)));
    character(CALL(strlib_find_first(store, used, at(2, 3, 3), block, 128, 6)));
    character(CALL(strlib_find_first(LENT("\0"), at(0, 1, 1), block, 128, 2)));
    character(CALL(strlib_find_first(store, used, at(2, 1, 1), block, 128, 6)));
    character(CALL(strlib_find_first(store, used, at(1, 7, 7), block, 128, 4)));
    character(CALL(strlib_find_first(store, used, at(1, 7, 9), block, 127, 4)));
    character(CALL(strlib_find_last(store, used, at(1, 4, 6), block, 128, 4)));
    character(CALL(strlib_find_last(store, used, at(2, 3, 3), block, 128, 6)));
    character(CALL(strlib_find_last(store, used, at(2, 3, 3), block, 128, 0)));
    character(CALL(strlib_find_last(store, used, at(1, 7, 9), block, 128, 4)));
    set(CALL(strlib_fill_tables(block, 128, over - 1)));
    set(CALL(strlib_clear_tables(block, 128, over - 1)));
}

static void numbers(void) {
    number(CALL(strlib_read_number(LENT("-0"), at(0, 2, 2), 10)));           /* M */
    number(CALL(strlib_read_number(LENT("34359738368"), at(0, 11, 11), 10))); /* N */
    number(CALL(strlib_read_number(LENT("  -34359738368"), at(0, 14, 14), 10)));
    number(CALL(strlib_read_number(LENT("101"), at(0, 3, 3), 2)));
    number(CALL(strlib_read_number(LENT("102"), at(0, 3, 3), 2)));
    number(CALL(strlib_read_number(LENT("7 "), at(0, 2, 2), 10)));
    number(CALL(strlib_read_number(NULL, 0, at(0, 0, 0), 10)));
    number(CALL(strlib_read_number(LENT("99999999999x"), at(0, 12, 12), 10)));
    number(CALL(strlib_read_number(LENT("7\200"), at(0, 2, 2), 10)));
    number(CALL(strlib_read_number(LENT("7"), at(0, 2, 2), 11)));
    PUT("[abc...]");
    const strlib_ptr to = at(1, 3, 6);
    written(CALL(strlib_write_number(store, used, to, -120, 10)));
    written(CALL(strlib_write_number(store, used, to, 7, 10)));
    written(CALL(strlib_write_number(store, used, to, 5, 2)));
    written(CALL(strlib_write_number(store, used, to, -12345, 10)));
    written(CALL(strlib_write_number(store, used, to, -123456, 10)));
    written(CALL(strlib_write_number(store, used, to, 34359738368, 10)));
    written(CALL(strlib_write_number(store, used, to, 7, 1)));
    written(CALL(strlib_write_number(store, used, at(1, 3, 8), 34359738368, 10)));
}

#define CELLO "\001\000\014CELLO           "
#define GALLERY "\002\000\200GALLERY LEFT    "
#define BLANK "\001\000\001                "
#define PAST "\001\000\101CELLO           " /* microphone 65 */

static void desk(void) {
    cue(CALL(strlib_read_cue(LENT("MIC 7 TO LSP 31 GAIN -120"), 64, 128)));
    cue(CALL(strlib_read_cue(LENT("MIC 65 TO LSP 1 GAIN 0"), 64, 128)));
    cue(CALL(strlib_read_cue(LENT("MIC 7 TO LSP"), 64, 128)));
    cue(CALL(strlib_read_cue(LENT("MIC TO LSP 3 GAIN 0"), 64, 128)));
    cue(CALL(strlib_read_cue(LENT("MIC 7 TO LSP 31 GAIN 0 0"), 64, 128)));
    cue(CALL(strlib_read_cue((const uint8_t[81]){0}, 81, 64, 128)));
    cue(CALL(strlib_read_cue(LENT("MIC 7 TO LSP 31 GAIN -120"), 7, 31)));
    cue(CALL(strlib_read_cue(LENT("MIC 7 TO LSP 31 GAIN -120"), 31, 7)));
    cue(CALL(strlib_read_cue(LENT("MIC 7 TO LSP 31 GAIN -120"), 65, 128)));
    cue(CALL(strlib_read_cue(LENT("MIC x TO LSP 34359738368 GAIN 0"), 64, 128)));
    cue(CALL(strlib_read_cue(LENT("MIC 34359738368 TO LSP x GAIN 0"), 64, 128)));
    cue(CALL(strlib_read_cue(LENT("MIC 7 TO LSP 31 \200"), 64, 128)));

    records(CALL(strlib_read_labels(LENT(CELLO GALLERY))));
    records(CALL(strlib_read_labels(NULL, 0)));
    records(CALL(strlib_read_labels(LENT(CELLO "\003"))));
    records(CALL(strlib_read_labels((const uint8_t *)CELLO GALLERY, 37)));
    records(CALL(strlib_read_labels(LENT(CELLO PAST))));
    records(CALL(strlib_read_labels(LENT(CELLO "\002\000\001CELL\177           "))));
    records(CALL(strlib_read_labels(LENT(CELLO GALLERY CELLO))));
    name(CALL(strlib_find_label(LENT(CELLO GALLERY), 1, 12)));
    name(CALL(strlib_find_label(LENT(CELLO GALLERY), 2, 128)));
    name(CALL(strlib_find_label(LENT(CELLO GALLERY), 2, 12)));
    name(CALL(strlib_find_label(LENT(CELLO BLANK), 1, 1)));
    name(CALL(strlib_find_label(LENT(CELLO GALLERY), 3, 129)));
    name(CALL(strlib_find_label(LENT(CELLO GALLERY), 257, 12)));
    name(CALL(strlib_find_label(LENT(CELLO GALLERY), 2, 129)));
    name(CALL(strlib_find_label(LENT(CELLO PAST), 3, 12)));
    part(CALL(strlib_label_name(LENT(CELLO GALLERY), 2, 128)));
    part(CALL(strlib_label_name(LENT(CELLO GALLERY), 2, 12)));
    part(CALL(strlib_label_name(LENT(CELLO GALLERY), 257, 12)));

    PUT(CELLO "......................");
    added(CALL(strlib_add_label(store, used, 19, 2, 128, LENT("GALLERY LEFT"))));
    added(CALL(strlib_add_label(store, used, 0, 1, 1, NULL, 0)));
    added(CALL(strlib_add_label(store, used, 42, 3, 65, LENT("CELLO"))));
    added(CALL(strlib_add_label(store, used, 18, 1, 65, LENT("CELLO"))));
    added(CALL(strlib_add_label(store, used, 19, 3, 65, LENT("CELLO"))));
    added(CALL(strlib_add_label(store, used, 19, 257, 1, LENT("CELLO"))));
    added(CALL(strlib_add_label(store, used, 19, 1, 65, LENT("SEVENTEEN LETTERS"))));
    added(CALL(strlib_add_label(store, used, 19, 1, 12, LENT("SEVENTEEN LETTERS"))));
    added(CALL(strlib_add_label(store, used, 19, 1, 12, LENT("CELL\177"))));
    added(CALL(strlib_add_label(store, 37, 19, 1, 12, LENT("CELLO"))));
    added(CALL(strlib_add_label(store, 37, 19, 1, 1, LENT("CELLO"))));
}

int main(void) {
    pointers();
    comparing();
    cutting();
    copying();
    editing();
    searching();
    running();
    sets();
    numbers();
    desk();
    return 0;
}
