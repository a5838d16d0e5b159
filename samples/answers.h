/* The store of every_call.c, and how the answers of strlib.h are printed there: each behind the text of its call, every
 * field of it. */
#ifndef ANSWERS_H
#define ANSWERS_H

#include <inttypes.h>
#include <stdio.h>
#include <string.h>

#include "strlib.h"

#define CALL(call) #call, call /* a call's text, and its answer */
#define LENT(literal) (const uint8_t *)(literal), sizeof(literal) - 1
#define PUT(literal) put(literal, sizeof(literal) - 1)
#define LIST(...) ((strlib_list){{__VA_ARGS__}, sizeof((strlib_ptr[]){__VA_ARGS__}) / sizeof(strlib_ptr)})

static uint8_t store[STRLIB_STORE_MAX + 2]; /* lent are the first `used` bytes; a bar stands behind them */
static size_t used;
static const char *text;

static void put(const char *bytes, size_t length) {
    text = bytes;
    used = length;
    memcpy(store, bytes, length);
    store[length] = '|';
}

static void put_many(int character, size_t length) {
    used = length;
    memset(store, character, length);
    store[length] = '|';
}

/* what was lent to be written, and the byte behind it; for the next call the store is as it was put */
static void lent(void) {
    printf(", '");
    for (size_t i = 0; i <= used; i++) {
        printf(store[i] < 32 || store[i] > 126 ? "\\%03o" : "%c", store[i]);
    }
    printf("'\n");
    put(text, used);
}

static strlib_ptr at(size_t start, size_t length, size_t maximum) { return (strlib_ptr){start, length, maximum}; }

#define REFUSAL "%s: refusal %d"
#define POINTER ", (%zu %zu %zu)"
#define OF(p) (p).start, (p).length, (p).maximum

static void good(const char *call, bool yes) { printf("%s: %d\n", call, yes); }
static void compared(const char *call, strlib_comparison a) {
    printf(REFUSAL ", yes %d, sign %d, split %zu\n", call, a.refusal, a.yes, a.sign, a.split);
}
static void cut(const char *call, strlib_string a) { printf(REFUSAL POINTER "\n", call, a.refusal, OF(a.string)); }
static void part(const char *call, strlib_part a) { printf("%s: offset %zu, length %zu\n", call, a.offset, a.length); }
static void label(const char *call, strlib_label a) {
    printf("%s: house %d, offset %zu, length %zu\n", call, a.house, a.offset, a.length);
}
static void copied(const char *call, strlib_copied a) {
    printf(REFUSAL ", completed %d" POINTER, call, a.refusal, a.completed, OF(a.to));
    lent();
}
static void joined(const char *call, strlib_round a) {
    printf(REFUSAL ", completed %d" POINTER, call, a.refusal, a.completed, OF(a.to));
    printf(", next %zu %zu", a.next.string, a.next.character);
    lent();
}
static void written(const char *call, strlib_string a) {
    printf(REFUSAL POINTER, call, a.refusal, OF(a.string));
    lent();
}
static void match(const char *call, strlib_match a) {
    printf(REFUSAL ", found %d, number %zu", call, a.refusal, a.found, a.number);
    printf(POINTER POINTER POINTER "\n", OF(a.before), OF(a.matched), OF(a.after));
}
static void split(const char *call, strlib_split a) {
    printf(REFUSAL ", found %d, number %zu", call, a.refusal, a.found, a.number);
    printf(POINTER POINTER "\n", OF(a.front), OF(a.back));
}
static void note(const char *call, strlib_note a) {
    printf(REFUSAL ", found %d, string %zu, ", call, a.refusal, a.found, a.string);
    printf("%zu to %zu, read %zu\n", a.pos1, a.pos2, a.read);
}
static void carried(strlib_carried c) {
    printf(", state %zu, read %zu, total %zu, noted %d, string %zu, ", c.state, c.read, c.total, c.noted, c.string);
    printf("%zu to %zu, stopped %d\n", c.pos1, c.pos2, c.stopped);
}
static strlib_carried taken(const char *call, strlib_burst_answer a) {
    printf(REFUSAL, call, a.refusal);
    carried(a.carried);
    return a.carried;
}
static void character(const char *call, strlib_character a) {
    printf(REFUSAL ", found %d, code %d, position %zu\n", call, a.refusal, a.found, a.code, a.position);
}
static void number(const char *call, strlib_number a) { printf(REFUSAL ", %" PRId64 "\n", call, a.refusal, a.value); }
static void cue(const char *call, strlib_cue a) {
    printf(REFUSAL ", word %d, %zu, %zu, %" PRId64 "\n", call, a.refusal, a.word, a.microphone, a.loudspeaker, a.gain);
}
static void size(const char *call, strlib_size a) {
    printf(REFUSAL ", offset %zu, value %zu", call, a.refusal, a.offset, a.value);
}
static void records(const char *call, strlib_size a) {
    size(call, a);
    puts("");
}
static void added(const char *call, strlib_size a) {
    size(call, a);
    lent();
}
static void name(const char *call, strlib_name a) {
    printf(REFUSAL ", found %d, offset %zu", call, a.refusal, a.found, a.offset);
    printf(", place %zu, length %zu\n", a.place, a.length);
}

#endif
