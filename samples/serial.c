/* Which name does each remark on the serial line give first? Remarks, a line each, are read from standard input in bursts as they arrive. A name is
 * told when the run has stopped, at most one character past the place at which it is sure, or at the remark's end; however a remark was cut, it is
 * the same. Where a burst is refused before that, as one with a byte over 127 is, that is told instead. Usage: serial BURST [NAME..], BURST being
 * the most that is read at a time, 1 to 300. */
#include <errno.h>
#include <stdio.h>
#include <stdlib.h>
#include <string.h>
#include <unistd.h>

#include "strlib.h"

static uint16_t table[STRLIB_TABLE_MIN];
static char **names;
static size_t remark = 1;
static strlib_carried run;
static bool told; /* nothing more is to be told of this remark */

/* Of this remark nothing more is told; what was told is written at once, or the program ends. */
static void sent(void) {
    told = true;
    if (fflush(stdout) != 0 || ferror(stdout)) {
        perror("serial: writing");
        exit(1);
    }
}

static void tell(void) {
    if (run.noted) {
        printf("%zu: %s, %zu to %zu, after %zu\n", remark, names[run.string - 1], run.pos1, run.pos2, run.read);
    } else {
        printf("%zu: no name, after %zu\n", remark, run.read);
    }
    sent();
}

static void deliver(const uint8_t *burst, size_t length) {
    strlib_burst_answer answer = strlib_burst(run, burst, length, table, STRLIB_TABLE_MIN);
    run = answer.carried;
    if (told) {
        return;
    }
    if (answer.refusal != 0) {
        printf("%zu: a burst is refused, %d\n", remark, answer.refusal);
        sent();
    } else if (run.stopped) {
        tell();
    }
}

static void end_remark(void) {
    if (!told) {
        tell();
    }
    run = strlib_fresh_run();
    told = false;
    remark++;
}

int main(int argc, char **argv) {
    char *rest = "";
    unsigned long most = argc > 1 ? strtoul(argv[1], &rest, 10) : 0;
    if (most < 1 || most > STRLIB_BURST_MAX || *rest != 0 || argc > 2 + STRLIB_LIST_MAX) {
        fputs("usage: serial BURST [NAME..], BURST 1 to 300, at most 32 names\n", stderr);
        return 2;
    }
    names = argv + 2;
    uint8_t store[STRLIB_LIST_CHARACTERS_MAX];
    size_t used = 0;
    strlib_list list = {.count = (size_t)argc - 2};
    for (size_t i = 0; i < list.count; i++) {
        size_t length = strlen(names[i]);
        if (length > sizeof store - used) {
            fputs("serial: over 240 characters of names\n", stderr);
            return 2;
        }
        memcpy(store + used, names[i], length);
        list.items[i] = (strlib_ptr){used, length, length};
        used += length;
    }
    uint8_t refusal = strlib_translate(store, used, list, table, STRLIB_TABLE_MIN);
    if (refusal != 0) {
        fprintf(stderr, "serial: the names are refused, %d\n", refusal);
        return 2;
    }

    uint8_t bytes[STRLIB_BURST_MAX];
    bool open_remark = false;
    run = strlib_fresh_run();
    for (;;) {
        ssize_t n = read(0, bytes, most);
        if (n < 0 && errno == EINTR) {
            continue;
        }
        if (n < 0) {
            perror("serial: reading");
            return 1;
        }
        if (n == 0) {
            break;
        }
        for (size_t from = 0; from < (size_t)n;) {
            const uint8_t *part = bytes + from;
            const uint8_t *end = memchr(part, '\n', (size_t)n - from);
            size_t length = end ? (size_t)(end - part) : (size_t)n - from;
            deliver(part, length);
            open_remark = end == NULL;
            if (end) {
                end_remark();
            }
            from += length + (end != NULL);
        }
    }
    if (open_remark) {
        end_remark();
    }
    return 0;
}
