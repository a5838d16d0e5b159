/* With JOBS defined: the calls that are timed, of one library. Without: the run that times two libraries, and C, in
 * turns, after it has seen that all leave the same bytes and that comparisons split at the same place. */
#include <stdint.h>
#include <string.h>

#define STORE 65536
#define SECOND 32768 /* where string 2 of a comparison stands */

#ifdef JOBS
#include "strlib.h"

static strlib_ptr full(size_t start, size_t length) { return (strlib_ptr){start, length, length}; }

/* The list of a place and a length is made once; that it is passed by value is part of the call. */
static strlib_list all(size_t start, size_t n)
{
    static strlib_list lists[2][1876];
    strlib_list *list = &lists[start != 0][n];
    if (list->count == 0) {
        list->count = STRLIB_LIST_MAX;
        for (size_t i = 0; i < STRLIB_LIST_MAX; i++)
            list->items[i] = full(start, n);
    }
    return *list;
}

/* The split of a comparison in padded style, which its C peer below gives as 0 or 1; 2 where it is refused. */
static int compared(const uint8_t *store, size_t m, size_t n, int translation)
{
    strlib_comparison c = strlib_compare(store, STORE, full(0, m), full(SECOND, n), 0, 0, translation);
    return c.refusal ? 2 : (int)c.split;
}

/* job 0: 32 strings of n joined before themselves; 1: behind themselves; 2: n copied; 3, 4: a character put in front of
 * n, taken from the front of n; 5 to 7: n compared with n, equal, equal by a translation, unequal in the first pair; 8,
 * 9: n blanks compared with none, none with n */
int JOBS(uint8_t *store, int job, size_t n)
{
    switch (job) {
    case 5:
    case 7: return compared(store, n, n, 0);
    case 6: return compared(store, n, n, 5);
    case 8: return compared(store, n, 0, 0);
    case 9: return compared(store, 0, n, 0);
    case 0: return strlib_join(store, STORE, (strlib_ptr){0, 0, 60000}, all(60000, n), false).refusal;
    case 1: return strlib_join(store, STORE, (strlib_ptr){4000, 0, 60000}, all(0, n), false).refusal;
    case 2: return strlib_copy(store, STORE, (strlib_ptr){0, 0, n}, full(30000, n), false).refusal;
    case 3: return strlib_replace(store, STORE, (strlib_ptr){0, n, n + 1}, full(0, 0), full(65000, 1)).refusal;
    default: return strlib_replace(store, STORE, (strlib_ptr){0, n, n}, full(0, 1), full(65000, 0)).refusal;
    }
}
#else
#include <stdio.h>
#include <stdlib.h>
#include <time.h>

int old(uint8_t *store, int job, size_t n);
int new(uint8_t *store, int job, size_t n);

static uint8_t peer[STORE]; /* what memcmp compares with */

/* The same bytes moved or compared, and nothing checked. */
static int c(uint8_t *store, int job, size_t n)
{
    switch (job) {
    case 5:
    case 6:
    case 7:
    case 8: return memcmp(store, peer, n) != 0;
    case 9: return memcmp(store + SECOND, peer, n) != 0;
    case 0:
        for (size_t i = 0; i < 32; i++)
            memcpy(store + i * n, store + 60000, n);
        break;
    case 1:
        for (size_t i = 0; i < 32; i++)
            memcpy(store + 4000 + i * n, store, n);
        break;
    case 2: memcpy(store, store + 30000, n); break;
    case 3:
        memmove(store + 1, store, n);
        store[0] = store[65000];
        break;
    default: memmove(store, store + 1, n - 1);
    }
    __asm__ volatile("" : : "r"(store) : "memory");
    return 0;
}

static int (*const sides[3])(uint8_t *, int, size_t) = {old, new, c};

static double now(void)
{
    struct timespec t;
    clock_gettime(CLOCK_MONOTONIC, &t);
    return 1e9 * (double)t.tv_sec + (double)t.tv_nsec;
}

static void fill(uint8_t *store, int job)
{
    for (size_t i = 0; i < STORE; i++)
        store[i] = (uint8_t)(i % 127);
    if (job < 5)
        return;
    for (size_t i = 0; i < SECOND; i++) {
        store[i] = peer[i] = (uint8_t)(job < 8 ? 40 + i % 80 : ' ');
        store[SECOND + i] = (uint8_t)(store[i] - (job == 6 ? 5 : 0));
    }
    if (job == 7)
        store[SECOND] = peer[0] = '!';
}

/* Whether all three leave the same bytes and split at the same place. */
static int alike(uint8_t *store, int job, size_t n)
{
    static uint8_t first[STORE];
    for (int side = 0; side < 3; side++) {
        fill(store, job);
        if (sides[side](store, job, n) != (job == 7))
            return 0;
        if (side == 0)
            memcpy(first, store, STORE);
        if (memcmp(first, store, STORE) != 0)
            return 0;
    }
    return 1;
}

/* With a word, only the jobs whose names begin with it. */
int main(int argc, char **argv)
{
    /* from n to `to`: the mean over these lengths */
    static const struct { const char *name; int job; size_t n, to; } jobs[] = {
        {"join of 32 strings of 1", 0, 1, 1},
        {"join of 32 strings of 8", 0, 8, 8},
        {"join of 32 strings of 64", 0, 64, 64},
        {"join of 32 strings, each length 1 to 16", 0, 1, 16},
        {"join of 32 strings, each length 17 to 240", 0, 17, 240},
        {"join of 32 strings of 1,875: 60,000", 0, 1875, 1875},
        {"join behind themselves, 32 strings of 8", 1, 8, 8},
        {"join behind themselves, 32 strings of 64", 1, 64, 64},
        {"join behind themselves, 32 strings of 1,875", 1, 1875, 1875},
        {"copy of 8", 2, 8, 8},
        {"copy of 30,000", 2, 30000, 30000},
        {"a character put in front of 60,000", 3, 60000, 60000},
        {"a character taken from the front of 60,000", 4, 60000, 60000},
        {"compare of 0", 5, 0, 0},
        {"compare of 1 with 1, equal", 5, 1, 1},
        {"compare of 4 with 4, equal", 5, 4, 4},
        {"compare of 8 with 8, equal", 5, 8, 8},
        {"compare of 16 with 16, equal", 5, 16, 16},
        {"compare of 16 with 16, equal by a translation", 6, 16, 16},
        {"compare of 16 with 16, unequal at once", 7, 16, 16},
        {"compare of equal ones, each length 1 to 16", 5, 1, 16},
        {"compare of equal ones, each length 17 to 240", 5, 17, 240},
        {"compare of 30,000 with 30,000, equal", 5, 30000, 30000},
        {"compare of 30,000 with 30,000, equal by a translation", 6, 30000, 30000},
        {"compare of 16 blanks with none", 8, 16, 16},
        {"compare of none with 16 blanks", 9, 16, 16},
        {"compare of 30,000 blanks with none", 8, 30000, 30000},
        {"compare of none with 30,000 blanks", 9, 30000, 30000},
    };
    uint8_t *store = malloc(STORE);
    if (!store)
        return 1;
    for (size_t j = 0; j < sizeof jobs / sizeof *jobs; j++) {
        if (argc > 1 && strncmp(jobs[j].name, argv[1], strlen(argv[1])) != 0)
            continue;
        double least[3] = {1e18, 1e18, 1e18};
        size_t lengths = jobs[j].to - jobs[j].n + 1;
        size_t calls = jobs[j].n < 1000 ? 1 + 63 / lengths : 8;
        for (size_t n = jobs[j].n; n <= jobs[j].to; n++)
            if (!alike(store, jobs[j].job, n)) {
                fprintf(stderr, "beside: %s: refused, or another split, or other bytes\n", jobs[j].name);
                return 1;
            }
        for (int round = 0; round < 1000; round++)
            for (int turn = 0; turn < 3; turn++) {
                int side = (round + turn) % 3;
                double from = now();
                for (size_t k = 0; k < calls; k++)
                    for (size_t n = jobs[j].n; n <= jobs[j].to; n++)
                        sides[side](store, jobs[j].job, n);
                double took = (now() - from) / (double)(calls * lengths);
                if (took < least[side])
                    least[side] = took;
            }
        printf("%s|%.1f|%.1f|%.1f\n", jobs[j].name, least[0], least[1], least[2]);
    }
    free(store);
    return 0;
}
#endif
