/* Which channel does a remark name first? The list is compiled once; the table serves any number of remarks. */
#include <stdio.h>
#include <string.h>

#include "strlib.h"

static uint16_t table[STRLIB_TABLE_MIN];

int main(void) {
    const uint8_t *names = (const uint8_t *)"CELLOVIOLAVIOLA DA GAMBA";
    strlib_list list = {{{0, 5, 5}, {10, 14, 14}, {5, 5, 5}}, 3};
    printf("translated, refusal %d\n", strlib_translate(names, 24, list, table, STRLIB_TABLE_MIN));
    const char *remarks[] = {"lower the VIOLA DA GAMBA", "VIOLA, then CELLO", "all as before"};
    for (int i = 0; i < 3; i++) {
        size_t n = strlen(remarks[i]);
        strlib_note note = strlib_run((const uint8_t *)remarks[i], n, (strlib_ptr){0, n, n}, table, STRLIB_TABLE_MIN);
        printf("refusal %d, string %zu, %zu to %zu, %zu read\n", note.refusal, note.string, note.pos1, note.pos2, note.read);
    }
    return 0;
}
