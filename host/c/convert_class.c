/* usage: convert_class new|old [UNITS]
 *
 * Reads the input of one class from standard input (docs/MANUAL.md, "The program") and writes it with its d1 converted: to the form with the marker
 * (new), or to the old one. A refusal is its number and detail on standard error, and exit status 1. With UNITS the area has that many units. */
#include <inttypes.h>
#include <stdio.h>
#include <stdlib.h>
#include <string.h>

#include "sheet_reader.h"

enum { BEFORE_D1 = 16 }; /* bytes of k and mv */

static void fail(const char *why) {
    fprintf(stderr, "convert_class: %s\n", why);
    exit(2);
}

/* All of standard input; there is always a byte, so that the pointer may be handed over. */
static unsigned char *all_input(size_t *length) {
    size_t room = 1;
    unsigned char *all = malloc(room);
    for (*length = 0; all; *length += fread(all + *length, 1, room - *length, stdin)) {
        if (*length < room && feof(stdin)) return all;
        if (*length == room) all = realloc(all, room *= 2);
    }
    fail("no memory");
    return NULL;
}

static uint32_t number(const unsigned char *at, int width) {
    uint32_t n = 0;
    for (int i = width - 1; i >= 0; i--) n = n << 8 | at[i];
    return n;
}

static void put(uint64_t n, int width) {
    for (int i = 0; i < width; i++) putchar((int)(n >> 8 * i & 255));
}

int main(int argc, char **argv) {
    int to_new = argc > 1 && strcmp(argv[1], "new") == 0;
    if (argc < 2 || argc > 3 || (!to_new && strcmp(argv[1], "old") != 0)) fail("usage: convert_class new|old [UNITS]");
    size_t units_count = argc == 3 ? strtoul(argv[2], NULL, 10) : to_new ? SHEET_NEW_LONGEST : SHEET_OLD_LONGEST, length;
    unsigned char *input = all_input(&length);
    if (length < BEFORE_D1 + 4) fail("the input is too short");
    size_t count = number(input + BEFORE_D1, 4);
    if (count > (length - BEFORE_D1 - 4) / 2) fail("the input is too short");

    /* what is handed over is aligned for its type, and there is always an element of it */
    uint16_t *d1 = malloc((count + 1) * sizeof *d1), *units = malloc((units_count + 1) * sizeof *units);
    uint64_t answer[SHEET_CONVERTED_ANSWER];
    if (!d1 || !units) fail("no memory");
    for (size_t i = 0; i < count; i++) d1[i] = (uint16_t)number(input + BEFORE_D1 + 4 + 2 * i, 2);
    if (to_new) sheet_old_to_new(d1, count, units, units_count, answer);
    else sheet_new_to_old(d1, count, units, units_count, answer);

    int refused = answer[SHEET_CONVERTED_NUMBER] != 0;
    if (refused) {
        fprintf(stderr, "%" PRIu64 " %" PRIu64 "\n", answer[SHEET_CONVERTED_NUMBER], answer[SHEET_CONVERTED_DETAIL]);
    } else {
        size_t after = BEFORE_D1 + 4 + 2 * count;
        fwrite(input, 1, BEFORE_D1, stdout);
        put(answer[SHEET_CONVERTED_LENGTH], 4);
        for (uint64_t i = 0; i < answer[SHEET_CONVERTED_LENGTH]; i++) put(units[i], 2);
        fwrite(input + after, 1, length - after, stdout);
    }
    free(input);
    free(d1);
    free(units);
    return refused;
}
