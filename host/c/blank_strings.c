/* usage: blank_strings [BYTES [STACK]]
 *
 * Reads the input of one class from standard input (docs/MANUAL.md, "The program") and writes it with each string of d2 blanked that its reading
 * doesn't fall to: the string is still there, and empty. What sheet_read answers stays as it was. A refusal is its number and detail on standard
 * error, and exit status 1. The area has a byte for each string, or BYTES of them. With STACK the call is made on a thread that has that many bytes
 * of stack. */
#include "class_input.h"

struct call {
    struct input input;
    uint8_t *used;
    size_t used_count;
    uint64_t answer[SHEET_STRINGS_ANSWER];
};

static void *ask_for_strings(void *lent) {
    struct call *c = lent;
    const struct input *in = &c->input;
    sheet_strings(in->k, in->version[0], in->version[1], in->version[2], in->d1, in->d1_count, in->d2, in->d2_count, in->ends, in->ends_count,
                  c->used, c->used_count, c->answer);
    return NULL;
}

/* Takes the units of each string away that isn't used. A class that was accepted has ends that fit, so that no string is longer than d2. */
static void blank(struct input *in, const uint8_t *used) {
    size_t start = 0, written = 0;
    for (size_t i = 0; i < in->ends_count; i++) {
        size_t end = in->ends[i];
        for (size_t at = start; used[i] && at < end; at++) in->d2[written++] = in->d2[at];
        start = end;
        in->ends[i] = (uint32_t)written;
    }
    in->d2_count = written;
}

static void put(uint32_t n, size_t width) {
    for (size_t i = 0; i < width; i++) putchar((int)(n >> 8 * i & 255));
}

static void write_input(const struct input *in) {
    put((uint32_t)in->k, 4);
    for (int i = 0; i < 3; i++) put((uint32_t)in->version[i], 4);
    put((uint32_t)in->d1_count, 4);
    for (size_t i = 0; i < in->d1_count; i++) put(in->d1[i], 2);
    put((uint32_t)in->d2_count, 4);
    for (size_t i = 0; i < in->d2_count; i++) put(in->d2[i], 2);
    put((uint32_t)in->ends_count, 4);
    for (size_t i = 0; i < in->ends_count; i++) put(in->ends[i], 4);
}

int main(int argc, char **argv) {
    static struct call c;
    if (argc > 3) fail("usage: blank_strings [BYTES [STACK]]");
    read_input(&c.input);
    c.used_count = argc > 1 ? strtoul(argv[1], NULL, 10) : c.input.ends_count;
    c.used = allocated(c.used_count);
    if (argc == 3) call_on_thread(ask_for_strings, &c, strtoul(argv[2], NULL, 10));
    else ask_for_strings(&c);
    int refused = c.answer[SHEET_STRINGS_NUMBER] != SHEET_READ;
    if (refused) {
        fprintf(stderr, "%" PRIu64 " %" PRIu64 "\n", c.answer[SHEET_STRINGS_NUMBER], c.answer[SHEET_STRINGS_DETAIL]);
    } else {
        blank(&c.input, c.used);
        write_input(&c.input);
    }
    free(c.used);
    free_input(&c.input);
    return refused;
}
