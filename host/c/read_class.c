/* usage: read_class [STACK]
 *
 * Reads the input of one class from standard input (docs/MANUAL.md, "The program"), calls the reader, and prints the line: number, detail,
 * sheet and text. With STACK the call is made on a thread that has that many bytes of stack. */
#include "class_input.h"

enum { AREA = 65536 };

struct call {
    struct input input;
    uint8_t sheet[AREA], text[AREA];
    uint64_t answer[SHEET_ANSWER];
};

static void *make_call(void *lent) {
    struct call *c = lent;
    const struct input *in = &c->input;
    sheet_read(in->k, in->version[0], in->version[1], in->version[2], in->d1, in->d1_count, in->d2, in->d2_count, in->ends, in->ends_count,
               c->sheet, AREA, c->text, AREA, c->answer);
    return NULL;
}

int main(int argc, char **argv) {
    static struct call c;
    if (argc > 2) fail("usage: read_class [STACK]");
    read_input(&c.input);
    if (argc == 2) call_on_thread(make_call, &c, strtoul(argv[1], NULL, 10));
    else make_call(&c);
    print_line(c.answer, c.sheet, c.text);
    free_input(&c.input);
    return 0;
}
