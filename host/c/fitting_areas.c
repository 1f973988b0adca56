/* usage: fitting_areas [STACK]
 *
 * Reads the input of one class from standard input (docs/MANUAL.md, "The program") and lends the reader areas that fit: sheet_room tells how long
 * they must be, then they are allocated, then sheet_read fills them. Prints two lines: the numbers of the room, and the line of read_class. With
 * STACK the room is asked for on a thread that has that many bytes of stack. */
#include "class_input.h"

struct call {
    struct input input;
    uint64_t room[SHEET_ROOM_ANSWER];
};

struct sheet {
    uint8_t *sheet, *text;
    uint64_t answer[SHEET_ANSWER];
};

static void *ask_for_room(void *lent) {
    struct call *c = lent;
    const struct input *in = &c->input;
    sheet_room(in->k, in->version[0], in->version[1], in->version[2], in->d1, in->d1_count, in->d2, in->d2_count, in->ends, in->ends_count,
               c->room);
    return NULL;
}

/* The sheet of a class in areas that are just as long as they must be. Nothing is allocated for a class that is refused: the room has its number and
 * detail, and a text that is too long for any area is known by its length. */
static struct sheet read_fitting(const struct input *in, const uint64_t room[SHEET_ROOM_ANSWER]) {
    struct sheet s = {NULL, NULL, {room[SHEET_NUMBER], room[SHEET_DETAIL]}};
    if (room[SHEET_NUMBER] != SHEET_READ) return s;
    if (room[SHEET_TEXT_LENGTH] > SHEET_TEXT_LIMIT) {
        s.answer[SHEET_NUMBER] = SHEET_TEXT_TOO_LONG;
        return s;
    }
    size_t sheet_size = (size_t)room[SHEET_LENGTH], text_size = (size_t)room[SHEET_TEXT_LENGTH];
    s.sheet = allocated(sheet_size);
    s.text = allocated(text_size);
    sheet_read(in->k, in->version[0], in->version[1], in->version[2], in->d1, in->d1_count, in->d2, in->d2_count, in->ends, in->ends_count,
               s.sheet, sheet_size, s.text, text_size, s.answer);
    return s;
}

int main(int argc, char **argv) {
    static struct call c;
    if (argc > 2) fail("usage: fitting_areas [STACK]");
    read_input(&c.input);
    if (argc == 2) call_on_thread(ask_for_room, &c, strtoul(argv[1], NULL, 10));
    else ask_for_room(&c);
    for (int i = 0; i < SHEET_ROOM_ANSWER; i++) printf("%s%" PRIu64, i == 0 ? "" : " ", c.room[i]);
    putchar('\n');
    struct sheet s = read_fitting(&c.input, c.room);
    print_line(s.answer, s.sheet, s.text);
    free(s.sheet);
    free(s.text);
    free_input(&c.input);
    return 0;
}
