/* What the example programs share: the input of one class from standard input (docs/MANUAL.md, "The program"), a call on a thread with a stack
 * of a given size, and the line that is printed. */
#ifndef CLASS_INPUT_H
#define CLASS_INPUT_H

#include <inttypes.h>
#include <pthread.h>
#include <stdio.h>
#include <stdlib.h>

#include "sheet_reader.h"

struct input {
    int32_t k, version[3];
    uint16_t *d1, *d2;
    uint32_t *ends;
    size_t d1_count, d2_count, ends_count;
};

static void fail(const char *why) {
    fprintf(stderr, "%s\n", why);
    exit(2);
}

/* Memory for so many bytes; at least one, so that the pointer of an empty slice is one that may be handed over. */
static void *allocated(size_t size) {
    void *bytes = malloc(size ? size : 1);
    if (!bytes) fail("no memory");
    return bytes;
}

/* A number of some bytes. What is announced and isn't there is too short an input, which isn't an error of these programs. */
static uint32_t number(size_t width) {
    uint32_t n = 0;
    for (size_t i = 0; i < width; i++) {
        int byte = getchar();
        if (byte == EOF) {
            puts("input");
            exit(0);
        }
        n |= (uint32_t)byte << 8 * i;
    }
    return n;
}

/* A count and as many numbers. Memory grows with what is there, not with the count. */
static void *numbers(size_t width, size_t *count) {
    size_t announced = number(4), space = 1;
    unsigned char *all = allocated(width);
    for (*count = 0; *count < announced; ++*count) {
        if (*count == space && !(all = realloc(all, (space *= 2) * width))) fail("no memory");
        uint32_t n = number(width);
        if (width == 2) ((uint16_t *)all)[*count] = (uint16_t)n;
        else ((uint32_t *)all)[*count] = n;
    }
    return all;
}

static void read_input(struct input *in) {
    in->k = (int32_t)number(4);
    for (int i = 0; i < 3; i++) in->version[i] = (int32_t)number(4);
    in->d1 = numbers(2, &in->d1_count);
    in->d2 = numbers(2, &in->d2_count);
    in->ends = numbers(4, &in->ends_count);
}

static void free_input(struct input *in) {
    free(in->d1);
    free(in->d2);
    free(in->ends);
}

static void call_on_thread(void *(*make_call)(void *), void *lent, size_t stack) {
    pthread_t thread;
    pthread_attr_t attributes;
    if (pthread_attr_init(&attributes) || pthread_attr_setstacksize(&attributes, stack)) fail("no such stack");
    if (pthread_create(&thread, &attributes, make_call, lent) || pthread_join(thread, NULL)) fail("no thread");
    pthread_attr_destroy(&attributes);
}

static inline void print_part(const uint8_t *bytes, uint64_t length) {
    putchar(' ');
    if (length == 0) putchar('-');
    for (uint64_t i = 0; i < length; i++) printf("%02x", bytes[i]);
}

/* Number, detail, sheet and text; not every program prints them, so that it is inline. */
static inline void print_line(const uint64_t answer[SHEET_ANSWER], const uint8_t *sheet, const uint8_t *text) {
    printf("%" PRIu64 " %" PRIu64, answer[SHEET_NUMBER], answer[SHEET_DETAIL]);
    print_part(sheet, answer[SHEET_LENGTH]);
    print_part(text, answer[SHEET_TEXT_LENGTH]);
    putchar('\n');
}

#endif
