/* A stand-in for the library that tests what a caller owes of the memory (include/sheet_reader.h): no pointer is NULL, each is aligned for its
 * type. host/test links the host programs with it. sheet_read and the conversions answer 5; sheet_room tells a sheet of 23 bytes and no text, so that
 * a program that goes by it lends what it would lend for a head alone; sheet_strings tells that no string is fallen to. */
#include <stdio.h>
#include <stdlib.h>

#include "sheet_reader.h"

static void owed(const char *name, const void *pointer, size_t alignment) {
    if (pointer && (uintptr_t)pointer % alignment == 0) return;
    printf("%s is %s\n", name, pointer ? "not aligned" : "NULL");
    exit(1);
}

void sheet_room(int32_t k, int32_t major, int32_t minor, int32_t patch, const uint16_t *d1, size_t d1_count, const uint16_t *d2,
                size_t d2_count, const uint32_t *ends, size_t ends_count, uint64_t answer[SHEET_ROOM_ANSWER]) {
    (void)k, (void)major, (void)minor, (void)patch, (void)d1_count, (void)d2_count, (void)ends_count;
    owed("d1", d1, sizeof *d1);
    owed("d2", d2, sizeof *d2);
    owed("ends", ends, sizeof *ends);
    owed("answer", answer, sizeof *answer);
    for (int i = 0; i < SHEET_ROOM_ANSWER; i++) answer[i] = 0;
    answer[SHEET_LENGTH] = 23;
    answer[SHEET_ROOM_HEAD] = answer[SHEET_ROOM_ALIASES] = 1;
}

void sheet_strings(int32_t k, int32_t major, int32_t minor, int32_t patch, const uint16_t *d1, size_t d1_count, const uint16_t *d2,
                   size_t d2_count, const uint32_t *ends, size_t ends_count, uint8_t *used, size_t used_count,
                   uint64_t answer[SHEET_STRINGS_ANSWER]) {
    (void)k, (void)major, (void)minor, (void)patch, (void)d1_count, (void)d2_count, (void)ends_count;
    owed("d1", d1, sizeof *d1);
    owed("d2", d2, sizeof *d2);
    owed("ends", ends, sizeof *ends);
    owed("used", used, 1);
    owed("answer", answer, sizeof *answer);
    for (size_t i = 0; i < used_count; i++) used[i] = 0;
    for (int i = 0; i < SHEET_STRINGS_ANSWER; i++) answer[i] = 0;
}

void sheet_read(int32_t k, int32_t major, int32_t minor, int32_t patch, const uint16_t *d1, size_t d1_count, const uint16_t *d2,
                size_t d2_count, const uint32_t *ends, size_t ends_count, uint8_t *sheet, size_t sheet_size, uint8_t *text, size_t text_size,
                uint64_t answer[SHEET_ANSWER]) {
    (void)k, (void)major, (void)minor, (void)patch, (void)d1_count, (void)d2_count, (void)ends_count, (void)sheet_size, (void)text_size;
    owed("d1", d1, sizeof *d1);
    owed("d2", d2, sizeof *d2);
    owed("ends", ends, sizeof *ends);
    owed("sheet", sheet, 1);
    owed("text", text, 1);
    owed("answer", answer, sizeof *answer);
    for (int i = 0; i < SHEET_ANSWER; i++) answer[i] = 0;
    answer[SHEET_NUMBER] = SHEET_EMPTY;
}

static void owed_by_conversion(const uint16_t *d1, uint16_t *units, uint64_t answer[SHEET_CONVERTED_ANSWER]) {
    owed("d1", d1, sizeof *d1);
    owed("units", units, sizeof *units);
    owed("answer", answer, sizeof *answer);
    for (int i = 0; i < SHEET_CONVERTED_ANSWER; i++) answer[i] = 0;
    answer[SHEET_CONVERTED_NUMBER] = SHEET_EMPTY;
}

void sheet_old_to_new(const uint16_t *d1, size_t d1_count, uint16_t *units, size_t units_count, uint64_t answer[SHEET_CONVERTED_ANSWER]) {
    (void)d1_count, (void)units_count;
    owed_by_conversion(d1, units, answer);
}

void sheet_new_to_old(const uint16_t *d1, size_t d1_count, uint16_t *units, size_t units_count, uint64_t answer[SHEET_CONVERTED_ANSWER]) {
    (void)d1_count, (void)units_count;
    owed_by_conversion(d1, units, answer);
}
