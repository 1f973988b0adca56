/* The sheet reader as C functions: the metadata of one compiled Kotlin class in, a call sheet out (sheet_read); before that, if wanted, how much
 * room the sheet takes (sheet_room), and which strings of d2 must stay as they are (sheet_strings); and two functions that convert d1 between its
 * old form and the one with the marker. docs/MANUAL.md tells all of it.
 *
 * Build the archive with `./sheet build`, and link target/staticlib/libsheet_calls.a (x86-64 Linux). It needs no other library,
 * allocates nothing, keeps nothing between calls and may be called from several threads at once.
 */
#ifndef SHEET_READER_H
#define SHEET_READER_H

#include <stddef.h>
#include <stdint.h>

#ifdef __cplusplus
extern "C" {
#endif

/* The number of the sheets' format: 7 for the sheets as they are told below (1 was without type aliases; up to 2 names by operation 2 of the name
 * table had "kotlin.collections." in front; up to 3 a d1 in its old form was refused or misread; up to 4
 * fields with a forbidden number were passed over; up to 5 a type had 9 bytes, without a projection, and stars were dropped; up to 6 parameters without a name were left out). It goes up whenever
 * sheets change, so that a program that keeps sheets can tell by it which of them to make anew. */
#define SHEET_FORMAT 7

/* What sheet_read puts into answer. */
enum {
    SHEET_NUMBER = 0,       /* 0: read; else refused, see below */
    SHEET_DETAIL = 1,       /* of 6 the unit; of 7, 8, 9, 13, 14 and 17 where it broke, an offset among the payload's bytes; else 0 */
    SHEET_LENGTH = 2,       /* bytes of the sheet, 0 if refused */
    SHEET_TEXT_LENGTH = 3,  /* bytes of the text, 0 if refused */
    SHEET_TYPES = 4,        /* type records on the sheet, 0 if refused */
    SHEET_ANSWER = 5        /* how many numbers answer has */
};

/* What sheet_old_to_new and sheet_new_to_old put into answer. */
enum {
    SHEET_CONVERTED_NUMBER = 0,  /* 0: converted; else refused, see below */
    SHEET_CONVERTED_DETAIL = 1,  /* of 6 the unit; else 0 */
    SHEET_CONVERTED_LENGTH = 2,  /* units of the converted d1, 0 if refused */
    SHEET_CONVERTED_ANSWER = 3   /* how many numbers answer has */
};

/* What sheet_strings puts into answer. */
enum {
    SHEET_STRINGS_NUMBER = 0,  /* 0: told; else refused, see below */
    SHEET_STRINGS_DETAIL = 1,  /* as of sheet_read */
    SHEET_STRINGS_USED = 2,    /* how many strings the reading falls to, 0 if refused */
    SHEET_STRINGS_ANSWER = 3   /* how many numbers answer has */
};

/* Refusals. All areas are then as they were.
 *
 * sheet_read gives 1 to 14 and 17. They are tested in the order of their numbers, but 7 to 10, 13, 14 and 17 as the payload is read: of these the first that is
 * met is given. An offset counts the payload's bytes from 0: where d1 begins with a unit 0, the byte at offset n is its unit n + 1. It is that of
 * the first byte of the varint or fixed number that was read, also where not even that is there.
 *
 * sheet_room gives what sheet_read does but for 11 and 12, sheet_strings the same and then 12. sheet_old_to_new gives 1, 5, 15, 6 and 12,
 * sheet_new_to_old 1, 5, 15, 6, 16 and 12, tested in this order. */
enum {
    SHEET_READ = 0,
    SHEET_D1_TOO_LONG = 1,         /* more than SHEET_UNIT_LIMIT units */
    SHEET_D2_TOO_LONG = 2,         /* more than SHEET_UNIT_LIMIT units or SHEET_STRING_LIMIT strings */
    SHEET_STRING_ENDS = 3,         /* they fall, or the last (0 if there are none) isn't d2's count */
    SHEET_NEWER_VERSION = 4,       /* major above 2 */
    SHEET_EMPTY = 5,               /* d1 has no units; from new to old also: it has the marker alone */
    SHEET_NOT_A_BYTE = 6,          /* a unit of d1 is above 255; detail: the first such unit */
    SHEET_TRUNCATED = 7,           /* a varint is cut short by its message's end; detail: its offset */
    SHEET_WIRE_TYPE = 8,           /* a field has wire type 3, 4, 6 or 7; detail: its tag's offset */
    SHEET_OVERSIZED_VARINT = 9,    /* a varint has an eleventh byte; detail: its offset */
    SHEET_TOO_MANY_TYPES = 10,     /* more than SHEET_TYPE_LIMIT */
    SHEET_TEXT_TOO_LONG = 11,      /* longer than text_size or SHEET_TEXT_LIMIT: lend SHEET_TEXT_LIMIT bytes */
    SHEET_SHEET_TOO_LONG = 12,     /* longer than sheet_size: lend more; SHEET_LONGEST is always enough. Of a conversion: it has more units than
                                    * units_count. Of sheet_strings: d2 has more strings than used_count */
    SHEET_PAST_MESSAGE = 13,       /* a length, or a fixed number, runs past its message; detail: the length's or the number's offset */
    SHEET_FIELD_TOO_LARGE = 14,    /* a field number is above 32 bits; detail: its tag's offset */
    SHEET_WRONG_FORM = 15,         /* conversions: d1 has the other form. It begins with a unit 0 (old to new), or it doesn't (new to old) */
    SHEET_FIRST_UNIT_ZERO = 16,    /* new to old: the first unit would be 0 and pass for the marker. The payload's first byte is 7F or FF hex */
    SHEET_FORBIDDEN_FIELD = 17     /* a field number is 0, or above 536870911 and within 32 bits; detail: its tag's offset */
};

/* Limits. Areas of SHEET_LONGEST and SHEET_TEXT_LIMIT bytes are always enough: with them 12 is never given, and 11 only to a class whose text fits no
 * area. It is proved for every input (areas_enough in crates/promises/proofs/Longest.antt) and stands in the contract of sheet_read, clause `enough`. */
enum {
    SHEET_UNIT_LIMIT = 32768,
    SHEET_STRING_LIMIT = 4096,
    SHEET_TYPE_LIMIT = 2048,
    SHEET_TEXT_LIMIT = 65534,
    SHEET_LONGEST = 413695
};

/* How many units a conversion gives at most: with an area of so many 12 is never given. It stands in the contracts of both functions, clause `enough`.
 * (32,768 units of the old form are 28,672 bytes; 32,767 bytes after the marker are 37,448 units of the old form.) */
enum {
    SHEET_NEW_LONGEST = 28673, /* of sheet_old_to_new */
    SHEET_OLD_LONGEST = 37448  /* of sheet_new_to_old */
};

/* Reads one class.
 *
 *   k, major, minor, patch   of the annotation kotlin.Metadata: k (1 if it is absent) and mv (0 for each number that is absent)
 *   d1, d1_count             the UTF-16 units of all strings of d1, one after the other; in the form with the marker or in the old one
 *   d2, d2_count             the same of d2
 *   ends, ends_count         for each string of d2, how many units of d2 stand before its end
 *   sheet, sheet_size        the area for the sheet
 *   text, text_size          the area for the text
 *   answer                   SHEET_ANSWER numbers, always written
 *
 * Counts are of elements, sizes of bytes. What is handed in may hold anything: there is no input that the function doesn't answer.
 *
 * What the caller owes, of the memory alone:
 *   - every pointer is aligned for its type and not NULL, also where the count is 0: then hand over the address of any object of that type
 *     (an empty std::vector's data() may be NULL: host/cpp/read_class.cpp);
 *   - d1, d2 and ends are readable over their counts, sheet, text and answer are writable over theirs, and nothing else writes to any of
 *     them until the call returns;
 *   - sheet, text and answer overlap neither each other nor d1, d2 or ends. (d1, d2 and ends are only read; they may overlap each other.)
 *
 * Stack: less than 96 KiB for a d1 of at most 1,024 units, less than 640 KiB for any other input; lend a thread 1 MiB.
 *
 * What the caller gets: if answer[SHEET_NUMBER] is 0, the sheet stands in the first answer[SHEET_LENGTH] bytes of its area and the text in the
 * first answer[SHEET_TEXT_LENGTH] bytes of its own. All other bytes of both areas are as they were; after a refusal all of them are.
 *
 * Strings of d2 that the reading doesn't fall to don't matter to the answer, but their number does: docs/MANUAL.md, "Strings that may be blanked".
 * sheet_strings tells which they are.
 */
void sheet_read(int32_t k, int32_t major, int32_t minor, int32_t patch,
                const uint16_t *d1, size_t d1_count,
                const uint16_t *d2, size_t d2_count,
                const uint32_t *ends, size_t ends_count,
                uint8_t *sheet, size_t sheet_size,
                uint8_t *text, size_t text_size,
                uint64_t answer[SHEET_ANSWER]);

/* What sheet_room puts into answer: the five numbers of sheet_read's answer, SHEET_NUMBER to SHEET_TYPES, in the same places, then how many
 * records of each kind stand on the sheet, and then how many bytes of text each list has. The number of records of a kind stands at
 * SHEET_ROOM_RECORDS + kind. A list's text is that of its declarations and of all they own: parameters, types, default descriptors. The five add up
 * to answer[SHEET_TEXT_LENGTH]. */
enum {
    SHEET_ROOM_RECORDS = 4,
    SHEET_ROOM_HEAD = 5,        /* 1 of every class that is not refused */
    SHEET_ROOM_CONSTRUCTOR = 6,
    SHEET_ROOM_FUNCTION = 7,
    SHEET_ROOM_PROPERTY = 8,
    SHEET_ROOM_PARAMETER = 9,
    SHEET_ROOM_TYPE = 10,       /* the same as SHEET_TYPES */
    SHEET_ROOM_DEFAULT = 11,    /* as many as constructors and functions */
    SHEET_ROOM_ALIAS = 12,
    SHEET_ROOM_ALIASES = 13,    /* 1 of every class that is not refused: the record that counts the aliases */
    SHEET_ROOM_TEXT_PROPERTIES = 14,
    SHEET_ROOM_TEXT_FUNCTIONS = 15,
    SHEET_ROOM_TEXT_CONSTRUCTORS = 16,
    SHEET_ROOM_TEXT_ALIASES = 17,
    SHEET_ROOM_TEXT_HEAD = 18,  /* the class's own name */
    SHEET_ROOM_ANSWER = 19      /* how many numbers answer has */
};

/* Tells how much room the sheet of a class takes, before any area is lent.
 *
 *   k .. ends_count          as for sheet_read
 *   answer                   SHEET_ROOM_ANSWER numbers, always written
 *
 * What the caller owes is what it owes sheet_read, of d1, d2, ends and answer.
 *
 * Stack: less than 96 KiB for a d1 of at most 1,024 units, less than 640 KiB for any other input; lend a thread 1 MiB.
 *
 * What the caller gets: number and detail of the refusal that sheet_read would give, but for 11 and 12, which are never given here; all other
 * numbers are then 0. If the number is 0, answer[SHEET_LENGTH] and answer[SHEET_TEXT_LENGTH] are the lengths of sheet and text. The text's is
 * its true length: it may be more than SHEET_TEXT_LIMIT, and more than 1,000,000,000. Then sheet_read, called with the same input,
 *   - gives 11 if the text is longer than SHEET_TEXT_LIMIT, whatever is lent;
 *   - else, with areas of just these lengths, gives 0 and the sheet (host/c/fitting_areas.c);
 *   - with a text area of a byte less, or more, gives 11;
 *   - with a text area that is long enough and a sheet area of a byte less, or more, gives 12.
 * A text length of 0 is told where the sheet has no text: then hand over any object's address and a text_size of 0.
 */
void sheet_room(int32_t k, int32_t major, int32_t minor, int32_t patch,
                const uint16_t *d1, size_t d1_count,
                const uint16_t *d2, size_t d2_count,
                const uint32_t *ends, size_t ends_count,
                uint64_t answer[SHEET_ROOM_ANSWER]);

/* Tells which strings of d2 the reading of a class falls to. The others may be blanked, all at once: whatever stands in their place, sheet_read and
 * sheet_room then give the same answer, as long as the number of strings stays (docs/MANUAL.md, "Strings that may be blanked").
 *
 *   k .. ends_count          as for sheet_read
 *   used, used_count         the area for what is told: a byte for each string of d2; SHEET_STRING_LIMIT bytes are always enough
 *   answer                   SHEET_STRINGS_ANSWER numbers, always written
 *
 * What the caller owes is what it owes sheet_read, with used in the place of sheet and text.
 *
 * Stack: less than 96 KiB for a d1 of at most 1,024 units, less than 900 KiB for any other; lend a thread 1 MiB.
 *
 * What the caller gets: if answer[SHEET_STRINGS_NUMBER] is 0, used[n] is 1 where the reading falls to string n and 0 where it doesn't, for each n
 * below ends_count, and answer[SHEET_STRINGS_USED] is how many are 1. Bytes past the strings are as they were; after a refusal all of them are.
 * Number and detail of a refusal are those of sheet_room: nothing is told of the strings of a class that is refused. The text isn't looked
 * at, so that a class whose text fits no area is told of. 12 is given where used_count is less than ends_count, and tested last: only a class that
 * is not refused gets it.
 */
void sheet_strings(int32_t k, int32_t major, int32_t minor, int32_t patch,
                   const uint16_t *d1, size_t d1_count,
                   const uint16_t *d2, size_t d2_count,
                   const uint32_t *ends, size_t ends_count,
                   uint8_t *used, size_t used_count,
                   uint64_t answer[SHEET_STRINGS_ANSWER]);

/* Convert d1. With the marker it is a unit 0 and then a unit for each byte of the payload. The old form, which compilers wrote before that, has no
 * marker: the bytes' bits one after the other, each byte's lowest first, in groups of seven, the last filled with zero bits, and a unit is its
 * group and 1, mod 128. sheet_read takes both forms and gives the same answer for a d1 and what it is converted to.
 *
 *   d1, d1_count             the units to convert, as for sheet_read
 *   units, units_count       the area for the converted units
 *   answer                   SHEET_CONVERTED_ANSWER numbers, always written
 *
 * Both counts are of units, not of bytes. What is handed in may hold anything: there is no input that the functions don't answer.
 *
 * What the caller owes, of the memory alone:
 *   - every pointer is aligned for its type and not NULL, also where the count is 0: then hand over the address of any object of that type;
 *   - d1 is readable over its count, units and answer are writable over theirs, and nothing else writes to any of them until the call returns;
 *   - units and answer overlap neither each other nor d1: d1 can't be converted in place.
 *
 * Stack: less than 40 KiB.
 *
 * What the caller gets: if answer[SHEET_CONVERTED_NUMBER] is 0, the converted d1 stands in the first answer[SHEET_CONVERTED_LENGTH] units of the
 * area. All other units of it are as they were; after a refusal all of them are.
 *
 * From old to new, n units give the marker and 7n/8 bytes, rounded down; a unit counts mod 128, and bits that are left over are dropped. From new to
 * old, n bytes after the marker give 8n/7 units, rounded up. New to old to new gives the same units for up to 28,672 bytes; more give more units
 * than old to new takes (1). Old to new to old gives the same units exactly when all are below 128, no fewer units would do (one unit, and 8m + 1
 * units, have one too many) and the last group's spare bits are zero, as compilers write them; others come back changed, or are refused.
 */
void sheet_old_to_new(const uint16_t *d1, size_t d1_count, uint16_t *units, size_t units_count, uint64_t answer[SHEET_CONVERTED_ANSWER]);
void sheet_new_to_old(const uint16_t *d1, size_t d1_count, uint16_t *units, size_t units_count, uint64_t answer[SHEET_CONVERTED_ANSWER]);

/* The sheet: records one after the other. The first byte of a record is its kind, which fixes its length. Numbers are little-endian.
 * A ref is the offset of a text in the text area, 2 bytes, and its length, 2 bytes; FFFFFFFF hex is no text. Texts are UTF-8, without a 0
 * at their end. Offsets below count from the record's first byte; the width of a number stands after it.
 *
 *   kind                  bytes   cells
 *   1 head                20      1 metadata kind 1, 2 class name ref, 6 flags 8, 14 constructors 2, 16 functions 2, 18 properties 2
 *   2 constructor         19      1 flags 8, 9 signature name ref, 13 descriptor ref, 17 parameters 2
 *   3 function            24      1 name ref, 5 flags 8, 13 signature name ref, 17 descriptor ref, 21 receiver 1, 22 parameters 2
 *   4 property            40      1 name ref, 5 flags 8, 13 receiver 1, 14 getter default 1, 15 setter default 1, then six refs:
 *                                 16 field, 20 its descriptor, 24 getter, 28 its descriptor, 32 setter, 36 its descriptor
 *   5 parameter            6      1 name ref, 5 default 1
 *   6 type                10      1 role 1, 2 nullable 1, 3 name ref, 7 arguments 2, 9 projection 1
 *   7 default descriptor   5      1 descriptor ref
 *   8 alias               13      1 name ref, 5 flags 8
 *   9 aliases              3      1 aliases 2
 *
 *   sheet        head, constructors, functions, properties: as many of each as the head says; then 9, also where it says 0, and as many
 *                type aliases as it says
 *   constructor  2, parameters, 7
 *   function     3, parameters, type of role 2 if any, type of role 1 if any, 7
 *   property     4, type of role 2 if any, type of role 1 if any
 *   parameter    5, type of role 3 if any, type of role 4 if any
 *   type         6, its arguments: types of role 5
 *   alias        8, type of role 6 if any, type of role 7 if any
 */
enum {
    SHEET_HEAD = 1,
    SHEET_CONSTRUCTOR = 2,
    SHEET_FUNCTION = 3,
    SHEET_PROPERTY = 4,
    SHEET_PARAMETER = 5,
    SHEET_TYPE = 6,
    SHEET_DEFAULT = 7,
    SHEET_ALIAS = 8,
    SHEET_ALIASES = 9
};

/* roles of types */
enum {
    SHEET_RETURNED = 1, /* or a property's type */
    SHEET_RECEIVER = 2,
    SHEET_PARAMETER_TYPE = 3,
    SHEET_VARARG_ELEMENT = 4,
    SHEET_ARGUMENT = 5,
    SHEET_UNDERLYING = 6, /* what an alias is declared to be */
    SHEET_EXPANDED = 7    /* the same with the aliases in it put in full */
};

/* projections of arguments; a type of any other role is invariant */
enum {
    SHEET_IN = 0,        /* Comparable<in T> */
    SHEET_OUT = 1,       /* Array<out T> */
    SHEET_INVARIANT = 2, /* Array<T> */
    SHEET_STAR = 3       /* Array<*>: the type is blank, without name and arguments and not nullable */
};

#ifdef __cplusplus
}
#endif

#endif
