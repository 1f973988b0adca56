/* The native methods of sheetreader.SheetReader: one call of sheet_read, one of sheet_strings, and one of a conversion (include/sheet_reader.h).
 *
 * All that is handed over stands in memory of this call's own: Java's arrays are copied, so that neither the garbage collector nor another
 * thread touches what the reader works on, and no pointer is NULL. Of an array that is longer than its limit, one element more than the
 * limit is copied: that is enough for the reader to refuse it. */
#include <jni.h>
#include <stdlib.h>

#include "sheet_reader.h"

struct units {
    size_t d1_count, d2_count, ends_count;
    uint32_t ends[SHEET_STRING_LIMIT + 1];
    uint16_t d1[SHEET_UNIT_LIMIT + 1], d2[SHEET_UNIT_LIMIT + 1];
};

struct lent {
    struct units units;
    uint64_t answer[SHEET_ANSWER];
    uint8_t sheet[SHEET_LONGEST], text[SHEET_TEXT_LIMIT];
};

static jsize at_most(jsize count, jsize limit) { return count <= limit ? count : limit + 1; }

static void throw_no_memory(JNIEnv *env) {
    jclass error = (*env)->FindClass(env, "java/lang/OutOfMemoryError");
    if (error) (*env)->ThrowNew(env, error, "no native memory for a class's metadata and its sheet");
}

static void copy_units(JNIEnv *env, struct units *u, jcharArray d1, jcharArray d2, jintArray ends) {
    jsize d1_count = at_most((*env)->GetArrayLength(env, d1), SHEET_UNIT_LIMIT);
    jsize d2_count = at_most((*env)->GetArrayLength(env, d2), SHEET_UNIT_LIMIT);
    jsize ends_count = at_most((*env)->GetArrayLength(env, ends), SHEET_STRING_LIMIT);
    (*env)->GetCharArrayRegion(env, d1, 0, d1_count, u->d1);
    (*env)->GetCharArrayRegion(env, d2, 0, d2_count, u->d2);
    (*env)->GetIntArrayRegion(env, ends, 0, ends_count, (jint *)u->ends);
    u->d1_count = (size_t)d1_count;
    u->d2_count = (size_t)d2_count;
    u->ends_count = (size_t)ends_count;
}

/* The sheet and after it the text, as one array; NULL with a Java exception if there is no memory for it. */
static jbyteArray sheet_and_text(JNIEnv *env, const struct lent *l) {
    jsize sheet = (jsize)l->answer[SHEET_LENGTH], text = (jsize)l->answer[SHEET_TEXT_LENGTH];
    jbyteArray both = (*env)->NewByteArray(env, sheet + text);
    if (both) {
        (*env)->SetByteArrayRegion(env, both, 0, sheet, (const jbyte *)l->sheet);
        (*env)->SetByteArrayRegion(env, both, sheet, text, (const jbyte *)l->text);
    }
    return both;
}

/* No array is null and answer has SHEET_ANSWER numbers: the Java class, which alone can call this, sees to it. */
JNIEXPORT jbyteArray JNICALL Java_sheetreader_SheetReader_call(JNIEnv *env, jclass self, jint k, jint major, jint minor, jint patch,
                                                                jcharArray d1, jcharArray d2, jintArray ends, jlongArray answer) {
    (void)self;
    struct lent *l = malloc(sizeof *l);
    if (!l) {
        throw_no_memory(env);
        return NULL;
    }
    copy_units(env, &l->units, d1, d2, ends);
    const struct units *u = &l->units;
    sheet_read(k, major, minor, patch, u->d1, u->d1_count, u->d2, u->d2_count, u->ends, u->ends_count, l->sheet, sizeof l->sheet, l->text,
               sizeof l->text, l->answer);
    (*env)->SetLongArrayRegion(env, answer, 0, SHEET_ANSWER, (const jlong *)l->answer);
    jbyteArray both = sheet_and_text(env, l);
    free(l);
    return both;
}

struct told {
    struct units units;
    uint64_t answer[SHEET_STRINGS_ANSWER];
    uint8_t used[SHEET_STRING_LIMIT];
};

/* No array is null and answer has SHEET_STRINGS_ANSWER numbers: the Java class, which alone can call this, sees to it. */
JNIEXPORT jbyteArray JNICALL Java_sheetreader_SheetReader_used(JNIEnv *env, jclass self, jint k, jint major, jint minor, jint patch,
                                                                jcharArray d1, jcharArray d2, jintArray ends, jlongArray answer) {
    (void)self;
    struct told *t = malloc(sizeof *t);
    if (!t) {
        throw_no_memory(env);
        return NULL;
    }
    copy_units(env, &t->units, d1, d2, ends);
    const struct units *u = &t->units;
    sheet_strings(k, major, minor, patch, u->d1, u->d1_count, u->d2, u->d2_count, u->ends, u->ends_count, t->used, sizeof t->used, t->answer);
    (*env)->SetLongArrayRegion(env, answer, 0, SHEET_STRINGS_ANSWER, (const jlong *)t->answer);
    /* a class that is read has SHEET_STRING_LIMIT strings at most */
    jsize count = t->answer[SHEET_STRINGS_NUMBER] == SHEET_READ ? (jsize)u->ends_count : 0;
    jbyteArray used = (*env)->NewByteArray(env, count);
    if (used) (*env)->SetByteArrayRegion(env, used, 0, count, (const jbyte *)t->used);
    free(t);
    return used;
}

struct converted {
    uint64_t answer[SHEET_CONVERTED_ANSWER];
    uint16_t d1[SHEET_UNIT_LIMIT + 1], units[SHEET_OLD_LONGEST]; /* the longest of both */
};

/* The array isn't null and answer has SHEET_CONVERTED_ANSWER numbers: the Java class, which alone can call this, sees to it. */
JNIEXPORT jcharArray JNICALL Java_sheetreader_SheetReader_convert(JNIEnv *env, jclass self, jboolean to_new, jcharArray d1, jlongArray answer) {
    (void)self;
    struct converted *c = malloc(sizeof *c);
    if (!c) {
        throw_no_memory(env);
        return NULL;
    }
    jsize d1_count = at_most((*env)->GetArrayLength(env, d1), SHEET_UNIT_LIMIT);
    (*env)->GetCharArrayRegion(env, d1, 0, d1_count, c->d1);
    if (to_new) sheet_old_to_new(c->d1, (size_t)d1_count, c->units, SHEET_OLD_LONGEST, c->answer);
    else sheet_new_to_old(c->d1, (size_t)d1_count, c->units, SHEET_OLD_LONGEST, c->answer);
    (*env)->SetLongArrayRegion(env, answer, 0, SHEET_CONVERTED_ANSWER, (const jlong *)c->answer);
    jsize length = (jsize)c->answer[SHEET_CONVERTED_LENGTH];
    jcharArray units = (*env)->NewCharArray(env, length);
    if (units) (*env)->SetCharArrayRegion(env, units, 0, length, c->units);
    free(c);
    return units;
}
