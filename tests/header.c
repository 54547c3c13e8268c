/* What stands in the header, on the archive: its functions, NULL where a length is
 * 0, and any alignment. Compiles as C and as C++. */
#include "acon.h"

#include <limits.h>
#include <stdio.h>
#include <stdlib.h>
#include <string.h>

static unsigned long checks;

static void check(int holds, const char *what, unsigned long where)
{
    if (!holds) {
        fprintf(stderr, "header: %s, at %lu\n", what, where);
        exit(1);
    }
    checks++;
}

/* ---- Texts, version and unpacking */

static void texts(void)
{
    const char *other = acon_text(ACON_NO_SPACE + 1);
    for (unsigned n = 0; n <= ACON_NO_SPACE; n++) {
        const char *text = acon_text(n);
        size_t length = strlen(text);
        check(length > 3 && length < 80 && text[length - 1] != '.', "a text is not short", n);
        check(strcmp(text, other) != 0, "a number has no text of its own", n);
        for (unsigned m = 0; m < n; m++)
            check(strcmp(text, acon_text(m)) != 0, "two numbers have the same text", n);
    }
    for (unsigned n = ACON_NO_SPACE + 1; n < 1000; n++)
        check(strcmp(acon_text(n), other) == 0, "a number that no call gives has its own text", n);
    check(strcmp(acon_text(UINT_MAX), other) == 0, "the largest number has its own text", 0);
}

/* A sentence is that of its number, and has the offset where there is one. */
static void sentences(void)
{
    static const uint32_t offsets[] = {0, 1, 9, 10, 11, 99, 100, 16384, 4294967295u};
    for (unsigned n = 0; n <= 0xff; n++)
        for (size_t i = 0; i < sizeof offsets / sizeof offsets[0]; i++) {
            char said[ACON_SENTENCE_MAX], wanted[2 * ACON_SENTENCE_MAX];
            uint64_t answer = (uint64_t)offsets[i] << 32 | 5 << 8 | n;
            int at = n >= 2 && n <= 6;
            int length = snprintf(wanted, sizeof wanted, "%s", acon_text(n));
            if (at)
                snprintf(wanted + length, sizeof wanted - (size_t)length, ", at byte %lu",
                         (unsigned long)offsets[i]);
            check(strlen(wanted) < sizeof said, "a sentence is too long", n);
            check(acon_sentence(answer, said) == said && strcmp(said, wanted) == 0,
                  "a sentence is wrong", n);
        }
}

static void version(void)
{
    char text[40];
    snprintf(text, sizeof text, "%d.%d.%d", ACON_VERSION_MAJOR, ACON_VERSION_MINOR,
             ACON_VERSION_PATCH);
    check(strcmp(text, ACON_VERSION) == 0, "the version has other numbers", 0);
}

static void unpacking(void)
{
    static const uint32_t values[] = {0, 1, 0xff, 0x100, 0x123456, 0xffffff};
    for (unsigned n = 0; n <= 0xff; n++)
        for (size_t i = 0; i < sizeof values / sizeof values[0]; i++) {
            uint32_t value = values[i], second = ~value;
            uint64_t answer = (uint64_t)second << 32 | (uint64_t)value << 8 | n;
            int fails = n == 17 || n == 18 || n == 19;
            acon_resolved resolved = acon_resolved_of(answer);
            check(acon_number(answer) == n && acon_first(answer) == value &&
                      acon_second(answer) == second,
                  "an answer is taken apart wrongly", n);
            check(acon_is_done(answer) == (n == 0), "acon_is_done is wrong", n);
            check(acon_has_offset(answer) == (n >= 2 && n <= 6) &&
                      acon_offset(answer) == (n >= 2 && n <= 6 ? second : 0),
                  "acon_offset is wrong", n);
            check(acon_form_of(answer).number == n && acon_form_of(answer).length == value &&
                      acon_form_of(answer).offset == acon_offset(answer),
                  "acon_form_of is wrong", n);
            check(acon_loaded_of(answer).number == n && acon_loaded_of(answer).used == value &&
                      acon_loaded_of(answer).offset == acon_offset(answer),
                  "acon_loaded_of is wrong", n);
            check(acon_judged_of(answer).number == n && acon_judged_of(answer).pairs == value,
                  "acon_judged_of is wrong", n);
            check(resolved.number == n && resolved.length == (n == 0 ? value : 0) &&
                      resolved.layer == (fails ? value : 0),
                  "acon_resolved_of is wrong", n);
        }
}

/* ---- The calls, by what is lent to each */

#define SIGNER "sha224/aaaaaaaaaaaaaaaaaaaaaaaaaaaaaaaaaaaaaaaaaaaaaaaaaaaaaaaa/"
#define DIGITS "000000000000000000000000000000000000000000000000000000"
#define LAYER "sha224/11111111111111111111111111111111111111111111111111111111"
#define PLAIN "{\"aconSpecVersion\":[1,0]}"
#define GUARD "{\"aconSpecVersion\":[1,0],\"layers\":[\"" LAYER "\"]," \
              "\"policy\":{\"rejectUnaccepted\":true}}"

enum { CANONICAL, LOAD, JUDGE, RESOLVE, CALLS };
enum { MOST = 3, SPACE = 512, OFFSETS = 16 };

/* How many pointers each call has. The last one is written. */
static const unsigned pointers[CALLS] = {2, 3, 2, 3};

static uint8_t area[MOST][SPACE + OFFSETS];
static uint8_t *lent[MOST];
static size_t lengths[MOST];

static uint64_t call(int which, size_t used)
{
    switch (which) {
    case CANONICAL:
        return acon_canonical(lent[0], lengths[0], lent[1], lengths[1]);
    case LOAD:
        return acon_load(lent[0], lengths[0], lent[1], lengths[1], lent[2], lengths[2], used);
    case JUDGE:
        return acon_judge(lent[0], lengths[0], used, lent[1], lengths[1]);
    default:
        return acon_resolve(lent[0], lengths[0], used, lent[1], lengths[1], 0, lent[2], lengths[2]);
    }
}

static void lend(unsigned i, size_t offset, const void *bytes, size_t n)
{
    lent[i] = area[i] + offset;
    lengths[i] = n;
    memcpy(lent[i], bytes, n);
}

static uint8_t store[SPACE]; /* a guard and a stranger */
static size_t one, both;     /* the bytes in use with the guard, and with both */

static void make_store(void)
{
    static const char *const ids[] = {SIGNER DIGITS "0a", SIGNER DIGITS "0b"};
    static const char *const manifests[] = {GUARD, PLAIN};
    for (int i = 0; i < 2; i++) {
        uint64_t answer =
            acon_load((const uint8_t *)ids[i], strlen(ids[i]), (const uint8_t *)manifests[i],
                      strlen(manifests[i]), store, sizeof store, both);
        check(acon_is_done(answer) && answer != 0, "an image is not loaded", (unsigned long)i);
        one = both;
        both = acon_loaded_of(answer).used;
    }
}

/* Puts what a call is lent at that offset; every other byte is the same each time. */
static void prepare(int which, size_t offset)
{
    static const char id[] = SIGNER DIGITS "0c";
    static const char list[] = "\1" /* and LAYER's digest */
                               "\x11\x11\x11\x11\x11\x11\x11\x11\x11\x11\x11\x11\x11\x11"
                               "\x11\x11\x11\x11\x11\x11\x11\x11\x11\x11\x11\x11\x11\x11";
    static const uint8_t empty[SPACE] = {0};
    memset(area, 0x5a, sizeof area);
    if (which == CANONICAL) {
        lend(0, offset, "[ 1 ]", 5);
        lend(1, offset, empty, SPACE);
    } else if (which == LOAD) {
        lend(0, offset, id, sizeof id - 1);
        lend(1, offset, PLAIN, sizeof PLAIN - 1);
        lend(2, offset, store, SPACE);
    } else if (which == JUDGE) {
        lend(0, offset, store, SPACE);
        lend(1, offset, empty, SPACE);
    } else {
        lend(0, offset, store, SPACE);
        lend(1, offset, list, sizeof list - 1);
        lend(2, offset, empty, SPACE);
    }
}

/* The number of each call, by which of its pointers have length 0 (bit 0 for the
 * first), with the store in use and with nothing in use. */
static const unsigned numbers[CALLS][2][8] = {
    {{0, 3, 20, 3}, {0, 3, 20, 3}},
    {{0, 10, 3, 3, 11, 10, 3, 3}, {0, 10, 3, 3, 14, 10, 3, 3}},
    {{0, 11, 20, 11}, {0, 0, 0, 0}},
    {{0, 11, 19, 11, 20, 11, 19, 11}, {16, 16, 16, 16, 16, 16, 16, 16}},
};

static void no_bytes(int which, int nothing, unsigned empty)
{
    uint64_t answers[2];
    uint8_t after[2][sizeof area];
    for (int null = 0; null < 2; null++) {
        prepare(which, 0);
        for (unsigned i = 0; i < pointers[which]; i++)
            if (empty >> i & 1) {
                lengths[i] = 0;
                if (null)
                    lent[i] = NULL;
            }
        answers[null] = call(which, nothing ? 0 : both);
        memcpy(after[null], area, sizeof area);
    }
    unsigned long where = (unsigned long)which * 100 + empty;
    check(acon_number(answers[0]) == numbers[which][nothing][empty], "wrong number", where);
    check(answers[1] == answers[0], "NULL gets another answer than length 0", where);
    check(memcmp(after[1], after[0], sizeof area) == 0, "NULL changes other bytes", where);
}

static void nulls(void)
{
    for (int which = 0; which < CALLS; which++)
        for (int nothing = 0; nothing < 2; nothing++)
            for (unsigned empty = 0; empty < 1u << pointers[which]; empty++)
                no_bytes(which, nothing, empty);
}

static void alignments(void)
{
    for (int which = 0; which < CALLS; which++) {
        uint8_t written[SPACE];
        prepare(which, 0);
        uint64_t answer = call(which, both);
        memcpy(written, lent[pointers[which] - 1], SPACE);
        for (size_t offset = 1; offset < OFFSETS; offset++) {
            prepare(which, offset);
            check(call(which, both) == answer, "another answer at another alignment", offset);
            check(memcmp(lent[pointers[which] - 1], written, SPACE) == 0,
                  "other bytes at another alignment", offset);
        }
    }
}

/* What the lines on right and wrong give as reasons. */
static void reasons(void)
{
    prepare(CANONICAL, 0);
    uint64_t answer = call(CANONICAL, 0);
    check(acon_is_done(answer) && answer != 0, "a success is 0", CANONICAL);
    prepare(LOAD, 0);
    lengths[2] = both;
    answer = call(LOAD, both);
    check(acon_number(answer) == ACON_FULL, "a load finds space", LOAD);
    check(acon_loaded_of(answer).used == 0, "a refusal has a used count", LOAD);
    prepare(JUDGE, 0);
    answer = call(JUDGE, both);
    check(acon_is_done(answer) && acon_judged_of(answer).pairs == 1, "a pair is a refusal", JUDGE);
    check(lent[1][0] == 0 && lent[1][1] == 1 && lent[1][2] == 0, "a pair is not two bytes", JUDGE);
    prepare(RESOLVE, 0);
    check(acon_resolved_of(call(RESOLVE, one)).length == 29, "a layer is not found", RESOLVE);
    lengths[1] = 0;
    acon_resolved resolved = acon_resolved_of(call(RESOLVE, one));
    check(resolved.number == ACON_ABSENT && resolved.layer == 0, "a layer is found", RESOLVE);
}

int main(void)
{
    texts();
    sentences();
    version();
    unpacking();
    make_store();
    nulls();
    alignments();
    reasons();
    printf("%lu\n", checks);
    return 0;
}
