/* A C host that calls acon_canonical, and acon_judge and acon_resolve on stores
 * that it loads, on single cases, each written out with what must come back.
 * Every case is run with a buffer that is longer than the output, one that fits
 * exactly and, where there is an output, one that is a byte short. */
#include "acon.h"

#include <stdio.h>
#include <stdlib.h>
#include <string.h>

enum { MARGIN = 64 };
enum { BUFFER = 2 * ACON_TEXT_MAX };

static uint8_t buffer[BUFFER + MARGIN];
static unsigned long checks;

static uint8_t pattern(size_t i)
{
    return (uint8_t)(0xa5 ^ i * 29);
}

static void fail(const char *what, const uint8_t *text, size_t n, uint64_t answer)
{
    fprintf(stderr, "host: %s: number %u, values %u and %u, for a text of %zu bytes: ", what,
            acon_number(answer), acon_first(answer), acon_second(answer), n);
    for (size_t i = 0; i < n && i < 200; i++)
        fprintf(stderr, text[i] >= 0x20 && text[i] < 0x7f ? "%c" : "\\x%02x", text[i]);
    fprintf(stderr, "\n");
    exit(1);
}

/* One call with a buffer of `size` bytes: the packed answer, the form and every
 * byte around it. */
static void call(const uint8_t *text, size_t n, size_t size, unsigned number, size_t offset, const uint8_t *form,
                 size_t form_len)
{
    for (size_t i = 0; i < sizeof buffer; i++)
        buffer[i] = pattern(i);
    uint64_t answer = acon_canonical(text, n, buffer, size);
    if (answer != ((uint64_t)offset << 32 | (uint64_t)form_len << 8 | number))
        fail("wrong answer", text, n, answer);
    if (acon_number(answer) != number || acon_first(answer) != form_len || acon_offset(answer) != offset)
        fail("wrong unpacking", text, n, answer);
    if (memcmp(buffer, form, form_len) != 0)
        fail("wrong form", text, n, answer);
    for (size_t i = form_len; i < sizeof buffer; i++)
        if (buffer[i] != pattern(i))
            fail(number ? "a refusal changed a byte" : "a byte past the form changed", text, n, answer);
    checks++;
}

static void accepted(const uint8_t *text, size_t n, const uint8_t *form, size_t form_len)
{
    call(text, n, BUFFER, 0, 0, form, form_len);
    call(text, n, form_len, 0, 0, form, form_len);
    call(text, n, form_len - 1, ACON_NO_SPACE, 0, form, 0);
    call(text, n, 0, ACON_NO_SPACE, 0, form, 0);
    /* The form is its own form. */
    call(form, form_len, form_len, 0, 0, form, form_len);
}

static void refused(const uint8_t *text, size_t n, unsigned number, size_t offset)
{
    call(text, n, BUFFER, number, offset, text, 0);
    call(text, n, n < BUFFER ? n : BUFFER, number, offset, text, 0);
    call(text, n, 1, number, offset, text, 0);
    call(text, n, 0, number, offset, text, 0);
}

struct good {
    const char *text, *form;
};

struct bad {
    unsigned number;
    size_t offset;
    size_t len; /* 0: as long as the C string */
    const char *text;
};

static const struct good goods[] = {
    /* keys, spaces and escapes */
    {"{\"b\":1, \"a\":\"\\u0041\"}", "{\"a\":\"A\",\"b\":1}"},
    {" \t\r\n{ \"b\" : [ 1 , 2 ] , \"a\" : { } } \n", "{\"a\":{},\"b\":[1,2]}"},
    {"{\"z\":{\"y\":1,\"x\":{\"w\":2,\"v\":3}},\"a\":[{\"c\":4,\"b\":5}]}",
     "{\"a\":[{\"b\":5,\"c\":4}],\"z\":{\"x\":{\"v\":3,\"w\":2},\"y\":1}}"},
    {"[3,1,2]", "[3,1,2]"},
    {"[ ]", "[]"},
    {"{ }", "{}"},
    {"[[],{},\"\"]", "[[],{},\"\"]"},
    /* a key before those that it begins, the empty key first */
    {"{\"ab\":1,\"b\":2,\"a\":3,\"\":4,\"aa\":5}", "{\"\":4,\"a\":3,\"aa\":5,\"ab\":1,\"b\":2}"},
    /* keys are ordered by what they hold, not by how they are written */
    {"{\"\\u0062\":1,\"a\":2}", "{\"a\":2,\"b\":1}"},
    {"{\"b\":1,\"\\u0061\":2,\"\\/\":3}", "{\"/\":3,\"a\":2,\"b\":1}"},
    {"{\"a\":1,\"\\\\\":2,\"\\\"\":3,\"Z\":4}", "{\"\\\"\":3,\"Z\":4,\"\\\\\":2,\"a\":1}"},
    /* by UTF-8 bytes U+10000 stands after U+E000 and U+FFFF; by UTF-16 it would not */
    {"{\"\xf0\x90\x80\x80\":1,\"\xee\x80\x80\":2,\"\xef\xbf\xbf\":3,\"\x7e\":4,\"\xc2\x80\":5}",
     "{\"\x7e\":4,\"\xc2\x80\":5,\"\xee\x80\x80\":2,\"\xef\xbf\xbf\":3,\"\xf0\x90\x80\x80\":1}"},
    /* two spellings of one letter are two keys: nothing is normalized */
    {"{\"\xe0\xa4\x95\xe0\xa4\xbc\":1,\"\xe0\xa5\x98\":2}",
     "{\"\xe0\xa4\x95\xe0\xa4\xbc\":1,\"\xe0\xa5\x98\":2}"},
    /* one key in two objects is no fault */
    {"{\"a\":{\"a\":1},\"b\":{\"a\":2}}", "{\"a\":{\"a\":1},\"b\":{\"a\":2}}"},
    {"{\"A\":1,\"a\":2}", "{\"A\":1,\"a\":2}"},
    /* strings */
    {"\"\\u0041\\u00e9\\u0915\\ud83d\\ude00\"", "\"A\xc3\xa9\xe0\xa4\x95\xf0\x9f\x98\x80\""},
    {"\"\\uD800\\uDC00\\uDBFF\\uDFFF\"", "\"\xf0\x90\x80\x80\xf4\x8f\xbf\xbf\""},
    {"\"\\ud800\\uDC00\"", "\"\xf0\x90\x80\x80\""},
    {"\"\\u0022\\u005c\\u005C\\u002f\\/\\\"\\\\\"", "\"\\\"\\\\\\\\//\\\"\\\\\""},
    {"\"\\u0020\\u007e\\u0080\\u07ff\\u0800\\ud7ff\\ue000\\uffff\"",
     "\"\x20\x7e\xc2\x80\xdf\xbf\xe0\xa0\x80\xed\x9f\xbf\xee\x80\x80\xef\xbf\xbf\""},
    {"\"\xef\xbb\xbf\"", "\"\xef\xbb\xbf\""},                     /* U+FEFF inside a string */
    {"\"\xc2\x80\xc2\x9f\xe2\x80\xa8\"", "\"\xc2\x80\xc2\x9f\xe2\x80\xa8\""}, /* C1 controls, U+2028 */
    {"\"\\\\u0000\"", "\"\\\\u0000\""},                           /* an escaped backslash, then letters */
    {"\"\\\\n\"", "\"\\\\n\""},
    {"\" a  b \"", "\" a  b \""},
    {"\"[{,:}]\"", "\"[{,:}]\""},
    /* top-level scalars; a string keeps its quotes */
    {"\"\"", "\"\""},
    {" \"a\" ", "\"a\""},
    {"true", "true"},
    {"\tfalse", "false"},
    {"null\r\n", "null"},
    {"0", "0"},
    {" -1 ", "-1"},
    /* numbers */
    {"[2147483647,-2147483648,0,-1,10,1000000000,-9]", "[2147483647,-2147483648,0,-1,10,1000000000,-9]"},
    /* nesting of 8 */
    {"[[[[[[[[]]]]]]]]", "[[[[[[[[]]]]]]]]"},
    {"[[[[[[[[1,\"a\"],[]]]]]]]]", "[[[[[[[[1,\"a\"],[]]]]]]]]"},
    {"{\"a\":{\"a\":{\"a\":{\"a\":{\"a\":{\"a\":{\"a\":{ }}}}}}}}",
     "{\"a\":{\"a\":{\"a\":{\"a\":{\"a\":{\"a\":{\"a\":{}}}}}}}}"},
    {"[{\"a\":[{\"a\":[{\"a\":[{\"b\":2,\"a\":1}]}]}]}]", "[{\"a\":[{\"a\":[{\"a\":[{\"a\":1,\"b\":2}]}]}]}]"},
    {"{\"aconSpecVersion\":[1,0]}", "{\"aconSpecVersion\":[1,0]}"},
};

static const struct bad bads[] = {
    /* 2: not UTF-8, wherever it stands */
    {2, 1, 0, "\"\x80\""},
    {2, 1, 0, "\"\xbf\""},
    {2, 1, 0, "\"\xc0\x80\""},
    {2, 1, 0, "\"\xc1\xbf\""},
    {2, 1, 0, "\"\xc3\""},
    {2, 1, 0, "\"\xc3"},
    {2, 1, 0, "\"\xe0\x80\x80\""},
    {2, 1, 0, "\"\xe0\x9f\xbf\""},
    {2, 1, 0, "\"\xed\xa0\x80\""},
    {2, 1, 0, "\"\xed\xbf\xbf\""},
    {2, 1, 0, "\"\xed\xa0\x80\xed\xb0\x80\""},
    {2, 1, 0, "\"\xf0\x80\x80\x80\""},
    {2, 1, 0, "\"\xf0\x8f\xbf\xbf\""},
    {2, 1, 0, "\"\xf4\x90\x80\x80\""},
    {2, 1, 0, "\"\xf5\x80\x80\x80\""},
    {2, 1, 0, "\"\xe0\xa4\""},
    {2, 1, 0, "\"\xf0\x9f\x98\""},
    {2, 1, 0, "\"\xff\""},
    {2, 0, 0, "\xfe\xff"},
    {2, 0, 0, "\xff\xfe"},
    {2, 3, 0, "[1]\x80"},
    {2, 4, 0, "junk\xff"},
    /* 3: not a JSON text */
    {3, 0, 0, ""},
    {3, 1, 0, " "},
    {3, 4, 0, "\t\r\n "},
    {3, 0, 0, "\xef\xbb\xbf[]"},
    {3, 1, 0, "[\xef\xbb\xbf]"},
    {3, 2, 0, "[]\xef\xbb\xbf"},
    {3, 0, 0, "\xc2\xa0[]"},
    {3, 0, 0, "\x0b[]"},
    {3, 0, 0, "\x0c[]"},
    {3, 2, 3, "[]\0"},
    {3, 0, 1, "\0"},
    {3, 1, 0, "["},
    {3, 0, 0, "]"},
    {3, 1, 0, "{"},
    {3, 0, 0, "}"},
    {3, 1, 0, "[}"},
    {3, 1, 0, "{]"},
    {3, 2, 0, "[1"},
    {3, 3, 0, "[1,"},
    {3, 3, 0, "[1,]"},
    {3, 1, 0, "[,1]"},
    {3, 3, 0, "[1 2]"},
    {3, 3, 0, "[1,,2]"},
    {3, 3, 0, "[1]]"},
    {3, 3, 0, "[] []"},
    {3, 2, 0, "1 1"},
    {3, 4, 0, "{\"a\"}"},
    {3, 5, 0, "{\"a\":}"},
    {3, 7, 0, "{\"a\":1,}"},
    {3, 1, 0, "{,}"},
    {3, 5, 0, "{\"a\" 1}"},
    {3, 5, 0, "{\"a\"::1}"},
    {3, 7, 0, "{\"a\":1 \"b\":2}"},
    {3, 1, 0, "{a:1}"},
    {3, 1, 0, "{1:1}"},
    {3, 6, 0, "{\"a\":1"},
    {3, 10, 0, "{\"a\":1,\"b\""},
    {3, 4, 0, "[\"a\":1]"},
    {3, 0, 0, "'a'"},
    {3, 3, 0, "tru"},
    {3, 4, 0, "truee"},
    {3, 0, 0, "True"},
    {3, 3, 0, "nul"},
    {3, 5, 0, "falsey"},
    {3, 0, 0, "NaN"},
    {3, 0, 0, "Infinity"},
    {3, 1, 0, "-Infinity"},
    {3, 3, 0, "[1]//"},
    {3, 0, 0, "/**/1"},
    {3, 1, 0, "01"},
    {3, 2, 0, "-01"},
    {3, 1, 0, "00"},
    {3, 0, 0, "+1"},
    {3, 0, 0, ".5"},
    {3, 2, 0, "1."},
    {3, 2, 0, "1.e1"},
    {3, 1, 0, "-"},
    {3, 1, 0, "--1"},
    {3, 2, 0, "1e"},
    {3, 3, 0, "1e+"},
    {3, 5, 0, "1.5e-"},
    {3, 1, 0, "0x10"},
    {3, 1, 0, "1_000"},
    {3, 1, 0, "\""},
    {3, 2, 0, "\"a"},
    {3, 3, 0, "\"\\\""},
    {3, 2, 0, "\"\\"},
    {3, 2, 0, "\"\\x41\""},
    {3, 2, 0, "\"\\U0041\""},
    {3, 2, 0, "\"\\a\""},
    {3, 2, 0, "\"\\'\""},
    {3, 3, 0, "\"\\u\""},
    {3, 6, 0, "\"\\u004\""},
    {3, 6, 0, "\"\\u004g\""},
    {3, 5, 0, "\"\\u00 41\""},
    {3, 3, 0, "\"\\u+041\""},
    {3, 9, 0, "\"\\ud83d\\u\""},
    {3, 6, 0, "\"\\u004"},
    /* a raw control character is no JSON string: 3 and not 4 */
    {3, 1, 0, "\"\t\""},
    {3, 1, 0, "\"\n\""},
    {3, 1, 0, "\"\x01\""},
    {3, 1, 0, "\"\x1f\""},
    {3, 1, 3, "\"\0\""},
    {3, 2, 0, "\"\\\n\""},
    /* nesting of 9, also where the innermost is empty */
    {3, 8, 0, "[[[[[[[[[]]]]]]]]]"},
    {3, 8, 0, "[[[[[[[[{}]]]]]]]]"},
    {3, 40, 0, "{\"a\":{\"a\":{\"a\":{\"a\":{\"a\":{\"a\":{\"a\":{\"a\":{}}}}}}}}}"},
    {3, 12, 0, "[1,[[[[[[[2,[]]]]]]]]]"},
    {3, 8, 0, "[[[[[[[["},
    /* 4: strings and keys */
    {4, 0, 0, "\"\\u0000\""},
    {4, 0, 0, "\"\\u001f\""},
    {4, 0, 0, "\"\\u007f\""},
    {4, 0, 0, "\"\\u007F\""},
    {4, 0, 0, "\"\x7f\""},
    {4, 0, 0, "\"\\b\""},
    {4, 0, 0, "\"\\f\""},
    {4, 0, 0, "\"\\n\""},
    {4, 0, 0, "\"\\r\""},
    {4, 0, 0, "\"\\t\""},
    {4, 1, 0, "{\"\\n\":1}"},
    {4, 1, 0, "{\"a\x7f\":1}"},
    {4, 0, 0, "\"\\ud800\""},
    {4, 0, 0, "\"\\udbff\""},
    {4, 0, 0, "\"\\udc00\""},
    {4, 0, 0, "\"\\uDFFF\""},
    {4, 0, 0, "\"\\ud800a\""},
    {4, 0, 0, "\"\\ud800\\n\""},
    {4, 0, 0, "\"\\ud800\\u0041\""},
    {4, 0, 0, "\"\\ud800\\ud800\""},
    {4, 0, 0, "\"\\ud800\\ud800\\udc00\""},
    {4, 0, 0, "\"\\ud800\\udc00\\udc00\""},
    {4, 0, 0, "\"\\udc00\\ud800\""},
    {4, 0, 0, "\"\\ud800 \\udc00\""},
    {4, 0, 0, "\"\\ud800\\\\udc00\""},
    {4, 1, 0, "{\"\\ud800\":1}"},
    {4, 9, 0, "[1,{\"a\":[\"\\udc00\"]}]"},
    /* 5: numbers */
    {5, 0, 0, "-0"},
    {5, 0, 0, "1e0"},
    {5, 0, 0, "1E0"},
    {5, 0, 0, "1.0"},
    {5, 0, 0, "0.0"},
    {5, 0, 0, "-0.0"},
    {5, 0, 0, "-0e0"},
    {5, 0, 0, "0e0"},
    {5, 0, 0, "1e+2"},
    {5, 0, 0, "1.5e-3"},
    {5, 0, 0, "1E400"},
    {5, 0, 0, "2147483648"},
    {5, 0, 0, "-2147483649"},
    {5, 0, 0, "3000000000"},
    {5, 0, 0, "10000000000"},
    {5, 0, 0, "4294967296"},
    {5, 0, 0, "-4294967297"},
    {5, 0, 0, "18446744073709551616"},
    {5, 0, 0, "18446744073709551617"},
    {5, 0, 0, "-18446744073709551615"},
    {5, 0, 0, "340282366920938463463374607431768211457"},
    {5, 7, 0, "[{\"a\":[-0]}]"},
    /* 6: equal keys */
    {6, 7, 0, "{\"a\":1,\"a\":1}"},
    {6, 7, 0, "{\"a\":1,\"\\u0061\":2}"},
    {6, 6, 0, "{\"\":1,\"\":2}"},
    {6, 13, 0, "{\"/\":1,\"b\":2,\"\\/\":3}"},
    {6, 8, 0, "{\"\\\"\":1,\"\\u0022\":2}"},
    {6, 8, 0, "{\"\\\\\":1,\"\\u005C\":2}"},
    {6, 10, 0, "{\"\xf0\x9f\x98\x80\":1,\"\\ud83d\\uDE00\":2}"},
    {6, 15, 0, "{\"\xe0\xa4\x95\":1,\"x\":0,\"\\u0915\":2}"},
    {6, 19, 0, "[{\"x\":{\"b\":1,\"a\":2,\"b\":3}}]"},
    {6, 25, 0, "{\"c\":0,\"a\":{\"k\":1},\"b\":0,\"a\":[]}"},
    /* of several faults of one kind the first is told; a key, and not its value or the key that it is equal to */
    {2, 3, 0, "[\"a\xff\",\"\xfe\"]"},
    {4, 1, 0, "[\"\\n\",\"\\t\"]"},
    {4, 10, 0, "{\"a\":\"b\", \"\\n\" : \"\\t\"}"},
    {4, 6, 0, "{\"a\": \"\\n\",\"\\t\":1}"},
    {5, 8, 0, "[[1], 2,-0,1.5]"},
    {5, 19, 0, "{\"a\":[1,{\"b\":2,\"c\":-2147483649}],\"d\":-0}"},
    {6, 13, 0, "{\"a\":1,\"b\":2,\"b\":3,\"a\":4}"},
    {6, 12, 0, "{\"a\":{\"c\":1,\"c\":2},\"a\":3}"},
    {6, 8, 0, "{\"a\":1, \"a\":{\"c\":1,\"c\":2}}"},
    {6, 30, 0, "[{\"a\":1},{\"a\":[{\"b\":1}],\"c\":0,\"\\u0061\":2,\"c\":3}]"},
    /* the lowest number counts, wherever it stands */
    {2, 3, 0, "[1,\xff"},
    {2, 27, 0, "[\"\\ud800\",-0,{\"a\":1,\"a\":2}]\xff"},
    {3, 26, 0, "[\"\\ud800\",-0,{\"a\":1,\"a\":2}"},
    {3, 13, 0, "{\"a\":1,\"a\":2,}"},
    {3, 3, 0, "-0 1"},
    {4, 4, 0, "[-0,\"\\ud800\"]"},
    {4, 15, 0, "[{\"a\":1,\"a\":2},\"\\n\"]"},
    {4, 1, 0, "{\"\\t\":1,\"\\t\":-0}"},
    {5, 15, 0, "[{\"a\":1,\"a\":2},-0]"},
    {5, 5, 0, "{\"a\":1.5,\"a\":2}"},
};

/* A text of n bytes: `open`, as many `fill` as are needed, `close`. */
static uint8_t *filled(const char *open, char fill, const char *close, size_t n)
{
    uint8_t *text = malloc(n);
    if (!text)
        abort();
    memset(text, fill, n);
    memcpy(text, open, strlen(open));
    memcpy(text + n - strlen(close), close, strlen(close));
    return text;
}

static void long_texts(void)
{
    /* the limit, with the space counted */
    uint8_t *t = filled("\"", 'a', "\"", 16384);
    accepted(t, 16384, t, 16384);
    free(t);
    t = filled("\"", 'a', "\"", 16385);
    refused(t, 16385, 1, 0);
    free(t);
    t = filled("[", ' ', "]", 16384);
    accepted(t, 16384, (const uint8_t *)"[]", 2);
    free(t);
    t = filled("[", ' ', "]", 16385);
    refused(t, 16385, 1, 0);
    free(t);
    t = filled("[", ' ', "", 16384);
    refused(t, 16384, 3, 16384);
    free(t);
    /* 1 comes before everything else */
    t = filled("\xff", 'x', "\"", 16385);
    refused(t, 16385, 1, 0);
    free(t);
    t = filled("", 'x', "", 1000000);
    refused(t, 1000000, 1, 0);
    free(t);
    /* numbers of many digits */
    t = filled("", '9', "", 5000);
    refused(t, 5000, 5, 0);
    free(t);
    t = filled("1", '0', "", 16384);
    refused(t, 16384, 5, 0);
    free(t);
    t = filled("0", '0', "", 16384);
    refused(t, 16384, 3, 1);
    free(t);
    t = filled("0.", '0', "", 16384);
    refused(t, 16384, 5, 0);
    free(t);

    /* many keys in falling order, then the form with its last key made equal to its first */
    char *many = malloc(ACON_TEXT_MAX), *form = malloc(ACON_TEXT_MAX);
    if (!many || !form)
        abort();
    size_t n = 0, m = 0;
    for (int i = 0; i < 1600; i++) {
        n += (size_t)sprintf(many + n, "%c\"%04d\":0", i == 0 ? '{' : ',', 1599 - i);
        m += (size_t)sprintf(form + m, "%c\"%04d\":0", i == 0 ? '{' : ',', i);
    }
    many[n++] = '}';
    form[m++] = '}';
    accepted((uint8_t *)many, n, (uint8_t *)form, m);
    memcpy(form + m - 8, "0000", 4);
    refused((uint8_t *)form, m, 6, m - 9);
    free(many);
    free(form);
}

/* ---- Judge */

#define SIGNER "sha224/aaaaaaaaaaaaaaaaaaaaaaaaaaaaaaaaaaaaaaaaaaaaaaaaaaaaaaaa/"
#define DIGITS "000000000000000000000000000000000000000000000000000000"
#define A SIGNER DIGITS "0a"
#define B SIGNER DIGITS "0b"
#define C SIGNER DIGITS "0c"
#define PLAIN "{\"aconSpecVersion\":[1,0]}"
#define NAMED(name) "{\"aconSpecVersion\":[1,0],\"aliases\":{\"self\":{\".\":[\"" name "\"]}}}"
#define ACCEPTS(rule) "{\"aconSpecVersion\":[1,0],\"policy\":{\"accepts\":[\"" rule "\"]}}"
#define GUARD(rules) "{\"aconSpecVersion\":[1,0],\"policy\":{\"accepts\":[" rules "],\"rejectUnaccepted\":true}}"
#define RULE(rule) "\"" rule "\""

struct image {
    const char *id, *manifest;
};

struct judged {
    const char *what;
    struct image images[4]; /* up to one with no ID */
    size_t pairs;
    const char *report;
};

static const struct judged judgeds[] = {
    {"the empty store", {{0}}, 0, ""},
    {"a guard alone", {{A, GUARD("")}}, 0, ""},
    {"no guard", {{A, PLAIN}, {B, ACCEPTS(A)}}, 0, ""},
    {"a guard and a stranger", {{A, GUARD("")}, {B, PLAIN}}, 1, "\0\1"},
    {"a guard that is loaded later", {{A, PLAIN}, {B, GUARD("")}}, 1, "\1\0"},
    {"a chain of two", {{A, GUARD(RULE(B))}, {B, ACCEPTS(C)}, {C, PLAIN}}, 0, ""},
    {"its middle is not loaded", {{A, GUARD(RULE(B))}, {C, PLAIN}}, 1, "\0\1"},
    {"a ring of guards", {{A, GUARD(RULE(B))}, {B, GUARD(RULE(C))}, {C, GUARD(RULE(A))}}, 0, ""},
    {"two of the ring", {{A, GUARD(RULE(B))}, {B, GUARD(RULE(C))}}, 1, "\1\0"},
    {"by guard and then by other", {{A, GUARD("")}, {B, PLAIN}, {C, GUARD(RULE(B))}}, 3, "\0\1\0\2\2\0"},
    {"any image of the algorithm", {{A, GUARD(RULE("sha224/*/*"))}, {B, PLAIN}}, 0, ""},
    {"any image of the signer", {{A, GUARD(RULE(SIGNER "*"))}, {B, PLAIN}}, 0, ""},
    {"another algorithm", {{A, GUARD(RULE("sha256/*/*"))}, {B, PLAIN}}, 1, "\0\1"},
    {"a name", {{A, GUARD(RULE("sha224/*/Job:10"))}, {B, NAMED("Job:10")}}, 0, ""},
    {"the start of a name", {{A, GUARD(RULE("sha224/*/Job:1"))}, {B, NAMED("Job:10")}}, 1, "\0\1"},
};

static uint8_t store[4096];

/* One call with a report buffer of `size` bytes: the packed answer, the report
 * and every byte around it. */
static void judge(const char *what, size_t used, size_t size, unsigned number, const char *report,
                  size_t pairs)
{
    const uint8_t *name = (const uint8_t *)what;
    for (size_t i = 0; i < sizeof buffer; i++)
        buffer[i] = pattern(i);
    uint64_t answer = acon_judge(store, sizeof store, used, buffer, size);
    if (answer != ((uint64_t)pairs << 8 | number))
        fail("judge: wrong answer", name, strlen(what), answer);
    if (memcmp(buffer, report, 2 * pairs) != 0)
        fail("judge: wrong report", name, strlen(what), answer);
    for (size_t i = 2 * pairs; i < sizeof buffer; i++)
        if (buffer[i] != pattern(i))
            fail("judge: a byte past the report changed", name, strlen(what), answer);
    checks++;
}

/* Loads the images up to one with no ID; gives the used count. */
static size_t load_all(const struct image *images)
{
    size_t used = 0;
    for (const struct image *i = images; i->id; i++) {
        uint64_t answer = acon_load((const uint8_t *)i->id, strlen(i->id), (const uint8_t *)i->manifest,
                                    strlen(i->manifest), store, sizeof store, used);
        if (acon_number(answer) != 0)
            fail("not loaded", (const uint8_t *)i->manifest, strlen(i->manifest), answer);
        used = acon_first(answer);
    }
    return used;
}

static void refused_load(const char *id, const char *manifest, size_t n, size_t used, unsigned number, size_t offset)
{
    uint64_t answer = acon_load((const uint8_t *)id, strlen(id), (const uint8_t *)manifest, n, store, sizeof store, used);
    if (answer != ((uint64_t)offset << 32 | number))
        fail("load: wrong answer", (const uint8_t *)manifest, n, answer);
    checks++;
}

/* Texts that are refused are refused as manifests too, with the same offset and
 * whatever else is wrong; 7 and above give none, and neither does a store whose
 * manifest has a fault. */
static void refused_loads(void)
{
    static const char cut[] = "\x3a\x01" /* a record whose manifest is one byte, no JSON text */
                              "aaaaaaaaaaaaaaaaaaaaaaaaaaaabbbbbbbbbbbbbbbbbbbbbbbbbbbb[";
    for (size_t i = 0; i < sizeof bads / sizeof bads[0]; i++) {
        size_t n = bads[i].len ? bads[i].len : strlen(bads[i].text);
        refused_load(A, bads[i].text, n, 0, bads[i].number, bads[i].offset);
        refused_load("", bads[i].text, n, sizeof store + 1, bads[i].number, bads[i].offset);
    }
    refused_load(A, " {}", 3, 0, 7, 0);
    refused_load(A, NAMED("a/b"), strlen(NAMED("a/b")), 0, 8, 0);
    refused_load(A, NAMED("a\",\"a"), strlen(NAMED("a\",\"a")), 0, 9, 0);
    refused_load("", PLAIN, strlen(PLAIN), 0, 10, 0);
    memcpy(store, cut, sizeof cut - 1);
    refused_load(A, PLAIN, strlen(PLAIN), sizeof cut - 1, 11, 0);
    size_t used = load_all((const struct image[]){{A, NAMED("a")}, {NULL, NULL}});
    refused_load(A, PLAIN, strlen(PLAIN), used, 12, 0);
    refused_load(B, NAMED("a"), strlen(NAMED("a")), used, 13, 0);
}

static void judge_all(void)
{
    for (size_t k = 0; k < sizeof judgeds / sizeof judgeds[0]; k++) {
        const struct judged *j = &judgeds[k];
        size_t used = load_all(j->images);
        size_t n = 2 * j->pairs;
        judge(j->what, used, ACON_REPORT_MAX, 0, j->report, j->pairs);
        judge(j->what, used, n, 0, j->report, j->pairs);
        judge(j->what, used, n + 1, 0, j->report, j->pairs);
        if (n > 0) {
            judge(j->what, used, n - 1, ACON_NO_SPACE, "", 0);
            judge(j->what, used, 0, ACON_NO_SPACE, "", 0);
        }
        /* more than the buffer has, and a record that is cut */
        judge(j->what, sizeof store + 1, ACON_REPORT_MAX, ACON_BAD_STORE, "", 0);
        if (used > 0) {
            judge(j->what, used - 1, ACON_REPORT_MAX, ACON_BAD_STORE, "", 0);
            judge(j->what, used - 1, 0, ACON_BAD_STORE, "", 0);
        }
    }
}

/* ---- Resolve */

#define ONES "11111111111111111111111111111111111111111111111111111111"
#define TWOS "2222222222222222222222222222222222222222222222222222222222222222"
#define ONE "sha224/" ONES
#define TWO "sha256/" TWOS
#define ALIAS(name) "signer/" SIGNER name
#define OTHER "signer/sha224/" DIGITS "0b/ink"
#define LAYERS(layers) "{\"aconSpecVersion\":[1,0],\"layers\":[" layers "]}"
#define DEFINES(contents, layers) \
    "{\"aconSpecVersion\":[1,0],\"aliases\":{\"contents\":{" contents "}},\"layers\":[" layers "]}"
#define FOR(object, name) "\"" object "\":[\"" name "\"]"
#define Q(layer) "\"" layer "\""
/* The entries of a layer list, and entries that lack the last byte, have another
 * last byte, or an algorithm that there is not. */
#define ENTRY_1 "\x01\x11\x11\x11\x11\x11\x11\x11\x11\x11\x11\x11\x11\x11\x11" \
                "\x11\x11\x11\x11\x11\x11\x11\x11\x11\x11\x11\x11\x11\x11"
#define ENTRY_2 "\x02\x22\x22\x22\x22\x22\x22\x22\x22\x22\x22\x22\x22\x22\x22\x22\x22" \
                "\x22\x22\x22\x22\x22\x22\x22\x22\x22\x22\x22\x22\x22\x22\x22\x22"
#define CUT_2 "\x02\x22\x22\x22\x22\x22\x22\x22\x22\x22\x22\x22\x22\x22\x22\x22\x22" \
              "\x22\x22\x22\x22\x22\x22\x22\x22\x22\x22\x22\x22\x22\x22\x22"
#define NEAR_1 "\x01\x11\x11\x11\x11\x11\x11\x11\x11\x11\x11\x11\x11\x11\x11" \
               "\x11\x11\x11\x11\x11\x11\x11\x11\x11\x11\x11\x11\x11\x10"
#define UNDER_2 "\x02\x11\x11\x11\x11\x11\x11\x11\x11\x11\x11\x11\x11\x11\x11\x11\x11" \
                "\x11\x11\x11\x11\x11\x11\x11\x11\x11\x11\x11\x11\x11\x11\x11\x11"

struct resolved {
    const char *what;
    struct image images[4]; /* up to one with no ID */
    size_t place;
    const char *layers;
    size_t layers_len;
    unsigned number, value;
    const char *output;
};

/* A string with its length. */
#define BYTES(s) s, sizeof s - 1

static const struct resolved resolveds[] = {
    {"the empty store", {{0}}, 0, BYTES(""), 16, 0, ""},
    {"no layers", {{A, PLAIN}}, 0, BYTES(""), 0, 0, ""},
    {"an empty list of layers", {{A, LAYERS("")}}, 0, BYTES(ENTRY_1), 0, 0, ""},
    {"a digest", {{A, LAYERS(Q(ONE))}}, 0, BYTES(ENTRY_1), 0, 29, ENTRY_1},
    {"two digests, in the order of layers", {{A, LAYERS(Q(TWO) "," Q(ONE))}}, 0, BYTES(ENTRY_1 ENTRY_2), 0, 62, ENTRY_2 ENTRY_1},
    {"a layer twice", {{A, LAYERS(Q(ONE) "," Q(ONE))}}, 0, BYTES(ENTRY_2 ENTRY_1 ENTRY_1), 0, 58, ENTRY_1 ENTRY_1},
    {"an alias of the image itself", {{A, DEFINES(FOR(ONE, "ink"), Q(ALIAS("ink")))}}, 0, BYTES(ENTRY_1), 0, 29, ENTRY_1},
    {"an alias of another image", {{A, LAYERS(Q(ALIAS("ink")))}, {B, DEFINES(FOR(TWO, "ink"), "")}}, 0, BYTES(ENTRY_2), 0, 33, ENTRY_2},
    {"an alias for an alias",
     {{A, DEFINES(FOR(ONE, "ink"), "")}, {B, DEFINES(FOR(ALIAS("ink"), "well"), "")}, {C, LAYERS(Q(ALIAS("well")))}},
     2, BYTES(ENTRY_1), 0, 29, ENTRY_1},
    {"names with all their bytes",
     {{A, DEFINES(FOR(ONE, "Job:1") "," FOR(TWO, "Job:10"), Q(ALIAS("Job:10")))}}, 0, BYTES(ENTRY_1 ENTRY_2), 0, 33, ENTRY_2},
    {"a bad algorithm byte", {{A, LAYERS(Q(ONE))}}, 0, BYTES(ENTRY_1 "\x04"), 15, 0, ""},
    {"a cut entry", {{A, LAYERS(Q(ONE))}}, 0, BYTES(ENTRY_1 CUT_2), 15, 0, ""},
    {"a bad list, and no such place", {{A, LAYERS(Q(ONE))}}, 1, BYTES("\0"), 15, 0, ""},
    {"no such place", {{A, LAYERS(Q(ONE))}}, 1, BYTES(ENTRY_1), 16, 0, ""},
    {"the last place of all", {{A, LAYERS(Q(ONE))}}, SIZE_MAX, BYTES(ENTRY_1), 16, 0, ""},
    {"an alias that nobody defines", {{A, LAYERS(Q(ALIAS("ink")))}}, 0, BYTES(ENTRY_1), 17, 0, ""},
    {"a name for the image itself", {{A, LAYERS(Q(ALIAS("ink")))}, {B, NAMED("ink")}}, 0, BYTES(ENTRY_1), 17, 0, ""},
    {"another signer's alias", {{A, DEFINES(FOR(ONE, "ink"), Q(ONE) "," Q(OTHER))}}, 0, BYTES(ENTRY_1), 17, 1, ""},
    {"an alias whose object is its own key", {{A, DEFINES(FOR(ALIAS("x"), "x"), Q(ALIAS("x")))}}, 0, BYTES(ENTRY_1), 18, 0, ""},
    {"a loop of two images",
     {{A, DEFINES(FOR(ALIAS("y"), "x"), Q(ONE) "," Q(ALIAS("y")))}, {B, DEFINES(FOR(ALIAS("x"), "y"), "")}}, 0, BYTES(ENTRY_1), 18, 1, ""},
    {"a layer that is not there", {{A, LAYERS(Q(ONE) "," Q(TWO))}}, 0, BYTES(ENTRY_1), 19, 1, ""},
    {"a digest with another last byte", {{A, LAYERS(Q(ONE))}}, 0, BYTES(NEAR_1), 19, 0, ""},
    {"a digest under another algorithm", {{A, LAYERS(Q(ONE))}}, 0, BYTES(UNDER_2), 19, 0, ""},
    {"the first layer that fails, 19 before 17", {{A, LAYERS(Q(TWO) "," Q(ALIAS("x")))}}, 0, BYTES(ENTRY_1), 19, 0, ""},
    {"the first layer that fails, 17 before 19", {{A, LAYERS(Q(ONE) "," Q(ALIAS("x")) "," Q(TWO))}}, 0, BYTES(ENTRY_1), 17, 1, ""},
};

/* One call with an output buffer of `size` bytes: the packed answer, the output
 * and every byte around it. */
static void resolve(const struct resolved *r, size_t used, size_t size, unsigned number, unsigned value,
                    size_t output_len)
{
    const uint8_t *name = (const uint8_t *)r->what;
    size_t n = strlen(r->what);
    for (size_t i = 0; i < sizeof buffer; i++)
        buffer[i] = pattern(i);
    uint64_t answer = acon_resolve(store, sizeof store, used, (const uint8_t *)r->layers, r->layers_len,
                                   r->place, buffer, size);
    if (answer != ((uint64_t)value << 8 | number))
        fail("resolve: wrong answer", name, n, answer);
    if (memcmp(buffer, r->output, output_len) != 0)
        fail("resolve: wrong output", name, n, answer);
    for (size_t i = output_len; i < sizeof buffer; i++)
        if (buffer[i] != pattern(i))
            fail("resolve: a byte past the output changed", name, n, answer);
    checks++;
}

static void resolve_all(void)
{
    for (size_t k = 0; k < sizeof resolveds / sizeof resolveds[0]; k++) {
        const struct resolved *r = &resolveds[k];
        size_t used = load_all(r->images);
        size_t n = r->number ? 0 : r->value;
        resolve(r, used, ACON_OUTPUT_MAX, r->number, r->value, n);
        resolve(r, used, n, r->number, r->value, n);
        resolve(r, used, n + 1, r->number, r->value, n);
        if (n > 0) {
            resolve(r, used, n - 1, ACON_NO_SPACE, 0, 0);
            resolve(r, used, 0, ACON_NO_SPACE, 0, 0);
        }
        /* more than the buffer has, and a record that is cut */
        resolve(r, sizeof store + 1, ACON_OUTPUT_MAX, ACON_BAD_STORE, 0, 0);
        if (used > 0) {
            resolve(r, used - 1, ACON_OUTPUT_MAX, ACON_BAD_STORE, 0, 0);
            resolve(r, used - 1, 0, ACON_BAD_STORE, 0, 0);
        }
    }
}

int main(void)
{
    for (size_t i = 0; i < sizeof goods / sizeof goods[0]; i++)
        accepted((const uint8_t *)goods[i].text, strlen(goods[i].text),
                 (const uint8_t *)goods[i].form, strlen(goods[i].form));
    for (size_t i = 0; i < sizeof bads / sizeof bads[0]; i++)
        refused((const uint8_t *)bads[i].text, bads[i].len ? bads[i].len : strlen(bads[i].text),
                bads[i].number, bads[i].offset);
    long_texts();
    refused_loads();
    judge_all();
    resolve_all();
    printf("host: %lu calls answered as written down\n", checks);
    return 0;
}
