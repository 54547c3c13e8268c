/* Compares acon_canonical with the implementation in reference/ on generated
 * texts: number, length, the offset of the fault and every byte of the output
 * buffer.
 *
 *   differential [COUNT [FIRST]]
 *
 * First come the systematic texts (short texts, escapes, UTF-8 sequences) and
 * then COUNT random ones, numbered from FIRST. A random text depends on its own
 * number only, so `differential 1 N` runs the text N again. */
#define _DEFAULT_SOURCE
#include "acon.h"
#include "reference/canonical.h"

#include <signal.h>
#include <stdbool.h>
#include <stdio.h>
#include <stdlib.h>
#include <string.h>
#include <sys/mman.h>
#include <unistd.h>

enum { TEXT_SPACE = 1 << 16, OUT_SPACE = 1 << 16 };
enum { LEAST = 1000 }; /* how often each number has to occur, and each of 2 to 6 with another offset than 0 */
enum { PLACES = 50 };  /* how many offsets each of 2 to 6 has to have */

/* ---- Random numbers: splitmix64 */

static uint64_t state;

static uint64_t next(void)
{
    uint64_t z = state += 0x9e3779b97f4a7c15u;
    z = (z ^ z >> 30) * 0xbf58476d1ce4e5b9u;
    z = (z ^ z >> 27) * 0x94d049bb133111ebu;
    return z ^ z >> 31;
}

static unsigned below(unsigned n)
{
    return (unsigned)((next() >> 32) * n >> 32);
}

static bool one_in(unsigned n)
{
    return below(n) == 0;
}

/* ---- Lent buffers, between pages that must not be touched */

struct lent {
    uint8_t *start;
    size_t size;
};

static struct lent lend(size_t size)
{
    size_t page = (size_t)sysconf(_SC_PAGESIZE);
    uint8_t *p = mmap(NULL, size + 2 * page, PROT_NONE, MAP_PRIVATE | MAP_ANONYMOUS, -1, 0);
    if (p == MAP_FAILED || mprotect(p + page, size, PROT_READ | PROT_WRITE) != 0) {
        perror("differential");
        exit(1);
    }
    return (struct lent){p + page, size};
}

/* n bytes that touch the page before the buffer or the page after it. */
static uint8_t *part(struct lent b, size_t n, bool at_end)
{
    return at_end ? b.start + b.size - n : b.start;
}

static struct lent text_pages, out_pages;

/* ---- The text being made */

static uint8_t text[TEXT_SPACE];
static size_t len;

static void put(unsigned c)
{
    if (len < TEXT_SPACE)
        text[len++] = (uint8_t)c;
}

static void put_s(const char *s)
{
    while (*s)
        put((uint8_t)*s++);
}

static void put_utf8(uint32_t c)
{
    if (c < 0x80) {
        put(c);
    } else if (c < 0x800) {
        put(0xc0 | c >> 6);
        put(0x80 | (c & 0x3f));
    } else if (c < 0x10000) {
        put(0xe0 | c >> 12);
        put(0x80 | (c >> 6 & 0x3f));
        put(0x80 | (c & 0x3f));
    } else {
        put(0xf0 | c >> 18);
        put(0x80 | (c >> 12 & 0x3f));
        put(0x80 | (c >> 6 & 0x3f));
        put(0x80 | (c & 0x3f));
    }
}

/* \uXXXX with digits of either case. */
static void put_unit(unsigned unit)
{
    put_s("\\u");
    for (int shift = 12; shift >= 0; shift -= 4)
        put((uint8_t)(one_in(2) ? "0123456789abcdef" : "0123456789ABCDEF")[unit >> shift & 15]);
}

static void put_escaped(uint32_t c)
{
    if (c >= 0x10000) {
        put_unit(0xd800 + ((c - 0x10000) >> 10));
        put_unit(0xdc00 + ((c - 0x10000) & 0x3ff));
    } else if (c == '"' || c == '\\' || c == '/') {
        if (one_in(2)) {
            put('\\');
            put(c);
        } else {
            put_unit(c);
        }
    } else {
        put_unit(c);
    }
}

/* One character of a string, raw or escaped. */
static void put_char(uint32_t c)
{
    if (c == '"' || c == '\\' || one_in(6))
        put_escaped(c);
    else
        put_utf8(c);
}

/* How likely a generated token is to be faulty: one in `faults`, 0 for never. */
static unsigned faults;

static bool faulty(void)
{
    return faults != 0 && one_in(faults);
}

static void space(void)
{
    if (faulty() && one_in(4)) {
        static const char *const odd[] = {"\xef\xbb\xbf", "\x0b", "\x0c", "\xc2\xa0", "\xe2\x80\xa8", "/**/", "\x1c"};
        put_s(odd[below(7)]);
        return;
    }
    if (!one_in(4))
        return;
    for (unsigned n = below(3) + 1; n > 0; n--)
        put((uint8_t)" \t\n\r"[below(4)]);
}

static uint32_t some_char(void)
{
    static const uint32_t edges[] = {0x20, 0x21, 0x22, 0x2f, 0x5c, 0x7e, 0x80, 0x9f, 0xa0, 0x7ff, 0x800, 0xfff,
                                     0x1000, 0xcfff, 0xd000, 0xd7ff, 0xe000, 0xfeff, 0xfffd, 0xfffe, 0xffff,
                                     0x10000, 0x3ffff, 0x40000, 0xfffff, 0x100000, 0x10ffff, 0x915, 0x916};
    switch (below(8)) {
    case 0:
        return edges[below(sizeof edges / sizeof edges[0])];
    case 1:
        return 0x900 + below(0x80);
    case 2: {
        uint32_t c = below(0x110000);
        return c < 0x20 || c == 0x7f || (c >= 0xd800 && c <= 0xdfff) ? 'x' : c;
    }
    default:
        return "abcdefghijklmnopqrstuvwxyzABZ0123456789 .:/-_*\"\\"[below(48)];
    }
}

static unsigned some_unit(void)
{
    static const unsigned units[] = {0xd7ff, 0xd800, 0xd801, 0xd83d, 0xdbff, 0xdc00, 0xdc01,
                                     0xde00, 0xdfff, 0xe000, 0x0041, 0xffff};
    return one_in(4) ? 0xd800 + below(0x800) : units[below(12)];
}

static void bad_string_part(void)
{
    static const char *const parts[] = {"\\b", "\\f", "\\n", "\\r", "\\t", "\\u0000", "\\u001F", "\\u007f", "\x7f",
                                        "\x01", "\x1f", "\n", "\t", "\\x", "\\u12", "\\u12g4", "\\U0041", "\\'",
                                        "\\", "\"", "\\u", "\\ud83d\\u", "\\ud83d\\u12"};
    switch (below(8)) {
    case 0:
    case 1:
        put_unit(some_unit());
        break;
    case 2:
        put(0x80 + below(128)); /* not UTF-8 in most places */
        break;
    case 3:
    case 4:
    case 5:
        put_s(parts[below(9)]); /* refused, but grammatical */
        break;
    default:
        put_s(parts[below(sizeof parts / sizeof parts[0])]);
    }
}

static void string(void)
{
    unsigned n = one_in(3) ? below(3) : below(12);
    if (faulty() && one_in(4)) {
        put_s("'a'");
        return;
    }
    put('"');
    for (; n > 0; n--) {
        if (faulty())
            bad_string_part();
        else
            put_char(some_char());
    }
    put('"');
}

static void number(void)
{
    static const char *const good[] = {"0", "1", "-1", "9", "10", "2147483647", "-2147483648", "2147483646",
                                       "-2147483647", "1000000000", "-999999999", "214748364"};
    static const char *const bad[] = {"-0", "2147483648", "-2147483649", "2147483650", "3000000000", "9999999999",
                                      "10000000000", "4294967295", "4294967296", "-4294967296", "4294967297",
                                      "18446744073709551615", "18446744073709551616", "18446744073709551617",
                                      "9223372036854775807", "9223372036854775808", "-9223372036854775809",
                                      "21474836470", "1.0", "0.0", "-0.0", "1e0", "1E0", "0e0", "-0e0", "1e+1",
                                      "1e-1", "1.5e3", "1E400", "0.5", "-1.25", "123456789012345678901234567890"};
    static const char *const broken[] = {"01", "-01", "00", "+1", ".5", "1.", "-", "--1", "1e", "1e+", "1.e1", "1.5e",
                                         "0x1", "-a", "1-", "1_0", "NaN", "-Infinity", "2147483648.", "-.5", "0-1"};
    char digits[24];
    if (faulty()) {
        if (one_in(3))
            put_s(broken[below(sizeof broken / sizeof broken[0])]);
        else
            put_s(bad[below(sizeof bad / sizeof bad[0])]);
    } else if (one_in(3)) {
        put_s(good[below(12)]);
    } else {
        snprintf(digits, sizeof digits, "%d", one_in(2) ? (int)below(1000) - 500 : (int)(uint32_t)next());
        put_s(digits);
    }
}

static void word(void)
{
    static const char *const good[] = {"true", "false", "null"};
    static const char *const bad[] = {"tru", "True", "nul", "nulll", "falsey", "fals", "t", "undefined", "truefalse"};
    put_s(faulty() ? bad[below(9)] : good[below(3)]);
}

/* Keys of an object. To make them differ without remembering them, the key
 * number `i` ends in a letter of its own; a fault repeats an earlier letter,
 * most often written in another way. */
static void key(unsigned i, unsigned style)
{
    unsigned own = i;
    if (faulty() && i > 0)
        own = below(i);
    put('"');
    if (style == 1) {
        put_s("sha256/");
    } else if (style == 2) {
        put_char(0x915);
        put_char(0x1f600);
    }
    if (own != 25 || style != 0) /* one key is a proper start of the others */
        put_char(style == 3 ? 0xd7f0 + own + (own > 15 ? 0x810 : 0) : 'a' + (own * 7 + style) % 26);
    if (faulty() && one_in(3))
        bad_string_part();
    put('"');
}

static void value(unsigned depth);

static void array(unsigned depth)
{
    unsigned n = one_in(4) ? 0 : 1 + below(4);
    put('[');
    space();
    for (unsigned i = 0; i < n; i++) {
        if (i > 0 && !(faulty() && one_in(3)))
            put(',');
        value(depth);
    }
    if (faulty() && one_in(3))
        put(',');
    put(faulty() && one_in(4) ? '}' : ']');
}

static void object(unsigned depth)
{
    unsigned n = one_in(4) ? 0 : 1 + below(one_in(8) ? 26 : 5);
    unsigned style = below(4), first = below(26);
    put('{');
    space();
    for (unsigned i = 0; i < n; i++) {
        if (i > 0 && !(faulty() && one_in(3)))
            put(',');
        space();
        if (faulty() && one_in(4))
            number();
        else if (faults != 0)
            key(i, style);
        else
            key((first + i) % 26, style);
        space();
        if (!(faulty() && one_in(3)))
            put(':');
        value(depth);
    }
    if (faulty() && one_in(3))
        put(',');
    put(faulty() && one_in(4) ? ']' : '}');
}

/* A value in `depth` open arrays and objects. */
static void value(unsigned depth)
{
    unsigned deepest = faults != 0 && one_in(8) ? 9 : 8;
    space();
    switch (len > 3000 || depth >= deepest ? below(5) : below(depth < 2 ? 10 : 8)) {
    case 0:
    case 1:
        string();
        break;
    case 2:
    case 3:
        number();
        break;
    case 4:
        word();
        break;
    case 5:
    case 8:
        array(depth + 1);
        break;
    default:
        object(depth + 1);
    }
    space();
}

/* ---- Kinds of text */

static void valid(void)
{
    faults = 0;
    value(0);
}

static void near_valid(void)
{
    static const unsigned rates[] = {3, 6, 12, 25, 50};
    faults = rates[below(5)];
    value(0);
    if (faulty()) {
        static const char *const rest[] = {",", "]", "}", " 1", "\xef\xbb\xbf", "\xff", "//", "\"", ":"};
        put_s(rest[below(9)]);
    }
}

/* Changes some bytes of a text that is there. */
static void damage(void)
{
    static const char marks[] = "{}[]\":,\\/-+.eE0123456789utfn \t\n\x7f\x01";
    for (unsigned times = 1 + below(3); times > 0; times--) {
        size_t at = len ? below((unsigned)len) : 0, n = 1 + below(4);
        switch (below(9)) {
        case 0: /* flip a bit */
            if (len)
                text[at] ^= (uint8_t)(1u << below(8));
            break;
        case 1: /* another byte */
            if (len)
                text[at] = (uint8_t)below(256);
            break;
        case 2:
        case 3: /* another byte that means something */
            if (len)
                text[at] = (uint8_t)marks[below(sizeof marks - 1)];
            break;
        case 4: /* take out some */
            n = n > len - at ? len - at : n;
            memmove(text + at, text + at + n, len - at - n);
            len -= n;
            break;
        case 5:
        case 6: /* put in one */
            if (len < TEXT_SPACE) {
                memmove(text + at + 1, text + at, len - at);
                text[at] = one_in(3) ? (uint8_t)below(256) : (uint8_t)marks[below(sizeof marks - 1)];
                len++;
            }
            break;
        case 7: /* cut off */
            len = at;
            break;
        default: /* say some of it twice */
            n = 1 + below(12);
            n = n > len - at ? len - at : n;
            if (len + n < TEXT_SPACE) {
                memmove(text + at + n, text + at, len - at);
                len += n;
            }
        }
    }
}

static void damaged(void)
{
    valid();
    damage();
}

static void numbers(void)
{
    unsigned n = one_in(3) ? 1 : 1 + below(4);
    faults = 2 + below(4);
    if (n > 1)
        put('[');
    for (unsigned i = 0; i < n; i++) {
        if (i > 0)
            put(',');
        if (one_in(4)) { /* around the limits, with any number of digits more */
            unsigned extra = one_in(6) ? below(4) : 0;
            char digits[24];
            snprintf(digits, sizeof digits, "%s%lu", one_in(2) ? "-" : "", 2147483640ul + below(20));
            put_s(digits);
            while (extra-- > 0)
                put('0' + below(10));
        } else if (one_in(8)) {
            for (unsigned d = 1 + below(30); d > 0; d--)
                put('0' + below(10));
        } else {
            number();
        }
    }
    if (n > 1)
        put(']');
}

/* Strings of \u escapes, most of them surrogates, with something between some of them. */
static void surrogates(void)
{
    bool as_key = one_in(3);
    put_s(as_key ? "{\"" : "\"");
    for (unsigned n = 1 + below(5); n > 0; n--) {
        if (one_in(3)) {
            unsigned high = 0xd800 + below(0x400), low = 0xdc00 + below(0x400);
            put_unit(high);
            put_unit(low);
        } else if (one_in(3)) {
            put_char(some_char());
        } else if (one_in(12)) {
            put_s("\\");
            put_unit(some_unit());
        } else {
            put_unit(some_unit());
        }
    }
    put_s(as_key ? "\":0}" : "\"");
}

/* Short keys from few letters, each written in one of its ways. */
static void few_keys(void)
{
    static const uint32_t letters[] = {'a', 'b', '/', '"', '\\', 0x915, 0x1f600, 0xe000, 0xffff, 0x10000};
    unsigned n = 2 + below(6), depth = below(3);
    for (unsigned i = 0; i < depth; i++)
        put_s("{\"a\":");
    for (unsigned i = 0; i < n; i++) {
        put_s(i == 0 ? "{\"" : ",\"");
        for (unsigned k = below(4); k > 0; k--) {
            uint32_t c = letters[below(10)];
            if (one_in(2))
                put_escaped(c);
            else
                put_char(c);
        }
        put_s("\":1");
    }
    put('}');
    for (unsigned i = 0; i < depth; i++)
        put_s(one_in(4) ? ",\"b\":1,\"a\":2}" : "}");
}

/* Arrays and objects 7 to 10 deep. */
static void nesting(void)
{
    char close[10];
    unsigned n = 7 + below(one_in(3) ? 4 : 2);
    faults = 0;
    for (unsigned i = 0; i < n; i++) {
        bool last = i + 1 == n;
        if (one_in(4))
            space();
        if (one_in(2)) {
            put('[');
            close[i] = ']';
            if (!last && one_in(3))
                put_s("[],");
        } else {
            put('{');
            close[i] = '}';
            if (!last)
                put_s(one_in(3) ? "\"b\":{},\"a\":" : "\"a\":");
        }
    }
    while (n-- > 0) {
        put((uint8_t)close[n]);
        if (n > 0 && close[n - 1] == ']' && one_in(4))
            put_s(",1");
    }
    if (one_in(10))
        damage();
}

/* Byte sequences around the borders of RFC 3629's table, in strings and outside. */
static void utf8(void)
{
    static const uint8_t leads[] = {0x7e, 0x80, 0xbf, 0xc0, 0xc1, 0xc2, 0xdf, 0xe0, 0xe1, 0xec, 0xed, 0xee,
                                    0xef, 0xf0, 0xf1, 0xf3, 0xf4, 0xf5, 0xf7, 0xf8, 0xfc, 0xfe, 0xff};
    static const uint8_t follow[] = {0x80, 0x8f, 0x90, 0x9f, 0xa0, 0xbf, 0x80, 0xa0, 0x90, 0xbf, 0x7f, 0xc0};
    bool quoted = !one_in(8);
    if (quoted)
        put('"');
    for (unsigned n = 1 + below(3); n > 0; n--) {
        uint8_t lead = leads[below(sizeof leads)];
        unsigned want = lead >= 0xf0 ? 3 : lead >= 0xe0 ? 2 : lead >= 0xc0 ? 1 : 0;
        if (one_in(5))
            want = below(4);
        put(lead);
        while (want-- > 0)
            put(follow[below(one_in(12) ? 12 : 10)]);
        if (one_in(4))
            put_utf8(some_char() | 0x100);
    }
    if (quoted)
        put('"');
}

static void tokens(void)
{
    static const char *const all[] = {"{", "}", "[", "]", ":", ",", "\"a\"", "\"b\"", "\"\"", "1", "-0", "true",
                                      " ", "\"a\":", "{\"a\":1}", "[]", "{}", "\"\\u0061\"", "null", "\xef\xbb\xbf"};
    for (unsigned n = 1 + below(9); n > 0; n--)
        put_s(all[below(20)]);
}

/* Several faults of different numbers in one text: the lowest has to come back. */
static void mixed(void)
{
    static const char *const parts[] = {"1",        "\"a\"",        "{\"b\":[],\"a\":{}}",     "\"\\ud800\"",
                                        "\"\\n\"",  "\"\x7f\"",      "{\"\\u0000\":0}",         "-0",
                                        "1.5",      "1e9",          "[2147483648]",            "-2147483649",
                                        "{\"a\":1,\"a\":2}", "{\"a\":1,\"\\u0061\":-0}", "{\"\":{\"\":0,\"\":0}}",
                                        "[[[[[[[{}]]]]]]]", "01", "\"\xff\"", "tru", "[1,]"};
    unsigned n = 2 + below(4), kinds = one_in(6) ? 20 : one_in(3) ? 16 : 15;
    put('[');
    for (unsigned i = 0; i < n; i++) {
        if (i > 0)
            put(',');
        put_s(parts[below(kinds)]);
    }
    put(']');
}

static void noise(void)
{
    for (unsigned n = below(12); n > 0; n--)
        put(below(256));
}

/* Texts of 16,384 or 16,385 bytes, and some that are longer or a little shorter. */
static void long_text(void)
{
    static const size_t sizes[] = {16383, 16384, 16384, 16384, 16385, 16385, 16386, 20000, 40000};
    size_t want = sizes[below(9)];
    faults = 0;
    switch (below(5)) {
    case 0: /* one string */
        put('"');
        while (len + 13 < want)
            put_char(some_char());
        while (len + 1 < want)
            put('x');
        put('"');
        break;
    case 1: /* a small text in much space */
        value(0);
        while (len < want)
            put((uint8_t)" \t\n\r"[below(4)]);
        break;
    case 2: { /* many keys, in an order that is neither rising nor falling */
        unsigned i = 0, step = 1 + 2 * below(2000);
        put('{');
        while (len + 16 < want) {
            char member[24];
            snprintf(member, sizeof member, "%s\"%x\":%u", i ? "," : "", i * step % 4096, i % 10);
            put_s(member);
            i++;
        }
        while (len + 1 < want)
            put(' ');
        put('}');
        break;
    }
    case 3: /* many values */
        put_s("[0");
        while (len + 64 < want) {
            size_t before = len;
            put(',');
            value(6);
            if (len + 2 > want)
                len = before;
        }
        while (len + 1 < want)
            put(' ');
        put(']');
        break;
    default: /* one number, mostly of many digits */
        put('1' + below(9));
        while (len < want)
            put('0' + below(10));
    }
    if (one_in(4))
        damage();
}

static void random_text(uint64_t number)
{
    state = number * 0xd1342543de82ef95u + 0x632be59bd9b4e019u;
    len = 0;
    if (one_in(250)) {
        long_text();
        return;
    }
    switch (below(21)) {
    case 0:
    case 1:
    case 2:
    case 3:
    case 4:
        valid();
        break;
    case 5:
    case 6:
    case 7:
    case 8:
        near_valid();
        break;
    case 9:
    case 10:
    case 11:
        damaged();
        break;
    case 12:
        numbers();
        break;
    case 13:
        surrogates();
        break;
    case 14:
    case 15:
        few_keys();
        break;
    case 16:
        nesting();
        break;
    case 17:
        utf8();
        break;
    case 18:
        tokens();
        break;
    case 19:
        mixed();
        break;
    default:
        noise();
    }
}

/* ---- Comparing */

static unsigned long counts[256], compared;
static unsigned long later[256], places[256]; /* offsets other than 0, and different ones */
static bool met[256][ACON_TEXT_MAX + 1];
static bool systematic;
static uint64_t running; /* number of the random text that runs */

static void show(const char *what, uint64_t got, uint64_t want, size_t room)
{
    fprintf(stderr, "differential: %s: library %u/%u/%u, reference %u/%u/%u, buffer of %zu bytes\n", what,
            acon_number(got), acon_first(got), acon_second(got), acon_number(want), acon_first(want),
            acon_second(want), room);
    if (!systematic)
        fprintf(stderr, "random text %llu, ", (unsigned long long)running);
    fprintf(stderr, "text of %zu bytes: ", len);
    for (size_t i = 0; i < len && i < 400; i++)
        fprintf(stderr, text[i] >= 0x20 && text[i] < 0x7f && text[i] != '\\' ? "%c" : "\\x%02x", text[i]);
    fprintf(stderr, "\n");
    exit(1);
}

static void outside(int signal)
{
    static const char message[] = "differential: the library touched a byte that was not lent to it, or crashed\n";
    (void)signal;
    if (write(2, message, sizeof message - 1) < 0)
        _exit(2);
    _exit(1);
}

static uint8_t pattern(size_t i)
{
    return (uint8_t)(0x5b ^ i * 37 ^ running * 11);
}

static uint8_t expected[OUT_SPACE];

static void check(size_t room, bool at_end)
{
    uint8_t *lent_text = part(text_pages, len, at_end), *lent_out = part(out_pages, room, at_end);
    memcpy(lent_text, text, len);
    for (size_t i = 0; i < room; i++)
        lent_out[i] = expected[i] = pattern(i);
    uint64_t got = acon_canonical(lent_text, len, lent_out, room);
    uint64_t want = reference_canonical(text, len, expected, room);
    if (got != want || acon_second(got) > len)
        show("different answers", got, want, room);
    if (memcmp(lent_out, expected, room) != 0)
        show("different bytes", got, want, room);
    /* not left to the reference alone */
    for (size_t i = acon_first(got); i < room; i++)
        if (lent_out[i] != pattern(i))
            show("a byte changed that has to stay", got, want, room);
    if (memcmp(lent_text, text, len) != 0)
        show("the text changed", got, want, room);
    counts[acon_number(got)]++;
    later[acon_number(got)] += acon_second(got) != 0;
    places[acon_number(got)] += !met[acon_number(got)][acon_second(got)];
    met[acon_number(got)][acon_second(got)] = true;
    compared++;
}

/* One text: in a long buffer or, if it has a form, mostly in one of about the
 * form's length. Its form is then a text that has to come back as it is. */
static void compare(void)
{
    static uint8_t scratch[OUT_SPACE];
    uint64_t plain = reference_canonical(text, len, scratch, sizeof scratch);
    size_t form = acon_first(plain), room;
    bool at_end = one_in(2);
    if (acon_number(plain) != 0) {
        room = one_in(4) ? 0 : below(64);
        check(room, at_end);
        return;
    }
    switch (below(8)) {
    case 0:
        room = form - 1;
        break;
    case 1:
        room = below((unsigned)form);
        break;
    case 2:
        room = form + 1 + below(64);
        break;
    case 3:
        room = len;
        break;
    default:
        room = form;
    }
    check(room, at_end);
    if (one_in(4)) {
        memcpy(text, scratch, form);
        len = form;
        check(form, at_end);
    }
}

/* ---- Systematic texts */

static void short_texts(void)
{
    static const char letters[] = "{}[]\":,\\u01-e.a ";
    enum { LETTERS = sizeof letters - 1 };
    len = 0;
    compare();
    for (unsigned a = 0; a < 256; a++) {
        text[0] = (uint8_t)a;
        len = 1;
        compare();
        for (unsigned b = 0; b < 256; b++) {
            text[0] = (uint8_t)a, text[1] = (uint8_t)b;
            len = 2;
            compare();
        }
    }
    for (unsigned n = 3; n <= 4; n++) {
        unsigned long all = 1;
        for (unsigned i = 0; i < n; i++)
            all *= LETTERS;
        for (unsigned long k = 0; k < all; k++) {
            unsigned long rest = k;
            len = 0;
            for (unsigned i = 0; i < n; i++, rest /= LETTERS)
                put((uint8_t)letters[rest % LETTERS]);
            compare();
        }
    }
}

/* Every \uXXXX alone, and every three of the units at the borders of the surrogates. */
static void escapes(void)
{
    static const unsigned units[] = {0x0041, 0xd7ff, 0xd800, 0xdbff, 0xdc00, 0xdfff, 0xe000};
    for (unsigned u = 0; u < 0x10000; u++) {
        len = 0;
        put('"');
        put_unit(u);
        put('"');
        compare();
    }
    for (unsigned k = 0; k < 7 * 7 * 7 * 2; k++) {
        len = 0;
        put_s(k % 2 ? "{\"" : "[\"");
        put_unit(units[k / 2 % 7]);
        put_unit(units[k / 14 % 7]);
        put_unit(units[k / 98 % 7]);
        put_s(k % 2 ? "\":[]}" : "\"]");
        compare();
    }
}

/* Every first byte with bytes from the borders of the ranges after it. */
static void sequences(void)
{
    static const uint8_t follow[] = {0x41, 0x80, 0x8f, 0x90, 0x9f, 0xa0, 0xbf, 0xc0};
    for (unsigned lead = 0x80; lead < 256; lead++)
        for (unsigned k = 0; k < 8 * 8 * 8; k++)
            for (unsigned n = 0; n <= 3; n++) {
                len = 0;
                put('"');
                put(lead);
                for (unsigned i = 0; i < n; i++)
                    put(follow[k >> 3 * i & 7]);
                if (k >> 3 * n != 0)
                    continue; /* the same bytes again */
                put('"');
                compare();
            }
}

int main(int argc, char **argv)
{
    unsigned long count = argc > 1 ? strtoul(argv[1], NULL, 10) : 1000000;
    uint64_t first = argc > 2 ? strtoull(argv[2], NULL, 10) : 0;
    text_pages = lend(TEXT_SPACE);
    out_pages = lend(OUT_SPACE);
    signal(SIGSEGV, outside);
    signal(SIGBUS, outside);
    if (argc <= 2) {
        state = 1;
        systematic = true;
        short_texts();
        escapes();
        sequences();
        systematic = false;
    }
    for (running = first; running < first + count; running++) {
        random_text(running);
        compare();
    }
    printf("differential: %lu texts equal, by number:", compared);
    for (int i = 0; i < 256; i++)
        if (counts[i] > 0)
            printf(" %d: %lu", i, counts[i]);
    printf("; offsets:");
    for (int i = ACON_NOT_UTF8; i <= ACON_EQUAL_KEYS; i++)
        printf(" %d: %lu", i, places[i]);
    printf("\n");
    static const int asked[] = {0, 1, 2, 3, 4, 5, 6, 20};
    for (int i = 0; i < 8 && argc <= 2; i++)
        if (counts[asked[i]] < LEAST) {
            fprintf(stderr, "differential: number %d occurred %lu times only\n", asked[i], counts[asked[i]]);
            return 1;
        }
    for (int i = ACON_NOT_UTF8; i <= ACON_EQUAL_KEYS && argc <= 2; i++)
        if (later[i] < LEAST || places[i] < PLACES) {
            fprintf(stderr, "differential: number %d had %lu offsets, and %lu times another than 0\n", i, places[i], later[i]);
            return 1;
        }
    return 0;
}
