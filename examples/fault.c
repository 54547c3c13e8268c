/* Shows a publisher where the fault of a text is: line, column, and the line with
 * the faulty part marked.
 *
 *   fault FILE ...   these texts; ends with status 1 where one is refused
 *   fault            the texts written out below
 *
 * The library tells the offset in bytes. A publisher's editor counts lines and
 * characters, so both are counted here. A line ends with LF, CR LF or CR. A
 * character is one of Unicode, however many bytes it has and however it is drawn.
 * So the part is marked inside the line, between >>> and <<<: terminals draw some
 * characters in no column of their own and some in two, and a mark below the line
 * would stand elsewhere.
 */
#include "acon.h"

#include <stdio.h>
#include <string.h>

enum { AROUND = 24, PART = 40 }; /* most characters shown beside the part, and of it */

typedef struct {
    const uint8_t *bytes;
    size_t length;
} text;

/* The bytes of the character at i, 1 to 4; 0 where no character of UTF-8 begins. */
static size_t character(text t, size_t i, uint32_t *value)
{
    static const uint32_t least[] = {0, 0, 0x80, 0x800, 0x10000};
    uint8_t first = t.bytes[i];
    size_t n = first < 0x80 ? 1 : first < 0xc0 ? 0 : first < 0xe0 ? 2 : first < 0xf0 ? 3 : first < 0xf8 ? 4 : 0;
    if (n == 0 || n > t.length - i)
        return 0;
    *value = n == 1 ? first : first & (0x7fu >> n);
    for (size_t k = 1; k < n; k++) {
        if ((t.bytes[i + k] & 0xc0) != 0x80)
            return 0;
        *value = *value << 6 | (t.bytes[i + k] & 0x3f);
    }
    if (*value < least[n] || *value > 0x10ffff || (*value >= 0xd800 && *value <= 0xdfff))
        return 0;
    return n;
}

/* Where the next character begins; a byte that is part of none counts as one. */
static size_t after(text t, size_t i)
{
    uint32_t value;
    size_t n = character(t, i, &value);
    return i + (n ? n : 1);
}

/* Whether a terminal would obey a character, or show what follows it elsewhere,
 * instead of showing it. */
static int is_unsafe(uint32_t c)
{
    return c < 0x20 || (c >= 0x7f && c <= 0x9f) || (c >= 0x2028 && c <= 0x202e) ||
           (c >= 0x2066 && c <= 0x2069) || c == 0xfeff;
}

/* Prints what stands from one offset to another. Bytes that are no UTF-8 and
 * characters that a terminal would obey are printed by their numbers. */
static void print_part(text t, size_t from, size_t to)
{
    while (from < to) {
        uint32_t value = 0;
        size_t n = character(t, from, &value);
        if (n == 0)
            printf("<%02X>", t.bytes[from]);
        else if (is_unsafe(value))
            printf("<U+%04X>", (unsigned)value);
        else
            fwrite(t.bytes + from, 1, n, stdout);
        from += n ? n : 1;
    }
}

/* ---- Lines and columns */

static int ends_line(text t, size_t i)
{
    return t.bytes[i] == '\n' || (t.bytes[i] == '\r' && !(i + 1 < t.length && t.bytes[i + 1] == '\n'));
}

typedef struct {
    size_t line, column; /* from 1, as editors count */
    size_t start, end;   /* of the line, without what ends it */
} position;

static position position_of(text t, size_t offset)
{
    position p = {1, 1, 0, offset};
    for (size_t i = 0; i < offset; i++)
        if (ends_line(t, i)) {
            p.line++;
            p.start = i + 1;
        }
    for (size_t i = p.start; i < offset; i = after(t, i))
        p.column++;
    while (p.end < t.length && t.bytes[p.end] != '\n' && t.bytes[p.end] != '\r')
        p.end++;
    return p;
}

/* ---- The faulty part */

/* After the string whose quotation mark is at i, or after the number there. */
static size_t after_string(text t, size_t i)
{
    for (i++; i < t.length && t.bytes[i] != '"'; i++)
        if (t.bytes[i] == '\\')
            i++;
    return i + 1;
}

static size_t after_number(text t, size_t i)
{
    while (i < t.length && t.bytes[i] && strchr("+-.0123456789Ee", t.bytes[i]))
        i++;
    return i;
}

/* After the bytes that begin a character and do not finish it. */
static size_t after_bytes(text t, size_t i)
{
    size_t most = t.bytes[i] >= 0xc0 ? i + 4 : i + 1;
    for (i++; i < t.length && i < most && (t.bytes[i] & 0xc0) == 0x80; i++)
        continue;
    return i;
}

static size_t after_part(text t, unsigned number, size_t offset)
{
    if (offset == t.length)
        return offset;
    switch (number) {
    case ACON_NOT_UTF8: return after_bytes(t, offset);
    case ACON_BAD_NUMBER: return after_number(t, offset);
    case ACON_BAD_STRING:
    case ACON_EQUAL_KEYS: return after_string(t, offset);
    default: return after(t, offset);
    }
}

/* At most so many characters back from i, and not before `least`. */
static size_t back(text t, size_t i, size_t least, size_t count)
{
    for (; i > least && count > 0; count--)
        for (i--; i > least && (t.bytes[i] & 0xc0) == 0x80; i--)
            continue;
    return i;
}

/* At most so many characters on from i, and not past `most`. */
static size_t on(text t, size_t i, size_t most, size_t count)
{
    for (; i < most && count > 0; count--)
        i = after(t, i);
    return i < most ? i : most;
}

/* The line of the fault, cut where it is long, with the part between marks. */
static void print_marked(text t, position p, size_t offset, size_t end)
{
    size_t stop = end > p.end ? end : p.end; /* the part may be what ends the line */
    size_t from = back(t, offset, p.start, AROUND), shown = on(t, offset, end, PART), to = on(t, end, stop, AROUND);
    printf("    %s", from > p.start ? "..." : "");
    print_part(t, from, offset);
    printf(">>>");
    print_part(t, offset, shown);
    printf("%s<<<", shown < end ? "..." : "");
    print_part(t, end, to);
    printf("%s\n", to < stop ? "..." : "");
}

/* Asks about a text; 0 if it is taken, and 1 if it is refused. */
static int show(const char *name, text t)
{
    static uint8_t form[ACON_TEXT_MAX];
    uint64_t answer = acon_canonical(t.bytes, t.length, form, sizeof form);
    size_t offset = acon_offset(answer);
    if (acon_is_done(answer)) {
        printf("%s: good\n", name);
        return 0;
    }
    if (!acon_has_offset(answer)) {
        printf("%s: %s\n", name, acon_text(acon_number(answer)));
        return 1;
    }
    position p = position_of(t, offset);
    printf("%s, line %zu, column %zu: %s%s\n", name, p.line, p.column, acon_text(acon_number(answer)),
           offset == t.length ? "; it ends too early" : "");
    print_marked(t, p, offset, after_part(t, acon_number(answer), offset));
    return 1;
}

/* ---- Texts */

static const char *const built_in[][2] = {
    {"a byte that is not UTF-8", "{\"author\": \"Ren\xe9\", \"layers\": []}"},
    {"a letter cut in the middle", "{\n  \"author\": \"\xe0\xa4\xb9\xe0\xa4\xbf\xe0\xa4\"\n}"},
    {"a comma too many", "{\n  \"aconSpecVersion\": [1, 0],\n  \"layers\": [\n    \"sha256/00\",\n  ]\n}\n"},
    {"cut off on the way", "{\r\n  \"aconSpecVersion\": [1, 0],\r\n  \"layers\": [\"sha256/00"},
    {"no text at all", ""},
    {"nine arrays", "[[[[[[[[[]]]]]]]]]"},
    {"a byte order mark", "\xef\xbb\xbf{}"},
    {"a string over two lines", "{\"history\": \"first\nsecond\"}"},
    {"a control character", "{\"workingDir\": \"/job\", \"history\": \"first\\nsecond\"}"},
    {"half a pair", "{\"\xe0\xa4\xb6\xe0\xa4\xac\xe0\xa5\x8d\xe0\xa4\xa6\": [\"\xe0\xa4\x95\", \"\\ud83d\", \"\\n\"]}"},
    {"a number with a point", "{\"maxInstances\": 2, \"timeout\": 1.5, \"delay\": -0}"},
    {"a key twice, in Devanagari",
     "{\n  \"\xe0\xa4\xa8\xe0\xa4\xbe\xe0\xa4\xae\": 1, \"\xe0\xa4\x97\xe0\xa5\x8d\xe0\xa4\xb0\xe0\xa4\x82\xe0\xa4\xa5\": 2,"
     " \"\\u0928\\u093e\\u092e\": 3\n}"},
    {"a key twice in an object inside", "{\"a\": {\"b\": 1, \"c\": 2, \"b\": 3}, \"a\": 4}"},
    {"a good one", "{\"\xe0\xa4\xa8\xe0\xa4\xbe\xe0\xa4\xae\": \"\xe0\xa4\x95\xe0\xa5\x98\"}"},
};

static int show_file(const char *name)
{
    static uint8_t bytes[ACON_TEXT_MAX + 1]; /* a longer file is seen as too long */
    FILE *file = fopen(name, "rb");
    size_t length = file ? fread(bytes, 1, sizeof bytes, file) : 0;
    if (!file || ferror(file)) {
        perror(name);
        return 2;
    }
    fclose(file);
    return show(name, (text){bytes, length});
}

int main(int argc, char **argv)
{
    int status = 0;
    for (int i = 1; i < argc; i++) {
        int one = show_file(argv[i]);
        status = one > status ? one : status;
    }
    for (size_t i = 0; argc == 1 && i < sizeof built_in / sizeof *built_in; i++)
        show(built_in[i][0], (text){(const uint8_t *)built_in[i][1], strlen(built_in[i][1])});
    return status;
}
