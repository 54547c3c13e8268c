#include "canonical.h"

#include <stdbool.h>
#include <stdlib.h>
#include <string.h>

enum { TEXT_MAX = 16384, NESTING_MAX = 8 };

/* ---- UTF-8: decode each character and look at what came out, instead of
 * following the byte ranges of RFC 3629's table */

/* The length of the longest start that is well-formed: all characters before the
 * first that is none. */
static size_t utf8_start(const uint8_t *s, size_t n)
{
    size_t i = 0;
    while (i < n) {
        uint32_t c = s[i];
        size_t more;
        uint32_t least; /* the smallest code point that needs this many bytes */
        if (c < 0x80) {
            i++;
            continue;
        } else if ((c & 0xe0) == 0xc0) {
            more = 1, least = 0x80, c &= 0x1f;
        } else if ((c & 0xf0) == 0xe0) {
            more = 2, least = 0x800, c &= 0x0f;
        } else if ((c & 0xf8) == 0xf0) {
            more = 3, least = 0x10000, c &= 0x07;
        } else {
            return i;
        }
        if (n - i <= more)
            return i;
        for (size_t k = 1; k <= more; k++) {
            if ((s[i + k] & 0xc0) != 0x80)
                return i;
            c = c << 6 | (s[i + k] & 0x3f);
        }
        if (c < least || c > 0x10ffff || (c >= 0xd800 && c <= 0xdfff))
            return i;
        i += 1 + more;
    }
    return n;
}

/* ---- The tree. A text of 16,384 bytes has fewer nodes than bytes. */

enum kind { WORD, NUMBER, STRING, ARRAY, OBJECT };

struct node {
    enum kind kind;
    size_t start, end; /* in the text: a word, a number, or what stands between the quotes */
    size_t bytes, len; /* string: its content, in the pool below */
    bool refused;      /* string: lone surrogate escape or a control character */
    int first, next;   /* first child and next sibling, -1 for none */
};

/* In an object the children are key, value, key, value. */
static struct node nodes[TEXT_MAX + 1];
static int node_count;
static uint8_t pool[TEXT_MAX];
static size_t pool_used;

static const uint8_t *text;
static size_t text_len, at;

static int peek(void)
{
    return at < text_len ? text[at] : -1;
}

static bool take(int c)
{
    if (peek() != c)
        return false;
    at++;
    return true;
}

static void skip_space(void)
{
    while (peek() == ' ' || peek() == '\t' || peek() == '\n' || peek() == '\r')
        at++;
}

static int new_node(enum kind kind)
{
    nodes[node_count] = (struct node){.kind = kind, .start = at, .first = -1, .next = -1};
    return node_count++;
}

static bool digit(void)
{
    return peek() >= '0' && peek() <= '9';
}

static bool digits(void)
{
    if (!digit())
        return false;
    while (digit())
        at++;
    return true;
}

/* number = [ minus ] int [ frac ] [ exp ] */
static bool read_number(void)
{
    int n = new_node(NUMBER);
    take('-');
    if (!take('0') && !digits())
        return false;
    if (take('.') && !digits())
        return false;
    if (take('e') || take('E')) {
        if (!take('+'))
            take('-');
        if (!digits())
            return false;
    }
    nodes[n].end = at;
    return true;
}

static bool read_word(const char *word)
{
    int n = new_node(WORD);
    for (; *word; word++)
        if (!take(*word))
            return false;
    nodes[n].end = at;
    return true;
}

static int hex4(size_t from)
{
    int v = 0;
    for (size_t i = from; i < from + 4; i++) {
        if (i >= text_len)
            return -1;
        int c = text[i];
        if (c >= '0' && c <= '9')
            v = v * 16 + c - '0';
        else if (c >= 'a' && c <= 'f')
            v = v * 16 + c - 'a' + 10;
        else if (c >= 'A' && c <= 'F')
            v = v * 16 + c - 'A' + 10;
        else
            return -1;
    }
    return v;
}

/* The grammar of a string alone; what it holds is worked out by unescape. */
static bool read_string(void)
{
    if (!take('"'))
        return false;
    int n = new_node(STRING);
    for (;;) {
        int c = peek();
        if (c < 0x20) /* the end of the text too */
            return false;
        if (c == '"')
            break;
        at++;
        if (c != '\\')
            continue;
        c = peek();
        if (c < 0 || c == 0 || !strchr("\"\\/bfnrtu", c))
            return false;
        at++;
        if (c == 'u') {
            if (hex4(at) < 0)
                return false;
            at += 4;
        }
    }
    nodes[n].end = at++;
    return true;
}

static bool read_value(int depth);

static bool read_array(int depth)
{
    int n = new_node(ARRAY), last = -1;
    at++;
    skip_space();
    if (take(']'))
        return true;
    for (;;) {
        int child = node_count;
        if (!read_value(depth))
            return false;
        *(last < 0 ? &nodes[n].first : &nodes[last].next) = child;
        last = child;
        if (take(']'))
            return true;
        if (!take(','))
            return false;
    }
}

static bool read_object(int depth)
{
    int n = new_node(OBJECT), last = -1;
    at++;
    skip_space();
    if (take('}'))
        return true;
    for (;;) {
        skip_space();
        int key = node_count;
        if (!read_string())
            return false;
        skip_space();
        if (!take(':'))
            return false;
        int value = node_count;
        if (!read_value(depth))
            return false;
        *(last < 0 ? &nodes[n].first : &nodes[last].next) = key;
        nodes[key].next = value;
        last = value;
        if (take('}'))
            return true;
        if (!take(','))
            return false;
    }
}

/* A value with the space around it; depth is how many arrays and objects are open. */
static bool read_value(int depth)
{
    bool ok;
    skip_space();
    switch (peek()) {
    case '{':
        ok = depth < NESTING_MAX && read_object(depth + 1);
        break;
    case '[':
        ok = depth < NESTING_MAX && read_array(depth + 1);
        break;
    case '"':
        ok = read_string();
        break;
    case 't':
        ok = read_word("true");
        break;
    case 'f':
        ok = read_word("false");
        break;
    case 'n':
        ok = read_word("null");
        break;
    default:
        ok = read_number();
    }
    skip_space();
    return ok;
}

/* ---- The content of strings */

static void put_char(uint32_t c)
{
    if (c < 0x80) {
        pool[pool_used++] = (uint8_t)c;
    } else if (c < 0x800) {
        pool[pool_used++] = (uint8_t)(0xc0 | c >> 6);
        pool[pool_used++] = (uint8_t)(0x80 | (c & 0x3f));
    } else if (c < 0x10000) {
        pool[pool_used++] = (uint8_t)(0xe0 | c >> 12);
        pool[pool_used++] = (uint8_t)(0x80 | (c >> 6 & 0x3f));
        pool[pool_used++] = (uint8_t)(0x80 | (c & 0x3f));
    } else {
        pool[pool_used++] = (uint8_t)(0xf0 | c >> 18);
        pool[pool_used++] = (uint8_t)(0x80 | (c >> 12 & 0x3f));
        pool[pool_used++] = (uint8_t)(0x80 | (c >> 6 & 0x3f));
        pool[pool_used++] = (uint8_t)(0x80 | (c & 0x3f));
    }
}

static void unescape(struct node *s)
{
    size_t i = s->start;
    s->bytes = pool_used;
    while (i < s->end) {
        if (text[i] != '\\') {
            pool[pool_used++] = text[i++];
            continue;
        }
        uint8_t c = text[i + 1];
        if (c == 'u') {
            int unit = hex4(i + 2);
            i += 6;
            if (unit >= 0xdc00 && unit <= 0xdfff) {
                s->refused = true;
                continue;
            }
            if (unit >= 0xd800 && unit <= 0xdbff) {
                int low = i + 6 <= s->end && text[i] == '\\' && text[i + 1] == 'u' ? hex4(i + 2) : -1;
                if (low < 0xdc00 || low > 0xdfff) {
                    s->refused = true;
                    continue;
                }
                put_char((uint32_t)(0x10000 + (unit - 0xd800) * 0x400 + low - 0xdc00));
                i += 6;
                continue;
            }
            put_char((uint32_t)unit);
            continue;
        }
        i += 2;
        switch (c) {
        case 'b':
            c = '\b';
            break;
        case 'f':
            c = '\f';
            break;
        case 'n':
            c = '\n';
            break;
        case 'r':
            c = '\r';
            break;
        case 't':
            c = '\t';
            break;
        }
        put_char(c);
    }
    s->len = pool_used - s->bytes;
    for (size_t k = s->bytes; k < pool_used; k++)
        if (pool[k] < 0x20 || pool[k] == 0x7f)
            s->refused = true;
}

/* ---- Numbers: compared as decimal digits */

static bool number_refused(const struct node *n)
{
    size_t i = n->start;
    bool negative = text[i] == '-';
    if (negative)
        i++;
    for (size_t k = i; k < n->end; k++)
        if (text[k] < '0' || text[k] > '9')
            return true;
    if (negative && text[i] == '0')
        return true;
    size_t len = n->end - i;
    if (len != 10)
        return len > 10;
    return memcmp(text + i, negative ? "2147483648" : "2147483647", 10) > 0;
}

/* ---- Whether a start can go on to a JSON text: a machine that takes one byte
 * after the other, with no tree. It is dead where no JSON text of nesting at
 * most 8 begins with the bytes so far; from every other state one can be
 * reached. */

enum state {
    DEAD,
    VALUE,       /* before a value */
    FIRST_VALUE, /* the same, or the end of the array */
    FIRST_KEY,   /* before a key, or the end of the object */
    KEY,
    COLON,
    AFTER, /* after a value */
    CHARS,
    ESCAPE,
    HEX,
    LETTERS, /* of true, false or null */
    MINUS,
    ZERO,
    WHOLE,
    POINT,
    FRACTION,
    EXPONENT,
    SIGN,
    POWER
};

static struct {
    enum state state;
    char open[NESTING_MAX]; /* the brackets and braces that are open */
    int depth;
    bool is_key;         /* the string is one */
    int hex;             /* digits of a \u that are still to come */
    const char *letters; /* those that are still to come */
} machine;

static enum state step_first(uint8_t c)
{
    machine.is_key = false;
    switch (c) {
    case '[':
    case '{':
        if (machine.depth == NESTING_MAX)
            return DEAD;
        machine.open[machine.depth++] = (char)c;
        return c == '[' ? FIRST_VALUE : FIRST_KEY;
    case '"':
        return CHARS;
    case 't':
        machine.letters = "rue";
        return LETTERS;
    case 'f':
        machine.letters = "alse";
        return LETTERS;
    case 'n':
        machine.letters = "ull";
        return LETTERS;
    case '-':
        return MINUS;
    case '0':
        return ZERO;
    default:
        return c >= '1' && c <= '9' ? WHOLE : DEAD;
    }
}

static bool is_white(uint8_t c)
{
    return c == ' ' || c == '\t' || c == '\n' || c == '\r';
}

static enum state step_after(uint8_t c)
{
    if (is_white(c))
        return AFTER;
    if (machine.depth == 0)
        return DEAD;
    bool array = machine.open[machine.depth - 1] == '[';
    if (c == ',')
        return array ? VALUE : KEY;
    if (c != (array ? ']' : '}'))
        return DEAD;
    machine.depth--;
    return AFTER;
}

static enum state step_number(uint8_t c)
{
    bool is_digit = c >= '0' && c <= '9', is_e = c == 'e' || c == 'E';
    switch (machine.state) {
    case MINUS:
        return c == '0' ? ZERO : is_digit ? WHOLE : DEAD;
    case ZERO:
    case WHOLE:
        if (is_digit)
            return machine.state == WHOLE ? WHOLE : DEAD;
        return c == '.' ? POINT : is_e ? EXPONENT : step_after(c);
    case POINT:
        return is_digit ? FRACTION : DEAD;
    case FRACTION:
        return is_digit ? FRACTION : is_e ? EXPONENT : step_after(c);
    case EXPONENT:
        if (c == '+' || c == '-')
            return SIGN;
        return is_digit ? POWER : DEAD;
    case SIGN:
        return is_digit ? POWER : DEAD;
    default:
        return is_digit ? POWER : step_after(c);
    }
}

static enum state step_string(uint8_t c)
{
    if (machine.state == HEX) {
        if (!c || !strchr("0123456789abcdefABCDEF", c))
            return DEAD;
        return --machine.hex > 0 ? HEX : CHARS;
    }
    if (machine.state == ESCAPE) {
        machine.hex = 4;
        if (c == 'u')
            return HEX;
        return c && strchr("\"\\/bfnrt", c) ? CHARS : DEAD;
    }
    if (c == '"')
        return machine.is_key ? COLON : AFTER;
    return c == '\\' ? ESCAPE : c < 0x20 ? DEAD : CHARS;
}

static enum state step(uint8_t c)
{
    switch (machine.state) {
    case CHARS:
    case ESCAPE:
    case HEX:
        return step_string(c);
    case LETTERS:
        if (c != (uint8_t)*machine.letters)
            return DEAD;
        return *++machine.letters ? LETTERS : AFTER;
    case AFTER:
        return step_after(c);
    case VALUE:
    case FIRST_VALUE:
    case FIRST_KEY:
    case KEY:
    case COLON:
        break;
    default:
        return step_number(c);
    }
    if (is_white(c))
        return machine.state;
    if (machine.state == COLON)
        return c == ':' ? VALUE : DEAD;
    if ((machine.state == FIRST_VALUE && c == ']') || (machine.state == FIRST_KEY && c == '}'))
        return step_after(c);
    if (machine.state == VALUE || machine.state == FIRST_VALUE)
        return step_first(c);
    machine.is_key = true;
    return c == '"' ? CHARS : DEAD;
}

/* The length of the longest start that some JSON text of nesting at most 8
 * begins with, and whether the whole is such a text. */
static size_t json_start(bool *whole)
{
    size_t i = 0;
    machine.state = VALUE, machine.depth = 0;
    for (; i < text_len; i++) {
        machine.state = step(text[i]);
        if (machine.state == DEAD)
            break;
    }
    *whole = machine.depth == 0 && (machine.state == AFTER || machine.state == ZERO || machine.state == WHOLE ||
                                    machine.state == FRACTION || machine.state == POWER);
    return i;
}

/* ---- Order of keys */

static int compare_keys(const void *a, const void *b)
{
    const struct node *x = &nodes[*(const int *)a], *y = &nodes[*(const int *)b];
    int c = memcmp(pool + x->bytes, pool + y->bytes, x->len < y->len ? x->len : y->len);
    if (c != 0)
        return c;
    return x->len < y->len ? -1 : x->len > y->len;
}

/* The keys of an object in order, in a fresh list. */
static int *sorted_keys(const struct node *object, int *count)
{
    int n = 0;
    for (int k = object->first; k >= 0; k = nodes[nodes[k].next].next)
        n++;
    int *keys = malloc((size_t)(n + 1) * sizeof *keys);
    if (!keys)
        abort();
    n = 0;
    for (int k = object->first; k >= 0; k = nodes[nodes[k].next].next)
        keys[n++] = k;
    qsort(keys, (size_t)n, sizeof *keys, compare_keys);
    *count = n;
    return keys;
}

static bool has_equal_keys(const struct node *object)
{
    int n;
    int *keys = sorted_keys(object, &n);
    bool equal = false;
    for (int i = 1; i < n; i++)
        if (compare_keys(&keys[i - 1], &keys[i]) == 0)
            equal = true;
    free(keys);
    return equal;
}

/* The first key of an object that is equal to an earlier one of it, by its first
 * byte: the quotation mark before what it holds. */
static size_t repeated_key(const struct node *object)
{
    for (int k = object->first; k >= 0; k = nodes[nodes[k].next].next)
        for (int earlier = object->first; earlier != k; earlier = nodes[nodes[earlier].next].next)
            if (compare_keys(&earlier, &k) == 0)
                return nodes[k].start - 1;
    abort();
}

/* ---- Writing, into a buffer of its own */

static uint8_t form[2 * TEXT_MAX];
static size_t form_len;

static void put(uint8_t c)
{
    form[form_len++] = c;
}

static void write_string(const struct node *s)
{
    put('"');
    for (size_t i = s->bytes; i < s->bytes + s->len; i++) {
        if (pool[i] == '"' || pool[i] == '\\')
            put('\\');
        put(pool[i]);
    }
    put('"');
}

static void write_value(const struct node *v)
{
    switch (v->kind) {
    case WORD:
    case NUMBER:
        for (size_t i = v->start; i < v->end; i++)
            put(text[i]);
        break;
    case STRING:
        write_string(v);
        break;
    case ARRAY:
        put('[');
        for (int c = v->first; c >= 0; c = nodes[c].next) {
            if (c != v->first)
                put(',');
            write_value(&nodes[c]);
        }
        put(']');
        break;
    case OBJECT: {
        int n;
        int *keys = sorted_keys(v, &n);
        put('{');
        for (int i = 0; i < n; i++) {
            if (i > 0)
                put(',');
            write_string(&nodes[keys[i]]);
            put(':');
            write_value(&nodes[nodes[keys[i]].next]);
        }
        put('}');
        free(keys);
        break;
    }
    }
}

static uint64_t refused(unsigned number, size_t place)
{
    return (uint64_t)place << 32 | number;
}

/* Questions 4, 5 and 6 of the tree, each for the first fault of its kind in the
 * text; 0 where none applies. Nodes stand in the order of the text. */
static uint64_t refused_tree(void)
{
    size_t first = text_len;
    for (int i = 0; i < node_count; i++)
        if (nodes[i].kind == STRING)
            unescape(&nodes[i]);
    for (int i = 0; i < node_count; i++)
        if (nodes[i].kind == STRING && nodes[i].refused)
            return refused(4, nodes[i].start - 1);
    for (int i = 0; i < node_count; i++)
        if (nodes[i].kind == NUMBER && number_refused(&nodes[i]))
            return refused(5, nodes[i].start);
    for (int i = 0; i < node_count; i++)
        if (nodes[i].kind == OBJECT && has_equal_keys(&nodes[i])) {
            size_t place = repeated_key(&nodes[i]);
            first = place < first ? place : first;
        }
    return first < text_len ? refused(6, first) : 0;
}

uint64_t reference_canonical(const uint8_t *t, size_t n, uint8_t *out, size_t out_len)
{
    if (n > TEXT_MAX)
        return refused(1, 0);
    size_t start = utf8_start(t, n);
    if (start < n)
        return refused(2, start);

    text = t, text_len = n, at = 0;
    node_count = 0, pool_used = 0, form_len = 0;
    bool whole, is_json = read_value(0) && at == n;
    start = json_start(&whole);
    if (whole != is_json)
        abort(); /* the two readers of the reference disagree */
    if (!is_json)
        return refused(3, start);

    uint64_t fault = refused_tree();
    if (fault != 0)
        return fault;
    write_value(&nodes[0]);
    if (form_len > out_len)
        return refused(20, 0);
    memcpy(out, form, form_len);
    return (uint64_t)form_len << 8;
}
