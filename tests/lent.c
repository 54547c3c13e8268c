/* What the header's calls hand to the archive, which this program stands in for:
 * every argument as it was given, but never NULL where a length is 0. Another
 * pointer is handed on there too: the tests that lend the end of a page need it. */
#include "acon.h"

#include <stdio.h>
#include <stdlib.h>

enum { MOST = 8 };

static uintptr_t got[MOST];
static unsigned long checks;

#define POINTER(p) (uintptr_t)(p)
#define TAKE(...) \
    const uintptr_t taken[MOST] = {__VA_ARGS__}; \
    for (int i = 0; i < MOST; i++) \
        got[i] = taken[i]; \
    return 0x123456789abcdef0

uint64_t acon_symbol_canonical(const uint8_t *text, size_t text_len, uint8_t *out, size_t out_len)
{
    TAKE(POINTER(text), text_len, POINTER(out), out_len);
}

uint64_t acon_symbol_load(const uint8_t *id, size_t id_len, const uint8_t *manifest,
                          size_t manifest_len, uint8_t *buffer, size_t buffer_len, size_t used)
{
    TAKE(POINTER(id), id_len, POINTER(manifest), manifest_len, POINTER(buffer), buffer_len, used);
}

uint64_t acon_symbol_judge(const uint8_t *store, size_t store_len, size_t used, uint8_t *report,
                           size_t report_len)
{
    TAKE(POINTER(store), store_len, used, POINTER(report), report_len);
}

uint64_t acon_symbol_resolve(const uint8_t *store, size_t store_len, size_t used,
                             const uint8_t *layers, size_t layers_len, size_t image, uint8_t *out,
                             size_t out_len)
{
    TAKE(POINTER(store), store_len, used, POINTER(layers), layers_len, image, POINTER(out),
         out_len);
}

static uint64_t canonical(uint8_t *const *p, const size_t *n)
{
    return acon_canonical(p[0], n[1], p[2], n[3]);
}

static uint64_t load(uint8_t *const *p, const size_t *n)
{
    return acon_load(p[0], n[1], p[2], n[3], p[4], n[5], n[6]);
}

static uint64_t judge(uint8_t *const *p, const size_t *n)
{
    return acon_judge(p[0], n[1], n[2], p[3], n[4]);
}

static uint64_t resolve(uint8_t *const *p, const size_t *n)
{
    return acon_resolve(p[0], n[1], n[2], p[3], n[4], n[5], p[6], n[7]);
}

static const struct {
    uint64_t (*call)(uint8_t *const *p, const size_t *n);
    const char *arguments; /* p a pointer, l its length, n another number */
} calls[] = {{canonical, "plpl"}, {load, "plplpln"}, {judge, "plnpl"}, {resolve, "plnplnpl"}};

/* Which pointers have length 0, and which of these are NULL, is told by bits, by the
 * places of the arguments. */
static void check(size_t k, unsigned empty, unsigned null)
{
    static uint8_t bytes[MOST];
    uint8_t *p[MOST];
    size_t n[MOST];
    const char *a = calls[k].arguments;
    for (unsigned i = 0; a[i]; i++) {
        p[i] = null >> i & 1 ? NULL : &bytes[i];
        n[i] = a[i] == 'l' && empty >> (i - 1) & 1 ? 0 : 1000 + i;
    }
    int holds = calls[k].call(p, n) == 0x123456789abcdef0;
    for (unsigned i = 0; a[i]; i++)
        if (a[i] != 'p')
            holds = holds && got[i] == n[i];
        else if (null >> i & 1)
            holds = holds && got[i] != 0;
        else
            holds = holds && got[i] == (uintptr_t)p[i];
    if (!holds) {
        fprintf(stderr, "lent: call %zu hands on something else, %x, %x\n", k, empty, null);
        exit(1);
    }
    checks++;
}

int main(void)
{
    for (size_t k = 0; k < sizeof calls / sizeof calls[0]; k++) {
        unsigned pointers = 0;
        for (unsigned i = 0; calls[k].arguments[i]; i++)
            pointers |= (unsigned)(calls[k].arguments[i] == 'p') << i;
        for (unsigned empty = 0; empty <= pointers; empty++)
            for (unsigned null = 0; null <= empty; null++)
                if ((empty & ~pointers) == 0 && (null & ~empty) == 0)
                    check(k, empty, null);
    }
    printf("%lu\n", checks);
    return 0;
}
