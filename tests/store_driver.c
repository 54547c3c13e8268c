/* Loads images, judges stores and resolves layers for histories.py. Input:
 * commands, each a letter and what follows it; numbers are so many bytes long,
 * lowest first.
 *
 *   N length(4) bytes                            a new buffer with these bytes
 *   P offset(4) length(4) bytes                  other bytes in the buffer
 *   L used(8) length(4) length(4) ID manifest    a load
 *   J used(8) length(4) bytes                    a judge, with a report buffer of these bytes
 *   R used(8) place(8) length(4) length(4) layers bytes
 *                                                a resolve of the image at that place, with a layer list, and an
 *                                                output buffer of these bytes
 *
 * Output for each load, judge and resolve: the packed answer (8), the place of
 * the first byte that changed of the buffer, or of the report or output buffer
 * (4), how many there are from it to the last one that changed (4), and these.
 * Where none changed both numbers are 0. No other byte that is lent may change.
 *
 * What is lent lies between pages that must not be touched, and touches one of
 * them: by turns its first byte and its last. */
#define _DEFAULT_SOURCE
#include "acon.h"

#include <signal.h>
#include <stdio.h>
#include <stdlib.h>
#include <string.h>
#include <sys/mman.h>
#include <unistd.h>

enum { SPACE = 1 << 16 }; /* bytes of each that can be lent */

static void fail(const char *what)
{
    fprintf(stderr, "store_driver: %s\n", what);
    exit(1);
}

static void outside(int signal)
{
    static const char message[] = "store_driver: the library touched a byte that was not lent to it, or crashed\n";
    (void)signal;
    if (write(2, message, sizeof message - 1) < 0)
        _exit(2);
    _exit(1);
}

/* ---- Lent bytes */

struct lent {
    uint8_t *pages;       /* SPACE bytes between pages that must not be touched */
    uint8_t *at;          /* what is lent of them */
    size_t n;
    unsigned turn;
    uint8_t known[SPACE]; /* the bytes that have to stand there */
};

static struct lent ids, manifests, stores, reports, layers, outputs;

static void prepare(struct lent *l)
{
    size_t page = (size_t)sysconf(_SC_PAGESIZE);
    uint8_t *p = mmap(NULL, SPACE + 2 * page, PROT_NONE, MAP_PRIVATE | MAP_ANONYMOUS, -1, 0);
    if (p == MAP_FAILED || mprotect(p + page, SPACE, PROT_READ | PROT_WRITE) != 0)
        fail("no memory");
    l->pages = p + page;
}

/* Takes n bytes of input, to be lent. */
static void take(struct lent *l, size_t n)
{
    if (n > SPACE || fread(l->known, 1, n, stdin) != n)
        fail("bad input");
    l->n = n;
    l->at = l->turn++ % 2 ? l->pages : l->pages + SPACE - n;
    memcpy(l->at, l->known, n);
}

static void unchanged(const struct lent *l, const char *what)
{
    if (memcmp(l->at, l->known, l->n) != 0)
        fail(what);
}

/* ---- Commands */

static uint64_t number(unsigned bytes)
{
    uint8_t b[8];
    uint64_t n = 0;
    if (fread(b, 1, bytes, stdin) != bytes)
        fail("bad input");
    while (bytes-- > 0)
        n = n << 8 | b[bytes];
    return n;
}

static void answer(uint64_t n, unsigned bytes)
{
    for (; bytes > 0; bytes--, n >>= 8)
        putchar((int)(n & 0xff));
}

/* The bytes that a call changed, which are known from now on. */
static void changes(struct lent *l)
{
    size_t first = 0, end = l->n;
    while (first < end && l->at[first] == l->known[first])
        first++;
    while (end > first && l->at[end - 1] == l->known[end - 1])
        end--;
    answer(first < end ? first : 0, 4);
    answer(end - first, 4);
    fwrite(l->at + first, 1, end - first, stdout);
    memcpy(l->known + first, l->at + first, end - first);
}

static void put(void)
{
    size_t at = number(4), n = number(4);
    if (at > stores.n || n > stores.n - at || fread(stores.known + at, 1, n, stdin) != n)
        fail("bad input");
    memcpy(stores.at + at, stores.known + at, n);
}

static void load(void)
{
    uint64_t used = number(8);
    size_t id_len = number(4), manifest_len = number(4);
    take(&ids, id_len);
    take(&manifests, manifest_len);
    fflush(stdout); /* where the library crashes, the answers before are seen */
    answer(acon_load(ids.at, ids.n, manifests.at, manifests.n, stores.at, stores.n, used), 8);
    unchanged(&ids, "an Image ID changed");
    unchanged(&manifests, "a manifest changed");
    changes(&stores);
}

static void judge(void)
{
    uint64_t used = number(8);
    take(&reports, number(4));
    fflush(stdout);
    answer(acon_judge(stores.at, stores.n, used, reports.at, reports.n), 8);
    unchanged(&stores, "a judge changed the store");
    changes(&reports);
}

static void resolve(void)
{
    uint64_t used = number(8), place = number(8);
    size_t layers_len = number(4), output_len = number(4);
    take(&layers, layers_len);
    take(&outputs, output_len);
    fflush(stdout);
    answer(acon_resolve(stores.at, stores.n, used, layers.at, layers.n, place, outputs.at, outputs.n), 8);
    unchanged(&stores, "a resolve changed the store");
    unchanged(&layers, "a resolve changed the layer list");
    changes(&outputs);
}

int main(void)
{
    signal(SIGSEGV, outside);
    signal(SIGBUS, outside);
    prepare(&ids);
    prepare(&manifests);
    prepare(&stores);
    prepare(&reports);
    prepare(&layers);
    prepare(&outputs);
    stores.at = stores.pages;
    for (int c; (c = getchar()) != EOF;) {
        if (c == 'N')
            take(&stores, number(4));
        else if (c == 'P')
            put();
        else if (c == 'L')
            load();
        else if (c == 'J')
            judge();
        else if (c == 'R')
            resolve();
        else
            fail("bad input");
    }
    return fflush(stdout) != 0;
}
