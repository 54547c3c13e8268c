/* A console's day: loads what the press runs, finds out who is shut out, leaves
 * these out, and finds the layers of everybody else.
 *
 *   day IMAGES NAMES LAYERS
 *
 * IMAGES has a line "ID manifest" for each image, in the order of arrival. NAMES
 * has a line "ID words" for each image that the operator knows. LAYERS has a line
 * "HASH/DIGEST" for each layer that the console has.
 */
#include "acon.h"

#include <stdio.h>
#include <stdlib.h>
#include <string.h>

enum { FILE_MAX = 1 << 20, ARRIVALS_MAX = 256 };

struct part {
    const uint8_t *at;
    size_t length;
};

struct arrival {
    struct part id, manifest, name;
    int left_out; /* refused, or shut out by a guard */
};

static struct arrival arrivals[ARRIVALS_MAX];
static size_t arrived;

/* The store: a buffer, how many bytes of it are in use, and which arrival has
 * which place. The library needs only the first two. */
static uint8_t buffer[1 << 16];
static size_t used, images;
static const struct arrival *placed[ACON_IMAGES_MAX];

static void fail(const char *what)
{
    fprintf(stderr, "day: %s\n", what);
    exit(2);
}

/* ---- Input */

static struct part read_file(const char *path, uint8_t *space)
{
    FILE *file = fopen(path, "rb");
    struct part whole = {space, file ? fread(space, 1, FILE_MAX, file) : 0};
    if (!file || ferror(file) || fclose(file) != 0 || whole.length == FILE_MAX)
        fail("a file cannot be read, or is too long");
    return whole;
}

/* Takes off what comes before the next such byte, and the byte. */
static struct part take(struct part *rest, char end)
{
    const uint8_t *stop = memchr(rest->at, end, rest->length);
    struct part first = {rest->at, stop ? (size_t)(stop - rest->at) : rest->length};
    size_t taken = first.length + (stop != NULL);
    rest->at += taken;
    rest->length -= taken;
    return first;
}

static int equal(struct part a, struct part b)
{
    return a.length == b.length && memcmp(a.at, b.at, a.length) == 0;
}

/* The words that the operator knows an image by, or else its ID. */
static struct part name_of(struct part id, struct part names)
{
    while (names.length > 0) {
        struct part words = take(&names, '\n'), known = take(&words, ' ');
        if (equal(known, id))
            return words;
    }
    return id;
}

static const struct {
    const char *name;
    size_t size;
} algorithms[] = {{"", 0}, {"sha224", 28}, {"sha256", 32}, {"sha384", 48}};

/* Writes the layer list, and tells its length: for each layer the algorithm's byte, then the
 * digest. It is never longer than the file. */
static size_t layer_list(struct part file, uint8_t *list)
{
    static const char digits[] = "0123456789abcdef";
    size_t length = 0;
    while (file.length > 0) {
        struct part digest = take(&file, '\n'), hash = take(&digest, '/');
        uint8_t byte = 3;
        while (byte > 0 && !equal(hash, (struct part){(const uint8_t *)algorithms[byte].name, 6}))
            byte--;
        if (byte == 0 || digest.length != 2 * algorithms[byte].size)
            fail("a layer is not of the form HASH/DIGEST");
        list[length++] = byte;
        for (size_t i = 0; i < digest.length; i += 2) {
            const char *high = memchr(digits, digest.at[i], 16);
            const char *low = memchr(digits, digest.at[i + 1], 16);
            if (!high || !low)
                fail("a layer is not of the form HASH/DIGEST");
            list[length++] = (uint8_t)((high - digits) << 4 | (low - digits));
        }
    }
    return length;
}

/* ---- The day */

static void say(struct part words, const char *what)
{
    printf("    %.*s%s", (int)words.length, (const char *)words.at, what);
}

/* Loads every arrival that is not left out into an empty store. */
static void load_all(void)
{
    char said[ACON_SENTENCE_MAX];
    used = images = 0;
    for (size_t i = 0; i < arrived; i++) {
        struct arrival *a = &arrivals[i];
        if (a->left_out)
            continue;
        uint64_t answer = acon_load(a->id.at, a->id.length, a->manifest.at, a->manifest.length,
                                    buffer, sizeof buffer, used);
        acon_loaded loaded = acon_loaded_of(answer);
        if (!acon_is_done(answer)) {
            say(a->name, "");
            printf(": refused: %u, %s\n", loaded.number, acon_sentence(answer, said));
            a->left_out = 1;
            continue;
        }
        used = loaded.used; /* only here: a refusal has no count to give */
        placed[images++] = a;
        say(a->name, ": loaded\n");
    }
    printf("    %zu images, %zu bytes in use\n", images, used);
}

/* Tells who is shut out, and leaves these out from now on. */
static size_t judge_all(void)
{
    static uint8_t report[ACON_REPORT_MAX];
    uint64_t answer = acon_judge(buffer, sizeof buffer, used, report, sizeof report);
    acon_judged judged = acon_judged_of(answer);
    if (!acon_is_done(answer))
        fail(acon_text(judged.number));
    for (size_t k = 0; k < judged.pairs; k++) {
        const struct arrival *guard = placed[report[2 * k]], *other = placed[report[2 * k + 1]];
        say(guard->name, " shuts out ");
        printf("%.*s\n", (int)other->name.length, (const char *)other->name.at);
        arrivals[other - arrivals].left_out = 1;
    }
    if (judged.pairs == 0)
        printf("    nobody is shut out\n");
    return judged.pairs;
}

/* Tells the digests of one image's layers, or which layer is not to be had. */
static void resolve(size_t place, const uint8_t *list, size_t length)
{
    static uint8_t out[ACON_OUTPUT_MAX];
    uint64_t answer = acon_resolve(buffer, sizeof buffer, used, list, length, place, out,
                                   sizeof out);
    acon_resolved found = acon_resolved_of(answer);
    say(placed[place]->name, ":");
    if (!acon_is_done(answer)) {
        printf(" refused: %u, %s", found.number, acon_text(found.number));
        if (found.number >= ACON_NO_ALIAS && found.number <= ACON_ABSENT)
            printf(" (layer %zu)", found.layer);
    }
    for (size_t i = 0; i < found.length;) {
        size_t end = i + 1 + algorithms[out[i]].size;
        printf("\n        %s/", algorithms[out[i]].name);
        while (++i < end)
            printf("%02x", out[i]);
    }
    printf("\n");
}

int main(int argc, char **argv)
{
    static uint8_t space[3][FILE_MAX], list[FILE_MAX];
    if (argc != 4)
        fail("usage: day IMAGES NAMES LAYERS");
    struct part lines = read_file(argv[1], space[0]), names = read_file(argv[2], space[1]);
    size_t length = layer_list(read_file(argv[3], space[2]), list);
    while (lines.length > 0) {
        if (arrived == ARRIVALS_MAX)
            fail("too many images");
        struct part manifest = take(&lines, '\n'), id = take(&manifest, ' ');
        arrivals[arrived++] = (struct arrival){id, manifest, name_of(id, names), 0};
    }

    printf("Loading\n");
    load_all();
    printf("Judging\n");
    /* Who is left out may have led to others, so the rest is loaded and judged again. */
    while (judge_all() > 0) {
        printf("Loading again, without whom a guard shuts out\n");
        load_all();
        printf("Judging again\n");
    }
    printf("Layers\n");
    for (size_t place = 0; place < images; place++)
        resolve(place, list, length);
    return 0;
}
