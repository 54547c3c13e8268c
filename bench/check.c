/* check SAMPLES FILE...: prints for each file the median nanoseconds of four
 * calls: the canonical form, questions 1 to 6, questions 1 to 9, and whether it
 * is its own canonical form, with 1 at the end where it is. Each round takes one
 * sample of every file with all four, so that a busy moment of the machine
 * falls on all alike. */
#define _POSIX_C_SOURCE 199309L
#include "acon.h"

#include <stdio.h>
#include <stdlib.h>
#include <time.h>

enum { TEXT = 1 << 14, CALLS = 4, SAMPLE_NS = 300000 };

/* Of the archive libtest_bench.a: the number by questions 1 to 6, and by
 * questions 1 to 9; and 1 for a text that is its own form. */
uint64_t text_number(const uint8_t *text, size_t len);
uint64_t manifest_text_number(const uint8_t *text, size_t len);
uint64_t text_is_canonical(const uint8_t *text, size_t len);

struct text {
    const char *path;
    uint8_t data[TEXT];
    size_t len;
    unsigned calls[CALLS]; /* in a sample */
    double *times[CALLS];
};

static uint8_t out[TEXT];

static uint64_t call(const struct text *t, int which)
{
    if (which == 0)
        return acon_canonical(t->data, t->len, out, sizeof out);
    if (which == 1)
        return text_number(t->data, t->len);
    if (which == 2)
        return manifest_text_number(t->data, t->len);
    return text_is_canonical(t->data, t->len);
}

static double run(const struct text *t, int which, unsigned calls)
{
    struct timespec from, to;
    clock_gettime(CLOCK_PROCESS_CPUTIME_ID, &from);
    for (unsigned i = 0; i < calls; i++)
        call(t, which);
    clock_gettime(CLOCK_PROCESS_CPUTIME_ID, &to);
    return (double)(to.tv_sec - from.tv_sec) * 1e9 + (double)(to.tv_nsec - from.tv_nsec);
}

static int rising(const void *a, const void *b)
{
    double x = *(const double *)a, y = *(const double *)b;
    return (x > y) - (x < y);
}

static void load(struct text *t, const char *path, int samples)
{
    FILE *f = fopen(path, "rb");
    t->path = path;
    if (!f || (t->len = fread(t->data, 1, TEXT, f)) == 0 || fgetc(f) != EOF) {
        fprintf(stderr, "check: %s cannot be read, or is too long\n", path);
        exit(1);
    }
    fclose(f);
    /* A refused manifest would be cheap: what is measured has to be taken. */
    if ((call(t, 0) & 0xff) != ACON_DONE || call(t, 2) != 0) {
        fprintf(stderr, "check: %s is refused\n", path);
        exit(1);
    }
    for (int w = 0; w < CALLS; w++) {
        t->times[w] = calloc((size_t)samples, sizeof(double));
        for (t->calls[w] = 1; run(t, w, t->calls[w]) < SAMPLE_NS;)
            t->calls[w] *= 2;
    }
}

int main(int argc, char **argv)
{
    int samples = argc > 2 ? atoi(argv[1]) : 0, count = argc - 2;
    if (samples < 1)
        return 2;
    struct text *texts = calloc((size_t)count, sizeof *texts);
    for (int i = 0; i < count; i++)
        load(&texts[i], argv[i + 2], samples);
    for (int n = 0; n < samples; n++)
        for (int i = 0; i < count; i++)
            for (int w = 0; w < CALLS; w++)
                texts[i].times[w][n] = run(&texts[i], w, texts[i].calls[w]) / texts[i].calls[w];
    for (int i = 0; i < count; i++) {
        printf("%s", texts[i].path);
        for (int w = 0; w < CALLS; w++) {
            qsort(texts[i].times[w], (size_t)samples, sizeof(double), rising);
            printf("\t%f", texts[i].times[w][samples / 2]);
        }
        printf("\t%d\n", (int)call(&texts[i], 3));
    }
    return 0;
}
