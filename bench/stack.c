/* stack [any] canonical|load|judge|resolve FILE...: prints for each file how many
 * bytes of stack acon_canonical, acon_load, acon_judge or acon_resolve used, and
 * the number that it answered. Any but 0 ends the run, unless `any` is given. The
 * call runs on a stack that is filled with a pattern; the lowest byte that changed
 * shows how far down it went. For all but acon_canonical a file is given without
 * its ending: the store stands in FILE.store, the image that is loaded in FILE.id
 * and FILE.json, the layer list in FILE.layers and the place of the image whose
 * layers are resolved in FILE.place. */
#define _GNU_SOURCE
#include "acon.h"

#include <stdio.h>
#include <stdlib.h>
#include <string.h>
#include <sys/mman.h>
#include <ucontext.h>

enum { STACK = 16 << 20, TEXT = 1 << 16, BUFFER = 2 << 20, ID = 1 << 8, PATH = 1 << 12, PLACE = 1 << 5 };

static uint8_t *stack, *from;
static uint8_t text[TEXT], buffer[BUFFER], id[ID], report[ACON_REPORT_MAX], output[ACON_OUTPUT_MAX];
static size_t text_len, used, id_len, place;
static uint64_t answer;
static ucontext_t here, there;

/* No two bytes near each other are alike, so that what a call writes differs
 * from the pattern at once. */
static uint8_t pattern(size_t i)
{
    return (uint8_t)(i * 167 ^ i >> 8 ^ 0x5a);
}

static void canonical(void)
{
    from = __builtin_frame_address(0);
    answer = acon_canonical(text, text_len, buffer, sizeof buffer);
}

static void load(void)
{
    from = __builtin_frame_address(0);
    answer = acon_load(id, id_len, text, text_len, buffer, sizeof buffer, used);
}

static void judge(void)
{
    from = __builtin_frame_address(0);
    answer = acon_judge(buffer, sizeof buffer, used, report, sizeof report);
}

/* The layer list stands in text. */
static void resolve(void)
{
    from = __builtin_frame_address(0);
    answer = acon_resolve(buffer, sizeof buffer, used, text, text_len, place, output, sizeof output);
}

/* Stack below the frame that calls, for the input that is there. */
static size_t measure(void (*body)(void))
{
    for (size_t i = 0; i < STACK; i++)
        stack[i] = pattern(i);
    getcontext(&there);
    there.uc_stack.ss_sp = stack;
    there.uc_stack.ss_size = STACK;
    there.uc_link = &here;
    makecontext(&there, body, 0);
    swapcontext(&here, &there);
    size_t i = 0;
    while (i < STACK && stack[i] == pattern(i))
        i++;
    return (size_t)(from - (stack + i));
}

static size_t read_file(const char *path, const char *ending, uint8_t *data, size_t most)
{
    char whole[PATH];
    snprintf(whole, sizeof whole, "%s%s", path, ending);
    FILE *f = fopen(whole, "rb");
    if (!f) {
        fprintf(stderr, "stack: %s cannot be read\n", whole);
        exit(1);
    }
    size_t len = fread(data, 1, most, f);
    fclose(f);
    return len;
}

static size_t read_place(const char *path)
{
    char digits[PLACE + 1] = {0};
    read_file(path, ".place", (uint8_t *)digits, PLACE);
    return strtoul(digits, NULL, 10);
}

struct call {
    const char *name;
    void (*body)(void);
    const char *text;  /* the ending of the file with the text or the list; NULL for none */
    int stores, loads, resolves;
};

static const struct call calls[] = {
    {"canonical", canonical, "", 0, 0, 0},
    {"load", load, ".json", 1, 1, 0},
    {"judge", judge, NULL, 1, 0, 0},
    {"resolve", resolve, ".layers", 1, 0, 1},
};

static const struct call *named(const char *name)
{
    for (size_t i = 0; i < sizeof calls / sizeof calls[0]; i++)
        if (strcmp(calls[i].name, name) == 0)
            return &calls[i];
    return NULL;
}

int main(int argc, char **argv)
{
    int any = argc > 1 && strcmp(argv[1], "any") == 0;
    const struct call *c = argc < 2 + any ? NULL : named(argv[1 + any]);
    if (!c)
        return 2;
    stack = mmap(NULL, STACK, PROT_READ | PROT_WRITE, MAP_PRIVATE | MAP_ANONYMOUS, -1, 0);
    if (stack == MAP_FAILED)
        return 1;
    for (int i = 2 + any; i < argc; i++) {
        if (c->text)
            text_len = read_file(argv[i], c->text, text, sizeof text);
        if (c->stores)
            used = read_file(argv[i], ".store", buffer, sizeof buffer);
        if (c->loads)
            id_len = read_file(argv[i], ".id", id, sizeof id);
        if (c->resolves)
            place = read_place(argv[i]);
        size_t bytes = measure(c->body);
        if (!any && !acon_is_done(answer)) {
            fprintf(stderr, "stack: %s is refused by %u\n", argv[i], acon_number(answer));
            return 1;
        }
        printf("%s\t%zu\t%u\n", argv[i], bytes, acon_number(answer));
    }
    return 0;
}
