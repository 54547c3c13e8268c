/* Loads images into one store and says what each load is answered.
 *
 *   load ID FILE ...   an Image ID and the file of its manifest, any number of times
 *   load               the loads written out below
 *
 * A real host takes the ID from the signature that it checked and from the digest
 * of the manifest; here it is given.
 */
#include "acon.h"

#include <stdio.h>
#include <string.h>

/* The store is the first `used` bytes of the buffer. It begins empty. */
static uint8_t buffer[1 << 16];
static size_t used;

static void load(const char *id, const void *manifest, size_t length)
{
    uint64_t answer = acon_load((const uint8_t *)id, strlen(id), manifest, length, buffer,
                                sizeof buffer, used);
    acon_loaded loaded = acon_loaded_of(answer);
    if (!acon_is_done(answer)) {
        /* The store is what it was, so the old count stays: a refusal has none to give. */
        char said[ACON_SENTENCE_MAX];
        printf("refused: %u, %s\n", loaded.number, acon_sentence(answer, said));
        return;
    }
    used = loaded.used;
    printf("loaded: %zu bytes in use\n", used);
}

/* A sha224 digest has 56 hex digits. These are made up. */
#define SEVEN(eight) eight eight eight eight eight eight eight
#define MAKER "sha224/" SEVEN("9531f366") "/"
#define PLATES MAKER SEVEN("0df39589")
#define INK MAKER SEVEN("444fddc3")

static const char *const built_in[][2] = {
    {PLATES, "{\"aconSpecVersion\":[1,0],\"aliases\":{\"self\":{\".\":[\"Plates:3\"]}}}"},
    {PLATES, "{\"aconSpecVersion\":[1,0]}"},                  /* that ID again */
    {INK, "{\"aconSpecVersion\":[1,0],\"entrypoint\":[\"/b"}, /* cut off on the way */
    {INK, "{\"aconSpecVersion\":[1,0],\"layer\":[]}"},        /* the field is called layers */
    {INK, "{\"aconSpecVersion\":[1,0],\"aliases\":{\"self\":{\".\":[\"Plates:3\"]}}}"}, /* taken */
    {"Ink", "{\"aconSpecVersion\":[1,0]}"},                   /* a name is no Image ID */
    {INK, "{\"aconSpecVersion\":[1,0],\"aliases\":{\"self\":{\".\":[\"Ink:4\"]}}}"},
};

int main(int argc, char **argv)
{
    if (argc % 2 == 0) {
        fprintf(stderr, "usage: load [ID FILE ...]\n");
        return 2;
    }
    for (int i = 1; i < argc; i += 2) {
        static uint8_t manifest[ACON_TEXT_MAX + 1]; /* a longer file is seen as too long */
        FILE *file = fopen(argv[i + 1], "rb");
        size_t length = file ? fread(manifest, 1, sizeof manifest, file) : 0;
        if (!file || ferror(file)) {
            perror(argv[i + 1]);
            return 2;
        }
        fclose(file);
        load(argv[i], manifest, length);
    }
    for (size_t i = 0; argc == 1 && i < sizeof built_in / sizeof *built_in; i++)
        load(built_in[i][0], built_in[i][1], strlen(built_in[i][1]));
    return 0;
}
