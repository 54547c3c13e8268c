/* The smallest host: prints the canonical form of a JSON file and its length.
 *
 *   canonical FILE
 */
#include "acon.h"

#include <stdio.h>

int main(int argc, char **argv)
{
    /* One byte more than the library takes, so that a longer file is seen as too long. */
    static uint8_t text[ACON_TEXT_MAX + 1], out[ACON_TEXT_MAX];
    FILE *file = argc == 2 ? fopen(argv[1], "rb") : NULL;
    if (!file) {
        fprintf(stderr, "usage: canonical FILE\n");
        return 2;
    }
    size_t length = fread(text, 1, sizeof text, file);
    if (ferror(file)) {
        perror(argv[1]);
        return 2;
    }
    fclose(file);

    uint64_t answer = acon_canonical(text, length, out, sizeof out);
    acon_form form = acon_form_of(answer);
    if (!acon_is_done(answer)) {
        char said[ACON_SENTENCE_MAX];
        printf("refused: %u, %s\n", form.number, acon_sentence(answer, said));
        return 1;
    }
    fwrite(out, 1, form.length, stdout);
    printf("\n%zu bytes of %zu\n", form.length, length);
    return 0;
}
