/* Judges a store after each of three loads and says who is shut out.
 *
 *   judge
 *
 * The ink controller is a guard and accepts the plate library. The plate library
 * accepts the job. No rule of the ink controller matches the job, so until the
 * plate library is loaded no chain leads from the one to the other.
 */
#include "acon.h"

#include <stdio.h>
#include <string.h>

/* A sha224 digest has 56 hex digits. These are made up. */
#define SEVEN(eight) eight eight eight eight eight eight eight
#define INK "sha224/" SEVEN("9531f366") "/" SEVEN("444fddc3")
#define PLATES "sha224/" SEVEN("9531f366") "/" SEVEN("0df39589")
#define JOB "sha224/" SEVEN("f3683185") "/" SEVEN("fdc2113d")

/* In the order of loading, so that an image's index is its place in the store. */
static const struct {
    const char *name, *id, *manifest;
} images[] = {
    {"the ink controller", INK,
     "{\"aconSpecVersion\":[1,0],"
     "\"policy\":{\"rejectUnaccepted\":true,\"accepts\":[\"" PLATES "\"]}}"},
    {"the job", JOB, "{\"aconSpecVersion\":[1,0]}"},
    {"the plate library", PLATES,
     "{\"aconSpecVersion\":[1,0],\"policy\":{\"accepts\":[\"" JOB "\"]}}"},
};

static int refused(unsigned number)
{
    printf("refused: %u, %s\n", number, acon_text(number));
    return 1;
}

int main(void)
{
    static uint8_t buffer[4096], report[ACON_REPORT_MAX];
    size_t used = 0;
    for (size_t i = 0; i < sizeof images / sizeof *images; i++) {
        uint64_t answer = acon_load((const uint8_t *)images[i].id, strlen(images[i].id),
                                    (const uint8_t *)images[i].manifest,
                                    strlen(images[i].manifest), buffer, sizeof buffer, used);
        if (!acon_is_done(answer))
            return refused(acon_number(answer));
        used = acon_loaded_of(answer).used;
        printf("after loading %s:\n", images[i].name);

        answer = acon_judge(buffer, sizeof buffer, used, report, sizeof report);
        if (!acon_is_done(answer))
            return refused(acon_number(answer));
        acon_judged judged = acon_judged_of(answer);
        /* Two bytes for each pair: the guard's place, then the place of whom it shuts out. */
        for (size_t k = 0; k < judged.pairs; k++)
            printf("    %s shuts out %s\n", images[report[2 * k]].name,
                   images[report[2 * k + 1]].name);
        if (judged.pairs == 0)
            printf("    admitted: nobody is shut out\n");
    }
    return 0;
}
