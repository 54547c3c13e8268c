/* Resolves the layers of a job: follows their names to the digests that a host mounts.
 *
 *   resolve
 *
 * The plate library says what its names stand for: Proof for Plates, and Plates
 * for a digest. The job has two layers, Proof and a digest of its own.
 */
#include "acon.h"

#include <stdio.h>
#include <string.h>

/* A sha224 digest has 56 hex digits, one of sha256 64. These are made up. */
#define SEVEN(eight) eight eight eight eight eight eight eight
#define SIGNER "sha224/" SEVEN("72a8c0de")
#define NAME(alias) "signer/" SIGNER "/" alias
#define PLATE "sha256/" SEVEN("11111111") "11111111"
#define BOOK "sha224/" SEVEN("22222222")

static const char *const images[][2] = {
    {SIGNER "/" SEVEN("0df39589"),
     "{\"aconSpecVersion\":[1,0],\"aliases\":{\"contents\":{"
     "\"" PLATE "\":[\"Plates:2\",\"Plates\"],\"" NAME("Plates") "\":[\"Proof\"]}}}"},
    {SIGNER "/" SEVEN("fdc2113d"),
     "{\"aconSpecVersion\":[1,0],\"layers\":[\"" NAME("Proof") "\",\"" BOOK "\"]}"},
};
enum { JOB = 1 }; /* the job's place in the store */

static uint8_t buffer[4096], out[ACON_OUTPUT_MAX];
static size_t used;

static void resolve(const uint8_t *layers, size_t length)
{
    uint64_t answer = acon_resolve(buffer, sizeof buffer, used, layers, length, JOB, out,
                                   sizeof out);
    acon_resolved found = acon_resolved_of(answer);
    if (!acon_is_done(answer)) {
        printf("refused: %u, %s\n", found.number, acon_text(found.number));
        if (found.number >= ACON_NO_ALIAS && found.number <= ACON_ABSENT)
            printf("    it is layer %zu of the manifest\n", found.layer);
        return;
    }
    /* An entry for each layer: the algorithm's byte, and a digest as long as that says. */
    for (size_t i = 0; i < found.length;) {
        size_t size = out[i] == 1 ? 28 : out[i] == 2 ? 32 : 48;
        printf("algorithm %d, digest ", out[i++]);
        for (size_t end = i + size; i < end; i++)
            printf("%02x", out[i]);
        printf("\n");
    }
}

int main(void)
{
    for (size_t i = 0; i < sizeof images / sizeof *images; i++) {
        uint64_t answer = acon_load((const uint8_t *)images[i][0], strlen(images[i][0]),
                                    (const uint8_t *)images[i][1], strlen(images[i][1]), buffer,
                                    sizeof buffer, used);
        if (!acon_is_done(answer)) {
            printf("refused: %u, %s\n", acon_number(answer), acon_text(acon_number(answer)));
            return 1;
        }
        used = acon_loaded_of(answer).used;
    }

    /* What the host has, in any order: the book under sha224, and the plate under sha256. */
    uint8_t layers[29 + 33];
    layers[0] = 1;
    memset(layers + 1, 0x22, 28);
    layers[29] = 2;
    memset(layers + 30, 0x11, 32);
    resolve(layers, sizeof layers);
    resolve(layers, 29); /* without the plate */
    return 0;
}
