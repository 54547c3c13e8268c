/* Answers texts for the tests that are written in Python. Input: each text
 * after its length as 4 bytes, lowest first. Output: for each text the packed
 * answer as 8 bytes, lowest first, then the canonical form. */
#include "acon.h"

#include <stdio.h>
#include <stdlib.h>

static uint8_t text[1 << 20], out[1 << 15];

int main(void)
{
    uint8_t head[4];
    while (fread(head, 1, 4, stdin) == 4) {
        size_t n = head[0] | (size_t)head[1] << 8 | (size_t)head[2] << 16 | (size_t)head[3] << 24;
        if (n > sizeof text || fread(text, 1, n, stdin) != n) {
            fprintf(stderr, "answer: bad input\n");
            return 1;
        }
        uint64_t answer = acon_canonical(text, n, out, sizeof out);
        for (int i = 0; i < 8; i++)
            putchar((int)(answer >> 8 * i & 0xff));
        fwrite(out, 1, acon_first(answer), stdout);
    }
    return fflush(stdout) != 0;
}
