/* A second implementation of acon_canonical, for the differential test. It
 * shares no code with the library: the questions are asked one after the other
 * of a tree, as the table of numbers words them, and offsets are found as
 * request 2026-01 words them: that of 3 by a machine that takes one byte after
 * the other. */
#ifndef REFERENCE_CANONICAL_H
#define REFERENCE_CANONICAL_H

#include <stddef.h>
#include <stdint.h>

uint64_t reference_canonical(const uint8_t *text, size_t text_len, uint8_t *out, size_t out_len);

#endif
