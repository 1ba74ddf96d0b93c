/* Planning of shaft finishing benches, for a host program in C. */
#ifndef JOSTAGALLEY_H
#define JOSTAGALLEY_H

#include <stddef.h>
#include <stdint.h>

/* No appendix is longer. That of n tasks has 15 n + 10 bytes, and a sheet has at most 64 tasks. */
#define JOSTAGALLEY_APPENDIX_BYTES 970

/*
 * Reads a task sheet, plans it on its controllers, tried from 0 upward, and writes the appendix at the beginning of the
 * bytes at `appendix`. Answers the number of bytes written, or the number of the refusal as a negative number; a refusal
 * writes nothing, and no byte past the answer is ever written. A buffer that is too short for the appendix is refused with
 * 15; docs/FORMATS.md and docs/PLANNING.md tell the other numbers. The appendix ends with the end of a line and no zero byte.
 *
 * Neither pointer may be null, also where its length is 0, and the two ranges may not overlap. Either length may be 0.
 * Nothing is kept from one call to the next, and nothing is allocated.
 */
int64_t jostagalley_appendix(const uint8_t *sheet, size_t sheet_length, uint8_t *appendix, size_t appendix_length);

#endif
