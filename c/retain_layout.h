/* The layout of a retain pool, for C. Link with liblayout.a, which c/run.sh makes of the crate layout_c.
   Every call takes plain numbers, keeps nothing and changes nothing.

   A plan has six numbers:
     order   the order of the field, at least 4 + b * d2, where b is the most chunks of one stripe that a module may hold
     d, r    data chunks and parities of a stripe, before the changeover: d from 2 to 14, r from 1 to 4
     d2, r2  data chunks and parities of a row, after the changeover, in the same ranges
     len     the symbols of a chunk, from 1 to 4096 */
#ifndef RETAIN_LAYOUT_H
#define RETAIN_LAYOUT_H

#include <stddef.h>
#include <stdint.h>

#ifdef __cplusplus
extern "C" {
#endif

/* What retain_chunk_place and retain_counts answer for a refused plan or chunk. */
#define RETAIN_NOWHERE UINT32_C(4294967295)

/* The number of bytes of a label. */
#define RETAIN_LABEL_BYTES 16

/* 0 for a plan, or the number of the first rule that it breaks:
   2  a number is out of its range
   3  the loss of one module can take more chunks of a stripe than the stripe has parities
   4  the field is too small */
uint32_t retain_plan_check(uint16_t order, uint16_t d, uint16_t r, uint16_t d2, uint16_t r2, uint16_t len);

/* 0 for the label of a pool, 15 for bytes that have not the form of one, or the number of the rule that its plan breaks.
   A label is eight numbers of 16 bits, the low byte of each first: 1, order, d, r, d2, r2, len, and 1 for a pool after its
   changeover, else 0. `bytes` points to `length` bytes that can be read; it is not NULL. */
uint32_t retain_label_check(const uint8_t *bytes, size_t length);

/* Where data chunk `chunk` of a plan lies: module * 256 + slot; or RETAIN_NOWHERE. */
uint32_t retain_chunk_place(uint16_t order, uint16_t d, uint16_t r, uint16_t d2, uint16_t r2, uint16_t len, uint16_t chunk);

/* What a changeover reads in all: data chunks * 65536 + parity chunks; or RETAIN_NOWHERE. */
uint32_t retain_counts(uint16_t order, uint16_t d, uint16_t r, uint16_t d2, uint16_t r2, uint16_t len);

#ifdef __cplusplus
}
#endif

#endif
