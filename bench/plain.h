/* The rules of document 01, with items 1 to 3 and 6 of document 02, in plain C, for bench.c. Arguments and returns are those of
 * mirror_settle and mirror_counts (include/mirror.h); plain_counts counts a whole working. */
#ifndef PLAIN_H
#define PLAIN_H

#include <stddef.h>
#include <stdint.h>

uint32_t plain_settle(const uint8_t *sheet, size_t sheet_size, const uint8_t *choices, size_t choices_size,
                      uint8_t *out, size_t out_size);
uint64_t plain_counts(const uint8_t *sheet, size_t sheet_size, const uint8_t *choices, size_t choices_size);

#endif
