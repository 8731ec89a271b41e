/* The latest transaction in plain C, beside which the library's is timed. */
#ifndef PLAIN_LATEST_H
#define PLAIN_LATEST_H

#include <stddef.h>
#include <stdint.h>

/*
 * Finds the latest transaction of a buffer, as cg_latest does: the same answer. No
 * pointer is null.
 */
uint64_t plain_latest(const uint8_t *sheet, size_t sheet_length,
                      const uint8_t *heap, size_t heap_length,
                      const uint8_t *records, size_t records_length,
                      const uint8_t *log, size_t log_length,
                      uint32_t index, uint32_t now);

#endif
