/*
 * Inspect in plain C: what a C programmer would write in place of a call of the library.
 * The library's times are set beside its times.
 */
#ifndef PLAIN_INSPECT_H
#define PLAIN_INSPECT_H

#include <stddef.h>
#include <stdint.h>

/*
 * Judges every buffer, as cg_inspect does, with a list of magazine words: the same answer,
 * the same rows. No pointer is null, and `rows` overlaps no other area.
 */
uint64_t plain_inspect(const uint8_t *sheet, size_t sheet_length,
                       const uint8_t *heap, size_t heap_length,
                       const uint8_t *records, size_t records_length,
                       const uint32_t *magazines, size_t magazines_length,
                       uint32_t *rows, size_t rows_length);

#endif
