/* Allocate and free in plain C, beside which the library's are timed. */
#ifndef PLAIN_CALLS_H
#define PLAIN_CALLS_H

#include <stdbool.h>
#include <stddef.h>
#include <stdint.h>

/*
 * Grants the buffer of the chain's first record, as cg_allocate does: the same answer,
 * the same bytes. No pointer is null, and no area overlaps another.
 */
uint64_t plain_allocate(uint8_t *sheet, size_t sheet_length,
                        uint8_t *heap, size_t heap_length,
                        uint8_t *records, size_t records_length,
                        bool whole, uint32_t size, uint32_t uptime, uint32_t thread);

/*
 * Takes back the buffer at an address, as cg_free does: the same answer, the same bytes.
 * No pointer is null, and no area overlaps another.
 */
uint64_t plain_free(uint8_t *sheet, size_t sheet_length,
                    uint8_t *heap, size_t heap_length,
                    uint8_t *records, size_t records_length,
                    uint32_t address, bool whole, uint32_t size,
                    uint32_t uptime, uint32_t thread);

#endif
