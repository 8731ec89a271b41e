/*
 * Inspect in plain C. Magazine list, pairing and chain are read in one pass each, and the
 * buffers are judged in a last one.
 */
#include "inspect.h"

#include "chunk.h"
#include "image.h"

/* In place of a record's index, as NO_RECORD is. */
#define TWO_RECORDS 0xfffe

/* In place of a buffer's index; no index is so high. */
#define NO_BUFFER 0xffff

/*
 * What stands in for the division by the chunk size c, as a factor. With m = 2^32 / c
 * rounded down, plus 1, m * c is above 2^32 by at most c; so d * m / 2^32, rounded
 * down, is d / c for every d with d * c below 2^32, and d is below 65,536 here.
 */
static inline uint64_t multiplier_of(const struct image *image)
{
    return (UINT64_C(1) << 32) / image->chunk_size + 1;
}

/* The buffer that starts at an address, or NO_BUFFER. */
static inline uint32_t buffer_at(const struct image *image, uint64_t multiplier,
                                 uint32_t address)
{
    uint32_t distance = address - image->heap_base;
    if (distance >= heap_length_of(image))
        return NO_BUFFER;
    uint32_t buffer = (uint32_t)(distance * multiplier >> 32);
    return buffer * image->chunk_size == distance ? buffer : NO_BUFFER;
}

/*
 * Counts how often each buffer is listed, to 2 for twice or more. False where a word is no
 * buffer's start.
 */
APART bool count_listed(const struct image *image, uint64_t multiplier,
                        const uint32_t *magazines, size_t length, uint8_t *listed)
{
    memset(listed, 0, image->count * sizeof *listed);
    for (size_t i = 0; i < length; i++) {
        uint32_t buffer = buffer_at(image, multiplier, magazines[i]);
        if (buffer == NO_BUFFER)
            return false;
        listed[buffer] += listed[buffer] < 2;
    }
    return true;
}

/* Finds each buffer's own record: its index, or why there is none. */
FOR_EACH_ORDER void pair(enum order order, const struct image *image, uint64_t multiplier,
                         const uint8_t *records, uint16_t *own_record)
{
    memset(own_record, 0xff, image->count * sizeof *own_record);
    for (uint32_t record = 0; record < image->count; record++) {
        uint32_t address = word_at(order, records + record * RECORD_LENGTH + ADDRESS);
        uint32_t buffer = buffer_at(image, multiplier, address);
        if (buffer == NO_BUFFER)
            continue;
        bool is_first = own_record[buffer] == NO_RECORD;
        own_record[buffer] = is_first ? (uint16_t)record : TWO_RECORDS;
    }
}

/*
 * Marks the records that the chain meets, and answers the one that it comes back to, or
 * NO_RECORD. No verdict tells an end from a break: 0 is no record's address either.
 */
FOR_EACH_ORDER uint32_t walk(enum order order, const struct image *image,
                             const uint8_t *records, bool *is_met)
{
    uint32_t records_length = records_length_of(image);
    uint32_t address = image->head;

    memset(is_met, 0, image->count * sizeof *is_met);
    for (;;) {
        uint32_t distance = address - image->record_base;
        if (distance >= records_length || distance % RECORD_LENGTH != 0)
            return NO_RECORD;
        uint32_t record = distance / RECORD_LENGTH;
        if (is_met[record])
            return record;
        is_met[record] = true;
        address = word_at(order, records + distance + NEXT);
    }
}

/*
 * The rules from 21 on, for a buffer that has its own record. `places` is how many hold it as
 * free: the chain, and as many magazine words as are its address.
 */
FOR_EACH_ORDER struct verdict judge(enum order order, const struct image *image,
                                    const uint8_t *buffer, uint32_t own_record,
                                    uint32_t places, bool is_met, uint32_t again)
{
    struct tag tag = tag_of(order, buffer, image->size);
    if (tag.record != image->record_base + own_record * RECORD_LENGTH)
        return (struct verdict){BAD_TAG, 0};
    if (!has_pattern(tag))
        return (struct verdict){BAD_TAG, 0};
    if (own_record == again || places > 1)
        return (struct verdict){FREED_TWICE, 0};
    if (tag.pattern == FREE_TAG) {
        if (places == 0)
            return (struct verdict){OFF_CHAIN, 0};
        struct verdict verdict = judge_free(order, buffer, image->size);
        if (verdict.number == FREE && !is_met)
            verdict.number = CACHED;
        return verdict;
    }
    if (places != 0)
        return (struct verdict){ON_CHAIN, 0};
    return judge_allocated(order, buffer, image->size);
}

FOR_EACH_ORDER void judge_all(enum order order, const struct image *image, uint64_t multiplier,
                              const uint8_t *heap, const uint8_t *records,
                              const uint8_t *listed, uint32_t *restrict rows)
{
    uint16_t own_record[BUFFERS_MOST];
    bool is_met[BUFFERS_MOST];

    pair(order, image, multiplier, records, own_record);
    uint32_t again = walk(order, image, records, is_met);
    for (uint32_t i = 0; i < image->count; i++) {
        struct verdict verdict = {NOT_ONE_RECORD, 0};
        uint32_t own = own_record[i];
        if (own < image->count) {
            const uint8_t *buffer = heap + i * image->chunk_size;
            uint32_t places = listed[i] + (uint32_t)is_met[own];
            verdict = judge(order, image, buffer, own, places, is_met[own], again);
        }
        rows[3 * i] = i;
        rows[3 * i + 1] = verdict.number;
        rows[3 * i + 2] = verdict.value;
    }
}

APART void judge_high_first(const struct image *image, uint64_t multiplier,
                            const uint8_t *heap, const uint8_t *records,
                            const uint8_t *listed, uint32_t *restrict rows)
{
    judge_all(HIGH_FIRST, image, multiplier, heap, records, listed, rows);
}

APART void judge_low_first(const struct image *image, uint64_t multiplier,
                           const uint8_t *heap, const uint8_t *records,
                           const uint8_t *listed, uint32_t *restrict rows)
{
    judge_all(LOW_FIRST, image, multiplier, heap, records, listed, rows);
}

uint64_t plain_inspect(const uint8_t *sheet, size_t sheet_length,
                       const uint8_t *heap, size_t heap_length,
                       const uint8_t *records, size_t records_length,
                       const uint32_t *magazines, size_t magazines_length,
                       uint32_t *rows, size_t rows_length)
{
    struct image image;
    uint8_t listed[BUFFERS_MOST];
    uint64_t refusal = open_image(&image, sheet, sheet_length, heap_length, records_length);
    if (refusal != 0)
        return refusal;
    if (magazines_length > image.count)
        return BAD_LENGTH;
    uint64_t multiplier = multiplier_of(&image);
    if (!count_listed(&image, multiplier, magazines, magazines_length, listed))
        return NO_SUCH_BUFFER;
    if (rows_length < 3 * image.count)
        return SHORT_OUTPUT;

    if (image.order == HIGH_FIRST)
        judge_high_first(&image, multiplier, heap, records, listed, rows);
    else
        judge_low_first(&image, multiplier, heap, records, listed, rows);
    return accepted(image.count);
}
