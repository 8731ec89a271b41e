/*
 * Allocate and free in plain C. A call writes only when all of its tests are made, so
 * that a refused one changes nothing.
 */
#include "calls.h"

#include "chunk.h"
#include "image.h"

/* One for each order. */
static const uint8_t granted_pages[2][SIZE_MOST] = {
    [HIGH_FIRST] = PAGE(0xba, 0xdd, 0xca, 0xfe),
    [LOW_FIRST] = PAGE(0xfe, 0xca, 0xdd, 0xba),
};

/* The areas of an image that was opened. */
struct areas {
    uint8_t *sheet;
    uint8_t *heap;
    uint8_t *records;
};

/* What a call was asked for and what it notes in the record. */
struct request {
    bool whole;
    uint32_t size;
    uint32_t uptime;
    uint32_t thread;
};

/* Whether a part of an area starts at this distance from the area's start. */
static inline bool is_part(uint32_t distance, uint32_t area_length, uint32_t part_length)
{
    return distance < area_length && distance % part_length == 0;
}

FOR_EACH_ORDER void stamp(enum order order, uint8_t *record, const struct request *request)
{
    put_long(order, record + STAMP, request->uptime);
    put_word(order, record + THREAD, request->thread);
}

/* The sheet's numbers have their high byte first in every image. */
static inline void put_head(uint8_t *sheet, uint32_t head)
{
    put_word(HIGH_FIRST, sheet + HEAD, head);
}

/* The verdict's number for the buffer of the chain's first record, which is at `head`. */
FOR_EACH_ORDER uint32_t judge_first(enum order order, const uint8_t *buffer,
                                    uint32_t size, uint32_t head)
{
    struct tag tag = tag_of(order, buffer, size);
    if (tag.record != head || !has_pattern(tag))
        return BAD_TAG;
    if (tag.pattern == ALLOCATED_TAG)
        return ON_CHAIN;
    return judge_free(order, buffer, size).number;
}

/* Redzone and T0 of a free buffer stand as they are to stand in a whole grant. */
FOR_EACH_ORDER void grant(enum order order, uint8_t *buffer, const struct image *image,
                          const struct request *request)
{
    uint8_t *tail = buffer + image->size;
    memcpy(buffer, granted_pages[order], image->size);
    put_word(order, tail + T1, image->head ^ ALLOCATED_TAG);
    if (request->whole)
        return;
    buffer[request->size] = GUARD;
    put_word(order, tail + R1, CODE_FACTOR * request->size + 1);
}

/* The tests and the writing that follow once there is a head. */
FOR_EACH_ORDER uint64_t allocate_head(enum order order, const struct image *image,
                                      struct areas areas, const struct request *request)
{
    uint32_t record_at = image->head - image->record_base;
    if (!is_part(record_at, records_length_of(image), RECORD_LENGTH))
        return damage(BROKEN_HEAD);
    uint8_t *record = areas.records + record_at;
    uint32_t address = word_at(order, record + ADDRESS);
    uint32_t buffer_at = address - image->heap_base;
    if (!is_part(buffer_at, heap_length_of(image), image->chunk_size))
        return damage(NOT_ONE_RECORD);
    uint8_t *buffer = areas.heap + buffer_at;
    uint32_t number = judge_first(order, buffer, image->size, image->head);
    if (number != FREE)
        return damage(number);

    grant(order, buffer, image, request);
    put_head(areas.sheet, word_at(order, record + NEXT));
    stamp(order, record, request);
    return accepted(address);
}

uint64_t plain_allocate(uint8_t *sheet, size_t sheet_length,
                        uint8_t *heap, size_t heap_length,
                        uint8_t *records, size_t records_length,
                        bool whole, uint32_t size, uint32_t uptime, uint32_t thread)
{
    struct image image;
    uint64_t refusal = open_image(&image, sheet, sheet_length, heap_length, records_length);
    if (refusal != 0)
        return refusal;
    if (thread == 0)
        return NO_THREAD;
    if (!whole && (size < 1 || size > image.size))
        return BAD_SIZE;
    if (image.head == 0)
        return NO_ROOM;
    struct areas areas = {sheet, heap, records};
    struct request request = {whole, size, uptime, thread};
    if (image.order == HIGH_FIRST)
        return allocate_head(HIGH_FIRST, &image, areas, &request);
    return allocate_head(LOW_FIRST, &image, areas, &request);
}

/*
 * Whether a tag has either pattern and names a record that names the buffer at an
 * address.
 */
FOR_EACH_ORDER bool is_tag_of(enum order order, struct tag tag, const struct image *image,
                              const uint8_t *records, uint32_t address)
{
    uint32_t record_at = tag.record - image->record_base;
    return is_part(record_at, records_length_of(image), RECORD_LENGTH)
        && word_at(order, records + record_at + ADDRESS) == address
        && has_pattern(tag);
}

static inline bool is_as_granted(struct verdict verdict, const struct request *request)
{
    if (request->whole)
        return verdict.number == WHOLE;
    return verdict.number == ALLOCATED && verdict.value == request->size;
}

/* T0 stands: it was found to be the record's address. */
FOR_EACH_ORDER void take_back(enum order order, uint8_t *buffer, uint32_t size,
                              uint32_t record)
{
    uint8_t *tail = buffer + size;
    memcpy(buffer, free_pages[order], size);
    put_word(order, tail + R0, REDZONE);
    put_word(order, tail + R1, REDZONE);
    put_word(order, tail + T1, record ^ FREE_TAG);
}

/* The tests and the writing that follow once a buffer starts at the address. */
FOR_EACH_ORDER uint64_t free_buffer(enum order order, const struct image *image,
                                    struct areas areas, uint32_t address,
                                    const struct request *request)
{
    uint8_t *buffer = areas.heap + (address - image->heap_base);
    struct tag tag = tag_of(order, buffer, image->size);
    if (!is_tag_of(order, tag, image, areas.records, address))
        return damage(BAD_TAG);
    if (tag.pattern == FREE_TAG)
        return NOT_ALLOCATED;
    struct verdict verdict = judge_allocated(order, buffer, image->size);
    if (verdict.number >= NOT_ONE_RECORD)
        return damage(verdict.number);
    if (!is_as_granted(verdict, request))
        return OTHER_GRANT;

    take_back(order, buffer, image->size, tag.record);
    uint8_t *record = areas.records + (tag.record - image->record_base);
    put_word(order, record + NEXT, image->head);
    put_head(areas.sheet, tag.record);
    stamp(order, record, request);
    return accepted(0);
}

uint64_t plain_free(uint8_t *sheet, size_t sheet_length,
                    uint8_t *heap, size_t heap_length,
                    uint8_t *records, size_t records_length,
                    uint32_t address, bool whole, uint32_t size,
                    uint32_t uptime, uint32_t thread)
{
    struct image image;
    uint64_t refusal = open_image(&image, sheet, sheet_length, heap_length, records_length);
    if (refusal != 0)
        return refusal;
    if (thread == 0)
        return NO_THREAD;
    uint32_t buffer_at = address - image.heap_base;
    if (!is_part(buffer_at, heap_length_of(&image), image.chunk_size))
        return NO_SUCH_BUFFER;
    struct areas areas = {sheet, heap, records};
    struct request request = {whole, size, uptime, thread};
    if (image.order == HIGH_FIRST)
        return free_buffer(HIGH_FIRST, &image, areas, address, &request);
    return free_buffer(LOW_FIRST, &image, areas, address, &request);
}
