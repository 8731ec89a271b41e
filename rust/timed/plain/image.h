/*
 * The sheet and the areas as every call here reads them. All of it is compiled into the
 * calls.
 *
 * What reads or writes words takes their order as its first argument. A call looks at the
 * image's order once and then names one, so that it is compiled for each: there a word is
 * read as the machine reads it, and turned only where the image has the other order.
 */
#ifndef PLAIN_IMAGE_H
#define PLAIN_IMAGE_H

#include <stdbool.h>
#include <stddef.h>
#include <stdint.h>
#include <string.h>

/* Which byte of a word stands first. Tag 9 of the sheet has these numbers. */
enum order {
    HIGH_FIRST = 0,
    LOW_FIRST = 1
};

#if __BYTE_ORDER__ == __ORDER_LITTLE_ENDIAN__
#define MACHINE_ORDER LOW_FIRST
#else
#define MACHINE_ORDER HIGH_FIRST
#endif

/* For what is to be compiled once for each order. */
#define FOR_EACH_ORDER static inline __attribute__((always_inline))

/*
 * For what is to be compiled apart from its caller. In one piece with the sheet's tests gcc
 * knows the range of the count, and clears arrays by `rep stos`, which takes longer than a
 * call of memset where the count is small.
 */
#define APART static __attribute__((noinline))

enum {
    SHORT_SHEET_LENGTH = 48, /* without tag 9: the high byte stands first */
    SHEET_LENGTH = 52,
    RECORD_LENGTH = 96,
    SIZE_MOST = 4096,
    BUFFERS_MOST = 512,
    HEAP_MOST = 65536,
    TAIL_LENGTH = 16, /* redzone and tag */
    FLAGS = 0x020f
};

/* Where the bodies of the sheet's fields stand. */
enum {
    HEAP_BASE = 10,
    RECORD_BASE = 17,
    SIZE = 24,
    CHUNK_SIZE = 29,
    COUNT = 34,
    HEAD = 39,
    FLAGS_BODY = 46,
    ORDER = 51
};

/* Where the last field of the longer form starts. */
enum {
    ORDER_TAG = 48
};

/* Where the words stand in a record. */
enum {
    NEXT = 0,
    ADDRESS = 4,
    STAMP = 16, /* one number of eight bytes */
    THREAD = 24
};

/* Refusals. */
enum {
    BAD_SHEET = 1,
    BAD_NUMBER = 2,
    BAD_LENGTH = 3,
    NO_SUCH_BUFFER = 4,
    NO_ROOM = 5,
    BAD_SIZE = 6,
    DAMAGE = 7,
    NOT_ALLOCATED = 8,
    OTHER_GRANT = 9,
    SHORT_OUTPUT = 11,
    WIDE_STAMP = 12,
    NO_THREAD = 13
};

/* Verdicts, and what else is a detail of DAMAGE. */
enum {
    FREE = 0,
    WHOLE = 1,
    ALLOCATED = 2,
    CACHED = 3,
    NOT_ONE_RECORD = 20,
    BAD_TAG = 21,
    FREED_TWICE = 22,
    OFF_CHAIN = 23,
    ON_CHAIN = 24,
    BAD_FILL = 25,
    BAD_REDZONE = 26,
    CODE_REMAINDER = 27,
    OVERRUN = 28,
    BROKEN_HEAD = 29,
    CODE_ZERO = 31,
    CODE_ABOVE = 32
};

/* In place of a record's index; no index is so high. */
#define NO_RECORD 0xffff

struct image {
    enum order order;
    uint32_t heap_base;
    uint32_t record_base;
    uint32_t size;
    uint32_t chunk_size;
    uint32_t count;
    uint32_t head;
};

/* Of the sheet, whose fields have their high byte first in every image. */
static inline uint32_t half_at(const uint8_t *at)
{
    return (uint32_t)at[0] << 8 | at[1];
}

FOR_EACH_ORDER uint32_t word_at(enum order order, const uint8_t *at)
{
    uint32_t word;
    memcpy(&word, at, sizeof word);
    return order == MACHINE_ORDER ? word : __builtin_bswap32(word);
}

FOR_EACH_ORDER void put_word(enum order order, uint8_t *at, uint32_t word)
{
    if (order != MACHINE_ORDER)
        word = __builtin_bswap32(word);
    memcpy(at, &word, sizeof word);
}

FOR_EACH_ORDER uint64_t long_at(enum order order, const uint8_t *at)
{
    uint64_t number;
    memcpy(&number, at, sizeof number);
    return order == MACHINE_ORDER ? number : __builtin_bswap64(number);
}

FOR_EACH_ORDER void put_long(enum order order, uint8_t *at, uint64_t number)
{
    if (order != MACHINE_ORDER)
        number = __builtin_bswap64(number);
    memcpy(at, &number, sizeof number);
}

static inline uint64_t accepted(uint32_t value)
{
    return (uint64_t)value << 32;
}

static inline uint64_t damage(uint32_t detail)
{
    return DAMAGE | detail << 8;
}

/* The fields of both forms. */
static inline bool has_first_fields(const uint8_t *sheet)
{
    static const uint8_t lengths[8] = {4, 4, 4, 2, 2, 2, 4, 2};
    for (uint32_t field = 0; field < 8; field++) {
        if (sheet[0] != field + 1 || half_at(sheet + 1) != lengths[field])
            return false;
        sheet += 3 + lengths[field];
    }
    return true;
}

/* The last field of the longer form. */
static inline bool has_order_field(const uint8_t *sheet)
{
    return sheet[ORDER_TAG] == 9 && half_at(sheet + ORDER_TAG + 1) == 1;
}

static inline bool has_stated_fields(const uint8_t *sheet, size_t sheet_length)
{
    if (sheet_length == SHEET_LENGTH)
        return has_first_fields(sheet) && has_order_field(sheet);
    return sheet_length == SHORT_SHEET_LENGTH && has_first_fields(sheet);
}

/* The order by its number, which may be none. */
static inline struct image read_numbers(const uint8_t *sheet, size_t sheet_length)
{
    return (struct image){
        .order = sheet_length == SHEET_LENGTH ? sheet[ORDER] : HIGH_FIRST,
        .heap_base = word_at(HIGH_FIRST, sheet + HEAP_BASE),
        .record_base = word_at(HIGH_FIRST, sheet + RECORD_BASE),
        .size = half_at(sheet + SIZE),
        .chunk_size = half_at(sheet + CHUNK_SIZE),
        .count = half_at(sheet + COUNT),
        .head = word_at(HIGH_FIRST, sheet + HEAD),
    };
}

static inline bool is_base(uint32_t base)
{
    return base != 0 && base % 8 == 0;
}

static inline uint32_t heap_length_of(const struct image *image)
{
    return image->count * image->chunk_size;
}

static inline uint32_t records_length_of(const struct image *image)
{
    return image->count * RECORD_LENGTH;
}

static inline bool has_lawful_numbers(const struct image *image, uint32_t flags)
{
    uint32_t size = image->size;
    if (size % 8 != 0 || size < 8 || size > SIZE_MOST)
        return false;
    if (image->chunk_size != size + TAIL_LENGTH || flags != FLAGS)
        return false;
    if (image->order != HIGH_FIRST && image->order != LOW_FIRST)
        return false;
    if (image->count < 1 || image->count > BUFFERS_MOST)
        return false;
    if (heap_length_of(image) > HEAP_MOST)
        return false;
    if (!is_base(image->heap_base) || !is_base(image->record_base))
        return false;

    const uint64_t addresses = UINT64_C(1) << 32;
    uint64_t heap_end = (uint64_t)image->heap_base + heap_length_of(image);
    uint64_t record_end = (uint64_t)image->record_base + records_length_of(image);
    if (heap_end > addresses || record_end > addresses)
        return false;
    return heap_end <= image->record_base || record_end <= image->heap_base;
}

/*
 * The tests that every call begins with: reads the sheet's numbers and answers a
 * refusal's number, or 0.
 */
static inline uint64_t open_image(struct image *image,
                                  const uint8_t *sheet, size_t sheet_length,
                                  size_t heap_length, size_t records_length)
{
    if (!has_stated_fields(sheet, sheet_length))
        return BAD_SHEET;
    *image = read_numbers(sheet, sheet_length);
    if (!has_lawful_numbers(image, half_at(sheet + FLAGS_BODY)))
        return BAD_NUMBER;
    if (heap_length != heap_length_of(image))
        return BAD_LENGTH;
    if (records_length != records_length_of(image))
        return BAD_LENGTH;
    return 0;
}

#endif
