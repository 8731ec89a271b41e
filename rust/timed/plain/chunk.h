/*
 * A chunk: a buffer, its redzone words R0 and R1, and its tag words T0 and T1. All of it
 * is compiled into the calls.
 */
#ifndef PLAIN_CHUNK_H
#define PLAIN_CHUNK_H

#include "image.h"

/* Where the words stand in what follows a buffer. */
enum {
    R0 = 0,
    R1 = 4,
    T0 = 8,
    T1 = 12
};

#define ALLOCATED_TAG 0xa110c8edu
#define FREE_TAG 0xf4eef4eeu
#define REDZONE 0xfeedfaceu
#define GUARD 0xbb
#define CODE_FACTOR 251

/* R0 of a full-size grant: the guard byte stands on its first byte. */
#define FULL_SIZE_REDZONE(order) ((order) == HIGH_FIRST ? 0xbbedfaceu : 0xfeedfabbu)

/* The longest buffer, filled with a word of these bytes. */
#define FOUR_TIMES(...) __VA_ARGS__, __VA_ARGS__, __VA_ARGS__, __VA_ARGS__
#define WORDS_64(...) FOUR_TIMES(FOUR_TIMES(FOUR_TIMES(__VA_ARGS__)))
#define PAGE(...) {FOUR_TIMES(FOUR_TIMES(WORDS_64(__VA_ARGS__)))}

/* One for each order. */
static const uint8_t free_pages[2][SIZE_MOST] = {
    [HIGH_FIRST] = PAGE(0xde, 0xad, 0xbe, 0xef),
    [LOW_FIRST] = PAGE(0xef, 0xbe, 0xad, 0xde),
};

struct tag {
    uint32_t record; /* an address */
    uint32_t pattern;
};

struct verdict {
    uint32_t number;
    uint32_t value; /* the size or the offset, else 0 */
};

FOR_EACH_ORDER struct tag tag_of(enum order order, const uint8_t *buffer, uint32_t size)
{
    uint32_t t0 = word_at(order, buffer + size + T0);
    return (struct tag){t0, t0 ^ word_at(order, buffer + size + T1)};
}

static inline bool has_pattern(struct tag tag)
{
    return tag.pattern == FREE_TAG || tag.pattern == ALLOCATED_TAG;
}

/* Which byte of two different words is the first to differ, as they stand in an image. */
FOR_EACH_ORDER uint32_t first_difference(enum order order, uint32_t word, uint32_t other)
{
    uint32_t bits = word ^ other;
    return (uint32_t)(order == HIGH_FIRST ? __builtin_clz(bits) : __builtin_ctz(bits)) / 8;
}

static inline struct verdict bad_fill(const uint8_t *buffer, const uint8_t *free_page)
{
    uint32_t offset = 0;
    while (buffer[offset] == free_page[offset])
        offset++;
    return (struct verdict){BAD_FILL, offset};
}

/* The rules from 25 on, for a buffer with the free pattern. */
FOR_EACH_ORDER struct verdict judge_free(enum order order,
                                         const uint8_t *buffer, uint32_t size)
{
    if (memcmp(buffer, free_pages[order], size) != 0)
        return bad_fill(buffer, free_pages[order]);
    uint32_t r0 = word_at(order, buffer + size + R0);
    if (r0 != REDZONE)
        return (struct verdict){BAD_REDZONE, size + R0 + first_difference(order, r0, REDZONE)};
    uint32_t r1 = word_at(order, buffer + size + R1);
    if (r1 != REDZONE)
        return (struct verdict){BAD_REDZONE, size + R1 + first_difference(order, r1, REDZONE)};
    return (struct verdict){FREE, 0};
}

/* The rules of the size code, then 28, for a buffer with the allocated pattern. */
FOR_EACH_ORDER struct verdict judge_allocated(enum order order,
                                              const uint8_t *buffer, uint32_t size)
{
    struct verdict sound = {WHOLE, 0};
    uint32_t expected = REDZONE;
    uint32_t r1 = word_at(order, buffer + size + R1);
    if (r1 != REDZONE) {
        uint32_t granted = r1 / CODE_FACTOR;
        if (r1 % CODE_FACTOR != 1)
            return (struct verdict){CODE_REMAINDER, 0};
        if (granted == 0)
            return (struct verdict){CODE_ZERO, 0};
        if (granted > size)
            return (struct verdict){CODE_ABOVE, 0};
        if (buffer[granted] != GUARD)
            return (struct verdict){OVERRUN, granted};
        if (granted == size)
            expected = FULL_SIZE_REDZONE(order);
        sound = (struct verdict){ALLOCATED, granted};
    }
    uint32_t r0 = word_at(order, buffer + size + R0);
    if (r0 != expected)
        return (struct verdict){OVERRUN, size + R0 + first_difference(order, r0, expected)};
    return sound;
}

#endif
