/* The latest transaction in plain C: one pass over the records, one over the log. */
#include "latest.h"

#include "image.h"

enum {
    ROW_LENGTH = 16,
    LOG_MOST = 16384
};

/* Where the words stand in a row of the log. */
enum {
    ROW_RECORD = 0,
    ROW_UPTIME = 4
};

/* Added to a record's index in the answer. */
#define RECORD_MARK 0x80000000u

/* The one record that names the buffer at an address, or NO_RECORD. */
FOR_EACH_ORDER uint32_t own_record(enum order order, const struct image *image,
                                   const uint8_t *records, uint32_t address)
{
    uint32_t own = NO_RECORD;
    uint32_t names = 0;
    for (uint32_t record = 0; record < image->count; record++) {
        if (word_at(order, records + record * RECORD_LENGTH + ADDRESS) == address) {
            own = record;
            names++;
        }
    }
    return names == 1 ? own : NO_RECORD;
}

/* The youngest of a record and the rows that name it, as the answer's value. */
FOR_EACH_ORDER uint32_t youngest(enum order order, const struct image *image,
                                 const uint8_t *log, size_t log_length,
                                 uint32_t record, uint32_t stamp, uint32_t now)
{
    uint32_t address = image->record_base + record * RECORD_LENGTH;
    uint32_t found = RECORD_MARK + record;
    uint32_t least_age = now - stamp;
    for (size_t at = 0; at < log_length; at += ROW_LENGTH) {
        if (word_at(order, log + at + ROW_RECORD) != address)
            continue;
        uint32_t age = now - word_at(order, log + at + ROW_UPTIME);
        /* On a tie the row wins, over the record and over an earlier row. */
        if (age <= least_age) {
            least_age = age;
            found = (uint32_t)(at / ROW_LENGTH);
        }
    }
    return found;
}

/* The answer for a buffer at an address, in an image of this order. */
FOR_EACH_ORDER uint64_t latest_of(enum order order, const struct image *image,
                                  const uint8_t *records,
                                  const uint8_t *log, size_t log_length,
                                  uint32_t address, uint32_t now)
{
    uint32_t own = own_record(order, image, records, address);
    if (own == NO_RECORD)
        return damage(NOT_ONE_RECORD);
    uint64_t stamp = long_at(order, records + own * RECORD_LENGTH + STAMP);
    if (stamp > UINT32_MAX)
        return WIDE_STAMP;
    return accepted(youngest(order, image, log, log_length, own, (uint32_t)stamp, now));
}

uint64_t plain_latest(const uint8_t *sheet, size_t sheet_length,
                      const uint8_t *heap, size_t heap_length,
                      const uint8_t *records, size_t records_length,
                      const uint8_t *log, size_t log_length,
                      uint32_t index, uint32_t now)
{
    (void)heap; /* its length alone is read */
    struct image image;
    uint64_t refusal = open_image(&image, sheet, sheet_length, heap_length, records_length);
    if (refusal != 0)
        return refusal;
    if (log_length % ROW_LENGTH != 0 || log_length > LOG_MOST)
        return BAD_LENGTH;
    if (index >= image.count)
        return NO_SUCH_BUFFER;
    uint32_t address = image.heap_base + index * image.chunk_size;
    if (image.order == HIGH_FIRST)
        return latest_of(HIGH_FIRST, &image, records, log, log_length, address, now);
    return latest_of(LOW_FIRST, &image, records, log, log_length, address, now);
}
