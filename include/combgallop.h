/*
 * The verified reader of one cache's heap image, and its calls: lay out, allocate,
 * free, store and show.
 *
 * An image is four areas of bytes: sheet, heap, records and log. The calls need no log
 * and write none. Any bytes of any length may be lent; an image that breaks the rules
 * is refused, with a number that says which rule. Each area is a pointer and then a
 * length, counted in elements. No pointer may be null: for an empty area, such as a log
 * of no rows or a list of no words, pass any pointer of its type that is not null (to a byte
 * or a word of your own, say) with length 0. What a call writes to must be lent to that call
 * alone and overlap no other area. No call keeps what it was lent.
 *
 * A buffer that was freed is on the chain of free buffers, or in a magazine and off the
 * chain. The image does not say what the magazines hold: the calls that judge its buffers are
 * lent a list of magazine words, each the address of a buffer, one behind the other in any
 * sequence. They are 32-bit numbers and not bytes of the image, so that its order (below) does
 * not hold for them. There may be at most as many words as buffers; where there are no
 * magazines the list is empty.
 *
 * An image has an order: its numbers stand with the highest byte first, or with the
 * lowest. The sheet says which: its last field is 0 for high byte first and 1 for low
 * byte first, and a sheet without that field means high byte first. The order holds for
 * every number of heap, records and log; the sheet's own numbers always stand with the
 * highest byte first. Only cg_lay_out is told an order; every other call reads it from
 * the sheet.
 *
 * An image has a profile, kernel or userland, by whose rules its records and grants are
 * written. The image does not say which: the caller names it in every call, by the first
 * argument, true for userland. An image read under the other profile is read wrongly, or
 * refused for the length of its records, but does no harm. Under the userland profile
 *
 *   - a record has 100 bytes instead of 96, one more of those that are not read;
 *   - a grant of a size has a header, the first 8 bytes of the buffer: the coded size, which
 *     is the client's request plus 8, and then 0x3a10c000 minus the coded size. The client's
 *     bytes follow it. The guard byte and the size code go by the coded size; what calls,
 *     verdicts and reports say is the request. A whole grant has no header.
 *
 * By offset:
 *
 *   sheet    52 bytes: nine fields of tag (1 byte), length (2 bytes) and body. Bodies:
 *            cache address 3, heap base 10, record base 17 (4 bytes each), buffer size
 *            24, chunk size 29, count of buffers 34 (2 bytes each), chain head 39
 *            (4 bytes), flags 46 (2 bytes, 0x020f), order 51 (1 byte). Or 48 bytes: the
 *            same without the last field.
 *   heap     a chunk for each buffer: the buffer, then 16 bytes of redzone and tag.
 *            Chunk size is buffer size plus 16. Buffer i is at i times the chunk size,
 *            and its address is the heap base plus that.
 *   records  a record of 96 bytes for each buffer, of 100 under the userland profile:
 *            next 0, buffer address 4, slab 8, cache 12, timestamp 16 (one number of 8
 *            bytes, the uptime in ms; its low half is at 20, or at 16 where the low byte
 *            stands first), thread 24; the rest is not read
 *   log      rows of 16 bytes: record address 0, uptime in ms 4, thread 8, kind 12
 *            (1 allocate, 2 free; no rule reads it)
 *
 * Every function answers one number:
 *
 *   bits  0 to  7   the refusal's number, 0 when the call was accepted
 *   bits  8 to 15   the refusal's detail, 0 for every refusal but 7
 *   bits 16 to 31   of an accepted cg_show, where in the buffer the client's bytes start;
 *                   else 0
 *   bits 32 to 63   the value of an accepted call, 0 for a refusal
 *
 * A refused call has changed nothing. Link with target/staticlib/libcapi.a, written by
 * `tools/build`.
 */
#ifndef COMBGALLOP_H
#define COMBGALLOP_H

#include <stdbool.h>
#include <stddef.h>
#include <stdint.h>

#ifdef __cplusplus
extern "C" {
#endif

/* Lengths, in bytes but for the count of buffers. */
enum {
    CG_SHEET_LENGTH = 52,       /* what cg_lay_out writes and needs */
    CG_SHORT_SHEET_LENGTH = 48, /* the form without an order, read as high byte first */
    CG_RECORD_LENGTH = 96,           /* under the kernel profile */
    CG_USERLAND_RECORD_LENGTH = 100, /* under the userland profile */
    CG_ROW_LENGTH = 16,
    CG_BUFFERS_MOST = 512,
    CG_HEAP_MOST = 65536,
    CG_RECORDS_MOST = 49152,          /* 512 records under the kernel profile */
    CG_USERLAND_RECORDS_MOST = 51200, /* 512 records under the userland profile */
    CG_LOG_MOST = 16384,              /* 1,024 rows */
    /*
     * An output of this length has room for every report: that no text is longer is
     * proved of the function that writes it. The longest that the rules allow is far
     * shorter, 8,639 bytes under either profile: 14 for the first line; for 512 buffers
     * 8,594, which is `I fault V OFFSET` with offsets of three digits (512 buffers have at
     * most 112 bytes each); 20 for `chain 512 again 511`; 11 for `faults 512`.
     */
    CG_REPORT_MOST = 65535
};

/*
 * Verdicts: what is found of a buffer. The first rule that holds gives the verdict: the
 * faults in the order of their numbers, but that all three of the size code come before
 * CG_OVERRUN, and then one of the first four. Under the userland profile they speak of the
 * coded size. A buffer is listed as often as words of the magazine list are its address.
 */
enum {
    CG_FREE = 0,                 /* free, on the chain and not listed */
    CG_WHOLE = 1,                /* allocated, the whole buffer */
    CG_ALLOCATED = 2,            /* allocated, with the size that was asked for */
    CG_CACHED = 3,               /* free, off the chain and listed once */
    CG_NOT_ONE_RECORD = 20,      /* not exactly one record names the buffer; from here on faults */
    CG_BAD_TAG = 21,             /* the tag names another record, or has neither pattern */
    CG_FREED_TWICE = 22,         /* the chain comes back to its record, or it is listed twice or
                                    more, or listed and on the chain */
    CG_OFF_CHAIN = 23,           /* free, but neither on the chain nor listed */
    CG_ON_CHAIN = 24,            /* allocated, but on the chain or listed */
    CG_BAD_FILL = 25,            /* written to after it was freed, with the first offset */
    CG_BAD_REDZONE = 26,         /* redzone of a free buffer written to, with the first offset */
    CG_SIZE_CODE_REMAINDER = 27, /* the size code is none: its remainder by 251 is not 1 */
    CG_OVERRUN = 28,             /* written past its end, with the first offset */
    CG_BAD_HEADER = 30,          /* the header of a sized userland grant is wrong */
    CG_SIZE_CODE_ZERO = 31,      /* the size code is that of size 0 */
    CG_SIZE_CODE_ABOVE = 32      /* the size code is that of a size above the buffer size */
};

/* Refusals: why a call was not carried out. */
enum {
    CG_BAD_SHEET = 1,      /* the sheet has neither form: length, tags, lengths of bodies */
    CG_BAD_NUMBER = 2,     /* a number of the sheet, or an argument of lay out, breaks a limit,
                              or the sheet's order is neither 0 nor 1 */
    CG_BAD_LENGTH = 3,     /* an area or the log has a wrong length, or there are more magazine
                              words than buffers */
    CG_NO_SUCH_BUFFER = 4, /* no buffer starts at the address, or at one of the magazine words,
                              or the index is not below n */
    CG_NO_ROOM = 5,        /* the chain's head is 0 */
    CG_BAD_SIZE = 6,       /* size 0 or above the buffer size, less 8 in userland */
    CG_DAMAGE = 7,         /* damage; the detail is a verdict's number, or CG_BROKEN_HEAD */
    CG_NOT_ALLOCATED = 8,  /* the buffer is free */
    CG_OTHER_GRANT = 9,    /* the buffer was granted otherwise */
    CG_PAST_CLIENT = 10,   /* offset plus length passes the client's bytes */
    CG_SHORT_OUTPUT = 11,  /* what is lent to be written to is too short */
    CG_WIDE_STAMP = 12,    /* the record's stamp needs more than 32 bits */
    CG_NO_THREAD = 13,     /* the thread is 0, which is nobody's */

    CG_BROKEN_HEAD = 29 /* no refusal but a detail of 7: the chain's head is no record */
};

/* The number of the refusal, 0 when the call was accepted. */
static inline uint8_t cg_refusal(uint64_t answer)
{
    return (uint8_t)(answer & 0xff);
}

/* The detail of CG_DAMAGE: the number of the verdict on the damage met, or CG_BROKEN_HEAD. */
static inline uint8_t cg_detail(uint64_t answer)
{
    return (uint8_t)((answer >> 8) & 0xff);
}

/* Where in the buffer the client's bytes start, of an accepted cg_show: 0 or 8. */
static inline uint16_t cg_start(uint64_t answer)
{
    return (uint16_t)((answer >> 16) & 0xffff);
}

/* The value of an accepted call. */
static inline uint32_t cg_value(uint64_t answer)
{
    return (uint32_t)(answer >> 32);
}

/* What cg_latest adds to the index of a record, to set it apart from a row. */
#define CG_RECORD_MARK 0x80000000u

/*
 * Tells how long the areas of a sheet have to be, under a profile. Fills two numbers: the
 * length of the heap and that of the records, in bytes. Numbers past those stay as they
 * are.
 *
 * Value: 0.
 * Refusals: 1, 2; 11 when lengths_length is below 2.
 */
uint64_t cg_area_lengths(bool userland,
                         const uint8_t *sheet, size_t sheet_length,
                         uint32_t *lengths, size_t lengths_length);

/*
 * Judges every buffer, with a list of magazine words. Fills three numbers for each, in the
 * order of the buffers: its index, its verdict's number, and the verdict's size (verdict 2),
 * which is the client's request, or offset from the buffer's start (25, 26 and 28), else 0.
 * Numbers past those stay as they are.
 *
 * Value: the count of buffers n.
 * Refusals: 1, 2; 3, also when magazines_length is above n; 4 when no buffer starts at a
 * magazine word; 11 when rows_length is below three times n.
 */
uint64_t cg_inspect(bool userland,
                    const uint8_t *sheet, size_t sheet_length,
                    const uint8_t *heap, size_t heap_length,
                    const uint8_t *records, size_t records_length,
                    const uint32_t *magazines, size_t magazines_length,
                    uint32_t *rows, size_t rows_length);

/*
 * Judges every buffer, with a list of magazine words, and walks the chain. Fills `rows` as
 * cg_inspect does, and three numbers of `chain`: how many records the chain meets; 0 when it
 * ends, 1 when it is broken, 2 when it comes back to a record already met; and the index of
 * that record, else 0. Numbers past those stay as they are.
 *
 * Value: the count of buffers n.
 * Refusals: 1, 2, 3 and 4 as cg_inspect gives them, but 3 also for the log; 11 when
 * rows_length is below three times n or chain_length below 3.
 */
uint64_t cg_survey(bool userland,
                   const uint8_t *sheet, size_t sheet_length,
                   const uint8_t *heap, size_t heap_length,
                   const uint8_t *records, size_t records_length,
                   const uint32_t *magazines, size_t magazines_length,
                   const uint8_t *log, size_t log_length,
                   uint32_t *rows, size_t rows_length,
                   uint32_t *chain, size_t chain_length);

/*
 * Finds the latest transaction of the buffer with an index, at the uptime `now`: the
 * youngest of its own record and the log's rows that name that record. Ages are taken
 * modulo 2^32. On a tie a row wins over the record and a later row over an earlier.
 *
 * Value: the number of the row, from 0; or CG_RECORD_MARK plus the record's index.
 * Refusals: 1, 2, 3; 4 when index is not below n; 7 with detail 20 when not exactly
 * one record names the buffer; 12 when its stamp needs more than 32 bits.
 */
uint64_t cg_latest(bool userland,
                   const uint8_t *sheet, size_t sheet_length,
                   const uint8_t *heap, size_t heap_length,
                   const uint8_t *records, size_t records_length,
                   const uint8_t *log, size_t log_length,
                   uint32_t index, uint32_t now);

/*
 * Writes the report, with a list of magazine words: a first line, a line for each buffer, one
 * for the chain and one for the count of faults, each ended by a line feed. Bytes past it
 * stay as they are.
 *
 * Value: the length of the report.
 * Refusals: 1, 2, 3 and 4 as cg_inspect gives them, but 3 also for the log; 11 when
 * output_length is below that length.
 */
uint64_t cg_report(bool userland,
                   const uint8_t *sheet, size_t sheet_length,
                   const uint8_t *heap, size_t heap_length,
                   const uint8_t *records, size_t records_length,
                   const uint32_t *magazines, size_t magazines_length,
                   const uint8_t *log, size_t log_length,
                   uint8_t *output, size_t output_length);

/*
 * Writes a sheet, a heap and records: `count` free buffers of `size` bytes, buffer i
 * paired with record i, and the chain through all of them in that order. The records are
 * those of the profile. Words stand low byte first when `low_first` is true, else high byte
 * first; the sheet says so in its last field.
 *
 * Value: 0.
 * Refusals: 1 when sheet_length is not 52; 2 when an argument breaks a limit: size is
 * a multiple of 8 from 8 to 4,096, count is 1 to 512, count times (size + 16) is at most
 * 65,536, both bases are non-zero multiples of 8, neither area passes 2^32, and they
 * share no address; 3 when heap_length is not count times (size + 16), or
 * records_length not count times 96, or 100 under the userland profile.
 */
uint64_t cg_lay_out(bool userland, bool low_first,
                    uint32_t cache, uint32_t heap_base, uint32_t record_base,
                    uint32_t size, uint32_t count,
                    uint8_t *sheet, size_t sheet_length,
                    uint8_t *heap, size_t heap_length,
                    uint8_t *records, size_t records_length);

/*
 * Grants the buffer of the chain's first record: all of it when `whole` is true, and
 * `size` is not read then; else its first `size` bytes, or under the userland profile the
 * first `size` bytes behind its header. Stamps the record with uptime and thread. A thread
 * of 0 is nobody: it is what a record has that no call has stamped yet.
 *
 * Value: the buffer's address.
 * Refusals: 1, 2, 3; 13 when thread is 0; 6 when a size is asked for that is 0 or above the
 * buffer size, or under the userland profile above the buffer size less 8; 5 when the
 * chain's head is 0; 7 when the head is no record (detail 29), it names no buffer (20), the
 * buffer's tag names another record or has neither pattern (21) or the allocated one (24),
 * or its fill (25) or redzone (26) is hurt.
 */
uint64_t cg_allocate(bool userland,
                     uint8_t *sheet, size_t sheet_length,
                     uint8_t *heap, size_t heap_length,
                     uint8_t *records, size_t records_length,
                     bool whole, uint32_t size, uint32_t uptime, uint32_t thread);

/*
 * Takes back the buffer at an address, which was granted whole or with `size` bytes;
 * `size` is not read when `whole` is true. Its record becomes the chain's first and is
 * stamped with uptime and thread.
 *
 * Value: 0.
 * Refusals: 1, 2, 3; 13 when thread is 0; 4 when no buffer starts at the address; 7 with
 * detail 21 when the buffer's tag names no record or one that names another buffer, or has
 * neither pattern; 8 when the buffer is free; 7 when its size code is none (27), or that of
 * size 0 (31) or of one above the buffer size (32), its guard byte or redzone is hurt (28),
 * or under the userland profile its header is wrong (30); 9 when it was granted otherwise.
 */
uint64_t cg_free(bool userland,
                 uint8_t *sheet, size_t sheet_length,
                 uint8_t *heap, size_t heap_length,
                 uint8_t *records, size_t records_length,
                 uint32_t address, bool whole, uint32_t size,
                 uint32_t uptime, uint32_t thread);

/*
 * Writes bytes at an offset in the client's bytes of the buffer at an address. The offset
 * counts from the first of these, which cg_show finds. No bytes may be stored at any offset
 * up to the count of the client's bytes.
 *
 * Value: 0.
 * Refusals: 1, 2, 3; 4, 7 and 8 as cg_free gives them, in that order; 10 when offset
 * plus bytes_length passes the client's bytes.
 */
uint64_t cg_store(bool userland,
                  const uint8_t *sheet, size_t sheet_length,
                  uint8_t *heap, size_t heap_length,
                  const uint8_t *records, size_t records_length,
                  uint32_t address, uint32_t offset,
                  const uint8_t *bytes, size_t bytes_length);

/*
 * Finds the client's bytes of the buffer at an address. The buffer starts at `address` minus
 * the heap's base in the heap area, and the client's bytes start cg_start(answer) bytes
 * behind that: at 8 in a buffer granted with a size under the userland profile, else at 0.
 *
 * Value: how many bytes were granted, the buffer size when granted whole.
 * Refusals: 1, 2, 3; 4, 7 and 8 as cg_free gives them, in that order.
 */
uint64_t cg_show(bool userland,
                 const uint8_t *sheet, size_t sheet_length,
                 const uint8_t *heap, size_t heap_length,
                 const uint8_t *records, size_t records_length,
                 uint32_t address);

#ifdef __cplusplus
}
#endif

#endif
