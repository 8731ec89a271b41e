/*
 * Reads the dump's image, behind one byte with the length of its sheet, and writes what each
 * declared function answers and fills, with magazine lists where it takes one; the calls, in
 * both orders, and under the userland profile too.
 */
#include <inttypes.h>
#include <stdio.h>
#include <string.h>

#include "combgallop.h"

enum { SHEET_MOST = 52, HEAP = 120, RECORDS = 288, ROWS = 10, OUTPUT = 65 };

static void print_answer(const char *name, uint64_t answer)
{
    printf("%s %u %u %" PRIu32 "\n", name, (unsigned)cg_refusal(answer),
           (unsigned)cg_detail(answer), cg_value(answer));
}

static void print_numbers(const char *name, const uint32_t *numbers, size_t count)
{
    size_t at;

    printf("%s", name);
    for (at = 0; at < count; at++)
        printf(" %" PRIu32, numbers[at]);
    printf("\n");
}

/* The dump's image, whose parts stand one behind the other. */
static uint8_t image[SHEET_MOST + HEAP + RECORDS];
static uint8_t *heap;
static uint8_t *records;
static size_t sheet_length;
static bool low_first;

/* Where the last byte of the flags stands, and that of the order. */
enum { FLAGS_END = 47, ORDER = 51 };

static bool read_image(void)
{
    size_t rest = HEAP + RECORDS;
    int length = getchar();

    if (length != CG_SHEET_LENGTH && length != CG_SHORT_SHEET_LENGTH)
        return false;
    sheet_length = (size_t)length;
    heap = image + sheet_length;
    records = heap + HEAP;
    if (fread(image, 1, sheet_length + rest, stdin) != sheet_length + rest)
        return false;
    low_first = length == CG_SHEET_LENGTH && image[ORDER] == 1;
    return true;
}

/* Writes a word in the image's order. */
static void put_word(uint8_t *place, uint32_t word)
{
    int at;

    for (at = 0; at < 4; at++)
        place[at] = (uint8_t)(word >> 8 * (low_first ? at : 3 - at));
}

static void area_lengths(bool userland, size_t length, size_t room)
{
    uint32_t lengths[3] = {7, 7, 7};

    print_answer("area lengths", cg_area_lengths(userland, image, length, lengths, room));
    print_numbers("lengths", lengths, 3);
}

/* For a list of no words. */
static const uint32_t no_words[1] = {0};

static void survey(size_t log_length, size_t rows_room, size_t chain_room)
{
    const uint8_t log[16] = {0};
    uint32_t rows[ROWS] = {7, 7, 7, 7, 7, 7, 7, 7, 7, 7};
    uint32_t chain[4] = {7, 7, 7, 7};

    print_answer("survey", cg_survey(false, image, sheet_length, heap, HEAP, records, RECORDS,
                                     no_words, 0, log, log_length, rows, rows_room, chain,
                                     chain_room));
    print_numbers("rows", rows, ROWS);
    print_numbers("chain", chain, 4);
}

/* Both read the dump, with every refusal, and the survey its chain with every ending. */
static void read_dump(void)
{
    area_lengths(false, sheet_length, 3);
    area_lengths(true, sheet_length, 3);
    area_lengths(false, sheet_length, 1);
    area_lengths(false, sheet_length - 1, 1);
    survey(16, ROWS, 4);
    survey(0, ROWS - 2, 4);
    survey(0, ROWS, 2);
    survey(15, ROWS - 2, 2);

    /* The next word of record 0: no record's address, and that of the first met. */
    put_word(records, 0x70ae3204);
    survey(0, 9, 3);
    put_word(records, 0x70ae3260);
    survey(0, 9, 3);
    put_word(records, 0);

    image[FLAGS_END] ^= 1;
    area_lengths(false, sheet_length, 1);
    survey(15, ROWS, 4);
    image[0] = 2;
    survey(15, ROWS, 4);
    image[0] = 1;
    image[FLAGS_END] ^= 1;
}

static void judge_dump(void)
{
    uint8_t row[16] = {0};
    uint32_t rows[ROWS] = {0};
    uint8_t output[OUTPUT] = {0};
    uint32_t at;

    print_answer("inspect", cg_inspect(false, image, sheet_length, heap, HEAP, records, RECORDS,
                                       no_words, 0, rows, ROWS));
    print_numbers("rows", rows, ROWS);
    print_answer("inspect", cg_inspect(false, image, sheet_length, heap, HEAP, records, RECORDS,
                                       no_words, 0, rows, 8));
    print_answer("inspect", cg_inspect(true, image, sheet_length, heap, HEAP, records, RECORDS,
                                       no_words, 0, rows, ROWS));
    put_word(row, 0x70ae3200);
    for (at = 0; at < 4; at++)
        print_answer("latest", cg_latest(false, image, sheet_length, heap, HEAP, records,
                                         RECORDS, row, sizeof row, at, 5));
    print_answer("report", cg_report(false, image, sheet_length, heap, HEAP, records, RECORDS,
                                     no_words, 0, row, 0, output, 63));
    print_answer("report", cg_report(false, image, sheet_length, heap, HEAP, records, RECORDS,
                                     no_words, 0, row, 0, output, OUTPUT));
    fputs((const char *)output, stdout);
}

/* What the three readers make of the dump with so many words of a list. */
static void read_with(const uint32_t *list, size_t length, size_t log_length, size_t rows_room)
{
    const uint8_t log[16] = {0};
    uint32_t rows[ROWS] = {7, 7, 7, 7, 7, 7, 7, 7, 7, 7};
    uint32_t same_rows[ROWS] = {7, 7, 7, 7, 7, 7, 7, 7, 7, 7};
    uint32_t chain[4] = {7, 7, 7, 7};
    uint8_t output[2 * OUTPUT];
    uint64_t answer;

    print_answer("inspect", cg_inspect(false, image, sheet_length, heap, HEAP, records, RECORDS,
                                       list, length, rows, rows_room));
    print_numbers("rows", rows, ROWS);
    print_answer("survey", cg_survey(false, image, sheet_length, heap, HEAP, records, RECORDS,
                                     list, length, log, log_length, same_rows, rows_room,
                                     chain, 4));
    print_numbers("rows", same_rows, ROWS);
    print_numbers("chain", chain, 4);
    answer = cg_report(false, image, sheet_length, heap, HEAP, records, RECORDS, list, length,
                       log, log_length, output, rows_room < 9 ? 8 : sizeof output);
    print_answer("report", answer);
    fwrite(output, 1, cg_value(answer), stdout);
}

/*
 * The dump's buffer 0 is taken off the chain, which then starts at record 0, and is put into a
 * magazine. A list of 2^32 + 1 words has a lawful length in its low half; it is not as
 * long as said, since no word of it may be read.
 */
static void judge_magazines(void)
{
    enum { HEAD = 39 }; /* in the sheet, high byte first */
    const uint8_t first_record[4] = {0x70, 0xae, 0x31, 0xa0};
    uint8_t stood[4];
    uint32_t list[4] = {0x70a9add8, 0x70a9ae28, 0x70a9add8, 0x70a9ae00};

    memcpy(stood, image + HEAD, 4);
    memcpy(image + HEAD, first_record, 4);
    read_with(list, 0, 0, ROWS);
    read_with(list, 1, 0, ROWS);
    read_with(list, 2, 0, ROWS);
    read_with(list, 3, 0, ROWS);
    read_with(list + 3, 1, 0, ROWS);
    read_with(list, 4, 0, ROWS - 2);
    list[1]++;
    read_with(list, 4, 0, ROWS);
    read_with(list, 2, 0, ROWS - 2);
    read_with(list, 2, 15, ROWS);
    read_with(list, 1, 0, ROWS - 2);
    read_with(list, (size_t)1 + UINT32_MAX + 1, 0, ROWS);
    memcpy(image + HEAD, stood, 4);
}

/* The dump's buffer 1: where it and its R1 stand in the heap, and its address and size. */
enum { BUFFER_1 = 40, R1 = BUFFER_1 + 24 + 4, ADDRESS_1 = 0x70a9ae00, SIZE_1 = 20 };

static const char *name_of(uint32_t verdict)
{
    switch (verdict) {
    case CG_SIZE_CODE_REMAINDER:
        return "wrong remainder";
    case CG_SIZE_CODE_ZERO:
        return "size zero";
    case CG_SIZE_CODE_ABOVE:
        return "above the buffer size";
    default:
        return "none of these";
    }
}

/* What is found of buffer 1 by its size code, and what the calls on it answer. */
static void judge_code(uint32_t code)
{
    uint32_t rows[ROWS] = {7, 7, 7, 7, 7, 7, 7, 7, 7, 7};
    const uint8_t byte = 0;

    put_word(heap + R1, code);
    print_answer("inspect", cg_inspect(false, image, sheet_length, heap, HEAP, records, RECORDS,
                                       no_words, 0, rows, ROWS));
    print_numbers("rows", rows, ROWS);
    printf("%s\n", name_of(rows[4]));
    print_answer("show", cg_show(false, image, sheet_length, heap, HEAP, records, RECORDS,
                                 ADDRESS_1));
    print_answer("store", cg_store(false, image, sheet_length, heap, HEAP, records, RECORDS,
                                   ADDRESS_1, 0, &byte, 1));
    print_answer("free", cg_free(false, image, sheet_length, heap, HEAP, records, RECORDS,
                                 ADDRESS_1, false, SIZE_1, 0x33, 0x44));
}

/* The code of 20 and one more, that of 0, that of 25, and that of 20 again. */
static void judge_codes(void)
{
    judge_code(251 * 20 + 2);
    judge_code(1);
    judge_code(251 * 25 + 1);
    judge_code(251 * 20 + 1);
}

/* A fresh image of three buffers of 8 bytes. */
enum { SHEET = CG_SHEET_LENGTH, FRESH_HEAP = 72, BASE = 0x1000, STEP = 24 };

static uint8_t fresh_sheet[SHEET];
static uint8_t fresh_heap[FRESH_HEAP];
static uint8_t fresh_records[RECORDS];

static void lay_out(bool low, size_t length, uint32_t size)
{
    print_answer("lay out", cg_lay_out(false, low, 0x11223344, BASE, 0x2000, size, 3,
                                       fresh_sheet, length, fresh_heap, FRESH_HEAP,
                                       fresh_records, RECORDS));
}

static void allocate(bool whole, uint32_t size)
{
    print_answer("allocate", cg_allocate(false, fresh_sheet, SHEET, fresh_heap, FRESH_HEAP,
                                         fresh_records, RECORDS, whole, size, 0x11, 0x22));
}

static void take_back(uint32_t address, bool whole, uint32_t size)
{
    print_answer("free", cg_free(false, fresh_sheet, SHEET, fresh_heap, FRESH_HEAP,
                                 fresh_records, RECORDS, address, whole, size, 0x33, 0x44));
}

/* Both calls of thread 0, with a size and at an address that are refused too. */
static void call_as_nobody(void)
{
    print_answer("allocate", cg_allocate(false, fresh_sheet, SHEET, fresh_heap, FRESH_HEAP,
                                         fresh_records, RECORDS, false, 9, 0x11, 0));
    print_answer("free", cg_free(false, fresh_sheet, SHEET, fresh_heap, FRESH_HEAP,
                                 fresh_records, RECORDS, BASE + 1, true, 0, 0x33, 0));
}

static void store(uint32_t address, uint32_t offset, const char *text)
{
    print_answer("store", cg_store(false, fresh_sheet, SHEET, fresh_heap, FRESH_HEAP,
                                   fresh_records, RECORDS, address, offset,
                                   (const uint8_t *)text, strlen(text)));
}

static void print_bytes(const uint8_t *bytes, uint32_t count)
{
    uint32_t at;

    for (at = 0; at < count; at++)
        printf(" %02x", (unsigned)bytes[at]);
    printf("\n");
}

static void show(uint32_t address)
{
    uint64_t answer = cg_show(false, fresh_sheet, SHEET, fresh_heap, FRESH_HEAP, fresh_records,
                              RECORDS, address);

    print_answer("show", answer);
    print_bytes(fresh_heap + (address - BASE), cg_value(answer));
}

/* Every call, accepted and refused. Where `whole` is true, any size will do. */
static void make_calls(bool low)
{
    lay_out(low, SHEET - 1, 8);
    lay_out(low, CG_SHORT_SHEET_LENGTH, 8);
    lay_out(low, SHEET, 9);
    lay_out(low, SHEET, 16);
    lay_out(low, SHEET, 8);
    print_bytes(fresh_sheet + CG_SHORT_SHEET_LENGTH, 4);
    allocate(false, 9);
    call_as_nobody();
    allocate(false, 5);
    print_bytes(fresh_records + 16, 12);
    allocate(true, 9);
    allocate(true, 0);
    allocate(false, 8);
    store(BASE, 1, "abcd");
    store(BASE, 2, "abcd");
    show(BASE);
    show(BASE + STEP);
    show(BASE + 1);
    take_back(BASE, false, 4);
    take_back(BASE, true, 5);
    take_back(BASE, false, 5);
    take_back(BASE + STEP, true, 5);
    take_back(BASE + STEP, true, 0);
    store(BASE, 0, "");
    allocate(false, 8);
    print_bytes(fresh_heap + STEP + 8, 8);
    fresh_heap[2 * STEP + 8] = 0;
    show(BASE + 2 * STEP);
}

/* Three buffers of 24 bytes under the userland profile. */
enum {
    USERLAND_RECORDS = 3 * CG_USERLAND_RECORD_LENGTH,
    USERLAND_STEP = 40,
    HEADER = 8
};

static uint8_t userland_heap[HEAP];
static uint8_t userland_records[USERLAND_RECORDS];

static void userland_lay_out(bool low, size_t records_length)
{
    print_answer("lay out", cg_lay_out(true, low, 0x11223344, BASE, 0x2000, 24, 3, fresh_sheet,
                                       SHEET, userland_heap, HEAP, userland_records,
                                       records_length));
}

static void userland_allocate(bool whole, uint32_t size)
{
    print_answer("allocate", cg_allocate(true, fresh_sheet, SHEET, userland_heap, HEAP,
                                         userland_records, USERLAND_RECORDS, whole, size, 0x11,
                                         0x22));
}

static void userland_free(uint32_t size)
{
    print_answer("free", cg_free(true, fresh_sheet, SHEET, userland_heap, HEAP,
                                 userland_records, USERLAND_RECORDS, BASE, false, size, 0x33,
                                 0x44));
}

static void userland_call_as_nobody(void)
{
    print_answer("allocate", cg_allocate(true, fresh_sheet, SHEET, userland_heap, HEAP,
                                         userland_records, USERLAND_RECORDS, false, 10, 0x11,
                                         0));
    print_answer("free", cg_free(true, fresh_sheet, SHEET, userland_heap, HEAP,
                                 userland_records, USERLAND_RECORDS, BASE, false, 10, 0x33, 0));
}

static void userland_store(uint32_t offset, const char *text)
{
    print_answer("store", cg_store(true, fresh_sheet, SHEET, userland_heap, HEAP,
                                   userland_records, USERLAND_RECORDS, BASE, offset,
                                   (const uint8_t *)text, strlen(text)));
}

static void userland_show(uint32_t address)
{
    uint64_t answer = cg_show(true, fresh_sheet, SHEET, userland_heap, HEAP, userland_records,
                              USERLAND_RECORDS, address);

    print_answer("show", answer);
    printf("start %u\n", (unsigned)cg_start(answer));
    print_bytes(userland_heap + (address - BASE) + cg_start(answer), cg_value(answer));
}

/* What is found of the three buffers and of the chain. */
static void userland_read(void)
{
    const uint8_t log[1] = {0};
    uint32_t rows[ROWS] = {7, 7, 7, 7, 7, 7, 7, 7, 7, 7};
    uint32_t chain[4] = {7, 7, 7, 7};
    uint8_t output[2 * OUTPUT];
    uint64_t answer;

    print_answer("inspect", cg_inspect(true, fresh_sheet, SHEET, userland_heap, HEAP,
                                       userland_records, USERLAND_RECORDS, no_words, 0,
                                       rows, ROWS));
    print_numbers("rows", rows, ROWS);
    print_answer("survey", cg_survey(true, fresh_sheet, SHEET, userland_heap, HEAP,
                                     userland_records, USERLAND_RECORDS, no_words, 0, log, 0,
                                     rows, ROWS, chain, 4));
    print_numbers("chain", chain, 4);
    print_answer("latest", cg_latest(true, fresh_sheet, SHEET, userland_heap, HEAP,
                                     userland_records, USERLAND_RECORDS, log, 0, 2, 0x40));
    answer = cg_report(true, fresh_sheet, SHEET, userland_heap, HEAP, userland_records,
                       USERLAND_RECORDS, no_words, 0, log, 0, output, sizeof output);
    print_answer("report", answer);
    fwrite(output, 1, cg_value(answer), stdout);
}

/* Every call under the userland profile, accepted and refused. */
static void make_userland_calls(bool low)
{
    userland_lay_out(low, RECORDS);
    userland_lay_out(low, USERLAND_RECORDS);
    userland_allocate(false, 0);
    userland_allocate(false, 17);
    userland_call_as_nobody();
    userland_allocate(false, 10);
    print_bytes(userland_heap, 20);
    userland_allocate(true, 0);
    userland_allocate(false, 16);
    print_bytes(userland_heap + 2 * USERLAND_STEP + 24, 8);
    userland_store(0, "abcd");
    userland_store(7, "abcd");
    userland_show(BASE);
    userland_show(BASE + USERLAND_STEP);
    userland_free(18);
    userland_heap[HEADER - 1] ^= 1;
    userland_read();
    userland_show(BASE);
    userland_store(0, "");
    userland_free(10);
    userland_heap[HEADER - 1] ^= 1;
    userland_free(10);
    userland_read();
}

int main(void)
{
    if (!read_image())
        return 1;
    read_dump();
    judge_dump();
    judge_magazines();
    judge_codes();
    make_calls(false);
    make_calls(true);
    make_userland_calls(false);
    make_userland_calls(true);
    return 0;
}
