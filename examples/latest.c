/*
 * Who touched the hurt buffers last? Reads a kernel image from standard input, behind one byte
 * with the length of its sheet, and prints, for each buffer with a fault, its latest
 * transaction. The argument is the uptime at the reset, in ms.
 */
#include <stdio.h>
#include <stdlib.h>

#include "combgallop.h"

/* The profile of the images: their records have CG_RECORD_LENGTH bytes. */
static const bool userland = false;

/* Whether the words of a sheet's image stand low byte first. */
static bool is_low_first(const uint8_t *sheet, size_t sheet_length)
{
    return sheet_length == CG_SHEET_LENGTH && sheet[CG_SHEET_LENGTH - 1] == 1;
}

static uint32_t word(const uint8_t *bytes, bool low_first)
{
    uint32_t value = 0;
    for (int i = 0; i < 4; i++)
        value = value << 8 | bytes[low_first ? 3 - i : i];
    return value;
}

static int refused(uint64_t answer)
{
    printf("refused %u, detail %u\n", cg_refusal(answer), cg_detail(answer));
    return 1;
}

static int ends_early(void)
{
    printf("the image ends early\n");
    return 1;
}

int main(int argc, char **argv)
{
    /* One byte more than an image can have, so that a longer log is seen and refused. */
    static uint8_t image[CG_SHEET_LENGTH + CG_HEAP_MOST + CG_RECORDS_MOST + CG_LOG_MOST + 1];
    static uint32_t rows[3 * CG_BUFFERS_MOST];
    if (argc != 2)
        return 2;
    uint32_t now = (uint32_t)strtoul(argv[1], NULL, 0);
    int first = getchar();
    size_t length = fread(image, 1, sizeof image, stdin);
    if (first == EOF || length < (size_t)first)
        return ends_early();
    size_t sheet_length = (size_t)first;
    const uint8_t *sheet = image, *heap = sheet + sheet_length;

    /* The sheet says how long heap and records are; all that follows them is the log. */
    uint32_t lengths[2];
    uint64_t answer = cg_area_lengths(userland, sheet, sheet_length, lengths, 2);
    if (cg_refusal(answer))
        return refused(answer);
    size_t heap_length = lengths[0], records_length = lengths[1];
    if (length - sheet_length < heap_length + records_length)
        return ends_early();
    const uint8_t *records = heap + heap_length, *log = records + records_length;
    size_t log_length = length - sheet_length - heap_length - records_length;
    bool low_first = is_low_first(sheet, sheet_length);

    uint32_t magazines[1] = {0}; /* a list of no words: the input has none */
    answer = cg_inspect(userland, sheet, sheet_length, heap, heap_length, records,
                        records_length, magazines, 0, rows, 3 * CG_BUFFERS_MOST);
    if (cg_refusal(answer))
        return refused(answer);
    for (uint32_t i = 0; i < cg_value(answer); i++) {
        const uint32_t *row = rows + 3 * i; /* index, verdict, size or offset */
        if (row[1] < CG_NOT_ONE_RECORD)
            continue;
        printf("buffer %u, fault %u", i, row[1]);
        if (row[1] == CG_BAD_FILL || row[1] == CG_BAD_REDZONE || row[1] == CG_OVERRUN)
            printf(" at offset %u", row[2]);
        printf(": ");
        uint64_t latest = cg_latest(userland, sheet, sheet_length, heap, heap_length, records,
                                    records_length, log, log_length, i, now);
        if (cg_refusal(latest)) {
            refused(latest);
        } else if (cg_value(latest) < CG_RECORD_MARK) {
            const uint8_t *at = log + cg_value(latest) * CG_ROW_LENGTH;
            printf("thread 0x%x, %u ms ago, kind %u, row %u\n", word(at + 8, low_first),
                   now - word(at + 4, low_first), word(at + 12, low_first), cg_value(latest));
        } else {
            uint32_t j = cg_value(latest) - CG_RECORD_MARK;
            const uint8_t *at = records + j * CG_RECORD_LENGTH;
            const uint8_t *uptime = at + (low_first ? 16 : 20); /* low half of the stamp */
            printf("thread 0x%x, %u ms ago, record %u\n", word(at + 24, low_first),
                   now - word(uptime, low_first), j);
        }
    }
    return 0;
}
