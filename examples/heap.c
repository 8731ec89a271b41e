/*
 * Lays out a heap of three buffers, uses it, hurts it, and prints a report each time; then
 * lays it out anew and puts a buffer into a magazine; then lays out one of the userland
 * profile and uses it.
 */
#include <stdio.h>

#include "combgallop.h"

static uint8_t sheet[CG_SHEET_LENGTH], heap[3 * (24 + 16)], records[3 * CG_RECORD_LENGTH];
static uint8_t userland_records[3 * CG_USERLAND_RECORD_LENGTH];

static const uint32_t heap_base = 0x1000, record_base = 0x2000, uptime = 5000, thread = 0x40;
static const bool low_first = false; /* words stand high byte first */

static int print_report_with(bool userland, const uint32_t *magazines, size_t count)
{
    uint8_t log[1] = {0}, output[256]; /* a log of no rows */
    uint64_t answer = cg_report(userland, sheet, sizeof sheet, heap, sizeof heap,
                                userland ? userland_records : records,
                                userland ? sizeof userland_records : sizeof records,
                                magazines, count, log, 0, output, sizeof output);
    fwrite(output, 1, cg_value(answer), stdout);
    return cg_refusal(answer);
}

static int print_report(bool userland)
{
    uint32_t magazines[1] = {0}; /* a list of no words */
    return print_report_with(userland, magazines, 0);
}

/* Hurts a buffer of 24 bytes, granted with 20, in two ways. */
static int hurt_buffer(uint8_t *chunk)
{
    chunk[20] = 0; /* one byte past its end, where the guard stands */
    if (print_report(false))
        return 1;
    chunk[20] = 0xbb;
    chunk[30] = 0; /* the word at 28, which was 00 00 13 9d, codes the size; now it codes 0 */
    chunk[31] = 1;
    return print_report(false);
}

static int use_kernel(void)
{
    if (cg_lay_out(false, low_first, 0x70, heap_base, record_base, 24, 3, sheet, sizeof sheet,
                   heap, sizeof heap, records, sizeof records))
        return 1;
    uint64_t answer = cg_allocate(false, sheet, sizeof sheet, heap, sizeof heap, records,
                                  sizeof records, false, 20, uptime, 0);
    if (cg_refusal(answer) != CG_NO_THREAD)
        return 1;
    printf("thread 0 is nobody: refusal %u\n", (unsigned)cg_refusal(answer));
    answer = cg_allocate(false, sheet, sizeof sheet, heap, sizeof heap, records, sizeof records,
                         false, 20, uptime, thread);
    if (cg_refusal(answer))
        return 1;
    uint32_t buffer = cg_value(answer);
    if (cg_store(false, sheet, sizeof sheet, heap, sizeof heap, records, sizeof records, buffer,
                 0, (const uint8_t *)"relay", 5))
        return 1;
    answer = cg_show(false, sheet, sizeof sheet, heap, sizeof heap, records, sizeof records,
                     buffer);
    printf("buffer 0x%x has %u client bytes: %.5s\n", buffer, cg_value(answer),
           (const char *)heap + (buffer - heap_base));
    if (print_report(false))
        return 1;
    return hurt_buffer(heap + (buffer - heap_base));
}

/*
 * The allocator frees a buffer into a magazine: it is free, and off the chain. Here the chain
 * starts behind its record; its address in the list says where the buffer is instead.
 */
static int use_magazine(void)
{
    enum { HEAD = 39 }; /* of the chain, in the sheet; its high byte stands first */
    uint32_t magazine[1] = {heap_base}, second = record_base + CG_RECORD_LENGTH;
    if (cg_lay_out(false, low_first, 0x70, heap_base, record_base, 24, 3, sheet, sizeof sheet,
                   heap, sizeof heap, records, sizeof records))
        return 1;
    for (int i = 0; i < 4; i++)
        sheet[HEAD + i] = (uint8_t)(second >> (24 - 8 * i));
    if (print_report(false) || print_report_with(false, magazine, 1))
        return 1;
    magazine[0] += 4;
    int refusal = print_report_with(false, magazine, 1);
    printf("0x%x is no buffer: refusal %d\n", magazine[0], refusal);
    return refusal != CG_NO_SUCH_BUFFER;
}

/* The same areas; the records are longer, and a grant of a size has a header. */
static int use_userland(void)
{
    if (cg_lay_out(true, low_first, 0x70, heap_base, record_base, 24, 3, sheet, sizeof sheet,
                   heap, sizeof heap, userland_records, sizeof userland_records))
        return 1;
    uint64_t answer = cg_allocate(true, sheet, sizeof sheet, heap, sizeof heap,
                                  userland_records, sizeof userland_records, false, 10, uptime,
                                  thread);
    if (cg_refusal(answer))
        return 1;
    uint32_t buffer = cg_value(answer);
    if (cg_store(true, sheet, sizeof sheet, heap, sizeof heap, userland_records,
                 sizeof userland_records, buffer, 0, (const uint8_t *)"relay", 5))
        return 1;
    answer = cg_show(true, sheet, sizeof sheet, heap, sizeof heap, userland_records,
                     sizeof userland_records, buffer);
    if (cg_refusal(answer))
        return 1;
    printf("userland buffer 0x%x has %u client bytes from %u on: %.5s\n", buffer,
           cg_value(answer), cg_start(answer),
           (const char *)heap + (buffer - heap_base) + cg_start(answer));
    return print_report(true);
}

int main(void)
{
    return use_kernel() || use_magazine() || use_userland();
}
