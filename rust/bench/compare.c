/*
 * Times cg_inspect of the library that this is linked with, on kernel images in files: a
 * sheet of the short form, the heap and the records. Prints a line for each: the nanoseconds
 * of one call, the least of many samples; a number that stands for all rows found; and the
 * file. With WITHOUT_MAGAZINES defined it is for a library from before there were magazine
 * lists, and with WITHOUT_PROFILE for one from before there were profiles, which had no lists
 * either. With others the list is empty.
 */
#define _POSIX_C_SOURCE 199309L

#include <inttypes.h>
#include <stdalign.h>
#include <stdbool.h>
#include <stddef.h>
#include <stdint.h>
#include <stdio.h>
#include <stdlib.h>
#include <time.h>

#if defined WITHOUT_PROFILE
uint64_t cg_inspect(const uint8_t *sheet, size_t sheet_length,
                    const uint8_t *heap, size_t heap_length,
                    const uint8_t *records, size_t records_length,
                    uint32_t *rows, size_t rows_length);
#elif defined WITHOUT_MAGAZINES
uint64_t cg_inspect(bool userland,
                    const uint8_t *sheet, size_t sheet_length,
                    const uint8_t *heap, size_t heap_length,
                    const uint8_t *records, size_t records_length,
                    uint32_t *rows, size_t rows_length);
#else
uint64_t cg_inspect(bool userland,
                    const uint8_t *sheet, size_t sheet_length,
                    const uint8_t *heap, size_t heap_length,
                    const uint8_t *records, size_t records_length,
                    const uint32_t *magazines, size_t magazines_length,
                    uint32_t *rows, size_t rows_length);
#endif

enum {
    SHEET_LENGTH = 48,
    RECORD_LENGTH = 96,
    BUFFERS_MOST = 512,
    HEAP_MOST = 65536,
    RECORDS_MOST = BUFFERS_MOST * RECORD_LENGTH,
    ROWS_MOST = 3 * BUFFERS_MOST,
    CHUNK_SIZE = 29, /* where it stands in the sheet */
    COUNT = 34,
    SAMPLES = 1001
};

/* A sample takes at least so long, so that reading the clock does not count. */
#define LEAST_SAMPLE 50000.0

/* Each area begins a page, so that where it lies is the same for every library. */
static alignas(4096) uint8_t sheet[SHEET_LENGTH];
static alignas(4096) uint8_t heap[HEAP_MOST];
static alignas(4096) uint8_t records[RECORDS_MOST];
static alignas(4096) uint32_t rows[ROWS_MOST];
static size_t count;
static size_t heap_length;

static void fail(const char *file, const char *why)
{
    fprintf(stderr, "%s: %s\n", file, why);
    exit(2);
}

static size_t half_at(size_t at)
{
    return (size_t)sheet[at] << 8 | sheet[at + 1];
}

static void read_area(FILE *input, uint8_t *area, size_t length, const char *file)
{
    if (fread(area, 1, length, input) != length)
        fail(file, "ends too early");
}

static void read_image(const char *file)
{
    FILE *input = fopen(file, "rb");
    if (input == NULL)
        fail(file, "can't be opened");
    read_area(input, sheet, sizeof sheet, file);
    count = half_at(COUNT);
    heap_length = count * half_at(CHUNK_SIZE);
    if (count > BUFFERS_MOST || heap_length > HEAP_MOST)
        fail(file, "is too large");
    read_area(input, heap, heap_length, file);
    read_area(input, records, count * RECORD_LENGTH, file);
    fclose(input);
}

static uint64_t inspect(void)
{
#if defined WITHOUT_PROFILE
    return cg_inspect(sheet, sizeof sheet, heap, heap_length,
                      records, count * RECORD_LENGTH, rows, 3 * count);
#elif defined WITHOUT_MAGAZINES
    return cg_inspect(false, sheet, sizeof sheet, heap, heap_length,
                      records, count * RECORD_LENGTH, rows, 3 * count);
#else
    static const uint32_t no_words[1] = {0};
    return cg_inspect(false, sheet, sizeof sheet, heap, heap_length,
                      records, count * RECORD_LENGTH, no_words, 0, rows, 3 * count);
#endif
}

static double now(void)
{
    struct timespec time;
    clock_gettime(CLOCK_MONOTONIC, &time);
    return 1e9 * (double)time.tv_sec + (double)time.tv_nsec;
}

/* The nanoseconds of so many calls. */
static double sample(long repeats)
{
    double start = now();
    for (long i = 0; i < repeats; i++)
        inspect();
    return now() - start;
}

/* The nanoseconds of one call. */
static double least(void)
{
    long repeats = 1;
    while (sample(repeats) < LEAST_SAMPLE)
        repeats *= 2;
    double least = sample(repeats);
    for (int i = 1; i < SAMPLES; i++) {
        double next = sample(repeats);
        if (next < least)
            least = next;
    }
    return least / (double)repeats;
}

/* A verdict's number; 31 and 32 are 27 in a build that does not tell bad size codes apart. */
static uint32_t common(uint32_t number)
{
    return number == 31 || number == 32 ? 27 : number;
}

/* The same for the same rows, another for nearly all others. */
static uint32_t sum_of_rows(void)
{
    uint32_t sum = 2166136261u;
    for (size_t i = 0; i < 3 * count; i++) {
        uint32_t number = i % 3 == 1 ? common(rows[i]) : rows[i];
        sum = (sum ^ number) * 16777619u;
    }
    return sum;
}

int main(int arguments, char **argument)
{
    for (int i = 1; i < arguments; i++) {
        const char *file = argument[i];
        read_image(file);
        if (inspect() != (uint64_t)count << 32)
            fail(file, "is refused");
        printf("%.1f %08" PRIx32 " %s\n", least(), sum_of_rows(), file);
    }
    return 0;
}
