/* Times the proved check beside a plain check in C, in one run, on the largest image: 64 entries of depth 200. */
#define _POSIX_C_SOURCE 199309L
#include "journal_image.h"

#include <stdio.h>
#include <string.h>
#include <time.h>

enum { ENTRIES = 64, DEPTH = 200, RECORDS = ENTRIES * DEPTH, LENGTH = 16 * RECORDS + 4 * ENTRIES + 16, ROUNDS = 400 };

static uint8_t image[LENGTH];

static void put(uint8_t *at, uint64_t number, int bytes)
{
    for (int i = 0; i < bytes; i++)
        at[i] = (uint8_t)(number >> (8 * i));
}

static uint64_t get(const uint8_t *at, int bytes)
{
    uint64_t number = 0;
    for (int i = 0; i < bytes; i++)
        number |= (uint64_t)at[i] << (8 * i);
    return number;
}

/* every entry in turn, until each chain is full */
static void fill(void)
{
    uint32_t last[ENTRIES];
    for (uint32_t k = 0; k < RECORDS; k++) {
        uint8_t *record = image + 16 * k;
        uint32_t entry = k % ENTRIES;
        record[0] = (uint8_t)entry;
        record[1] = k < ENTRIES ? 255 : (uint8_t)(k % 16);
        put(record + 2, k < ENTRIES ? 0 : 1 + k / ENTRIES, 4);
        put(record + 6, k < ENTRIES ? 0 : (uint64_t)(k % 2 == 0 ? (int64_t)k * 1000003 : -(int64_t)k * 1000003), 6);
        put(record + 12, k < ENTRIES ? 4294967295u : last[entry], 4);
        last[entry] = 16 * k;
    }
    uint8_t *tail = image + 16 * RECORDS;
    for (int e = 0; e < ENTRIES; e++)
        put(tail + 4 * e, last[e], 4);
    tail += 4 * ENTRIES;
    put(tail, 16 * RECORDS, 4);
    put(tail + 4, RECORDS, 4);
    put(tail + 8, ENTRIES, 2);
    put(tail + 10, DEPTH, 2);
    memcpy(tail + 12, "TRL1", 4);
}

static int32_t plain_check(const uint8_t *bytes, size_t length)
{
    if (length < 16)
        return 15;
    const uint8_t *trailer = bytes + length - 16;
    uint64_t places = get(trailer, 4), count = get(trailer + 4, 4), entries = get(trailer + 8, 2), depth = get(trailer + 10, 2);
    if (memcmp(trailer + 12, "TRL1", 4) != 0 || entries < 1 || entries > 64 || depth < 2 || depth > 200)
        return 15;
    if (count < entries || count > entries * depth || places != 16 * count || length != 16 * count + 4 * entries + 16)
        return 15;
    uint32_t last[64], chain[64];
    for (uint64_t k = 0; k < count; k++) {
        const uint8_t *record = bytes + 16 * k;
        uint64_t entry = record[0], serial = get(record + 2, 4), before = get(record + 12, 4);
        int64_t value = (int64_t)(get(record + 6, 6) << 16) >> 16;
        if (k < entries) {
            if (entry != k || record[1] != 255 || serial != 0 || value != 0 || before != 4294967295u)
                return 15;
            chain[entry] = 0;
        } else if (entry >= entries || record[1] > 15 || serial < 1 || serial > 1000000 || value < -140737488355327 || before != last[entry]
                   || chain[entry] >= depth) {
            return 15;
        }
        last[entry] = (uint32_t)(16 * k);
        chain[entry]++;
    }
    for (uint64_t e = 0; e < entries; e++)
        if (get(bytes + places + 4 * e, 4) != last[e])
            return 15;
    return 0;
}

static double time_of(int32_t (*check)(const uint8_t *, size_t))
{
    struct timespec from, to;
    int32_t said = 0;
    clock_gettime(CLOCK_MONOTONIC, &from);
    for (int i = 0; i < ROUNDS; i++)
        said |= check(image, LENGTH);
    clock_gettime(CLOCK_MONOTONIC, &to);
    if (said != 0)
        printf("a check refuses the image\n");
    return (double)(to.tv_sec - from.tv_sec) + (double)(to.tv_nsec - from.tv_nsec) / 1e9;
}

int main(void)
{
    fill();
    double plain = time_of(plain_check), proved = time_of(check_journal_image);
    double megabytes = (double)LENGTH * ROUNDS / 1e6;
    printf("an image of %d bytes, %d times\n", LENGTH, ROUNDS);
    printf("plain C  %.0f MB/s\n", megabytes / plain);
    printf("proved   %.0f MB/s, %.2f times the time of plain C\n", megabytes / proved, proved / plain);
    return 0;
}
