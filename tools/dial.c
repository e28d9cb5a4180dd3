/* The time of a dial by itself: 32 dials in a new table, again and again, less the copying of that table. Prints nanoseconds a dial, the least of
 * 60 runs. Linked with libsettle.a by tools/compare-speed. */
#include "settle.h"
#include <stdio.h>
#include <string.h>
#include <time.h>

enum { DIALS = 32, TURNS = 500, RUNS = 60, ADDRESS = 10, MESSAGE = 100 };

static uint8_t table[SETTLE_TABLE_SIZE], saved[SETTLE_TABLE_SIZE], out[SETTLE_OUT_SIZE];
static uint8_t records[DIALS][256];
static size_t lengths[DIALS];

static double now(void)
{
    struct timespec t;
    clock_gettime(CLOCK_PROCESS_CPUTIME_ID, &t);
    return t.tv_sec * 1e9 + t.tv_nsec;
}

/* An integer, big-endian. */
static uint8_t *put(uint8_t *at, uint64_t n, int width)
{
    for (int i = width - 1; i >= 0; i--, n >>= 8)
        at[i] = n & 255;
    return at + width;
}

static uint8_t *fill(uint8_t *at, int byte, size_t n)
{
    memset(at, byte, n);
    return at + n;
}

/* Length, version and kind before the fields, which end at `end`; the record's length. */
static size_t head(uint8_t *record, int kind, const uint8_t *end)
{
    put(record, end - record - 2, 2);
    record[2] = 1;
    record[3] = kind;
    return end - record;
}

static size_t new_record(uint8_t *record)
{
    uint8_t *at = put(record + 4, 1, 8); /* clock */
    at = fill(at, 0x80, 16);             /* me */
    at = put(at, 1, 8);                  /* the first link's number */
    return head(record, 17, put(at, 0, 1));
}

static size_t dial_record(uint8_t *record, int i)
{
    uint8_t *at = put(record + 4, 2, 8); /* clock */
    at = fill(at, 0x20 + i, 16);         /* peer */
    at = put(at, 1, 4);                  /* transport */
    at = fill(put(at, ADDRESS, 1), i, ADDRESS);
    at = fill(put(at, MESSAGE, 2), 7, MESSAGE);
    return head(record, 1, put(at, i + 1, 4)); /* lease */
}

static int dials(void)
{
    for (int i = 0; i < DIALS; i++)
        if (settle_call(table, sizeof table, records[i], lengths[i], out, sizeof out).number)
            return 1;
    return 0;
}

int main(void)
{
    uint8_t record[64];
    double copying = 1e18, all = 1e18;
    for (int i = 0; i < DIALS; i++)
        lengths[i] = dial_record(records[i], i);
    if (settle_new(saved, sizeof saved, record, new_record(record)))
        return 1;
    for (int run = 0; run < RUNS; run++) {
        double start = now();
        for (int k = 0; k < TURNS; k++) {
            memcpy(table, saved, sizeof table);
            __asm__ volatile("" ::"r"(table) : "memory");
        }
        double copied = now();
        for (int k = 0; k < TURNS; k++) {
            memcpy(table, saved, sizeof table);
            if (dials())
                return 1;
        }
        double end = now();
        if (copied - start < copying)
            copying = copied - start;
        if (end - copied < all)
            all = end - copied;
    }
    printf("%.1f\n", (all - copying) / TURNS / DIALS);
    return 0;
}
