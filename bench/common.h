/* Parts that the three drivers share: a job's memory, big-endian numbers, made-up sources, the clock. */
#ifndef BENCH_COMMON_H
#define BENCH_COMMON_H

#include <stddef.h>
#include <stdint.h>
#include <stdio.h>
#include <stdlib.h>
#include <string.h>
#include <time.h>

#include "crustedlane.h"

enum { PAIRS_MAX = 65535, KEPT_MAX = 131072, SOURCE_MAX = 1048576, GLYPHS_MAX = 65535 };

/* What one call of cmap_subset is lent, the output and the work room apart. */
typedef struct {
    uint8_t *source;
    size_t source_count;
    crustedlane_pair *pairs;
    size_t pair_count;
    uint32_t *kept;
    size_t kept_count;
    uint16_t *map;
    size_t map_count;
    uint16_t *requested;
    size_t requested_count;
} job;

static inline void *room(size_t bytes)
{
    void *p = calloc(1, bytes ? bytes : 1);
    if (!p) {
        fprintf(stderr, "out of memory\n");
        exit(1);
    }
    return p;
}

/* a job with room for the most that may be lent */
static inline job job_new(void)
{
    job j = {0};
    j.source = room(SOURCE_MAX + 64);
    j.pairs = room(PAIRS_MAX * sizeof *j.pairs);
    j.kept = room(KEPT_MAX * sizeof *j.kept);
    j.map = room(GLYPHS_MAX * sizeof *j.map);
    j.requested = room(GLYPHS_MAX * sizeof *j.requested);
    return j;
}

static inline void job_free(job *j)
{
    free(j->source);
    free(j->pairs);
    free(j->kept);
    free(j->map);
    free(j->requested);
}

/* the work room that the header asks for, and an output */
static uint32_t work_codes[PAIRS_MAX];
static uint16_t work_glyphs[PAIRS_MAX];

static inline crustedlane_answer cut(const job *j, uint8_t *output, size_t output_count)
{
    return cmap_subset(j->source, j->source_count, j->pairs, j->pair_count, work_codes, PAIRS_MAX, work_glyphs, PAIRS_MAX,
                       j->kept, j->kept_count, j->map, j->map_count, j->requested, j->requested_count, output, output_count);
}

static inline void put16(uint8_t *s, size_t at, uint32_t v)
{
    s[at] = (uint8_t)(v >> 8);
    s[at + 1] = (uint8_t)v;
}

static inline void put24(uint8_t *s, size_t at, uint32_t v)
{
    s[at] = (uint8_t)(v >> 16);
    put16(s, at + 1, v);
}

static inline void put32(uint8_t *s, size_t at, uint32_t v)
{
    put16(s, at, v >> 16);
    put16(s, at + 2, v);
}

static inline uint32_t get16(const uint8_t *s, size_t at) { return (uint32_t)s[at] << 8 | s[at + 1]; }
static inline uint32_t get24(const uint8_t *s, size_t at) { return (uint32_t)s[at] << 16 | get16(s, at + 1); }
static inline uint32_t get32(const uint8_t *s, size_t at) { return get16(s, at) << 16 | get16(s, at + 2); }

/* one record of the header */
static inline void put_record(uint8_t *s, size_t k, uint32_t platform, uint32_t encoding, size_t offset)
{
    put16(s, 4 + 8 * k, platform);
    put16(s, 6 + 8 * k, encoding);
    put32(s, 8 + 8 * k, (uint32_t)offset);
}

/* A format 4 subtable of segments with a delta, and the closing one; its length. */
static inline size_t put_format4(uint8_t *s, size_t at, const uint32_t *start, const uint32_t *end, const uint32_t *glyph, size_t count)
{
    size_t segs = count + 1, length = 16 + 8 * segs;
    uint32_t power = 1, e = 0;
    while (2 * power <= segs) {
        power *= 2;
        e++;
    }
    put16(s, at, 4);
    put16(s, at + 2, (uint32_t)length);
    put16(s, at + 4, 0);
    put16(s, at + 6, (uint32_t)(2 * segs));
    put16(s, at + 8, 2 * power);
    put16(s, at + 10, e);
    put16(s, at + 12, (uint32_t)(2 * segs) - 2 * power);
    put16(s, at + 14 + 2 * segs, 0);
    for (size_t i = 0; i < segs; i++) {
        int last = i == count;
        put16(s, at + 14 + 2 * i, last ? 0xFFFF : end[i]);
        put16(s, at + 16 + 2 * segs + 2 * i, last ? 0xFFFF : start[i]);
        put16(s, at + 16 + 4 * segs + 2 * i, last ? 1 : glyph[i] - start[i]);
        put16(s, at + 16 + 6 * segs + 2 * i, 0);
    }
    return length;
}

/* A format 12 subtable; its length. */
static inline size_t put_format12(uint8_t *s, size_t at, const uint32_t *start, const uint32_t *end, const uint32_t *glyph, size_t count)
{
    size_t length = 16 + 12 * count;
    put16(s, at, 12);
    put16(s, at + 2, 0);
    put32(s, at + 4, (uint32_t)length);
    put32(s, at + 8, 0);
    put32(s, at + 12, (uint32_t)count);
    for (size_t i = 0; i < count; i++) {
        put32(s, at + 16 + 12 * i, start[i]);
        put32(s, at + 20 + 12 * i, end[i]);
        put32(s, at + 24 + 12 * i, glyph[i]);
    }
    return length;
}

/* A made-up source of n points in runs of the given length, one point left out between two runs: (0,3) and (3,1) lead to one format 4
 * with the points below U+10000, (0,4) and (3,10) to one format 12 with all of them. Half of the points stand from U+0100 on, at most as
 * many as a format 4 can hold, and the rest from U+20000 on. Glyphs are 1, 2, 3 and so on. The points are put to `points`. */
static inline size_t made_up(uint8_t *s, size_t n, size_t run, uint32_t *points)
{
    size_t low = n / 2, most = run == 1 ? 8000 : 32500;
    if (low > most)
        low = most;
    static uint32_t start[PAIRS_MAX], end[PAIRS_MAX], glyph[PAIRS_MAX];
    size_t runs = 0, low_runs = 0, k = 0;
    uint32_t c = 0x100;
    while (k < n) {
        if (k == low && c < 0x10000) {
            low_runs = runs;
            c = 0x20000;
        }
        size_t stop = k < low ? low : n;
        size_t length = stop - k < run ? stop - k : run;
        start[runs] = c;
        end[runs] = c + (uint32_t)length - 1;
        glyph[runs] = (uint32_t)k + 1;
        for (size_t i = 0; i < length; i++)
            points[k + i] = c + (uint32_t)i;
        runs++;
        k += length;
        c += (uint32_t)length + 1;
    }
    size_t at4 = 4 + 8 * 4;
    size_t at12 = at4 + put_format4(s, at4, start, end, glyph, low_runs);
    size_t total = at12 + put_format12(s, at12, start, end, glyph, runs);
    put16(s, 0, 0);
    put16(s, 2, 4);
    put_record(s, 0, 0, 3, at4);
    put_record(s, 1, 0, 4, at12);
    put_record(s, 2, 3, 1, at4);
    put_record(s, 3, 3, 10, at12);
    return total;
}

static inline double clock_us(clockid_t clock)
{
    struct timespec t;
    clock_gettime(clock, &t);
    return (double)t.tv_sec * 1e6 + (double)t.tv_nsec / 1e3;
}

static inline double now_us(void) { return clock_us(CLOCK_MONOTONIC); }

/* the time that this thread had, which other work on the machine disturbs less than the time of day; reading it takes longer */
static inline double cpu_us(void) { return clock_us(CLOCK_THREAD_CPUTIME_ID); }

#endif
