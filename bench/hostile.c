/* Sources made to cost much time, by a seeded generator: the time of one call, and what it answers. See README.md.
 *
 * hostile [LIMIT [NAME]]   each case at a small part of its size, four times that, and so on to the whole; a step that would take more than LIMIT seconds (60), by the
 *                          growth that the case has, is not run but reckoned */
#include "common.h"

static uint64_t seed;

static uint32_t below(uint32_t n)
{
    seed ^= seed << 13;
    seed ^= seed >> 7;
    seed ^= seed << 17;
    return (uint32_t)((seed * 0x2545F4914F6CDD1Du >> 32) * (uint64_t)n >> 32);
}

enum { SELECTOR = 0xE0100 };

static void lent(job *j, size_t pairs, uint32_t first_pair, uint32_t step, size_t kept, uint32_t first_kept)
{
    j->pair_count = pairs;
    for (size_t i = 0; i < pairs; i++) {
        j->pairs[i].code = first_pair + (uint32_t)i * step;
        j->pairs[i].glyph = (uint16_t)(1 + i % 65534);
    }
    j->kept_count = kept;
    for (size_t i = 0; i < kept; i++)
        j->kept[i] = first_kept + (uint32_t)i;
    j->map_count = GLYPHS_MAX;
    for (size_t g = 0; g < GLYPHS_MAX; g++)
        j->map[g] = (uint16_t)(g % 65535);
    j->requested_count = 0;
}

/* the last places of the kept list become selectors */
static void keep_selectors(job *j, size_t selectors)
{
    for (size_t i = 0; i < selectors; i++)
        j->kept[j->kept_count - selectors + i] = SELECTOR + (uint32_t)i;
}

static void header(job *j, size_t records)
{
    memset(j->source, 0, SOURCE_MAX);
    put16(j->source, 2, (uint32_t)records);
}

/* all groups hold the same 65,535 points from U+0000 on: (3,10) leads there */
static void groups_over_all(job *j, size_t groups)
{
    header(j, 1);
    lent(j, 65535, 0, 1, 65535, 0);
    size_t at = 12;
    put_record(j->source, 0, 3, 10, at);
    put16(j->source, at, 12);
    put32(j->source, at + 4, (uint32_t)(16 + 12 * groups));
    put32(j->source, at + 12, (uint32_t)groups);
    for (size_t g = 0; g < groups; g++) {
        put32(j->source, at + 16 + 12 * g, 0);
        put32(j->source, at + 20 + 12 * g, 65534);
        put32(j->source, at + 24 + 12 * g, 1);
    }
    j->source_count = at + 16 + 12 * groups;
}

/* the same, and 64 records: a sibling (3,1) and 63 times (3,10), each asked whether it is covered */
static void groups_and_siblings(job *j, size_t records)
{
    groups_over_all(j, 87000);
    memmove(j->source + 4 + 8 * 64, j->source + 12, j->source_count - 12);
    j->source_count += 8 * 63;
    put16(j->source, 2, (uint32_t)records);
    for (size_t k = 0; k < records; k++)
        put_record(j->source, k, 3, k ? 10 : 1, 4 + 8 * 64);
}

/* segments that all hold U+0000 to U+FFFE, with places in the glyph array or past it */
static size_t put_segments(uint8_t *s, size_t at, size_t segs, int maps)
{
    size_t length = 65534;
    put16(s, at, 4);
    put16(s, at + 2, (uint32_t)length);
    put16(s, at + 6, (uint32_t)(2 * segs));
    for (size_t i = 0; i < segs; i++) {
        put16(s, at + 14 + 2 * i, 0xFFFE);
        put16(s, at + 16 + 2 * segs + 2 * i, 0);
        put16(s, at + 16 + 4 * segs + 2 * i, 1);
        put16(s, at + 16 + 6 * segs + 2 * i, maps && i + 1 == segs ? 0 : 2 + 2 * below(32000));
    }
    return length;
}

/* 8,180 segments over all points; the last one maps each point */
static void segments_over_all(job *j, size_t segs)
{
    header(j, 1);
    lent(j, 65535, 0, 1, 65535, 0);
    put_record(j->source, 0, 3, 1, 12);
    j->source_count = 12 + put_segments(j->source, 12, segs, 1);
}

/* 64 records to such a table, whose result is too long, so that none serves another */
static void segments_too_long(job *j, size_t records)
{
    header(j, records);
    lent(j, 32767, 0, 2, 65535, 0);
    for (size_t k = 0; k < records; k++)
        put_record(j->source, k, 3, 1, 4 + 8 * 64);
    j->source_count = 4 + 8 * 64 + put_segments(j->source, 4 + 8 * 64, 8180, 1);
}

/* 63 times (3,10) to a small format 12, whose sibling (3,1) is such a table */
static void segments_as_sibling(job *j, size_t records)
{
    header(j, records);
    lent(j, 32767, 0, 2, 65535, 0);
    size_t at = 4 + 8 * 64, at12 = at + put_segments(j->source, at, 8180, 1);
    uint32_t start = 0, end = 65534, glyph = 1;
    for (size_t k = 0; k < records; k++)
        put_record(j->source, k, 3, k ? 10 : 1, k ? at12 : at);
    j->source_count = at12 + put_format12(j->source, at12, &start, &end, &glyph, 1);
}

/* 64 format 12 subtables that lie over one another, each 24 bytes behind the one before: what is a header to one is two empty groups to those before it */
static void group_windows(job *j, size_t records)
{
    enum { GROUPS = 86000 };
    header(j, records);
    lent(j, 65535, 0, 1, 65535, 0);
    size_t base = 4 + 8 * 64, first = base + 16 + 24 * 64;
    for (size_t k = 0; k < 64; k++) {
        size_t at = base + 24 * k, groups = 2 * (64 - k) + GROUPS;
        put16(j->source, at, 12);
        put32(j->source, at + 4, (uint32_t)(16 + 12 * groups));
        put32(j->source, at + 12, (uint32_t)groups);
    }
    for (size_t g = 0; g < GROUPS; g++) {
        put32(j->source, first + 12 * g + 4, 65534);
        put32(j->source, first + 12 * g + 8, 1);
    }
    j->source_count = first + 12 * GROUPS;
    for (size_t k = 0; k < records; k++)
        put_record(j->source, k, 3, k ? 10 : 1, base + 24 * k);
}

/* 64 format 4 subtables that lie over one another, each 16 bytes behind the one before: most segments of each hold all points */
static void segment_windows(job *j, size_t records)
{
    enum { SEGMENTS = 8180 };
    header(j, records);
    lent(j, 32767, 0, 2, 65535, 0);
    size_t base = 4 + 8 * 64, ends = base + 14, starts = ends + 2 * SEGMENTS + 2 + 16 * 63, offsets = base + 16 + 6 * SEGMENTS;
    for (size_t p = ends; p < starts; p += 2)
        put16(j->source, p, 0xFFFE);
    for (size_t p = base + 16 + 4 * SEGMENTS; p < offsets; p += 2)
        put16(j->source, p, 1);
    for (size_t p = offsets; p < base + 16 * 64 + 65534; p += 2)
        put16(j->source, p, 2 + 2 * below(32000));
    for (size_t k = 0; k < 64; k++) {
        size_t at = base + 16 * k;
        put16(j->source, at, 4);
        put16(j->source, at + 2, 65534);
        put16(j->source, at + 4, 0);
        put16(j->source, at + 6, 2 * SEGMENTS);
        put16(j->source, at + 16 + 6 * SEGMENTS + 2 * (SEGMENTS - 1), 0);
    }
    j->source_count = base + 16 * 64 + 65534;
    for (size_t k = 0; k < records; k++)
        put_record(j->source, k, 3, 1, base + 16 * k);
}

/* 63 small format 12 subtables, whose sibling (3,1) is a format 4 of 8,180 segments over all points */
static void segments_as_sibling_of_many(job *j, size_t records)
{
    segments_as_sibling(j, records);
    uint32_t start = 0, end = 65534, glyph = 1;
    for (size_t k = 1; k < records; k++) {
        put_record(j->source, k, 3, 10, j->source_count);
        j->source_count += put_format12(j->source, j->source_count, &start, &end, &glyph, 1);
    }
}

/* ---- format 14 */

/* Record 0 is (3,1) with one segment; records 1 and up are (0,5) to a format 14 at the place that is returned. */
static size_t begin14(job *j, size_t records, size_t selectors)
{
    header(j, records);
    uint32_t start = 0, end = 65534, glyph = 1;
    size_t at = 4 + 8 * 64, at14 = at + put_format4(j->source, at, &start, &end, &glyph, 1);
    put_record(j->source, 0, 3, 1, at);
    for (size_t k = 1; k < records; k++)
        put_record(j->source, k, 0, 5, at14);
    put16(j->source, at14, 14);
    put32(j->source, at14 + 6, (uint32_t)selectors);
    for (size_t i = 0; i < selectors; i++)
        put24(j->source, at14 + 10 + 11 * i, SELECTOR + (uint32_t)i);
    return at14;
}

static void tables_of(job *j, size_t at, size_t i, size_t first, size_t second)
{
    put32(j->source, at + 13 + 11 * i, (uint32_t)first);
    put32(j->source, at + 17 + 11 * i, (uint32_t)second);
}

static void end14(job *j, size_t at, size_t length)
{
    put32(j->source, at + 2, (uint32_t)length);
    j->source_count = at + length;
}

/* ranges of 256 points in no order; base is U+0000 where they are to hold kept points */
static size_t put_ranges(job *j, size_t at, size_t count, uint32_t base, uint32_t width)
{
    put32(j->source, at, (uint32_t)count);
    for (size_t i = 0; i < count; i++) {
        put24(j->source, at + 4 + 4 * i, base + below(width));
        j->source[at + 7 + 4 * i] = 255;
    }
    return 4 + 4 * count;
}

/* mappings of points in no order */
static size_t put_mappings(job *j, size_t at, size_t count, uint32_t base, uint32_t width)
{
    put32(j->source, at, (uint32_t)count);
    for (size_t i = 0; i < count; i++) {
        put24(j->source, at + 4 + 5 * i, base + below(width));
        put16(j->source, at + 7 + 5 * i, below(65534));
    }
    return 4 + 5 * count;
}

static void kept14(job *j, size_t selectors)
{
    lent(j, 65535, 0, 1, KEPT_MAX, 0);
    keep_selectors(j, selectors);
}

/* all kept points in 258,000 ranges that lie over one another, one selector */
static void ranges_many_times(job *j, size_t ranges)
{
    kept14(j, 1);
    size_t at = begin14(j, 2, 1), off = 10 + 11;
    tables_of(j, at, 0, off, 0);
    end14(j, at, off + put_ranges(j, at + off, ranges, 0, KEPT_MAX));
}

/* 512 selectors that share one default table of 258,000 ranges */
static void shared_ranges(job *j, size_t selectors)
{
    kept14(j, selectors);
    size_t at = begin14(j, 2, selectors), off = 10 + 11 * selectors;
    for (size_t i = 0; i < selectors; i++)
        tables_of(j, at, i, off, 0);
    end14(j, at, off + put_ranges(j, at + off, 258000, 0, KEPT_MAX));
}

/* 512 selectors that share one non-default table of 206,000 mappings, half of them kept, the others looked for among 65,534 requested glyphs too */
static void shared_mappings(job *j, size_t selectors)
{
    kept14(j, selectors);
    j->requested_count = 65534;
    for (size_t i = 0; i < j->requested_count; i++)
        j->requested[i] = (uint16_t)i;
    size_t at = begin14(j, 2, selectors), off = 10 + 11 * selectors;
    for (size_t i = 0; i < selectors; i++)
        tables_of(j, at, i, 0, off);
    end14(j, at, off + put_mappings(j, at + off, 206000, 0, 2 * KEPT_MAX));
}

/* 512 default tables of one length, all unlike */
static void unlike_tables(job *j, size_t selectors)
{
    kept14(j, selectors);
    size_t at = begin14(j, 2, selectors), off = 10 + 11 * selectors;
    for (size_t i = 0; i < selectors; i++) {
        tables_of(j, at, i, off, 0);
        size_t length = put_ranges(j, at + off, 500, 0, 65536);
        for (size_t k = 0; k < 500; k++) { /* 500 ranges of one point each, one for each 100 points */
            put24(j->source, at + off + 4 + 4 * k, (uint32_t)(100 * k) + below(100));
            j->source[at + off + 7 + 4 * k] = 0;
        }
        off += length;
    }
    end14(j, at, off);
}

/* 512 default tables that are equal and stand at 512 places */
static void equal_tables(job *j, size_t selectors)
{
    kept14(j, selectors);
    size_t at = begin14(j, 2, selectors), off = 10 + 11 * selectors, first = off;
    for (size_t i = 0; i < selectors; i++) {
        tables_of(j, at, i, off, 0);
        if (i == 0)
            put_ranges(j, at + off, 500, 0, KEPT_MAX);
        else
            memcpy(j->source + at + off, j->source + at + first, 2004);
        off += 2004;
    }
    end14(j, at, off);
}

/* 512 default tables of one length, alike but for one of 512 points behind 87,000 that all have in common */
static void alike_to_the_end(job *j, size_t selectors)
{
    kept14(j, selectors);
    size_t at = begin14(j, 2, selectors), off = 10 + 11 * selectors;
    for (size_t i = 0; i < selectors; i++) {
        tables_of(j, at, i, off, 0);
        put32(j->source, at + off, 341);
        for (size_t n = 0; n < 341; n++) {
            put24(j->source, at + off + 4 + 4 * n, (uint32_t)(n < 340 ? 256 * n : 90000 + i));
            j->source[at + off + 7 + 4 * n] = n < 340 ? 255 : 0;
        }
        off += 4 + 4 * 341;
    }
    end14(j, at, off);
}

/* Default tables that lie over one another in the source at p, `off` from the subtable at `at`, each with the ranges from its own place on: each
 * is long and all are unlike. A table's count is a range of the table before it. Gives how long all are together. */
static size_t put_range_windows(job *j, size_t at, size_t off, size_t tables, size_t ranges, uint32_t base, uint32_t width)
{
    size_t p = at + off, from = p + 4 * tables;
    for (size_t i = 0; i < tables; i++)
        put32(j->source, p + 4 * i, (uint32_t)(ranges + tables - 1 - i));
    for (size_t i = 0; i < ranges; i++) {
        put24(j->source, from + 4 * i, base + below(width));
        j->source[from + 3 + 4 * i] = 255;
    }
    return 4 * tables + 4 * ranges;
}

/* 512 such tables, one for each selector */
static void windows_of_ranges(job *j, size_t selectors, size_t ranges, uint32_t width)
{
    size_t at = begin14(j, 2, selectors), off = 10 + 11 * selectors;
    for (size_t i = 0; i < selectors; i++)
        tables_of(j, at, i, off + 4 * i, 0);
    end14(j, at, off + put_range_windows(j, at, off, selectors, ranges, 0x1000, width));
}

static void long_windows(job *j, size_t selectors)
{
    kept14(j, selectors);
    windows_of_ranges(j, selectors, 257000, KEPT_MAX);
}

/* of every two points one is kept, and a hundred of them are listed; which of the two is a matter of chance */
static void spread(job *j, size_t selectors)
{
    for (size_t i = 0; i < j->kept_count - selectors; i++)
        j->kept[i] = (uint32_t)(2 * i) + below(2);
    j->pair_count = 100;
    for (size_t i = 0; i < j->pair_count; i++)
        j->pairs[i].code = j->kept[i];
}

static void windows_over_spread(job *j, size_t selectors)
{
    kept14(j, selectors);
    spread(j, selectors);
    windows_of_ranges(j, selectors, 257000, 2 * KEPT_MAX - 0x2000);
}

/* too few ranges in each for the library to note places */
static void shorter_windows(job *j, size_t selectors)
{
    kept14(j, selectors);
    spread(j, selectors);
    windows_of_ranges(j, selectors, 32000, 2 * KEPT_MAX - 0x2000);
}

/* 63 records, each to a format 14 of its own with 512 selectors, and all of them to the same tables that lie over one another and hold no kept
 * point. The size is the number of selectors times that of records. */
static void empty_windows(job *j, size_t size)
{
    enum { RANGES = 170000 };
    size_t records = size < 63 ? 2 : 64, selectors = size / (records - 1), step = 10 + 11 * selectors;
    lent(j, 60000, 0x1000, 1, KEPT_MAX, 0x1000);
    keep_selectors(j, selectors);
    size_t at = begin14(j, records, selectors), tables = at + (records - 1) * step;
    size_t end = tables + put_range_windows(j, at, tables - at, selectors, RANGES, 0x40000, 0x10000);
    for (size_t k = records - 1; k >= 1; k--) {
        size_t own = at + (k - 1) * step;
        if (k > 1)
            memcpy(j->source + own, j->source + at, step);
        put_record(j->source, k, 0, 5, own);
        for (size_t i = 0; i < selectors; i++)
            tables_of(j, own, i, tables + 4 * i - own, 0);
        end14(j, own, end - own);
    }
}

/* 512 non-default tables of 200,704 mappings in no order that lie over one another in the source. Each begins two mappings behind the one
 * before, and a table's count is part of such a mapping: these are U+0003 to glyph 0x1000. */
static void mapping_windows(job *j, size_t selectors)
{
    enum { COUNT = 0x31000 };
    kept14(j, selectors);
    size_t at = begin14(j, 2, selectors), off = 10 + 11 * selectors, grid = at + off + 4, all = COUNT + 2 * selectors;
    put32(j->source, at + off, COUNT);
    for (size_t k = 0; k < all; k++) {
        put24(j->source, grid + 5 * k, k < 2 * selectors ? 3 : below(2 * KEPT_MAX));
        put16(j->source, grid + 5 * k + 3, k < 2 * selectors ? 0x1000 : below(65534));
    }
    for (size_t i = 0; i < selectors; i++)
        tables_of(j, at, i, 0, off + 10 * i);
    end14(j, at, off + 4 + 5 * all);
}

/* the same, of every two points and of every two glyphs one is listed, and each glyph that is looked for is not */
static void windows_over_requested(job *j, size_t selectors)
{
    mapping_windows(j, selectors);
    spread(j, selectors);
    j->requested_count = 32767;
    for (size_t i = 0; i < j->requested_count; i++)
        j->requested[i] = (uint16_t)(2 * i);
    size_t grid = 4 + 8 * 64;
    while (j->source[grid] != 0 || j->source[grid + 1] != 14)
        grid++;
    grid += 10 + 11 * selectors + 4;
    for (size_t k = 2 * selectors; k < 0x31000 + 2 * selectors; k++)
        j->source[grid + 5 * k + 4] |= 1;
}

/* 512 unlike default tables that each hold 129,000 kept points, one record a point: a result of 265 million bytes */
static void huge_result(job *j, size_t selectors)
{
    enum { RANGES = 506 };
    kept14(j, selectors);
    size_t at = begin14(j, 2, selectors), off = 10 + 11 * selectors;
    for (size_t i = 0; i < selectors; i++) {
        size_t p = at + off;
        tables_of(j, at, i, off, 0);
        put32(j->source, p, RANGES);
        for (size_t k = 0; k < RANGES; k++) {
            put24(j->source, p + 4 + 4 * k, (uint32_t)(256 * k));
            j->source[p + 7 + 4 * k] = (uint8_t)(k == i / 256 ? 255 - i % 256 : 255);
        }
        off += 4 + 4 * RANGES;
    }
    end14(j, at, off);
}

/* 63 records to a format 14 that comes to nothing, so that none serves another: 512 selectors share 206,000 mappings of points that are not
 * kept. The size is the number of selectors times that of records. */
static void empty_mappings(job *j, size_t size)
{
    size_t selectors = size < 512 ? size : 512, records = 1 + size / selectors;
    kept14(j, selectors);
    j->requested_count = 32767;
    for (size_t i = 0; i < j->requested_count; i++)
        j->requested[i] = (uint16_t)(2 * i);
    size_t at = begin14(j, records, selectors), off = 10 + 11 * selectors;
    for (size_t i = 0; i < selectors; i++)
        tables_of(j, at, i, 0, off);
    size_t length = put_mappings(j, at + off, 206000, 0x40000, 0x10000);
    for (size_t i = 0; i < 206000; i++)
        j->source[at + off + 8 + 5 * i] |= 1; /* no requested glyph */
    end14(j, at, off + length);
}

/* the same with 258,000 ranges */
static void empty_ranges(job *j, size_t size)
{
    size_t selectors = size < 512 ? size : 512, records = 1 + size / selectors;
    kept14(j, selectors);
    size_t at = begin14(j, records, selectors), off = 10 + 11 * selectors;
    for (size_t i = 0; i < selectors; i++)
        tables_of(j, at, i, off, 0);
    end14(j, at, off + put_ranges(j, at + off, 258000, 0x40000, 0x10000));
}

static const struct {
    const char *name;
    void (*make)(job *, size_t);
    const char *of;
    size_t whole;
    int power;    /* the time grows with this power of the size, or with less */
    size_t first; /* the first part that is run */
    size_t output;
} cases[] = {
    {"format 12 groups that all hold the same 65,535 points", groups_over_all, "groups", 87000, 1, 64, 1 << 24},
    {"such groups, records to be found covered", groups_and_siblings, "records", 64, 1, 32, 1 << 24},
    {"such groups in subtables that share bytes, records to be found covered", group_windows, "records", 64, 1, 32, 1 << 24},
    {"format 4 segments that all hold 65,535 points", segments_over_all, "segments", 8180, 1, 64, 1 << 24},
    {"such segments, records too long", segments_too_long, "records", 64, 1, 32, 1 << 24},
    {"such segments in subtables that share bytes, records too long", segment_windows, "records", 64, 1, 32, 1 << 24},
    {"such segments, sibling of records to be found covered", segments_as_sibling, "records", 64, 1, 32, 1 << 24},
    {"such segments, sibling of unlike records to be found covered", segments_as_sibling_of_many, "records", 64, 1, 32, 1 << 24},
    {"kept points in ranges many times", ranges_many_times, "ranges", 258000, 1, 64, 1 << 24},
    {"selectors that share 258,000 ranges", shared_ranges, "selectors", 512, 1, 256, 1 << 24},
    {"selectors that share 206,000 mappings", shared_mappings, "selectors", 512, 1, 256, 1 << 24},
    {"unlike tables of one length", unlike_tables, "selectors", 512, 2, 64, 1 << 24},
    {"equal tables at different places", equal_tables, "selectors", 512, 1, 64, 1 << 24},
    {"unlike tables of one length, alike to their end", alike_to_the_end, "selectors", 512, 1, 64, (size_t)280 << 20},
    {"tables of 200,704 mappings that share bytes", mapping_windows, "selectors", 512, 1, 256, (size_t)280 << 20},
    {"the same, every second point kept and every second glyph requested", windows_over_requested, "selectors", 512, 1, 256, (size_t)280 << 20},
    {"tables of 257,000 ranges that share bytes", long_windows, "selectors", 512, 1, 256, 1 << 24},
    {"the same, every second point kept", windows_over_spread, "selectors", 512, 1, 256, (size_t)280 << 20},
    {"tables of 32,000 ranges that share bytes, every second point kept", shorter_windows, "selectors", 512, 1, 256, (size_t)280 << 20},
    {"result too long for the output", huge_result, "selectors", 512, 1, 64, 1 << 24},
    {"the same result, with room", huge_result, "selectors", 512, 1, 64, (size_t)280 << 20},
    {"empty format 14 of shared mappings", empty_mappings, "selectors times records", 32256, 1, 4096, 1 << 24},
    {"empty format 14 of shared ranges", empty_ranges, "selectors times records", 32256, 1, 4096, 1 << 24},
    {"empty and unlike format 14 of tables that share bytes", empty_windows, "selectors times records", 32256, 1, 4096, 1 << 24},
};

int main(int argc, char **argv)
{
    double limit = argc > 1 ? atof(argv[1]) : 60;
    uint8_t *output = room((size_t)280 << 20);
    printf("case;of;size;source bytes;answer;length;seconds\n");
    for (size_t i = 0; i < sizeof cases / sizeof *cases; i++) {
        if (argc > 2 && !strstr(cases[i].name, argv[2]))
            continue;
        seed = 0x2026111500000001u + i;
        double before = 0;
        size_t last = 0;
        for (size_t part = cases[i].first; part >= 1; part = part == 2 ? 1 : part / 4) {
            size_t size = cases[i].whole / part;
            if (size < 2)
                size = 2;
            double growth = last ? (double)size / (double)last : 1;
            double guess = before * (cases[i].power == 2 ? growth * growth : growth);
            if (guess > limit) {
                size = cases[i].whole;
                growth = (double)size / (double)last;
                printf("%s;%s;%zu;;;;~%.0f\n", cases[i].name, cases[i].of, size, before * (cases[i].power == 2 ? growth * growth : growth));
                break;
            }
            job j = job_new();
            cases[i].make(&j, size);
            double from = cpu_us();
            crustedlane_answer a = cut(&j, output, cases[i].output);
            before = (cpu_us() - from) / 1e6;
            last = size;
            printf("%s;%s;%zu;%zu;%d;%zu;%.3f\n", cases[i].name, cases[i].of, size, j.source_count, a.number, a.length, before);
            fflush(stdout);
            job_free(&j);
        }
    }
    return 0;
}
