/* A host that cuts the whole output's job (docs/RULES.md, "Cases") and checks what the promises say of it. It prints each check that
 * fails, and at its end how many checks it made and how many failed; it exits with 1 where one failed. */
#include <stdalign.h>
#include <stddef.h>
#include <stdio.h>
#include <string.h>

#include "crustedlane.h"

/* the layouts that the library was built with; host/src/boundary.rs asks the same of its structs */
#define LAYOUT(type, size, align) _Static_assert(sizeof(type) == size && alignof(type) == align, #type)
#define AT(type, field, offset) _Static_assert(offsetof(type, field) == offset, #type "." #field)
LAYOUT(crustedlane_pair, 8, 4);
AT(crustedlane_pair, code, 0);
AT(crustedlane_pair, glyph, 4);
LAYOUT(crustedlane_answer, 24, 8);
AT(crustedlane_answer, number, 0);
AT(crustedlane_answer, length, 8);
AT(crustedlane_answer, records, 16);
LAYOUT(crustedlane_fate, 24, 8);
AT(crustedlane_fate, number, 0);
AT(crustedlane_fate, platform, 4);
AT(crustedlane_fate, encoding, 8);
AT(crustedlane_fate, kind, 12);
AT(crustedlane_fate, offset, 16);
LAYOUT(crustedlane_glyph, 8, 4);
AT(crustedlane_glyph, number, 0);
AT(crustedlane_glyph, glyph, 4);

/* one record, (3,1), that leads to case C1: format 4 with 0x41 to glyph 1 */
static const uint8_t source[44] = {
    0x00, 0x00, 0x00, 0x01, 0x00, 0x03, 0x00, 0x01, 0x00, 0x00, 0x00, 0x0C,
    0x00, 0x04, 0x00, 0x20, 0x00, 0x00, 0x00, 0x04, 0x00, 0x04, 0x00, 0x01, 0x00, 0x00,
    0x00, 0x41, 0xFF, 0xFF, 0x00, 0x00, 0x00, 0x41, 0xFF, 0xFF, 0xFF, 0xC0, 0x00, 0x01, 0x00, 0x00, 0x00, 0x00};
static const uint16_t map[2] = {0, 1};
static const uint16_t requested[1] = {0};

/* the work room and the output, set anew before each call */
static uint32_t codes[3];
static uint16_t glyphs[3];
static uint8_t output[48];

static int made;
static int failed;

static void expect(const char *what, int holds)
{
    made++;
    if (!holds) {
        printf("failed: %s\n", what);
        failed++;
    }
}

static void fresh(void)
{
    for (int i = 0; i < 3; i++) {
        codes[i] = 7;
        glyphs[i] = 9;
    }
    memset(output, 0xEE, sizeof output);
}

static int room_is(uint32_t c0, uint32_t c1, uint16_t g0, uint16_t g1)
{
    return codes[0] == c0 && codes[1] == c1 && codes[2] == 7 && glyphs[0] == g0 && glyphs[1] == g1 && glyphs[2] == 9;
}

/* the output holds so many bytes of the source, and then what it held */
static int output_is(size_t length)
{
    for (size_t i = 0; i < sizeof output; i++)
        if (output[i] != (i < length ? source[i] : 0xEE))
            return 0;
    return 1;
}

static crustedlane_answer cut(const crustedlane_pair *pairs, size_t pair_count, size_t room, size_t map_count, size_t output_count)
{
    const uint32_t kept[1] = {0x41};
    fresh();
    return cmap_subset(source, sizeof source, pairs, pair_count, codes, room, glyphs, 3, kept, 1, map, map_count, requested, 0, output, output_count);
}

static crustedlane_fate fate(const crustedlane_pair *pairs, size_t pair_count, size_t map_count, size_t record)
{
    const uint32_t kept[1] = {0x41};
    fresh();
    return cmap_fate(source, sizeof source, pairs, pair_count, codes, 3, glyphs, 3, kept, 1, map, map_count, requested, 0, record);
}

static int answer_is(crustedlane_answer a, uint8_t number, size_t length, size_t records)
{
    return a.number == number && a.length == length && a.records == records;
}

static int fate_is(crustedlane_fate f, uint8_t number, uint32_t platform, uint32_t encoding, uint8_t kind, size_t offset)
{
    return f.number == number && f.platform == platform && f.encoding == encoding && f.kind == kind && f.offset == offset;
}

static int glyph_is(crustedlane_glyph g, uint8_t number, uint32_t glyph)
{
    return g.number == number && g.glyph == glyph;
}

int main(void)
{
    const crustedlane_pair pair[1] = {{0x41, 1}};
    const crustedlane_pair falling[2] = {{0x42, 2}, {0x41, 1}};

    expect("the job is accepted with 44 bytes and 1 record", answer_is(cut(pair, 1, 3, 2, 48), 0, 44, 1));
    expect("the result is the source, and the output after it stays", output_is(44));
    expect("the first places of the work room hold the pair", room_is(0x41, 7, 1, 9));

    expect("10 for an output of 43 bytes, with the length needed", answer_is(cut(pair, 1, 3, 2, 43), 10, 44, 0));
    expect("10 leaves the output", output_is(0));
    expect("after 10 the work room holds the pair", room_is(0x41, 7, 1, 9));

    expect("2 for pairs that fall", answer_is(cut(falling, 2, 3, 2, 48), 2, 0, 0));
    expect("after 2 the work room holds the pairs", room_is(0x42, 0x41, 2, 1));

    expect("1 for a work room of 1 place and 2 pairs", answer_is(cut(falling, 2, 1, 2, 48), 1, 0, 0));
    expect("after 1 the work room is as it was", room_is(7, 7, 9, 9));
    expect("1 for an empty map", answer_is(cut(pair, 1, 3, 0, 48), 1, 0, 0));
    expect("after 1 for the map the work room is as it was", room_is(7, 7, 9, 9) && output_is(0));

    expect("record 0 is written at 12", fate_is(fate(pair, 1, 2, 0), 0, 3, 1, CRUSTEDLANE_WRITTEN, 12));
    expect("the fates fill the work room too", room_is(0x41, 7, 1, 9));
    expect("there is no record 1", fate_is(fate(pair, 1, 2, 1), 0, 0, 0, CRUSTEDLANE_NO_SUCH_RECORD, 0));
    expect("a refusal comes first, whatever the record", fate_is(fate(pair, 1, 0, 99), 1, 0, 0, CRUSTEDLANE_REFUSED, 0));
    expect("after 1 for the fates the work room is as it was", room_is(7, 7, 9, 9));

    expect("the old head prints 1 for 0x41", glyph_is(cmap_old_head(source, sizeof source, 0x41), 0, 1));
    expect("the new head prints 1 for 0x41", glyph_is(cmap_new_head(source, sizeof source, 0x41), 0, 1));
    expect("both print 0 for 0x42", glyph_is(cmap_old_head(source, sizeof source, 0x42), 0, 0) && glyph_is(cmap_new_head(source, sizeof source, 0xFFFFFFFF), 0, 0));
    expect("5 for a table of 3 bytes", glyph_is(cmap_old_head(source, 3, 0x41), 5, 0));
    expect("11 where the record leads past the end", glyph_is(cmap_new_head(source, 43, 0x41), 11, 0));

    printf("%d checks, %d failed\n", made, failed);
    return failed != 0;
}
