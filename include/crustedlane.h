/* Crustedlane: cuts a font's cmap down to a job's code points, and asks the two print heads.
 *
 * Any sizes and any bytes get an answer: no call has a condition on what the memory holds. What a host owes is what the
 * arguments say. A slice is a pointer and a count of elements.
 *   - The pointer is not null, not even where the count is 0. It is aligned for its element, and count elements can be read there.
 *   - An argument without const can be written too, and overlaps no other argument.
 *   - Nothing else writes to lent memory during a call, nor reads what the call may write.
 *   - The stack has room: 1.5 MiB for cmap_subset, 1 MiB for cmap_fate, of which a small job takes a part. The heads take next to none.
 * No call keeps a pointer, allocates, or fails to return.
 *
 * Numbers of refusal, in the order in which they are asked; the first that holds is given, 0 where none does:
 *    1  a size is broken: more than 1,048,576 bytes of source, 65,535 pairs, 131,072 kept points, 65,535 entries of the map or
 *       65,535 requested glyphs; an empty map; fewer places in codes or glyphs than there are pairs
 *    2  the pairs' code points don't rise strictly, one is above 0x10FFFF, or a glyph is above 65,534
 *    3  kept points don't rise strictly, one is above 0x10FFFF, or a listed code point is not kept
 *    4  requested glyphs don't rise strictly, or one is not below the map's count
 *    5  the source has under 4 bytes, a version other than 0, more than 64 records, or records past its end
 *    6  no retained record is format 12 and none is (0,3) or (3,1)
 *    7  a retained record is format 12 and none is (0,4) or (3,10)
 *    8  a variation mapping to be kept names a glyph at or above the map's count, or absent from the map
 *    9  neither a format 4 nor a format 12 table is written
 *   10  the whole result is longer than the output
 *   11  (heads) there is no table that this head reads
 *
 * **Variation forms are kept only for selectors on the kept list.** To keep none is no ground for a refusal: all forms
 * are then lost.
 * The glyphs of the pairs are the caller's word. They are held against their limit, 65,534, and against nothing else: neither the
 * map nor the glyphs of the source.
 *
 * A head is a print head: it is asked for one code point and prints a glyph, by the table that it was sent. Each head goes by its own
 * table: the old one by format 4, so that it prints 0 for every code point above 0xFFFF; the new one by format 12, if there is
 * one. Neither reads format 14, which is for a reader of code points with selectors.
 *
 * docs/GLOSSARY.md tells pairs, kept, map and requested by one worked job; docs/RULES.md has the rules to the byte; docs/PROMISES.md
 * says what is proved.
 */
#ifndef CRUSTEDLANE_H
#define CRUSTEDLANE_H

#include <stddef.h>
#include <stdint.h>

#ifdef __cplusplus
extern "C" {
#endif

/* A listed code point and its new glyph. */
typedef struct {
    uint32_t code;
    uint16_t glyph;
} crustedlane_pair;

/* Length and records are those written, and 0 with a refusal; but 10 comes with the length that is needed. */
typedef struct {
    uint8_t number;
    size_t length;
    size_t records;
} crustedlane_answer;

enum {
    CRUSTEDLANE_NOT_RETAINED = 0,
    CRUSTEDLANE_SKIPPED = 1,
    CRUSTEDLANE_EMPTY = 2,
    CRUSTEDLANE_TOO_LONG = 3,
    CRUSTEDLANE_COVERED = 4,
    CRUSTEDLANE_WRITTEN = 5,
    CRUSTEDLANE_NO_SUCH_RECORD = 6,
    CRUSTEDLANE_REFUSED = 7
};

/* What became of a record: a kind from above. Number is that of a refusal, and 0 with any other kind. Platform and encoding are
 * the record's, and 0 where the job is refused or has no such record. Offset is where a written record's table stands in the
 * result, and 0 with any other kind. */
typedef struct {
    uint8_t number;
    uint32_t platform;
    uint32_t encoding;
    uint8_t kind;
    size_t offset;
} crustedlane_fate;

/* Number 0 comes with the glyph to print; 5 and 11 come with glyph 0. */
typedef struct {
    uint8_t number;
    uint32_t glyph;
} crustedlane_glyph;

/* Cuts the source's map and writes the result to the output.
 *   pairs      the listed code points and their new glyphs: what formats 4 and 12 are written from
 *   codes, glyphs   work room, each at least as long as the pairs. After any answer but 1 their first places hold the pairs' code
 *              points and glyphs. The places after those stay as they were, and after 1 all of them
 *   kept       the code points that stay in the font, the listed ones and the wanted selectors among them
 *   map        entry g is old glyph g's new number, 65,535 if it is absent; its count is the font's glyph count. The variation
 *              forms of format 14 get their new glyphs from it
 *   requested  old glyphs whose variation mappings stay, under a kept selector, though the code point is not kept
 * With number 0 the first length bytes of the output are the result, and the others stay. A refusal leaves the whole output. */
crustedlane_answer cmap_subset(const uint8_t *source, size_t source_count,
                               const crustedlane_pair *pairs, size_t pair_count,
                               uint32_t *codes, size_t code_count,
                               uint16_t *glyphs, size_t glyph_count,
                               const uint32_t *kept, size_t kept_count,
                               const uint16_t *map, size_t map_count,
                               const uint16_t *requested, size_t requested_count,
                               uint8_t *output, size_t output_count);

/* What becomes of the source's record of that number, counted from 0, in the same job; refusals 1 to 9 come first. It leaves the
 * work room as cmap_subset does. */
crustedlane_fate cmap_fate(const uint8_t *source, size_t source_count,
                           const crustedlane_pair *pairs, size_t pair_count,
                           uint32_t *codes, size_t code_count,
                           uint16_t *glyphs, size_t glyph_count,
                           const uint32_t *kept, size_t kept_count,
                           const uint16_t *map, size_t map_count,
                           const uint16_t *requested, size_t requested_count,
                           size_t record);

/* The glyph that the old head prints for a code point: by the first record that leads to a readable format 4. The new one goes by
 * the first readable format 12, and as the old one if there is none. Any number is taken for a code point, and a table of any length. */
crustedlane_glyph cmap_old_head(const uint8_t *table, size_t table_count, uint32_t code);
crustedlane_glyph cmap_new_head(const uint8_t *table, size_t table_count, uint32_t code);

#ifdef __cplusplus
}
#endif

#endif
