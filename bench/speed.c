/* The library and HarfBuzz's subsetter on the same jobs, in one run. See README.md. */
#include "common.h"

#include <hb-subset.h>
#include <hb.h>

#define CMAP HB_TAG('c', 'm', 'a', 'p')
#define MAXP HB_TAG('m', 'a', 'x', 'p')

static uint8_t output[1 << 24];

/* ---- sources */

/* The cmap and the glyph count of a font file; of a collection, those of its first face. */
static size_t read_font(const char *path, uint8_t *cmap, size_t *glyph_count)
{
    FILE *f = fopen(path, "rb");
    if (!f)
        return 0;
    fseek(f, 0, SEEK_END);
    long size = ftell(f);
    rewind(f);
    uint8_t *s = room((size_t)size);
    if (fread(s, 1, (size_t)size, f) != (size_t)size)
        size = 0;
    fclose(f);
    size_t at = 0, length = 0;
    if (size >= 16 && memcmp(s, "ttcf", 4) == 0)
        at = get32(s, 12);
    *glyph_count = 0;
    if ((size_t)size >= at + 12) {
        size_t tables = get16(s, at + 4);
        for (size_t i = 0; i < tables && at + 28 + 16 * i <= (size_t)size; i++) {
            size_t d = at + 12 + 16 * i, o = get32(s, d + 8), n = get32(s, d + 12);
            if (o > (size_t)size || n > (size_t)size - o)
                continue;
            if (memcmp(s + d, "cmap", 4) == 0 && n <= SOURCE_MAX) {
                memcpy(cmap, s + o, n);
                length = n;
            }
            if (memcmp(s + d, "maxp", 4) == 0 && n >= 6)
                *glyph_count = get16(s, o + 4);
        }
    }
    free(s);
    return length;
}

/* ---- HarfBuzz: a face that has a cmap, and a maxp of 6 bytes that tells the glyph count; the maxp is dropped, so that the cmap alone is cut */

static hb_face_t *face_of(const uint8_t *cmap, size_t count, size_t glyph_count)
{
    hb_face_t *face = hb_face_builder_create();
    hb_blob_t *blob = hb_blob_create((const char *)cmap, (unsigned)count, HB_MEMORY_MODE_DUPLICATE, NULL, NULL);
    hb_face_builder_add_table(face, CMAP, blob);
    hb_blob_destroy(blob);
    uint8_t maxp[6];
    put32(maxp, 0, 0x00005000);
    put16(maxp, 4, (uint32_t)glyph_count);
    blob = hb_blob_create((const char *)maxp, sizeof maxp, HB_MEMORY_MODE_DUPLICATE, NULL, NULL);
    hb_face_builder_add_table(face, MAXP, blob);
    hb_blob_destroy(blob);
    /* through bytes, so that the face is read as a font file is */
    hb_blob_t *file = hb_face_reference_blob(face);
    hb_face_destroy(face);
    face = hb_face_create(file, 0);
    hb_blob_destroy(file);
    return face;
}

static hb_subset_input_t *input_of(const hb_set_t *unicodes)
{
    hb_subset_input_t *input = hb_subset_input_create_or_fail();
    hb_set_union(hb_subset_input_unicode_set(input), unicodes);
    hb_set_add(hb_subset_input_set(input, HB_SUBSET_SETS_DROP_TABLE_TAG), MAXP);
    return input;
}

/* ---- a job, and the same job for HarfBuzz */

typedef struct {
    char name[64];
    size_t points;
    job ours;
    hb_face_t *face;
    hb_face_t *prepared;
    hb_subset_input_t *input;
} twin;

/* The points and selectors asked for are kept; new glyphs are the ones that HarfBuzz's plan gives. */
static twin twin_new(const char *name, const uint8_t *source, size_t source_count, size_t glyph_count, const hb_set_t *unicodes, int prepare)
{
    twin t = {0};
    snprintf(t.name, sizeof t.name, "%s", name);
    t.ours = job_new();
    memcpy(t.ours.source, source, source_count);
    t.ours.source_count = source_count;
    t.face = face_of(source, source_count, glyph_count);
    if (prepare)
        t.prepared = hb_subset_preprocess(t.face);
    t.input = input_of(unicodes);
    hb_subset_plan_t *plan = hb_subset_plan_create_or_fail(t.face, t.input);
    if (!plan) {
        fprintf(stderr, "%s: no plan\n", name);
        exit(1);
    }
    const hb_map_t *old_of = hb_subset_plan_unicode_to_old_glyph_mapping(plan);
    const hb_map_t *new_of = hb_subset_plan_old_to_new_glyph_mapping(plan);
    for (hb_codepoint_t c = HB_SET_VALUE_INVALID; hb_set_next(unicodes, &c);) {
        t.ours.kept[t.ours.kept_count++] = c;
        if (hb_map_has(old_of, c)) {
            t.ours.pairs[t.ours.pair_count].code = c;
            t.ours.pairs[t.ours.pair_count++].glyph = (uint16_t)hb_map_get(new_of, hb_map_get(old_of, c));
        }
    }
    t.ours.map_count = glyph_count;
    for (size_t g = 0; g < glyph_count; g++)
        t.ours.map[g] = hb_map_has(new_of, (hb_codepoint_t)g) ? (uint16_t)hb_map_get(new_of, (hb_codepoint_t)g) : 65535;
    t.points = t.ours.pair_count;
    hb_subset_plan_destroy(plan);
    return t;
}

static void twin_free(twin *t)
{
    job_free(&t->ours);
    hb_face_destroy(t->face);
    hb_face_destroy(t->prepared);
    hb_subset_input_destroy(t->input);
}

/* A call's time: by the clock, or by the time that the thread had where that is less, which is so where other work came between. */
typedef struct {
    double cpu, clock;
} start;

static inline start begin(void)
{
    start s;
    s.cpu = cpu_us();
    s.clock = now_us();
    return s;
}

static inline double taken(start s)
{
    double clock = now_us() - s.clock, cpu = cpu_us() - s.cpu;
    return cpu < clock ? cpu : clock;
}

/* one call of HarfBuzz: the plan is made outside the time; less than 0 where it fails */
static double run_harfbuzz(hb_face_t *face, const hb_subset_input_t *input, hb_face_t **result)
{
    hb_subset_plan_t *plan = hb_subset_plan_create_or_fail(face, input);
    start from = begin();
    hb_face_t *r = hb_subset_plan_execute_or_fail(plan);
    double time = taken(from);
    if (result)
        *result = r;
    else
        hb_face_destroy(r);
    hb_subset_plan_destroy(plan);
    return r ? time : -1;
}

static double run_ours(const job *j)
{
    start from = begin();
    crustedlane_answer a = cut(j, output, sizeof output);
    double time = taken(from);
    if (a.number != 0) {
        fprintf(stderr, "refused with %d\n", a.number);
        exit(1);
    }
    return time;
}

/* ---- do both results answer alike? */

static void same_answers(const twin *t, hb_face_t *face, const char *how, size_t *our_length, size_t *their_length)
{
    memset(output, 0xEE, sizeof output);
    crustedlane_answer a = cut(&t->ours, output, sizeof output);
    if (a.number != 0) {
        fprintf(stderr, "%s: refused with %d\n", t->name, a.number);
        exit(1);
    }
    *our_length = a.length;
    hb_face_t *result;
    if (run_harfbuzz(face, t->input, &result) < 0) {
        printf("# %s: HarfBuzz%s gives no result\n", t->name, how);
        return;
    }
    hb_blob_t *blob = hb_face_reference_table(result, CMAP);
    *their_length = hb_blob_get_length(blob);

    hb_face_t *mine = face_of(output, a.length, 65535);
    hb_face_t *theirs = face_of((const uint8_t *)hb_blob_get_data(blob, NULL), *their_length, 65535);
    hb_set_t *x = hb_set_create(), *y = hb_set_create();
    hb_face_collect_unicodes(mine, x);
    hb_face_collect_unicodes(theirs, y);
    int same = hb_set_is_equal(x, y);
    hb_font_t *p = hb_font_create(mine), *q = hb_font_create(theirs);
    for (hb_codepoint_t c = HB_SET_VALUE_INVALID, g = 0, h = 0; same && hb_set_next(x, &c);) {
        same = hb_font_get_nominal_glyph(p, c, &g) && hb_font_get_nominal_glyph(q, c, &h) && g == h;
    }
    hb_set_clear(x);
    hb_set_clear(y);
    hb_face_collect_variation_selectors(mine, x);
    hb_face_collect_variation_selectors(theirs, y);
    same = same && hb_set_is_equal(x, y);
    for (hb_codepoint_t v = HB_SET_VALUE_INVALID; same && hb_set_next(x, &v);) {
        hb_set_t *a1 = hb_set_create(), *b1 = hb_set_create();
        hb_face_collect_variation_unicodes(mine, v, a1);
        hb_face_collect_variation_unicodes(theirs, v, b1);
        same = hb_set_is_equal(a1, b1);
        for (hb_codepoint_t c = HB_SET_VALUE_INVALID; same && hb_set_next(a1, &c);) {
            hb_codepoint_t g = 0, h = 0;
            hb_bool_t one = hb_font_get_variation_glyph(p, c, v, &g), two = hb_font_get_variation_glyph(q, c, v, &h);
            same = one == two && g == h;
        }
        hb_set_destroy(a1);
        hb_set_destroy(b1);
    }
    if (!same)
        printf("# %s: HarfBuzz%s answers otherwise\n", t->name, how);
    hb_set_destroy(x);
    hb_set_destroy(y);
    hb_font_destroy(p);
    hb_font_destroy(q);
    hb_face_destroy(mine);
    hb_face_destroy(theirs);
    hb_blob_destroy(blob);
    hb_face_destroy(result);
}

/* ---- least times of several rounds, the two in turns */

static void least(const twin *t, double *our_time, double *their_time, double *prepared_time)
{
    double a = 1e18, b = 1e18, p = 1e18;
    for (int round = 0; round < 8; round++) {
        double stop = now_us() + 80e3;
        for (int i = 0; i < 5 || (now_us() < stop && i < 20000); i++) {
            double x = run_ours(&t->ours);
            if (x < a)
                a = x;
        }
        stop = now_us() + 200e3;
        for (int i = 0; i < 5 || (now_us() < stop && i < 20000); i++) {
            double x = run_harfbuzz(t->face, t->input, NULL);
            if (x < b)
                b = x;
        }
        stop = now_us() + 80e3;
        for (int i = 0; i < 3 || (now_us() < stop && i < 20000); i++) {
            double x = run_harfbuzz(t->prepared, t->input, NULL);
            if (x < p)
                p = x;
        }
    }
    *our_time = a;
    *their_time = b;
    *prepared_time = p;
}

/* ---- the list of jobs */

static const struct {
    const char *name;
    size_t run;
} shapes[] = {{"one run", PAIRS_MAX}, {"short runs", 8}, {"lone points", 1}};

static const struct {
    const char *name;
    const char *path;
} fonts[] = {
    {"DejaVu Sans", "/usr/share/fonts/truetype/dejavu/DejaVuSans.ttf"},
    {"Noto Sans CJK", "/usr/share/fonts/opentype/noto/NotoSansCJK-Regular.ttc"},
    {"HanaMinA", "/usr/share/fonts/truetype/hanazono/HanaMinA.ttf"},
    {"HanaMinB", "/usr/share/fonts/truetype/hanazono/HanaMinB.ttf"},
};

static const size_t sizes[] = {100, 2000, 20000, 65000};

typedef void (*visit)(const char *name, const uint8_t *source, size_t source_count, size_t glyph_count, const hb_set_t *unicodes);

static uint8_t bytes[SOURCE_MAX];

static void visit_made_up(size_t n, size_t shape, visit see)
{
    static uint32_t points[PAIRS_MAX];
    size_t count = made_up(bytes, n, shapes[shape].run, points);
    hb_set_t *unicodes = hb_set_create();
    for (size_t i = 0; i < n; i++)
        hb_set_add(unicodes, points[i]);
    char name[64];
    snprintf(name, sizeof name, "%s, %zu", shapes[shape].name, n);
    see(name, bytes, count, n + 1, unicodes);
    hb_set_destroy(unicodes);
}

/* n of the font's points, evenly spread, or all; its selectors are kept (HarfBuzz 6 keeps them, asked or not) */
static void visit_font(const char *font, size_t count, size_t glyph_count, size_t n, visit see)
{
    hb_face_t *face = face_of(bytes, count, glyph_count);
    hb_set_t *all = hb_set_create(), *unicodes = hb_set_create(), *vs = hb_set_create();
    hb_face_collect_unicodes(face, all);
    hb_face_collect_variation_selectors(face, vs);
    size_t have = hb_set_get_population(all), k = 0;
    if (n > have)
        n = have;
    for (hb_codepoint_t c = HB_SET_VALUE_INVALID; hb_set_next(all, &c); k++)
        if ((k + 1) * n / have > k * n / have)
            hb_set_add(unicodes, c);
    char name[64];
    hb_set_union(unicodes, vs);
    snprintf(name, sizeof name, "%s, %s%zu", font, n == have ? "all " : "", n);
    see(name, bytes, count, glyph_count, unicodes);
    hb_set_destroy(all);
    hb_set_destroy(unicodes);
    hb_set_destroy(vs);
    hb_face_destroy(face);
}

/* Jobs 0 to 11 are made up, four of a shape; 12 and up are of fonts, at most four of each. Only the wanted one is visited, or all (-1). */
static int job_number;

static void visit_all(int wanted, visit see)
{
    for (size_t shape = 0; shape < 3; shape++)
        for (size_t i = 0; i < 4; i++) {
            job_number = (int)(4 * shape + i);
            if (wanted < 0 || wanted == job_number)
                visit_made_up(sizes[i], shape, see);
        }
    for (size_t f = 0; f < sizeof fonts / sizeof *fonts; f++) {
        if (wanted >= 0 && (wanted < 12 || (size_t)(wanted - 12) / 4 != f))
            continue;
        size_t glyph_count, count = read_font(fonts[f].path, bytes, &glyph_count);
        if (count == 0) {
            printf("# %s is not there\n", fonts[f].path);
            continue;
        }
        hb_face_t *face = face_of(bytes, count, glyph_count);
        hb_set_t *all = hb_set_create();
        hb_face_collect_unicodes(face, all);
        size_t have = hb_set_get_population(all);
        hb_set_destroy(all);
        hb_face_destroy(face);
        printf("# %s: cmap of %zu bytes, %zu points, %zu glyphs\n", fonts[f].name, count, have, glyph_count);
        for (size_t i = 0; i < 4; i++) {
            job_number = (int)(12 + 4 * f + i);
            if (wanted < 0 || wanted == job_number)
                visit_font(fonts[f].name, count, glyph_count, sizes[i], see);
            if (sizes[i] >= have)
                break;
        }
    }
}

/* ---- what is done with a job */

static void see_time(const char *name, const uint8_t *source, size_t source_count, size_t glyph_count, const hb_set_t *unicodes)
{
    twin t = twin_new(name, source, source_count, glyph_count, unicodes, 1);
    size_t our_length, their_length = 0;
    same_answers(&t, t.prepared, " on a prepared face", &our_length, &their_length);
    same_answers(&t, t.face, "", &our_length, &their_length);
    double a, b, p;
    least(&t, &a, &b, &p);
    printf("%d;%s;%zu;%zu;%.2f;%.2f;%.2f;%.2f;%zu;%zu\n", job_number, name, t.points, source_count, a, b, b / a, p, our_length, their_length);
    fflush(stdout);
    twin_free(&t);
}

static int wanted_calls;
static char wanted_library;

static void see_count(const char *name, const uint8_t *source, size_t source_count, size_t glyph_count, const hb_set_t *unicodes)
{
    twin t = twin_new(name, source, source_count, glyph_count, unicodes, 0);
    for (int i = 0; i < wanted_calls; i++) {
        if (wanted_library == 'c')
            run_ours(&t.ours);
        else
            run_harfbuzz(t.face, t.input, NULL);
    }
    printf("name: %s\n", name);
    twin_free(&t);
}

/* ---- a job as the program's input, for the crate as a program of its own */

static const char *wanted_directory;

static void put_part(FILE *f, const char *mark, size_t count)
{
    uint8_t head[4];
    put32(head, 0, (uint32_t)count);
    fwrite(mark, 1, 2, f);
    fwrite(head, 1, 4, f);
}

static void put_numbers(FILE *f, const char *mark, const uint16_t *numbers, size_t count)
{
    put_part(f, mark, 2 * count);
    for (size_t i = 0; i < count; i++) {
        uint8_t two[2];
        put16(two, 0, numbers[i]);
        fwrite(two, 1, 2, f);
    }
}

static void see_job(const char *name, const uint8_t *source, size_t source_count, size_t glyph_count, const hb_set_t *unicodes)
{
    twin t = twin_new(name, source, source_count, glyph_count, unicodes, 0);
    char path[4096];
    snprintf(path, sizeof path, "%s/%d.job", wanted_directory, job_number);
    FILE *f = fopen(path, "wb");
    if (!f) {
        fprintf(stderr, "%s can't be written\n", path);
        exit(1);
    }
    put_part(f, "TB", t.ours.source_count);
    fwrite(t.ours.source, 1, t.ours.source_count, f);
    put_part(f, "PR", 6 * t.ours.pair_count);
    for (size_t i = 0; i < t.ours.pair_count; i++) {
        uint8_t pair[6];
        put32(pair, 0, t.ours.pairs[i].code);
        put16(pair, 4, t.ours.pairs[i].glyph);
        fwrite(pair, 1, 6, f);
    }
    put_part(f, "KP", 4 * t.ours.kept_count);
    for (size_t i = 0; i < t.ours.kept_count; i++) {
        uint8_t point[4];
        put32(point, 0, t.ours.kept[i]);
        fwrite(point, 1, 4, f);
    }
    put_numbers(f, "MP", t.ours.map, t.ours.map_count);
    put_numbers(f, "RQ", t.ours.requested, t.ours.requested_count);
    fclose(f);
    twin_free(&t);
}

int main(int argc, char **argv)
{
    if (argc == 3 && strcmp(argv[1], "jobs") == 0) {
        wanted_directory = argv[2];
        visit_all(-1, see_job);
        return 0;
    }
    if (argc == 5 && strcmp(argv[1], "count") == 0) {
        wanted_library = argv[2][0];
        int wanted = atoi(argv[3]);
        wanted_calls = atoi(argv[4]);
        if (wanted >= 1000) /* a job of the growth table: 1000 * (1 + shape) + a power of two */
            visit_made_up((size_t)1000 << (wanted % 1000), (size_t)(wanted / 1000 - 1), see_count);
        else
            visit_all(wanted, see_count);
        return 0;
    }
    printf("# HarfBuzz %s; times in microseconds, least of many\n", hb_version_string());
    printf("job;name;points;source bytes;library us;HarfBuzz us;HarfBuzz / library;HarfBuzz prepared us;library bytes;HarfBuzz bytes\n");
    if (argc == 2 && strcmp(argv[1], "growth") == 0) {
        for (size_t shape = 0; shape < 3; shape++)
            for (size_t e = 0; e <= 6; e++) {
                job_number = (int)(1000 * (shape + 1) + e);
                visit_made_up((size_t)1000 << e, shape, see_time);
            }
        return 0;
    }
    if (argc == 2 && strcmp(argv[1], "steps") == 0) {
        static const size_t steps[] = {2, 10, 100, 1000, 2048, 2049};
        for (size_t i = 0; i < sizeof steps / sizeof *steps; i++)
            visit_made_up(steps[i], 1, see_time);
        return 0;
    }
    visit_all(-1, see_time);
    return 0;
}
