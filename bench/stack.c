/* How much stack one call takes: it runs on a thread whose stack was painted, and the lowest byte that lost its paint is looked for. Then
 * stacks of fewer and fewer bytes are tried, each in a process of its own, until the call no longer returns. See README.md. */
#include "common.h"

#include <pthread.h>
#include <sys/mman.h>
#include <sys/wait.h>
#include <unistd.h>

enum { STACK = 8 << 20, PAINT = 0xA5, PAGE = 4096 };

static uint8_t output[1 << 24];

typedef struct {
    const job *j;
    char call; /* s: cmap_subset, f: cmap_fate, h: both heads, n: none */
    uint8_t number;
    uint8_t *at; /* a place of the thread's own frame */
} errand;

static void *run(void *p)
{
    errand *e = p;
    e->at = __builtin_frame_address(0);
    const job *j = e->j;
    if (e->call == 's')
        e->number = cut(j, output, sizeof output).number;
    if (e->call == 'f')
        e->number = cmap_fate(j->source, j->source_count, j->pairs, j->pair_count, work_codes, PAIRS_MAX, work_glyphs, PAIRS_MAX, j->kept,
                              j->kept_count, j->map, j->map_count, j->requested, j->requested_count, 0).number;
    if (e->call == 'h')
        e->number = cmap_old_head(j->source, j->source_count, 0x100).number | cmap_new_head(j->source, j->source_count, 0x100).number;
    return NULL;
}

static int on_stack(errand *e, uint8_t *stack, size_t size)
{
    pthread_attr_t a;
    pthread_t t;
    pthread_attr_init(&a);
    int bad = pthread_attr_setstack(&a, stack, size) || pthread_create(&t, &a, run, e) || pthread_join(t, NULL);
    pthread_attr_destroy(&a);
    return bad;
}

/* bytes between the thread's frame and the lowest byte that was written */
static size_t deepest(const job *j, char call, uint8_t *number)
{
    static uint8_t *stack;
    if (!stack)
        stack = mmap(NULL, STACK, PROT_READ | PROT_WRITE, MAP_PRIVATE | MAP_ANONYMOUS, -1, 0);
    memset(stack, PAINT, STACK);
    errand e = {j, call, 0, NULL};
    if (on_stack(&e, stack, STACK)) {
        fprintf(stderr, "no thread\n");
        exit(1);
    }
    size_t i = 0;
    while (i < STACK && stack[i] == PAINT)
        i++;
    *number = e.number;
    return (size_t)(e.at - (stack + i));
}

/* whether the call returns on a stack of that size, below which nothing may be touched */
static int returns(const job *j, char call, size_t size)
{
    fflush(stdout);
    pid_t child = fork();
    if (child == 0) {
        uint8_t *all = mmap(NULL, size + STACK, PROT_NONE, MAP_PRIVATE | MAP_ANONYMOUS, -1, 0);
        if (mprotect(all + STACK, size, PROT_READ | PROT_WRITE))
            _exit(2);
        errand e = {j, call, 0, NULL};
        _exit(on_stack(&e, all + STACK, size) ? 2 : 0);
    }
    int status;
    waitpid(child, &status, 0);
    return WIFEXITED(status) && WEXITSTATUS(status) == 0;
}

static void report(const char *name, const job *j, char call)
{
    uint8_t number;
    size_t idle = deepest(j, 'n', &number), used = deepest(j, call, &number);
    size_t low = 0, high = STACK / PAGE; /* pages */
    while (high - low > 1) {
        size_t middle = low + (high - low) / 2;
        if (returns(j, call, middle * PAGE))
            high = middle;
        else
            low = middle;
    }
    printf("%s;%zu;%zu;%d;%zu;%zu\n", name, j->pair_count, j->kept_count, number, used - idle, high * PAGE);
}

/* adds one selector with a default table of one range, and (0,5) to lead there */
static void add_format14(job *j)
{
    size_t n = j->source_count;
    memmove(j->source + 44, j->source + 36, n - 36);
    put16(j->source, 2, 5);
    for (size_t k = 0; k < 4; k++)
        put32(j->source, 8 + 8 * k, get32(j->source, 8 + 8 * k) + 8);
    n += 8;
    put_record(j->source, 4, 0, 5, n);
    put16(j->source, n, 14);
    put32(j->source, n + 2, 29);
    put32(j->source, n + 6, 1);
    put24(j->source, n + 10, 0xE0100);
    put32(j->source, n + 13, 21);
    put32(j->source, n + 17, 0);
    put32(j->source, n + 21, 1);
    put24(j->source, n + 25, 0x100);
    j->source[n + 28] = 9;
    j->source_count = n + 29;
    j->kept[j->kept_count++] = 0xE0100;
}

int main(void)
{
    static uint32_t points[PAIRS_MAX];
    static const size_t sizes[] = {1, 100, 2048, 2049, 65000};
    printf("call;pairs;kept;number;bytes of stack;least stack of a thread, in whole pages\n");
    for (size_t with14 = 0; with14 < 2; with14++)
        for (size_t i = 0; i < sizeof sizes / sizeof *sizes; i++) {
            job j = job_new();
            size_t n = sizes[i];
            j.source_count = made_up(j.source, n < 2 ? 2 : n, 8, points);
            j.pair_count = j.kept_count = n;
            for (size_t k = 0; k < n; k++) {
                j.pairs[k].code = j.kept[k] = points[k];
                j.pairs[k].glyph = (uint16_t)(k + 1);
            }
            j.map_count = n + 2;
            for (size_t g = 0; g < j.map_count; g++)
                j.map[g] = (uint16_t)g;
            if (with14)
                add_format14(&j);
            report(with14 ? "cmap_subset, formats 4, 12 and 14" : "cmap_subset, formats 4 and 12", &j, 's');
            if (n == 65000) {
                report(with14 ? "cmap_fate, formats 4, 12 and 14" : "cmap_fate, formats 4 and 12", &j, 'f');
                report("cmap_old_head, cmap_new_head", &j, 'h');
            }
            job_free(&j);
        }
    job j = job_new();
    report("cmap_subset, refused", &j, 's');
    j.map_count = 1;
    report("cmap_subset, refused", &j, 's');
    job_free(&j);
    return 0;
}
