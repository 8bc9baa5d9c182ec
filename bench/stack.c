/* What each call of the library takes: bytes of stack, and bytes that it hands to memcpy. Each call runs on a stack of its own that was
 * painted before, on many states in both forms; the most that was seen is told. Measured, not proved. */
#include <stdio.h>
#include <string.h>
#include <ucontext.h>

#include "likhmout.h"

#define STACK_BYTES (1 << 16)
#define PAINT 0xa5

/* The library's copies come here: they are counted. */
static size_t copied;

void *memcpy(void *restrict to, const void *restrict from, size_t n)
{
    volatile unsigned char *d = to;
    const unsigned char *s = from;
    copied += n;
    for (size_t i = 0; i < n; i++)
        d[i] = s[i];
    return to;
}

static likhmout_frame_allocator record;
static uint64_t words[LIKHMOUT_WORKSPACE_WORDS];
static uint64_t held[LIKHMOUT_HELD_WORDS];
static uint64_t answers[LIKHMOUT_ANSWER_WORDS * 64];

/* The call to be made: its number in a run, and two numbers more. */
static uint64_t what, x, y;
static uint64_t areas[LIKHMOUT_AREA_WORDS * 64];
static size_t num_areas;

enum { CHECK = 12, RUN, KINDS };

static const char *const names[KINDS] = {
    "init", "init_from_bytes", "convert_frame_allocator_to_heap_based", "allocate_frames", "allocate_frames_by_bytes",
    "allocate_frames_at", "allocate_frames_by_bytes_at", "allocate_general_frames_at", "return_frames", "kind_of_range",
    "free_total", "held_list", "check", "run",
};

static uint64_t calls[LIKHMOUT_CALL_WORDS * 12];

static void make(void)
{
    likhmout_frame_allocator *a = &record;
    size_t n = LIKHMOUT_WORKSPACE_WORDS;
    switch (what) {
    case LIKHMOUT_CALL_INIT: likhmout_init(a, areas, LIKHMOUT_AREA_WORDS * num_areas, words, n); break;
    case LIKHMOUT_CALL_INIT_FROM_BYTES: likhmout_init_from_bytes(a, areas, LIKHMOUT_AREA_WORDS * num_areas, words, n); break;
    case LIKHMOUT_CALL_SORT: likhmout_convert_frame_allocator_to_heap_based(a, words, n); break;
    case LIKHMOUT_CALL_FRAMES: likhmout_allocate_frames(a, words, n, x); break;
    case LIKHMOUT_CALL_BYTES: likhmout_allocate_frames_by_bytes(a, words, n, x); break;
    case LIKHMOUT_CALL_FRAMES_AT: likhmout_allocate_frames_at(a, words, n, x, y); break;
    case LIKHMOUT_CALL_BYTES_AT: likhmout_allocate_frames_by_bytes_at(a, words, n, x, y); break;
    case LIKHMOUT_CALL_GENERAL_FRAMES_AT: likhmout_allocate_general_frames_at(a, words, n, x, y); break;
    case LIKHMOUT_CALL_RETURN: likhmout_return_frames(a, words, n, x, y); break;
    case LIKHMOUT_CALL_KIND_OF_RANGE: likhmout_kind_of_range(a, words, n, x, y); break;
    case LIKHMOUT_CALL_FREE_TOTAL: likhmout_free_total(a, words, n, x); break;
    case LIKHMOUT_CALL_HELD_LIST: likhmout_held_list(a, words, n, held, LIKHMOUT_HELD_WORDS); break;
    case CHECK: likhmout_check(a, words, n); break;
    default:
        /* every call once, as many as fit one after the other */
        for (uint64_t k = 0; k < 12; k++) {
            calls[LIKHMOUT_CALL_WORDS * k] = (k + x) % 12;
            calls[LIKHMOUT_CALL_WORDS * k + 1] = (k + x) % 12 < 2 ? 0 : x;
            calls[LIKHMOUT_CALL_WORDS * k + 2] = (k + x) % 12 < 2 ? num_areas : y;
        }
        likhmout_run(a, words, n, calls, LIKHMOUT_CALL_WORDS * 12, areas, LIKHMOUT_AREA_WORDS * num_areas, answers,
            LIKHMOUT_ANSWER_WORDS * 64, held, LIKHMOUT_HELD_WORDS);
    }
}

static void nothing(void) {}

static ucontext_t back, there;
static unsigned char stack[STACK_BYTES] __attribute__((aligned(64)));

static size_t stack_of(void (*f)(void))
{
    size_t free_bytes = 0;
    for (size_t i = 0; i < STACK_BYTES; i++)
        stack[i] = PAINT;
    getcontext(&there);
    there.uc_stack.ss_sp = stack;
    there.uc_stack.ss_size = STACK_BYTES;
    there.uc_link = &back;
    makecontext(&there, f, 0);
    swapcontext(&back, &there);
    while (free_bytes < STACK_BYTES && stack[free_bytes] == PAINT)
        free_bytes++;
    return STACK_BYTES - free_bytes;
}

static size_t most_stack[KINDS], most_copied[KINDS];

/* One call on what stands there; what it changes stays. */
static void tried(uint64_t kind, uint64_t first, uint64_t second)
{
    size_t taken;
    what = kind;
    x = first;
    y = second;
    size_t empty = stack_of(nothing);
    copied = 0;
    taken = stack_of(make);
    taken = taken < empty ? 0 : taken - empty;
    if (most_stack[kind] < taken)
        most_stack[kind] = taken;
    if (most_copied[kind] < copied)
        most_copied[kind] = copied;
}

/* So many areas of each kind, every other one reserved, 16 frames each, 8 apart. */
static void map(uint64_t each, uint64_t unit)
{
    num_areas = 0;
    for (uint64_t i = 0; i < 2 * each; i++) {
        uint64_t *a = areas + LIKHMOUT_AREA_WORDS * num_areas++;
        a[0] = 24 * i * unit;
        a[1] = unit == 1 ? 24 * i + 15 : 16 * unit;
        a[2] = i % 2;
    }
}

/* One general area that so many reserved ones cut: a carving stands in another for each of them. */
static void cut_map(uint64_t cuts, uint64_t unit)
{
    map(cuts, unit);
    for (uint64_t i = 0; i < cuts; i++)
        for (uint64_t k = 0; k < LIKHMOUT_AREA_WORDS; k++)
            areas[LIKHMOUT_AREA_WORDS * (i + 1) + k] = areas[LIKHMOUT_AREA_WORDS * (2 * i + 1) + k];
    num_areas = cuts + 1;
    areas[1] = 24 * 2 * (cuts + 1) * unit;
}

/* Questions, requests of every kind, met and refused, and returns, by a walk that is the same each time. */
static void walk(void)
{
    uint64_t seed = 7;
    for (int i = 0; i < 400; i++) {
        seed = seed * UINT64_C(6364136223846793005) + 1442695040888963407;
        uint64_t frame = (seed >> 33) % 1700, count = (seed >> 20) % 30;
        uint64_t kind = 3 + (seed >> 50) % 9;
        if (kind == LIKHMOUT_CALL_BYTES)
            tried(kind, count * 4000, 0);
        else if (kind == LIKHMOUT_CALL_BYTES_AT)
            tried(kind, frame * 4096 + 5, count * 4000);
        else if (kind == LIKHMOUT_CALL_RETURN)
            tried(kind, frame, frame + count);
        else if (kind == LIKHMOUT_CALL_FRAMES)
            tried(kind, count, 0);
        else
            tried(kind, frame, count);
        if (i % 8 == 0)
            tried(CHECK, 0, 0);
        if (i % 16 == 0) {
            /* a run ends with whatever form its calls give it: it is made on a copy */
            likhmout_frame_allocator kept = record;
            static uint64_t kept_words[LIKHMOUT_WORKSPACE_WORDS];
            for (size_t k = 0; k < LIKHMOUT_WORKSPACE_WORDS; k++)
                kept_words[k] = words[k];
            tried(RUN, frame, count);
            record = kept;
            for (size_t k = 0; k < LIKHMOUT_WORKSPACE_WORDS; k++)
                words[k] = kept_words[k];
        }
    }
}

int main(void)
{
    static const uint64_t sizes[] = {0, 1, 32};
    for (int way = 0; way < 4; way++)
        for (size_t k = 0; k < sizeof sizes / sizeof *sizes; k++) {
            uint64_t unit = way % 2 ? LIKHMOUT_FRAME_SIZE : 1;
            uint64_t boot = way % 2 ? LIKHMOUT_CALL_INIT_FROM_BYTES : LIKHMOUT_CALL_INIT;
            record = likhmout_fresh();
            if (way < 2)
                map(sizes[k], unit);
            else
                cut_map(sizes[k] == 32 ? 31 : sizes[k], unit);
            tried(RUN, 0, 0);
            record = likhmout_fresh();
            tried(boot, 0, 0);
            tried(boot, 0, 0);
            walk();
            tried(LIKHMOUT_CALL_SORT, 0, 0);
            tried(LIKHMOUT_CALL_SORT, 0, 0);
            walk();
        }
    printf("%-40s %12s %14s\n", "call", "stack, bytes", "memcpy, bytes");
    for (size_t k = 0; k < KINDS; k++)
        printf("%-40s %12zu %14zu\n", names[k], most_stack[k], most_copied[k]);
    return 0;
}
