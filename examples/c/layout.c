/* What the library believes of sizes and offsets, against the header's: records and answers that it made are read field by field.
 * Status 1 and a line for each value that is not where the header says. */
#include "likhmout.h"

#include <inttypes.h>
#include <stdio.h>

#define MARK UINT64_C(0xfeedfacecafebeef)
#define PAST 5

static int faults;

static void expect(const char *what, uint64_t found, uint64_t wanted)
{
    if (found == wanted)
        return;
    printf("%s is %" PRIu64 ", not %" PRIu64 "\n", what, found, wanted);
    faults++;
}

/* The record between two marks: a record larger than the header's would overwrite one. */
static struct {
    uint64_t before;
    likhmout_frame_allocator record;
    uint64_t after;
} guarded = { .before = MARK, .after = MARK };

static uint64_t words[LIKHMOUT_WORKSPACE_WORDS + PAST];
#define WORDS words, (LIKHMOUT_WORKSPACE_WORDS + PAST)

static void expect_slot(const char *what, const likhmout_early_list *list, size_t slot, uint64_t start, uint64_t end)
{
    expect(what, list->starts[slot], start);
    expect(what, list->ends[slot], end);
    expect(what, list->used[slot], start <= end);
}

static void expect_unused(const char *what, const likhmout_early_list *list, size_t from)
{
    for (size_t slot = from; slot < LIKHMOUT_SLOTS; slot++)
        expect_slot(what, list, slot, 1, 0);
}

static void expect_fresh(const likhmout_frame_allocator *a)
{
    expect("fresh: sorted", a->sorted, 0);
    expect_unused("fresh: general_free", &a->general_free, 0);
    expect_unused("fresh: reserved_free", &a->reserved_free, 0);
    expect_unused("fresh: general_regions", &a->general_regions, 0);
    expect_unused("fresh: reserved_regions", &a->reserved_regions, 0);
    expect("fresh: general_free_len", a->general_free_len, 0);
    expect("fresh: reserved_free_len", a->reserved_free_len, 0);
    expect("fresh: general_regions_len", a->general_regions_len, 0);
    expect("fresh: reserved_regions_len", a->reserved_regions_len, 0);
}

/* Every list has other entries than the other three, in early form and in sorted form. */
static void boot_and_ask(likhmout_frame_allocator *a)
{
    static const likhmout_area areas[] = {
        { 100, 199, LIKHMOUT_GENERAL },
        { 300, 399, LIKHMOUT_GENERAL },
        { 600, 699, LIKHMOUT_GENERAL },
        { 500, 549, LIKHMOUT_RESERVED },
    };
    likhmout_answer granted;
    expect("boot", likhmout_init_areas(a, areas, sizeof areas / sizeof areas[0], WORDS).number, LIKHMOUT_ACCEPTED);
    granted = likhmout_allocate_frames(a, WORDS, 100);
    expect("grant: number", granted.number, LIKHMOUT_ACCEPTED);
    expect("grant: start", granted.range.start, 100);
    expect("grant: end", granted.range.end, 199);
    expect("grant: frame", granted.frame, 0);
    expect("grant: count", granted.count, 0);
    for (uint64_t frame = 510; frame <= 530; frame += 10)
        expect("grant by address", likhmout_allocate_frames_at(a, WORDS, frame, 1).range.start, frame);
}

static void expect_early(const likhmout_frame_allocator *a)
{
    expect("early: sorted", a->sorted, 0);
    expect_slot("early: general_free 0", &a->general_free, 0, 1, 0);
    expect_slot("early: general_free 1", &a->general_free, 1, 300, 399);
    expect_slot("early: general_free 2", &a->general_free, 2, 600, 699);
    expect_unused("early: general_free", &a->general_free, 3);
    expect_slot("early: reserved_free 0", &a->reserved_free, 0, 500, 509);
    expect_slot("early: reserved_free 1", &a->reserved_free, 1, 511, 519);
    expect_slot("early: reserved_free 2", &a->reserved_free, 2, 521, 529);
    expect_slot("early: reserved_free 3", &a->reserved_free, 3, 531, 549);
    expect_unused("early: reserved_free", &a->reserved_free, 4);
    expect_slot("early: general_regions 0", &a->general_regions, 0, 100, 199);
    expect_slot("early: general_regions 1", &a->general_regions, 1, 300, 399);
    expect_slot("early: general_regions 2", &a->general_regions, 2, 600, 699);
    expect_unused("early: general_regions", &a->general_regions, 3);
    expect_slot("early: reserved_regions 0", &a->reserved_regions, 0, 500, 549);
    expect_unused("early: reserved_regions", &a->reserved_regions, 1);
}

static void expect_sorted(likhmout_frame_allocator *a)
{
    expect("sort", likhmout_convert_frame_allocator_to_heap_based(a, WORDS).number, LIKHMOUT_ACCEPTED);
    expect("sorted: sorted", a->sorted, 1);
    expect("sorted: general_free_len", a->general_free_len, 2);
    expect("sorted: reserved_free_len", a->reserved_free_len, 4);
    expect("sorted: general_regions_len", a->general_regions_len, 3);
    expect("sorted: reserved_regions_len", a->reserved_regions_len, 1);
    expect("sorted: general free table", words[0], 300);
    expect("sorted: reserved free table", words[1024 + 7], 549);
    expect("sorted: general regions table", words[2048 + 1], 199);
    expect("sorted: reserved regions table", words[3072], 500);
    for (size_t i = 0; i < PAST; i++)
        expect("word past the workspace", words[LIKHMOUT_WORKSPACE_WORDS + i], MARK);
}

/* An answer whose five words differ from one another, and a run's two. */
static void expect_answers(likhmout_frame_allocator *a)
{
    static const uint64_t calls[] = {
        LIKHMOUT_CALL_FREE_TOTAL, LIKHMOUT_GENERAL, 0, LIKHMOUT_CALL_GENERAL_FRAMES_AT, 690, 20, 99, 0, 0,
    };
    uint64_t answers[3 * LIKHMOUT_ANSWER_WORDS] = { 0 }, held[1], areas[1] = { 0 };
    likhmout_answer missing = likhmout_allocate_general_frames_at(a, WORDS, 690, 20);
    expect("answer: number", missing.number, LIKHMOUT_MISSING);
    expect("answer: start", missing.range.start, 1);
    expect("answer: end", missing.range.end, 0);
    expect("answer: frame", missing.frame, 700);
    expect("answer: count", missing.count, 10);
    likhmout_run_counts ran = likhmout_run(a, WORDS, calls, 9, areas, 0, answers, 3 * LIKHMOUT_ANSWER_WORDS, held, 0);
    expect("run: made", ran.made, 2);
    expect("run: end", ran.end, LIKHMOUT_RUN_DAMAGED);
    expect("run: the free total", answers[4], 200);
    expect("run: the missing frame", answers[LIKHMOUT_ANSWER_WORDS + 3], 700);
    expect("run: no third answer", answers[2 * LIKHMOUT_ANSWER_WORDS], 0);
}

static void expect_ranges(void)
{
    uint64_t out[7] = { MARK, MARK, MARK, MARK, MARK, MARK, MARK };
    expect("split: number", likhmout_split_range(10, 60, 20, 40, out), LIKHMOUT_ACCEPTED);
    const uint64_t parts[7] = { 1, 10, 19, 20, 40, 41, 60 };
    for (size_t i = 0; i < 7; i++)
        expect("split: a word", out[i], parts[i]);
    expect("size above the top", likhmout_size_in_frames(0, LIKHMOUT_TOP_FRAME + 1, out), LIKHMOUT_OUT_OF_BOUNDS);
}

int main(void)
{
    for (size_t i = 0; i < LIKHMOUT_WORKSPACE_WORDS + PAST; i++)
        words[i] = MARK;
    guarded.record = likhmout_fresh();
    expect_fresh(&guarded.record);
    boot_and_ask(&guarded.record);
    expect_early(&guarded.record);
    expect_sorted(&guarded.record);
    expect_answers(&guarded.record);
    expect("the mark before the record", guarded.before, MARK);
    expect("the mark after the record", guarded.after, MARK);
    expect_ranges();
    printf("layout: %s\n", faults == 0 ? "ok" : "differs");
    return faults == 0 ? 0 : 1;
}
