/* A flag of a record, `sorted` or `used`, that is neither 0 nor 1. Every call refuses the record with 11, by itself and in a run, in either
 * form, and changes nothing. Each flag is tried with each such byte. Status 1 and a line for each of the first calls that do otherwise. */
#include "likhmout.h"

#include <inttypes.h>
#include <stdio.h>
#include <string.h>

#define MARK UINT64_C(0xfeedfacecafebeef)
#define FLAGS (1 + 4 * LIKHMOUT_SLOTS)
#define CALLS (LIKHMOUT_CALL_HELD_LIST + 1)
#define TOLD 20

/* Every list has entries. */
static const uint64_t areas[] = {
    100, 199, LIKHMOUT_GENERAL, 300, 399, LIKHMOUT_GENERAL, 500, 549, LIKHMOUT_RESERVED,
};
#define AREAS areas, (sizeof areas / sizeof areas[0])

/* What each call is asked with: but for the boots, what would be accepted. */
static const uint64_t asked[CALLS][2] = {
    { 0, 3 }, { 0, 3 }, { 0, 0 }, { 1, 0 }, { 1, 0 }, { 510, 2 }, { 510 * LIKHMOUT_FRAME_SIZE, 2 }, { 310, 2 },
    { 100, 199 }, { 100, 199 }, { LIKHMOUT_GENERAL, 0 }, { 0, 0 },
};

/* What a call is lent. */
typedef struct lent {
    likhmout_frame_allocator record;
    uint64_t words[LIKHMOUT_WORKSPACE_WORDS];
    uint64_t held[LIKHMOUT_HELD_WORDS];
} lent;

static lent now, before;
#define WORDS now.words, LIKHMOUT_WORKSPACE_WORDS
#define HELD now.held, LIKHMOUT_HELD_WORDS

/* The flag that is tried, and its byte; how many calls did otherwise. */
static size_t tried;
static unsigned byte;
static int faults;

static int expect(const char *what, uint64_t found, uint64_t wanted)
{
    if (found != wanted && faults++ < TOLD)
        printf("flag %zu with %u: %s is %" PRIu64 ", not %" PRIu64 "\n", tried, byte, what, found, wanted);
    return found == wanted;
}

static uint8_t *flag(likhmout_frame_allocator *a, size_t number)
{
    likhmout_early_list *lists[4] = { &a->general_free, &a->reserved_free, &a->general_regions, &a->reserved_regions };
    if (number == 0)
        return &a->sorted;
    return &lists[(number - 1) / LIKHMOUT_SLOTS]->used[(number - 1) % LIKHMOUT_SLOTS];
}

static likhmout_answer ask(uint64_t call)
{
    likhmout_frame_allocator *a = &now.record;
    const uint64_t x = asked[call][0], y = asked[call][1];
    switch (call) {
    case LIKHMOUT_CALL_INIT: return likhmout_init(a, AREAS, WORDS);
    case LIKHMOUT_CALL_INIT_FROM_BYTES: return likhmout_init_from_bytes(a, AREAS, WORDS);
    case LIKHMOUT_CALL_SORT: return likhmout_convert_frame_allocator_to_heap_based(a, WORDS);
    case LIKHMOUT_CALL_FRAMES: return likhmout_allocate_frames(a, WORDS, x);
    case LIKHMOUT_CALL_BYTES: return likhmout_allocate_frames_by_bytes(a, WORDS, x);
    case LIKHMOUT_CALL_FRAMES_AT: return likhmout_allocate_frames_at(a, WORDS, x, y);
    case LIKHMOUT_CALL_BYTES_AT: return likhmout_allocate_frames_by_bytes_at(a, WORDS, x, y);
    case LIKHMOUT_CALL_GENERAL_FRAMES_AT: return likhmout_allocate_general_frames_at(a, WORDS, x, y);
    case LIKHMOUT_CALL_RETURN: return likhmout_return_frames(a, WORDS, x, y);
    case LIKHMOUT_CALL_KIND_OF_RANGE: return likhmout_kind_of_range(a, WORDS, x, y);
    case LIKHMOUT_CALL_FREE_TOTAL: return likhmout_free_total(a, WORDS, x);
    default: return likhmout_held_list(a, WORDS, HELD);
    }
}

/* The same call in a run. */
static likhmout_answer run(uint64_t call)
{
    const uint64_t calls[LIKHMOUT_CALL_WORDS] = { call, asked[call][0], asked[call][1] };
    likhmout_answer answer = { 0, { 0, 0 }, 0, 0 };
    likhmout_run_counts ran = likhmout_run(
        &now.record, WORDS, calls, LIKHMOUT_CALL_WORDS, AREAS, (uint64_t *)(void *)&answer, LIKHMOUT_ANSWER_WORDS, HELD);
    expect("run: made", ran.made, 1);
    expect("run: end", ran.end, LIKHMOUT_RUN_DONE);
    return answer;
}

/* The seven bytes after `sorted` hold nothing. */
static int is_unchanged(void)
{
    const size_t lists = offsetof(lent, record.general_free);
    return now.record.sorted == before.record.sorted
        && memcmp((const char *)&now + lists, (const char *)&before + lists, sizeof now - lists) == 0;
}

/* What a call changed is put back, so that the next one has the same record. */
static void expect_refused(const char *how, uint64_t call, likhmout_answer answer)
{
    const int unchanged = is_unchanged();
    if (answer.number == LIKHMOUT_BROKEN_RULES && answer.range.start == 1 && answer.range.end == 0 && answer.frame == 0
        && answer.count == 0 && unchanged)
        return;
    if (faults++ < TOLD)
        printf("flag %zu with %u: call %" PRIu64 "%s: number %" PRIu64 "%s\n", tried, byte, call, how, answer.number,
            unchanged ? "" : ", and something changed");
    now = before;
}

/* Where it isn't, what a call would do is open, and none is made. */
static int is_refused_by_check(void)
{
    const int refused = expect("check", likhmout_check(&now.record, WORDS), LIKHMOUT_BROKEN_RULES);
    return expect("check: whether anything changed", !is_unchanged(), 0) && refused;
}

/* Each flag with each byte that is none, in the form that the record has. */
static void try_flags(void)
{
    const likhmout_frame_allocator kept = now.record;
    for (tried = 0; tried < FLAGS; tried++)
        for (byte = 2; byte <= UINT8_MAX; byte++) {
            now.record = kept;
            *flag(&now.record, tried) = (uint8_t)byte;
            before = now;
            if (!is_refused_by_check())
                continue;
            for (uint64_t call = 0; call < CALLS; call++) {
                expect_refused("", call, ask(call));
                expect_refused(" in a run", call, run(call));
            }
        }
    now.record = kept;
}

int main(void)
{
    for (size_t i = 0; i < LIKHMOUT_WORKSPACE_WORDS; i++)
        now.words[i] = MARK;
    for (size_t i = 0; i < LIKHMOUT_HELD_WORDS; i++)
        now.held[i] = MARK;
    now.record = likhmout_fresh();
    expect("boot", ask(LIKHMOUT_CALL_INIT).number, LIKHMOUT_ACCEPTED);
    expect("grant", likhmout_allocate_frames(&now.record, WORDS, 100).range.start, 100);
    try_flags();
    expect("sort", ask(LIKHMOUT_CALL_SORT).number, LIKHMOUT_ACCEPTED);
    try_flags();
    printf("flags: %s\n", faults == 0 ? "ok" : "not refused");
    return faults == 0 ? 0 : 1;
}
