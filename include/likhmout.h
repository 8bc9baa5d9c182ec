/* Likhmout: the physical frame allocator of Theseus, proved, for C and C++ programs on x86-64.
 *
 * `scripts/build exports` writes target/staticlib/libexports.a, which has every function below but the inline ones. It needs memcpy and
 * memset, and nothing else; it is compiled for the System V ABI, with SSE2 registers and a red zone. Its functions are those of
 * crates/exports/src, where the contract of each says what it is proved to do. "Document 01" is the specification.
 *
 * A frame is 4,096 bytes of physical memory, named by its number. The record (likhmout_frame_allocator) and a workspace of at least
 * 4,096 words are the allocator; the program owns both, and hands both to every call. Nothing else is kept between calls: two
 * records with a workspace each are two allocators.
 *
 * Every call ends, on any record, any numbers and any words. A refusal returns its number, the range [1,0], and 0 for frame and count
 * except in 15; record, workspace and buffers keep every value. Any byte may stand at a flag of a record, `sorted` and `used`: 1 is set,
 * 0 is not, and another value is refused with 11, as any other number that breaks the list rules. What C must see to, since no proof
 * covers C:
 *
 *   - Pointers are valid, aligned and not null, also where the length beside them is 0. A length counts 64-bit words.
 *   - What one call is lent doesn't overlap, unless the call only reads it.
 *   - No other call has the same record or the same workspace at the same time: a lock is the program's.
 *   - A record begins as likhmout_fresh makes it. One of zeros is refused with 11, since an unused slot holds [1,0].
 *   - There is stack enough. Measured (bench/stack), not proved: up to 12 KB for a run, 9 KB for a boot, 5 KB for any other call.
 */
#ifndef LIKHMOUT_H
#define LIKHMOUT_H

#include <stddef.h>
#include <stdint.h>

#ifdef __cplusplus
extern "C" {
#endif

/* ---- document 01's bounds */

#define LIKHMOUT_FRAME_SIZE UINT64_C(4096)
/* "Frames run from 0 to 268435455 (2^28 - 1) and addresses are below 2^40" */
#define LIKHMOUT_TOP_FRAME UINT64_C(268435455)
#define LIKHMOUT_ADDRESS_LIMIT (UINT64_C(1) << 40)

/* So many words at least are a workspace, and a held list's buffer. */
#define LIKHMOUT_WORKSPACE_WORDS 4096
#define LIKHMOUT_HELD_WORDS 2048

/* So many slots has a list in early form, and so many entries at most in sorted form. */
#define LIKHMOUT_SLOTS 32
#define LIKHMOUT_ENTRIES 512

/* So many words are an area, a call of a run, and an answer of a run. */
#define LIKHMOUT_AREA_WORDS 3
#define LIKHMOUT_CALL_WORDS 3
#define LIKHMOUT_ANSWER_WORDS 5

/* ---- document 01's numbers */

typedef enum likhmout_number {
    LIKHMOUT_ACCEPTED = 0,
    /* because of the input */
    LIKHMOUT_ZERO_FRAMES = 1,
    LIKHMOUT_OUT_OF_BOUNDS = 2,       /* a frame or end above the top; an address of 2^40 or more; more than 2^40 bytes */
    LIKHMOUT_LENT_TOO_SHORT = 3,      /* workspace below 4,096 words, or held-list buffer below 2,048 */
    LIKHMOUT_EMPTY_RESERVED_AREA = 4,
    LIKHMOUT_MANY_RESERVED_AREAS = 5, /* more than 32 */
    LIKHMOUT_PIECES_MEET = 6,         /* boot pieces meet one another or a reserved area */
    LIKHMOUT_MANY_PIECES = 7,         /* more than 32 general ones */
    /* because of the state */
    LIKHMOUT_ALREADY_BOOTED = 10,     /* boot, and any list is not empty */
    LIKHMOUT_BROKEN_RULES = 11,       /* the record and its workspace break the list rules */
    LIKHMOUT_NOT_FOUND = 12,          /* address not found */
    LIKHMOUT_NOT_FREE = 13,           /* address not free */
    LIKHMOUT_NO_CHUNK = 14,           /* no general chunk has the count */
    LIKHMOUT_MISSING = 15,            /* general-only request: from `frame` on, `count` frames are missing */
    LIKHMOUT_MEETS_RESERVED = 16,     /* growth meets a reserved region */
    LIKHMOUT_TWO_CHUNKS_SHORT = 17,   /* two chunks are not enough */
    LIKHMOUT_LIST_FULL = 18,          /* after the call a list would hold more than 32 (early) or 512 (sorted) entries; early growth also
                                         when either reserved list has 32 already */
    LIKHMOUT_NOT_HELD = 19            /* a returned frame is free, or the range isn't wholly in regions of one kind */
} likhmout_number;

/* A kind is a word: 0 is general, any other number reserved. */
typedef enum likhmout_kind { LIKHMOUT_GENERAL = 0, LIKHMOUT_RESERVED = 1 } likhmout_kind;

/* ---- what is handed over, and how it lies in memory */

/* The frames from start to end, both included; none where start is above end. */
typedef struct likhmout_frame_range {
    uint64_t start;
    uint64_t end;
} likhmout_frame_range;

/* What every call answers. An accepted call has number 0, the granted range or else [1,0], frame 0, and as count the free total, the
 * number of held runs, the kind (0 general, 1 reserved), or else 0. */
typedef struct likhmout_answer {
    uint64_t number; /* likhmout_number */
    likhmout_frame_range range;
    uint64_t frame;
    uint64_t count;
} likhmout_answer;

/* A list in early form. A slot that is not used holds [1,0]. */
typedef struct likhmout_early_list {
    uint64_t starts[LIKHMOUT_SLOTS];
    uint64_t ends[LIKHMOUT_SLOTS];
    uint8_t used[LIKHMOUT_SLOTS]; /* 0 or 1 */
} likhmout_early_list;

/* The record. In sorted form the lists are four tables of the workspace, in this order, 1,024 words to a table and two to an entry,
 * and only their lengths stand here. */
typedef struct likhmout_frame_allocator {
    uint8_t sorted; /* 0 or 1 */
    likhmout_early_list general_free;
    likhmout_early_list reserved_free;
    likhmout_early_list general_regions;
    likhmout_early_list reserved_regions;
    uint64_t general_free_len;
    uint64_t reserved_free_len;
    uint64_t general_regions_len;
    uint64_t reserved_regions_len;
} likhmout_frame_allocator;

/* An area of a boot map: its first and last frame, or its address and size in bytes. */
typedef struct likhmout_area {
    uint64_t start;
    uint64_t end;
    uint64_t kind; /* likhmout_kind */
} likhmout_area;

typedef struct likhmout_byte_area {
    uint64_t address;
    uint64_t bytes;
    uint64_t kind; /* likhmout_kind */
} likhmout_byte_area;

/* What a run hands back: how many calls were made, and why it ended. */
typedef struct likhmout_run_counts {
    uint64_t made;
    uint64_t end; /* likhmout_run_end */
} likhmout_run_counts;

typedef enum likhmout_run_end {
    LIKHMOUT_RUN_DONE = 0,    /* every call was made */
    LIKHMOUT_RUN_DAMAGED = 1, /* the next call is damaged */
    LIKHMOUT_RUN_NO_ROOM = 2  /* the answers' buffer has no room for the next call */
} likhmout_run_end;

#if defined(__cplusplus)
#define LIKHMOUT_ASSERT(name, fact) static_assert(fact, #name)
#elif defined(__STDC_VERSION__) && __STDC_VERSION__ >= 201112L
#define LIKHMOUT_ASSERT(name, fact) _Static_assert(fact, #name)
#else
#define LIKHMOUT_ASSERT(name, fact) typedef char likhmout_assert_##name[(fact) ? 1 : -1]
#endif

LIKHMOUT_ASSERT(lengths_are_words, sizeof(size_t) == 8);
LIKHMOUT_ASSERT(range_size, sizeof(likhmout_frame_range) == 16);
LIKHMOUT_ASSERT(range_end, offsetof(likhmout_frame_range, end) == 8);
LIKHMOUT_ASSERT(answer_size, sizeof(likhmout_answer) == 40);
LIKHMOUT_ASSERT(answer_range, offsetof(likhmout_answer, range) == 8);
LIKHMOUT_ASSERT(answer_frame, offsetof(likhmout_answer, frame) == 24);
LIKHMOUT_ASSERT(answer_count, offsetof(likhmout_answer, count) == 32);
LIKHMOUT_ASSERT(list_size, sizeof(likhmout_early_list) == 544);
LIKHMOUT_ASSERT(list_ends, offsetof(likhmout_early_list, ends) == 256);
LIKHMOUT_ASSERT(list_used, offsetof(likhmout_early_list, used) == 512);
LIKHMOUT_ASSERT(record_size, sizeof(likhmout_frame_allocator) == 2216);
LIKHMOUT_ASSERT(record_general_free, offsetof(likhmout_frame_allocator, general_free) == 8);
LIKHMOUT_ASSERT(record_reserved_free, offsetof(likhmout_frame_allocator, reserved_free) == 552);
LIKHMOUT_ASSERT(record_general_regions, offsetof(likhmout_frame_allocator, general_regions) == 1096);
LIKHMOUT_ASSERT(record_reserved_regions, offsetof(likhmout_frame_allocator, reserved_regions) == 1640);
LIKHMOUT_ASSERT(record_general_free_len, offsetof(likhmout_frame_allocator, general_free_len) == 2184);
LIKHMOUT_ASSERT(record_reserved_free_len, offsetof(likhmout_frame_allocator, reserved_free_len) == 2192);
LIKHMOUT_ASSERT(record_general_regions_len, offsetof(likhmout_frame_allocator, general_regions_len) == 2200);
LIKHMOUT_ASSERT(record_reserved_regions_len, offsetof(likhmout_frame_allocator, reserved_regions_len) == 2208);
LIKHMOUT_ASSERT(area_size, sizeof(likhmout_area) == 8 * LIKHMOUT_AREA_WORDS);
LIKHMOUT_ASSERT(area_kind, offsetof(likhmout_area, kind) == 16);
LIKHMOUT_ASSERT(byte_area_size, sizeof(likhmout_byte_area) == 8 * LIKHMOUT_AREA_WORDS);
LIKHMOUT_ASSERT(byte_area_kind, offsetof(likhmout_byte_area, kind) == 16);
LIKHMOUT_ASSERT(run_counts_size, sizeof(likhmout_run_counts) == 16);
LIKHMOUT_ASSERT(run_counts_end, offsetof(likhmout_run_counts, end) == 8);

/* ---- the record */

/* A record in early form with every slot unused. */
likhmout_frame_allocator likhmout_fresh(void);

/* The test whose number a call of the allocator answers before any other, but for the length of the held list's buffer: 0, 3 or 11. Also
 * for a record that comes from elsewhere, as from a chip that kept it. */
uint64_t likhmout_check(const likhmout_frame_allocator *a, const uint64_t *words, size_t words_len);

/* ---- boot and sort */

/* Boots from areas as first frame, last frame and kind, three words each; one or two words after the last whole area are not read. The
 * workspace is read only in sorted form, and never written.
 * Refused: 3, 11, 10, 5, 4, 2, 7, 6, in this order. */
likhmout_answer likhmout_init(
    likhmout_frame_allocator *a, const uint64_t *areas, size_t areas_len, const uint64_t *words,
    size_t words_len);

/* The same from areas as address, size in bytes and kind, each of which becomes the frames it touches. */
likhmout_answer likhmout_init_from_bytes(
    likhmout_frame_allocator *a, const uint64_t *areas, size_t areas_len, const uint64_t *words,
    size_t words_len);

/* The same two from areas as structs, so many of them. */
static inline likhmout_answer likhmout_init_areas(
    likhmout_frame_allocator *a, const likhmout_area *areas, size_t num_areas, const uint64_t *words,
    size_t words_len)
{
    return likhmout_init(a, (const uint64_t *)(const void *)areas, LIKHMOUT_AREA_WORDS * num_areas, words, words_len);
}

static inline likhmout_answer likhmout_init_byte_areas(
    likhmout_frame_allocator *a, const likhmout_byte_area *areas, size_t num_areas, const uint64_t *words,
    size_t words_len)
{
    return likhmout_init_from_bytes(a, (const uint64_t *)(const void *)areas, LIKHMOUT_AREA_WORDS * num_areas, words, words_len);
}

/* From early to sorted form: it writes 4,096 words, and from then on the lists are there. In sorted form it changes nothing.
 * Refused: 3, 11. */
likhmout_answer likhmout_convert_frame_allocator_to_heap_based(
    likhmout_frame_allocator *a, uint64_t *words, size_t words_len);

/* ---- requests: the granted frames are the answer's range */

/* So many general frames, wherever they are. Refused: 3, 11, 1, 14. */
likhmout_answer likhmout_allocate_frames(
    likhmout_frame_allocator *a, uint64_t *words, size_t words_len, uint64_t num_frames);

/* General frames for so many bytes. Refused: 3, 11, 2, 1, 14. */
likhmout_answer likhmout_allocate_frames_by_bytes(
    likhmout_frame_allocator *a, uint64_t *words, size_t words_len, uint64_t num_bytes);

/* The frames from this one on. Where no list knows them they become a reserved region, for good.
 * Refused: 3, 11, 1, 2, then 12, 13, 16, 17, and 18 last. */
likhmout_answer likhmout_allocate_frames_at(
    likhmout_frame_allocator *a, uint64_t *words, size_t words_len, uint64_t frame, uint64_t num_frames);

/* The frames of so many bytes from this address on. Refused: 3, 11, 2 for the limits of address and bytes, then as above. */
likhmout_answer likhmout_allocate_frames_by_bytes_at(
    likhmout_frame_allocator *a, uint64_t *words, size_t words_len, uint64_t address, uint64_t num_bytes);

/* The frames from this one on, from the general list alone; it never grows the reserved side.
 * Refused: 3, 11, 1, 2, then 12, 15, 17, and 18 last. */
likhmout_answer likhmout_allocate_general_frames_at(
    likhmout_frame_allocator *a, uint64_t *words, size_t words_len, uint64_t frame, uint64_t num_frames);

/* ---- return: the frames from start to end are free again. An empty range is accepted and changes nothing.
 * Refused: 3, 11, 2, 19, 18. */
likhmout_answer likhmout_return_frames(
    likhmout_frame_allocator *a, uint64_t *words, size_t words_len, uint64_t start, uint64_t end);

/* ---- questions: they change nothing but the held list's buffer */

/* count: 1 where any frame of the range is in a reserved region, else 0. Refused: 3, 11, 2. */
likhmout_answer likhmout_kind_of_range(
    const likhmout_frame_allocator *a, const uint64_t *words, size_t words_len, uint64_t start, uint64_t end);

/* count: how many frames of the kind are free. Refused: 3, 11. */
likhmout_answer likhmout_free_total(
    const likhmout_frame_allocator *a, const uint64_t *words, size_t words_len, uint64_t kind);

/* count: how many maximal runs of general frames are not free. They are at the beginning of the buffer, two words each, first and last
 * frame, in ascending order of first frame; the words after them keep their values. Refused: 3, 11. */
likhmout_answer likhmout_held_list(
    const likhmout_frame_allocator *a, const uint64_t *words, size_t words_len, uint64_t *buffer,
    size_t buffer_len);

/* ---- a list of calls, run: docs/RUN.md. Each call is three words: what it is, and two numbers. Its answer goes to the next five words
 * of `answers`: number, start, end, frame, count. A boot names its areas by their places in `areas`. */

typedef enum likhmout_call {
    LIKHMOUT_CALL_INIT = 0,             /* first area, how many */
    LIKHMOUT_CALL_INIT_FROM_BYTES = 1,  /* first area, how many */
    LIKHMOUT_CALL_SORT = 2,
    LIKHMOUT_CALL_FRAMES = 3,           /* frames */
    LIKHMOUT_CALL_BYTES = 4,            /* bytes */
    LIKHMOUT_CALL_FRAMES_AT = 5,        /* first frame, frames */
    LIKHMOUT_CALL_BYTES_AT = 6,         /* address, bytes */
    LIKHMOUT_CALL_GENERAL_FRAMES_AT = 7, /* first frame, frames */
    LIKHMOUT_CALL_RETURN = 8,           /* first frame, last frame */
    LIKHMOUT_CALL_KIND_OF_RANGE = 9,    /* first frame, last frame */
    LIKHMOUT_CALL_FREE_TOTAL = 10,      /* kind */
    LIKHMOUT_CALL_HELD_LIST = 11        /* written to `held` as likhmout_held_list writes it */
} likhmout_call;

likhmout_run_counts likhmout_run(
    likhmout_frame_allocator *a, uint64_t *words, size_t words_len, const uint64_t *calls, size_t calls_len,
    const uint64_t *areas, size_t areas_len, uint64_t *answers, size_t answers_len, uint64_t *held,
    size_t held_len);

/* ---- ranges of frames. Each call returns 0, or 2 where a frame is above the top, an address is 2^40 or more, there are more than 2^40
 * bytes, or the answer would end above the top. It writes all of `out`, refused or not: found, which is 1 for yes and 0 for no and for
 * 2, then the value. A no shows [1,0] for a range and 0 for a number. */

/* out: found, size */
uint64_t likhmout_size_in_frames(uint64_t start, uint64_t end, uint64_t out[2]);
/* out: found */
uint64_t likhmout_contains_range(
    uint64_t start, uint64_t end, uint64_t other_start, uint64_t other_end, uint64_t out[1]);
/* out: found, start, end */
uint64_t likhmout_overlap(uint64_t start, uint64_t end, uint64_t other_start, uint64_t other_end, uint64_t out[3]);
/* out: found, start, end */
uint64_t likhmout_to_extended(uint64_t start, uint64_t end, uint64_t frame, uint64_t out[3]);
/* out: found, start, end */
uint64_t likhmout_from_phys_addr(uint64_t address, uint64_t bytes, uint64_t out[3]);
/* out: found, offset */
uint64_t likhmout_offset_of_address(uint64_t start, uint64_t end, uint64_t address, uint64_t out[2]);
/* out: found, address */
uint64_t likhmout_address_at_offset(uint64_t start, uint64_t end, uint64_t offset, uint64_t out[2]);
/* out: found, start, end; a no where a side is empty or they don't touch */
uint64_t likhmout_merge(uint64_t start, uint64_t end, uint64_t other_start, uint64_t other_end, uint64_t out[3]);
/* out: found, then before, middle and after, each as start, end; an absent part is [1,0] */
uint64_t likhmout_split_range(
    uint64_t start, uint64_t end, uint64_t extract_start, uint64_t extract_end, uint64_t out[7]);
/* out: found, then first and second half, each as start, end */
uint64_t likhmout_split_at(uint64_t start, uint64_t end, uint64_t frame, uint64_t out[5]);

#ifdef __cplusplus
}
#endif

#endif
