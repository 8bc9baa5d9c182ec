/* One board with two users: a page builder that asks by count and doesn't care where, and a head driver that names an address and wants
 * exactly that, also where the boot map lists nothing. Each line shows what was asked and what the allocator answered. */
#include "likhmout.h"

#include <inttypes.h>
#include <stdio.h>

/* The board: 1 MiB of memory, of which the boot loader keeps 16 KiB. The head's buffer lies where the map lists nothing. */
static const likhmout_byte_area memory_map[] = {
    { 0x00000000, 0x100000, LIKHMOUT_GENERAL },
    { 0x00010000, 0x4000, LIKHMOUT_RESERVED },
};
#define MAP_AREAS (sizeof memory_map / sizeof memory_map[0])
#define HEAD_BUFFER UINT64_C(0xfe000000)

static likhmout_frame_allocator frames;
static uint64_t workspace[LIKHMOUT_WORKSPACE_WORDS];
#define WORDS workspace, LIKHMOUT_WORKSPACE_WORDS

static void show(const char *asked, likhmout_answer answer)
{
    printf("%-44s ", asked);
    if (answer.number == LIKHMOUT_MISSING)
        printf("refused %" PRIu64 ": %" PRIu64 " missing from frame %" PRIu64 " on\n", answer.number, answer.count, answer.frame);
    else if (answer.number != LIKHMOUT_ACCEPTED)
        printf("refused %" PRIu64 "\n", answer.number);
    else if (answer.range.start <= answer.range.end)
        printf("granted frames %" PRIu64 " to %" PRIu64 "\n", answer.range.start, answer.range.end);
    else
        printf("done\n");
}

/* A question's answer is its count. */
static void show_count(const char *asked, likhmout_answer answer)
{
    if (answer.number == LIKHMOUT_ACCEPTED)
        printf("%-44s %" PRIu64 "\n", asked, answer.count);
    else
        show(asked, answer);
}

static likhmout_answer pages(uint64_t count)
{
    return likhmout_allocate_frames(&frames, WORDS, count);
}

static likhmout_answer head(uint64_t address, uint64_t bytes)
{
    return likhmout_allocate_frames_by_bytes_at(&frames, WORDS, address, bytes);
}

static likhmout_answer give_back(likhmout_frame_range range)
{
    return likhmout_return_frames(&frames, WORDS, range.start, range.end);
}

static void boot(void)
{
    frames = likhmout_fresh();
    show("boot from the memory map", likhmout_init_byte_areas(&frames, memory_map, MAP_AREAS, WORDS));
    show("boot again", likhmout_init_byte_areas(&frames, memory_map, MAP_AREAS, WORDS));
    show("page builder: 10 frames, early", pages(10));
    show("sort", likhmout_convert_frame_allocator_to_heap_based(&frames, WORDS));
}

static void print_labels(void)
{
    likhmout_answer page = pages(16);
    show("page builder: 16 frames", page);
    likhmout_answer buffer = head(HEAD_BUFFER, 8192);
    show("head driver: 8,192 bytes at its buffer", buffer);
    show("head driver: the same again", head(HEAD_BUFFER, 8192));
    show("head driver: a frame of the page", head(page.range.start * LIKHMOUT_FRAME_SIZE, 1));
    show("head driver: past the boot loader's frames", head(0x12000, 0x4000));
    show("head driver: an address of 2^40", head(LIKHMOUT_ADDRESS_LIMIT, 1));
    show("page builder: 1,000 frames", pages(1000));
    show("page builder: no frame", pages(0));
    show("general frames only: 10 from frame 250 on", likhmout_allocate_general_frames_at(&frames, WORDS, 250, 10));
    show("page builder: the page back", give_back(page.range));
    show("page builder: the page back once more", give_back(page.range));
    show("head driver: its buffer back", give_back(buffer.range));
}

/* A damaged record and a short workspace are refused, and nothing changes. */
static void damage(void)
{
    frames.general_free_len += 1;
    show("page builder: 1 frame, a length too large", pages(1));
    frames.general_free_len -= 1;
    frames.sorted = 2;
    show("page builder: 1 frame, a flag that is 2", pages(1));
    frames.sorted = 1;
    show("page builder: 1 frame, a word too few", likhmout_allocate_frames(&frames, workspace, LIKHMOUT_WORKSPACE_WORDS - 1, 1));
    show("page builder: 1 frame, all put right", pages(1));
}

static void take_stock(void)
{
    static uint64_t held[LIKHMOUT_HELD_WORDS];
    const uint64_t head_frame = HEAD_BUFFER / LIKHMOUT_FRAME_SIZE;
    printf("%-44s %" PRIu64 "\n", "test of the rules", likhmout_check(&frames, WORDS));
    show_count("general frames free", likhmout_free_total(&frames, WORDS, LIKHMOUT_GENERAL));
    show_count("reserved frames free", likhmout_free_total(&frames, WORDS, LIKHMOUT_RESERVED));
    show_count("kind of the head's buffer", likhmout_kind_of_range(&frames, WORDS, head_frame, head_frame + 1));
    show_count("held runs in a short buffer", likhmout_held_list(&frames, WORDS, held, LIKHMOUT_HELD_WORDS - 1));
    likhmout_answer runs = likhmout_held_list(&frames, WORDS, held, LIKHMOUT_HELD_WORDS);
    show_count("held runs", runs);
    for (uint64_t i = 0; i < runs.count; i++)
        printf("  frames %" PRIu64 " to %" PRIu64 "\n", held[2 * i], held[2 * i + 1]);
}

int main(void)
{
    boot();
    print_labels();
    damage();
    take_stock();
    return 0;
}
