/* Requests that ask for nothing, drawn. Two allocators make the same calls over a device that refuses some questions,
 * and are alike. One is then asked with WT_HELD_ONLY, and the other one memory type at a time, without the flag and
 * without an answer. The first type in rank that serves so has to be the one that served there, by the same block.
 * Where the first would ask, no type of the second serves so. */
#include "common.h"

enum { BLOCKS = 120, STEPS = 4000, SEEDS = 8 };

static const uint64_t granularities[] = { 1, 256, 4096, 65536 };

static wt_allocator held, twin;
static wt_block blocks[BLOCKS]; /* of key 0 where there is none */
static uint64_t percent;        /* how many of a hundred questions are refused */

/* How often such a request was served; was served by a memory type behind one that would ask; was served with nothing
 * remaining; would ask; was refused. */
static unsigned long served, behind, spent, would, refused;

static uint32_t answer(const wt_question *question) {
    (void)question;
    return draw(100) < percent ? WT_NO_DEVICE_MEMORY + (uint32_t)draw(3) : WT_GRANTED;
}

static wt_request draw_request(void) {
    wt_request request = WT_REQUEST_INIT;
    request.size = draw(60) ? 1 + (draw(8) ? draw(3000) : draw(100 * KIBIBYTE)) : 12 * MEBIBYTE + 1;
    request.align_mask = ((uint64_t)1 << draw(10)) - 1;
    request.usage = draw(2) ? WT_USAGE_TRANSIENT | (uint32_t)draw(16) : (uint32_t)draw(16);
    request.memory_types = draw(3) ? UINT32_MAX : (uint32_t)draw(1 << TYPES);
    request.dedicated = draw(10) ? WT_SHARED : (uint32_t)draw(3);
    request.flags = draw(2) ? WT_OPTIMAL : 0;
    request.user = draw(UINT64_MAX);
    return request;
}

static void are_alike(void) {
    wt_counts one = counts_of(&held), other = counts_of(&twin);
    expect(one.blocks == other.blocks && one.unread == other.unread && one.held == other.held
               && one.remaining == other.remaining,
           "other numbers are told");
    expect(free_space(&held) == free_space(&twin), "other ranges are free");
}

/* ---- The same calls of both ---- */

/* The twin is asked as often, with one answer more each time: names of objects that go back within a call are spent. */
static void take(wt_block *place) {
    wt_request request = draw_request();
    questions talk;
    wt_question question;
    wt_block other;
    uint32_t status = allocate(&held, &request, answer, &talk, place);
    for (size_t len = 0; len < talk.len; len++)
        expect(wt_alloc(&twin, &request, talk.asked, len, &other, &question) == WT_ASK, "nothing is asked");
    expect(wt_alloc(&twin, &request, talk.asked, talk.len, &other, &question) == status, "another status");
    if (status == WT_OK) expect(is_same_block(place, &other), "another block");
    else place->key = 0;
}

static void give_back(wt_block *place) {
    if (!place->key) return;
    expect(wt_free(&held, place->key) == WT_OK && wt_free(&twin, place->key) == WT_OK, "a block is not taken back");
    place->key = 0;
}

static void read_gone(wt_allocator *a) {
    uint64_t names[16];
    size_t count;
    do expect(wt_gone(a, names, LENGTH(names), &count) == WT_OK, "no names");
    while (count == LENGTH(names));
}

static void set_remaining(void) {
    uint32_t remaining = draw(2) ? 0 : (uint32_t)draw(100);
    expect(wt_set_remaining(&held, remaining) == WT_OK && wt_set_remaining(&twin, remaining) == WT_OK, "it is not set");
}

static void set_limit(void) {
    uint32_t heap = (uint32_t)draw(HEAPS);
    uint64_t limit = draw(2) ? UINT64_MAX : draw(heap_sizes[heap]);
    expect(wt_set_heap_limit(&held, heap, limit) == WT_OK && wt_set_heap_limit(&twin, heap, limit) == WT_OK,
           "no limit");
}

/* ---- A request that asks for nothing ---- */

/* What the twin answers that is asked for it of one memory type, without the flag and without an answer. */
static uint32_t ask_twin(wt_request request, uint32_t memory_type, wt_block *block) {
    wt_question question;
    request.memory_types = 1u << memory_type;
    return wt_alloc(&twin, &request, NULL, 0, block, &question);
}

/* The first candidate in rank that the twin serves so has to be that of the block. */
static void check_served(const wt_request *request, const wt_block *block, const uint32_t *types, size_t count) {
    wt_block other;
    size_t at = 0;
    expect(request->dedicated != WT_REQUIRED && block->fresh == 0, "an object is fresh, or has to be");
    expect(block->flags == request->flags && block->asked == request->size, "it is told otherwise than asked");
    while (at < count && ask_twin(*request, types[at], &other) != WT_OK) at++;
    expect(at < count && types[at] == block->memory_type, "another memory type is served");
    expect(is_same_block(block, &other), "another place serves");
    served++;
    behind += at > 0;
    spent += counts_of(&held).remaining == 0;
}

static void check_would_ask(const wt_request *request, const uint32_t *types, size_t count) {
    wt_block other;
    expect(count > 0, "no memory type would be asked");
    for (size_t at = 0; at < count; at++)
        expect(ask_twin(*request, types[at], &other) != WT_OK, "there is a place");
    would++;
}

static void check_refused(const wt_request *request, uint32_t status, size_t count) {
    if (request->size > 12 * MEBIBYTE) expect(status == WT_OUT_OF_DEVICE_MEMORY, "the size is over the limit");
    else expect(status == WT_NO_COMPATIBLE_MEMORY_TYPES && count == 0, "it is refused for no reason");
    refused++;
}

static void take_held(wt_block *place) {
    wt_request request = draw_request(), flagged = request;
    wt_question question;
    uint32_t types[TYPES], status;
    uint64_t before = free_space(&held);
    size_t count;
    expect(wt_candidates(&held, request.usage, request.memory_types, types, TYPES, &count) == WT_OK, "no candidates");
    flagged.flags |= WT_HELD_ONLY;
    status = wt_alloc(&held, &flagged, NULL, 0, place, &question);
    if (status == WT_OK) {
        check_served(&request, place, types, count);
        return;
    }
    place->key = 0;
    expect(free_space(&held) == before, "a refused request changed what is free");
    if (status == WT_WOULD_ASK) check_would_ask(&request, types, count);
    else check_refused(&request, status, count);
}

static void step(void) {
    wt_block *place = &blocks[draw(BLOCKS)];
    give_back(place);
    switch (draw(8)) {
    case 0: break;
    case 1: set_remaining(); break;
    case 2: set_limit(); break;
    case 3: case 4: take(place); break;
    default: take_held(place);
    }
    are_alike();
}

static void end(wt_allocator *a) {
    expect(wt_cleanup(a) == WT_OK, "no cleanup");
    read_gone(a);
    expect(wt_close(a) == WT_OK, "it was not closed");
}

static void run(uint64_t seed, uint64_t sharing) {
    wt_limits limits = device_limits(100, 0);
    limits.buffer_image_granularity = granularities[seed % LENGTH(granularities)];
    percent = seed % 3 * 20;
    seed_draws(seed);
    open_device(&held, &limits, sharing);
    open_device(&twin, &limits, sharing);
    for (current_step = 1; current_step <= STEPS; current_step++) step();
    for (size_t i = 0; i < BLOCKS; i++) give_back(&blocks[i]);
    end(&held);
    end(&twin);
}

static void run_all(uint64_t sharing, const char *name) {
    current_case = name;
    served = behind = spent = would = refused = 0;
    for (uint64_t seed = 1; seed <= SEEDS; seed++) run(seed, sharing);
    expect(behind > 0 && spent > 0 && would > 0 && refused > 0, "a case was never drawn");
    printf("held, %s: %lu served, %lu of them behind a memory type that would ask, %lu with nothing remaining;"
           " %lu would ask, %lu refused\n", name, served, behind, spent, would, refused);
}

int main(void) {
    run_all(WT_BUDDY, "buddy");
    run_all(WT_FIT, "fit");
    return 0;
}
