/* A device with as many memory types as there can be, all of them mapped, that makes each object and maps none, or the
 * last one alone: no request asks more, and each question is asked once. What was made in vain is the caller's to free,
 * and the library holds none of it. At last requests are refused while memory is free, and asked once more. */
#include "common.h"

#define MOST_TYPES 32

/* How many mappings the device refuses before it grants one. */
static size_t refused_first;

/* The device's objects: those that are there, and how many mappings were asked for. */
static size_t objects, mappings;

/* As a caller's device does: an object whose mapping is refused goes back at once. */
static uint32_t makes_and_hardly_maps(const wt_question *question) {
    if (question->kind == WT_ALLOCATE) {
        objects++;
        return WT_GRANTED;
    }
    if (mappings++ >= refused_first) return WT_GRANTED;
    objects--;
    return WT_NO_DEVICE_MEMORY;
}

static void open_many_types(wt_allocator *a) {
    wt_memory_type types[MOST_TYPES];
    wt_limits limits = device_limits(64, 0);
    for (size_t i = 0; i < MOST_TYPES; i++) types[i] = memory_types[COHERENT_TYPE];
    expect(wt_open(a, types, MOST_TYPES, heap_sizes, HEAPS, &limits, &small_config) == WT_OK, "it was not opened");
}

static void check_each_asked_once(const questions *talk) {
    expect(talk->len == 2 * MOST_TYPES && talk->len == WT_MAX_QUESTIONS, "another number of questions is asked");
    expect(mappings == MOST_TYPES, "a memory type is left out");
    for (size_t i = 0; i < talk->len; i++) {
        const wt_question *one = &talk->asked[i];
        expect(one->kind == (i % 2 ? WT_MAP_MADE : WT_ALLOCATE), "an object is not asked for and then mapped");
        expect(one->kind == WT_MAP_MADE || one->memory_type == i / 2, "memory types that serve alike are not in order");
    }
}

/* The status of a request to the device that refuses so many mappings, after a look at what was asked for it. */
static uint32_t ask(wt_allocator *a, size_t refused, wt_block *block) {
    const wt_request request = REQUEST(100, 0, WT_USAGE_UPLOAD | WT_USAGE_TRANSIENT, UINT32_MAX, WT_SHARED);
    questions talk;
    uint32_t status;
    refused_first = refused;
    objects = mappings = 0;
    status = allocate(a, &request, makes_and_hardly_maps, &talk, block);
    check_each_asked_once(&talk);
    return status;
}

static void check_holds_none(wt_allocator *a) {
    wt_counts counts = counts_of(a);
    expect(counts.blocks == 0 && counts.held == 0 && counts.unread == 0 && counts.remaining == 64, "something is held");
    expect(heap_counts_of(a, HOST_HEAP).used == 0, "a heap pays for what is not held");
}

static void check_all_refused(wt_allocator *a) {
    wt_block block;
    current_case = "each mapping refused";
    expect(ask(a, MOST_TYPES, &block) == WT_OUT_OF_DEVICE_MEMORY, "it is not refused though no object was mapped");
    expect(objects == 0, "an object is there that nothing asked for");
    check_holds_none(a);
}

static void check_last_granted(wt_allocator *a) {
    wt_block block;
    uint64_t name;
    size_t count;
    current_case = "the last mapping granted";
    expect(ask(a, MOST_TYPES - 1, &block) == WT_OK, "it is refused though an object was mapped");
    expect(block.memory_type == MOST_TYPES - 1 && block.fresh == 1 && objects == 1, "the block is of another object");
    expect(counts_of(a).held == 1 && counts_of(a).remaining == 63, "other objects are held");
    expect(wt_free(a, block.key) == WT_OK && wt_cleanup(a) == WT_OK, "it is not taken back");
    expect(wt_gone(a, &name, 1, &count) == WT_OK && count == 1 && name == block.object, "another object goes");
    check_holds_none(a);
}

/* ---- Memory is free, and no chunk is granted: the request is asked once more, as wallthyme.h says. ---- */

/* Two heaps, of which the second one is small: what is a chunk's there is an object of its own in the first. */
enum { LARGE_TYPE, SMALL_TYPE };

static uint32_t grants_up_to_a_mebibyte(const wt_question *question) {
    return question->size > MEBIBYTE ? WT_NO_DEVICE_MEMORY : WT_GRANTED;
}

static uint32_t grants_nothing_small(const wt_question *question) {
    return question->memory_type == SMALL_TYPE ? WT_NO_DEVICE_MEMORY : grants_up_to_a_mebibyte(question);
}

static void open_roomily(wt_allocator *a) {
    const wt_memory_type types[] = { { 0, WT_DEVICE_LOCAL }, { 1, WT_DEVICE_LOCAL } };
    const uint64_t heaps[] = { 1024 * MEBIBYTE, 2 * MEBIBYTE };
    const wt_limits limits = device_limits(64, 0);
    const wt_config config = { 8 * MEBIBYTE, MEBIBYTE, 8 * MEBIBYTE, 2 * MEBIBYTE,
                               8 * MEBIBYTE, 1024,     2 * MEBIBYTE, WT_FIT };
    expect(wt_open(a, types, LENGTH(types), heaps, LENGTH(heaps), &limits, &config) == WT_OK, "it was not opened");
}

/* By the lines of wallthyme.h. */
static uint32_t ask_once_more(wt_allocator *a, wt_request request, answering *answer, questions *talk,
                              wt_block *block) {
    const wt_question *asked = talk->asked;
    const size_t n = talk->len;
    for (const wt_question *q = asked; q < asked + n; q++)
        if (q->flags & WT_ALLOCATE_OWN && q->answer != WT_GRANTED) request.memory_types &= ~(1u << q->memory_type);
    request.dedicated = WT_REQUIRED;
    return allocate(a, &request, answer, talk, block);
}

static void check_once_more(const char *name, uint64_t size, uint32_t types, uint64_t limit, answering *answer,
                            size_t asked_first) {
    const wt_request request = REQUEST(size, 0, 0, types, WT_SHARED);
    wt_allocator a = { 0, NULL };
    questions talk;
    wt_block block;
    uint64_t gone;
    size_t count;
    current_case = name;
    open_roomily(&a);
    expect(wt_set_heap_limit(&a, 0, limit) == WT_OK, "no limit is set");
    expect(allocate(&a, &request, answer, &talk, &block) == WT_OUT_OF_DEVICE_MEMORY, "it is granted");
    expect(talk.len == asked_first, "other questions are asked first");
    expect(ask_once_more(&a, request, answer, &talk, &block) == WT_OK, "it is refused though memory is free");
    expect(talk.len == 1 && talk.asked[0].memory_type == LARGE_TYPE && block.size == size, "more is asked");
    expect(wt_free(&a, block.key) == WT_OK && wt_gone(&a, &gone, 1, &count) == WT_OK && count == 1, "it does not go");
    expect(wt_close(&a) == WT_OK, "it is not closed");
}

static void check_all_once_more(void) {
    const uint32_t large = 1u << LARGE_TYPE, both = large | 1u << SMALL_TYPE;
    check_once_more("a limit of 1 MiB", 4096, large, MEBIBYTE, grants, 0);
    check_once_more("objects up to 1 MiB", 4096, large, UINT64_MAX, grants_up_to_a_mebibyte, 1);
    check_once_more("a type refused alone", 100 * KIBIBYTE, both, UINT64_MAX, grants_nothing_small, 2);
}

int main(void) {
    wt_allocator allocator = { 0, NULL };
    open_many_types(&allocator);
    check_all_refused(&allocator);
    check_last_granted(&allocator);
    expect(wt_close(&allocator) == WT_OK, "it is not closed");
    check_all_once_more();
    printf("questions: %d in one call, all refused and all but the last; requests asked again\n", WT_MAX_QUESTIONS);
    return 0;
}
