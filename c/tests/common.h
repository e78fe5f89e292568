/* What the tests share: failing, drawn numbers, the device that they play, the loops of calls that ask. */
#ifndef COMMON_H
#define COMMON_H

#include "wallthyme.h"

#include <stdio.h>
#include <stdlib.h>
#include <string.h>

#define LENGTH(array) (sizeof(array) / sizeof((array)[0]))

/* Where a test is: the name of its case, and the number of its step. */
static const char *current_case = "";
static unsigned current_step;

static inline void expect(int holds, const char *what) {
    if (!holds) {
        fprintf(stderr, "FAILED: %s%s%s (step %u)\n", current_case, *current_case ? ": " : "", what, current_step);
        exit(1);
    }
}

/* Drawn numbers: the same ones for the same seed everywhere. */
static uint64_t drawn_state = 1;

static inline void seed_draws(uint64_t seed) {
    drawn_state = seed * 0x9e3779b97f4a7c15u + 1;
}

/* A drawn number below the bound, which is at least 1. */
static inline uint64_t draw(uint64_t bound) {
    drawn_state ^= drawn_state << 13;
    drawn_state ^= drawn_state >> 7;
    drawn_state ^= drawn_state << 17;
    return (drawn_state >> 16) % bound;
}

/* The device: a heap of its own and one of the host, and memory of each kind that flushes tell apart. */
#define MEBIBYTE ((uint64_t)1 << 20)
#define KIBIBYTE ((uint64_t)1 << 10)
#define ATOM 64u

enum { LOCAL_TYPE, COHERENT_TYPE, CACHED_TYPE, LOCAL_VISIBLE_TYPE, TYPES };
enum { LOCAL_HEAP, HOST_HEAP, HEAPS };

static const wt_memory_type memory_types[TYPES] = {
    { LOCAL_HEAP, WT_DEVICE_LOCAL },
    { HOST_HEAP, WT_HOST_VISIBLE | WT_HOST_COHERENT },
    { HOST_HEAP, WT_HOST_VISIBLE | WT_HOST_CACHED },
    { LOCAL_HEAP, WT_DEVICE_LOCAL | WT_HOST_VISIBLE },
};
static const uint64_t heap_sizes[HEAPS] = { 16 * MEBIBYTE, 8 * MEBIBYTE };

static const wt_config small_config = {
    32 * KIBIBYTE, /* dedicated_threshold */
    1 * KIBIBYTE,  /* preferred_dedicated_threshold */
    64 * KIBIBYTE, /* transient_dedicated_threshold */
    8 * KIBIBYTE,  /* starting_free_list_chunk */
    64 * KIBIBYTE, /* final_free_list_chunk */
    16,            /* minimal_buddy_size */
    8 * KIBIBYTE,  /* initial_buddy_dedicated_size */
    WT_BUDDY,      /* sharing */
};

/* The same sizes, with the other way to share objects too. */
static inline wt_config small_config_with(uint64_t sharing) {
    wt_config config = small_config;
    config.sharing = sharing;
    return config;
}

/* How requests share objects, as a test's argument names it. */
static inline uint64_t sharing_named(const char *name) {
    expect(strcmp(name, "buddy") == 0 || strcmp(name, "fit") == 0, "a way to share objects is neither buddy nor fit");
    return strcmp(name, "fit") == 0 ? WT_FIT : WT_BUDDY;
}

/* A request that is linear and has no value of its own. */
#define REQUEST(size, align_mask, usage, types, dedicated) { size, align_mask, usage, types, dedicated, 0, 0 }

static inline wt_limits device_limits(uint32_t objects, uint32_t has_device_address) {
    wt_limits limits = { 0, ATOM, 0, 0, 0 };
    limits.max_memory_allocation_size = 12 * MEBIBYTE;
    limits.max_memory_allocation_count = objects;
    limits.buffer_device_address = has_device_address;
    return limits;
}

static inline int is_host_visible(uint32_t memory_type) {
    return (memory_types[memory_type].props & WT_HOST_VISIBLE) != 0;
}

static inline int is_non_coherent(uint32_t memory_type) {
    return (memory_types[memory_type].props & (WT_HOST_VISIBLE | WT_HOST_COHERENT)) == WT_HOST_VISIBLE;
}

static inline void open_heaps(wt_allocator *a, const wt_limits *limits, const uint64_t *sizes, uint64_t sharing) {
    const wt_config config = small_config_with(sharing);
    expect(wt_open(a, memory_types, TYPES, sizes, HEAPS, limits, &config) == WT_OK, "it was not opened");
}

static inline void open_device(wt_allocator *a, const wt_limits *limits, uint64_t sharing) {
    open_heaps(a, limits, heap_sizes, sharing);
}

/* How a device answers a question. */
typedef uint32_t answering(const wt_question *question);

static inline uint32_t grants(const wt_question *question) {
    (void)question;
    return WT_GRANTED;
}

/* What one call asked, and what was answered. There is room for one question too many, so that it is seen. */
typedef struct {
    wt_question asked[WT_MAX_QUESTIONS + 1];
    size_t len;
} questions;

static inline void answer_next(questions *so_far, answering *answer) {
    wt_question *next = &so_far->asked[so_far->len];
    expect(so_far->len < WT_MAX_QUESTIONS, "a call asks more than WT_MAX_QUESTIONS");
    next->answer = answer(next);
    so_far->len++;
}

static inline uint32_t allocate(wt_allocator *a, const wt_request *request, answering *answer, questions *so_far,
                                wt_block *block) {
    uint32_t status;
    so_far->len = 0;
    while ((status = wt_alloc(a, request, so_far->asked, so_far->len, block, &so_far->asked[so_far->len])) == WT_ASK)
        answer_next(so_far, answer);
    return status;
}

static inline uint32_t map(wt_allocator *a, uint64_t key, uint64_t offset, uint64_t size, answering *answer,
                           questions *so_far, wt_range *mapped) {
    uint32_t status;
    so_far->len = 0;
    while ((status = wt_map(a, key, offset, size, so_far->asked, so_far->len, mapped, &so_far->asked[so_far->len]))
           == WT_ASK)
        answer_next(so_far, answer);
    return status;
}

static inline wt_counts counts_of(wt_allocator *a) {
    wt_counts counts;
    expect(wt_count(a, &counts) == WT_OK, "an open allocator is not counted");
    return counts;
}

static inline wt_heap_counts heap_counts_of(wt_allocator *a, uint32_t heap) {
    wt_heap_counts counts;
    expect(wt_heap(a, heap, &counts) == WT_OK, "a heap is not counted");
    return counts;
}

/* A number of all free ranges, which another list of them would hardly have. */
static inline uint64_t free_space(wt_allocator *a) {
    wt_range ranges[64];
    uint64_t sum = 0;
    for (uint32_t type = 0; type < TYPES; type++) {
        size_t count = 1;
        for (size_t first = 0; first < count; first += LENGTH(ranges)) {
            expect(wt_free_ranges(a, type, first, ranges, LENGTH(ranges), &count) == WT_OK, "free ranges are not told");
            for (size_t i = 0; i < LENGTH(ranges) && first + i < count; i++)
                sum = ((sum * 31 + ranges[i].object) * 31 + ranges[i].offset) * 31 + ranges[i].size;
        }
    }
    return sum;
}

static inline int is_same_block(const wt_block *one, const wt_block *other) {
    return one->key == other->key && one->object == other->object && one->offset == other->offset
        && one->size == other->size && one->memory_type == other->memory_type && one->fresh == other->fresh
        && one->user == other->user && one->asked == other->asked && one->flags == other->flags
        && one->reserved == other->reserved;
}

static inline int share_a_byte(uint64_t start, uint64_t size, uint64_t other_start, uint64_t other_size) {
    return start < other_start + other_size && other_start < start + size;
}

/* How many bytes of a block a resource may have: of an optimal one those that were asked for. */
static inline uint64_t bytes_to_bind(const wt_block *block) {
    return block->flags == WT_OPTIMAL ? block->asked : block->size;
}

/* Whether a page of that many bytes has bytes of an optimal block and of a linear one. */
static inline int share_a_page(const wt_block *one, const wt_block *other, uint64_t granularity) {
    uint64_t page = granularity ? granularity : 1;
    uint64_t first = one->offset / page, last = (one->offset + bytes_to_bind(one) - 1) / page;
    uint64_t other_first = other->offset / page, other_last = (other->offset + bytes_to_bind(other) - 1) / page;
    return one->object == other->object && one->flags != other->flags && first <= other_last && other_first <= last;
}

/* Whether a key is refused by each call that takes one. */
static inline int is_refused_everywhere(wt_allocator *a, uint64_t key) {
    wt_block block;
    wt_range range;
    wt_question question;
    uint64_t object;
    return wt_free(a, key) == WT_UNKNOWN_KEY && wt_block_of(a, key, &block) == WT_UNKNOWN_KEY
        && wt_map(a, key, 0, 1, NULL, 0, &range, &question) == WT_UNKNOWN_KEY
        && wt_unmap(a, key, &object) == WT_UNKNOWN_KEY && wt_range_of(a, key, 0, 1, &range) == WT_UNKNOWN_KEY
        && wt_set_user(a, key, 1) == WT_UNKNOWN_KEY;
}

#endif
