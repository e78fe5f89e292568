/* How much stack the calls take: less than wallthyme.h says, on a thread's stack that was filled before. What is large
 * here is static, so that it does not count. */
#define _POSIX_C_SOURCE 200809L /* pthread_attr_setstack */
#include "common.h"

#include <pthread.h>

enum { STACK = 1 << 18, OPENING = 96 << 10, OTHERS = 12 << 10, FILLED = 0xa5 };

static unsigned char stack[STACK] __attribute__((aligned(4096)));
static wt_allocator allocator;

static void *opens(void *sharing) {
    wt_limits limits = device_limits(48, 1);
    open_device(&allocator, &limits, *(uint64_t *)sharing);
    return NULL;
}

static void takes_and_maps(uint32_t usage, uint32_t dedicated) {
    wt_request request = REQUEST(1000, 255, usage, 15, dedicated);
    static wt_range ranges[8];
    static questions asked;
    wt_block block;
    wt_range range;
    uint64_t object;
    size_t count;
    expect(allocate(&allocator, &request, grants, &asked, &block) == WT_OK, "a request is refused");
    expect(wt_block_of(&allocator, block.key, &block) == WT_OK, "a block is not told");
    expect(wt_set_user(&allocator, block.key, 1) == WT_OK, "a block has no user");
    if (is_host_visible(block.memory_type)) {
        expect(map(&allocator, block.key, 0, 8, grants, &asked, &range) == WT_OK, "it is not mapped");
        expect(wt_range_of(&allocator, block.key, 0, 8, &range) == WT_OK, "no range");
        expect(wt_unmap(&allocator, block.key, &object) == WT_OK, "it is not unmapped");
    }
    expect(wt_free_ranges(&allocator, block.memory_type, 0, ranges, LENGTH(ranges), &count) == WT_OK, "no free ranges");
    expect(wt_free(&allocator, block.key) == WT_OK, "it is not freed");
}

static void reports(void) {
    static char text[1 << 16];
    static wt_block blocks[8];
    static uint32_t types[32];
    static uint64_t names[8];
    wt_type_statistics statistics;
    size_t count;
    (void)counts_of(&allocator);
    (void)heap_counts_of(&allocator, 0);
    expect(wt_set_heap_limit(&allocator, 0, UINT64_MAX) == WT_OK, "no limit");
    expect(wt_statistics(&allocator, 0, &statistics) == WT_OK, "no statistics");
    expect(wt_blocks(&allocator, 0, blocks, LENGTH(blocks), &count) == WT_OK, "no blocks");
    expect(wt_candidates(&allocator, 0, 15, types, LENGTH(types), &count) == WT_OK, "no candidates");
    expect(wt_report(&allocator, text, sizeof text, &count) == WT_OK, "no report");
    expect(wt_cleanup(&allocator) == WT_OK, "no cleanup");
    do expect(wt_gone(&allocator, names, LENGTH(names), &count) == WT_OK, "no names");
    while (count);
}

static void *calls(void *unused) {
    static wt_block imported;
    (void)unused;
    takes_and_maps(WT_USAGE_FAST_DEVICE_ACCESS, WT_SHARED);
    takes_and_maps(WT_USAGE_UPLOAD, WT_SHARED);
    takes_and_maps(WT_USAGE_UPLOAD | WT_USAGE_TRANSIENT, WT_SHARED);
    takes_and_maps(WT_USAGE_DOWNLOAD, WT_REQUIRED);
    expect(wt_import(&allocator, LOCAL_TYPE, 64, 0, 64, &imported) == WT_OK, "no import");
    reports();
    expect(wt_free(&allocator, imported.key) == WT_OK, "an import is not freed");
    reports();
    expect(wt_close(&allocator) == WT_OK, "it is not closed");
    return NULL;
}

/* What a thread takes itself: it also asks malloc once. */
static void *begins(void *unused) {
    free(malloc(1));
    return unused;
}

/* How many bytes of the stack a function used, in a thread. */
static size_t used(void *(*function)(void *), uint64_t *given) {
    pthread_attr_t attributes;
    pthread_t thread;
    size_t rest = 0;
    memset(stack, FILLED, sizeof stack);
    expect(pthread_attr_init(&attributes) == 0 && pthread_attr_setstack(&attributes, stack, sizeof stack) == 0
               && pthread_create(&thread, &attributes, function, given) == 0 && pthread_join(thread, NULL) == 0,
           "no thread");
    (void)pthread_attr_destroy(&attributes);
    while (rest < sizeof stack && stack[rest] == FILLED) rest++;
    return sizeof stack - rest;
}

int main(int argc, char **argv) {
    size_t most_opening = 0, most = 0, base = used(begins, NULL);
    for (uint64_t sharing = WT_BUDDY; sharing <= WT_FIT; sharing++) {
        size_t opening = used(opens, &sharing) - base, others = used(calls, NULL) - base;
        if (opening > most_opening) most_opening = opening;
        if (others > most) most = others;
    }
    if (argc > 1) printf("%s: %zu %zu\n", argv[1], most_opening, most);
    expect(most_opening < OPENING, "wt_open takes more stack than wallthyme.h says");
    expect(most < OTHERS, "a call takes more stack than wallthyme.h says");
    printf("stack: wt_open takes less than %d KiB, each other call less than %d\n", OPENING >> 10, OTHERS >> 10);
    return 0;
}
