/* Each request of the library for memory is refused in turn: the call says so, nothing is changed, and the same call
 * succeeds once there is memory. Calls that give back, or only tell, take none. */
#include "common.h"

#include <string.h>

/* The linker puts these in place of malloc, calloc and realloc. */
void *__real_malloc(size_t size);
void *__real_calloc(size_t count, size_t size);
void *__real_realloc(void *old, size_t size);
void *__wrap_malloc(size_t size);
void *__wrap_calloc(size_t count, size_t size);
void *__wrap_realloc(void *old, size_t size);

/* How many requests are served before one is refused, or below 0 where none is, as before main: on Windows what starts
   the program takes memory too. */
static long served_before = -1;
static int is_all_refused;
static unsigned refusals;

static int is_refused(void) {
    int refused = is_all_refused || served_before == 0;
    if (served_before >= 0) served_before--;
    refusals += (unsigned)refused;
    return refused;
}

void *__wrap_malloc(size_t size) { return is_refused() ? NULL : __real_malloc(size); }
void *__wrap_calloc(size_t count, size_t size) { return is_refused() ? NULL : __real_calloc(count, size); }
void *__wrap_realloc(void *old, size_t size) { return is_refused() ? NULL : __real_realloc(old, size); }

/* ---- The calls that take memory ---- */

#define BLOCKS 24

static wt_allocator allocator;
static uint64_t sharing;
static wt_block blocks[BLOCKS];
static size_t blocks_len;

static uint32_t take(const wt_request *request) {
    questions talk;
    uint32_t status = allocate(&allocator, request, grants, &talk, &blocks[blocks_len]);
    blocks_len += status == WT_OK;
    return status;
}

static uint32_t open_it(void) {
    wt_limits limits = device_limits(64, 0);
    const wt_config config = small_config_with(sharing);
    return wt_open(&allocator, memory_types, TYPES, heap_sizes, HEAPS, &limits, &config);
}

static uint32_t take_own(void) {
    wt_request request = REQUEST(1000, 0, WT_USAGE_HOST_ACCESS, 1u << COHERENT_TYPE, WT_REQUIRED);
    return take(&request);
}

static uint32_t take_transient(void) {
    wt_request request = REQUEST(3000, 0, WT_USAGE_TRANSIENT | WT_USAGE_UPLOAD, 1u << COHERENT_TYPE, WT_SHARED);
    return take(&request);
}

static uint32_t take_lasting(void) {
    wt_request request = REQUEST(100, 0, WT_USAGE_UPLOAD, 1u << COHERENT_TYPE, WT_SHARED);
    return take(&request);
}

/* From an object that is held, with no question: want of memory is not told as want of a place. */
static uint32_t take_held(void) {
    wt_request request = REQUEST(100, 0, WT_USAGE_UPLOAD, 1u << COHERENT_TYPE, WT_SHARED);
    request.flags = WT_HELD_ONLY;
    return take(&request);
}

static uint32_t import_one(void) {
    uint32_t status = wt_import(&allocator, COHERENT_TYPE, 1000, 0, 1000, &blocks[blocks_len]);
    blocks_len += status == WT_OK;
    return status;
}

static uint32_t map_first(void) {
    questions talk;
    wt_range mapped;
    return map(&allocator, blocks[0].key, 0, 1, grants, &talk, &mapped);
}

static uint32_t tell_free_ranges(void) {
    wt_range ranges[8];
    size_t count;
    return wt_free_ranges(&allocator, COHERENT_TYPE, 0, ranges, LENGTH(ranges), &count);
}

static uint32_t tell_candidates(void) {
    uint32_t types[TYPES];
    size_t count;
    return wt_candidates(&allocator, WT_USAGE_UPLOAD, UINT32_MAX, types, LENGTH(types), &count);
}

static uint32_t report(void) {
    char text[64];
    size_t length;
    return wt_report(&allocator, text, LENGTH(text), &length);
}

static uint32_t tell_statistics(void) {
    wt_type_statistics statistics;
    return wt_statistics(&allocator, COHERENT_TYPE, &statistics);
}

static uint32_t (*const calls[])(void) = {
    open_it,        take_own,   take_transient, take_transient, take_lasting,     take_lasting,    take_lasting,
    take_transient, take_held,  take_held,      take_held,      take_held,        take_held,       import_one,
    map_first,      take_own,   tell_free_ranges, tell_candidates, report,       tell_statistics,
};

/* ---- The rounds ---- */

static void call_with_little_memory(uint32_t (*call)(void)) {
    wt_counts before, after;
    uint32_t before_status, after_status, status;
    unsigned refused_before = refusals;
    memset(&before, 0, sizeof before);
    memset(&after, 0, sizeof after);
    before_status = wt_count(&allocator, &before);
    status = call();
    if (status == WT_OK) return;
    expect(status == WT_OUT_OF_HOST_MEMORY && refusals > refused_before, "a call fails for another cause than memory");
    after_status = wt_count(&allocator, &after);
    expect(before_status == after_status && memcmp(&before, &after, sizeof before) == 0,
           "a refused call changed something");
    expect(call() == WT_OK, "a call fails though there is memory again");
}

/* Gives all back, with no memory at all. */
static void end_without_memory(void) {
    uint64_t names[BLOCKS], object;
    wt_block walked[BLOCKS];
    size_t count = 0, blocks_before = blocks_len;
    is_all_refused = 1;
    expect(wt_set_user(&allocator, blocks[0].key, 1) == WT_OK, "setting a value takes memory");
    expect(wt_blocks(&allocator, 0, walked, BLOCKS, &count) == WT_OK && count == blocks_len, "a walk takes memory");
    expect(wt_set_heap_limit(&allocator, HOST_HEAP, 0) == WT_OK, "setting a limit takes memory");
    expect(wt_unmap(&allocator, blocks[0].key, &object) == WT_OK && object == blocks[0].object,
           "an unmapping takes memory");
    while (blocks_len) expect(wt_free(&allocator, blocks[--blocks_len].key) == WT_OK, "a return takes memory");
    expect(wt_cleanup(&allocator) == WT_OK, "a cleanup takes memory");
    expect(wt_gone(&allocator, names, LENGTH(names), &count) == WT_OK, "reading names takes memory");
    expect(count > 0 && count <= blocks_before, "names are lost, or there are more than objects were made");
    expect(wt_close(&allocator) == WT_OK, "closing takes memory");
    is_all_refused = 0;
}

/* How many requests for memory were refused in turn, where objects are shared so. */
static long refused_in_turn(uint64_t chosen) {
    long requests = 0;
    sharing = chosen;
    do {
        served_before = requests++;
        current_step = (unsigned)requests;
        for (size_t i = 0; i < LENGTH(calls); i++) call_with_little_memory(calls[i]);
        end_without_memory();
    } while (served_before < 0);
    expect(requests > 1, "the library takes no memory from malloc");
    return requests - 1;
}

int main(void) {
    long buddy = refused_in_turn(WT_BUDDY), fit = refused_in_turn(WT_FIT);
    printf("scarce: each of %ld requests for memory refused in turn, and of %ld with fit chunks\n", buddy, fit);
    return 0;
}
