/* Each refusal and each misuse, one at a time, over an allocator with some blocks: the status is the one in the header,
 * and nothing is changed. */
#include "common.h"

#include <string.h>

enum { SHARED_BLOCK, HOST_BLOCK, LOCAL_BLOCK, EXTRA_BLOCK, BLOCKS };

/* An allocator with a block of a shared object, two with an object of their own, and a key that was freed. */
typedef struct {
    wt_allocator allocator, other;
    wt_block blocks[BLOCKS]; /* of key 0 where there is none */
    uint64_t freed_key;
    questions talk;          /* of a request that was begun */
    uint64_t mapped_object;  /* what HOST_BLOCK has to unmap, or 0 */
} world;

typedef struct test_case {
    const char *name;
    uint32_t wanted;
    void (*prepare)(world *, const struct test_case *);
    uint32_t (*call)(world *, const struct test_case *);
    wt_request request;
    answering *answer;
    unsigned which;
} test_case;

/* ---- The world of a case ---- */

#define ONLY(type) (1u << (type))
#define ANY_TYPE UINT32_MAX

static const wt_request shared_request = REQUEST(100, 0, WT_USAGE_UPLOAD | WT_USAGE_TRANSIENT, ONLY(COHERENT_TYPE),
                                                 WT_SHARED);
static const wt_request host_request = REQUEST(1000, 0, WT_USAGE_HOST_ACCESS, ONLY(CACHED_TYPE), WT_REQUIRED);
static const wt_request local_request = REQUEST(1000, 0, 0, ONLY(LOCAL_TYPE), WT_REQUIRED);

static wt_block granted(wt_allocator *a, const wt_request *request) {
    questions talk;
    wt_block block;
    expect(allocate(a, request, grants, &talk, &block) == WT_OK, "a request is refused that its device grants");
    return block;
}

static void read_all_gone(wt_allocator *a) {
    uint64_t name;
    size_t count = 1;
    while (count) expect(wt_gone(a, &name, 1, &count) == WT_OK, "what is gone is not told");
}

static void free_all(world *w) {
    for (size_t i = 0; i < BLOCKS; i++) {
        if (w->blocks[i].key) expect(wt_free(&w->allocator, w->blocks[i].key) == WT_OK, "a block is not taken back");
        w->blocks[i].key = 0;
    }
}

static void clean_and_close(wt_allocator *a) {
    expect(wt_cleanup(a) == WT_OK, "it is not cleaned up");
    read_all_gone(a);
    expect(wt_close(a) == WT_OK, "it is not closed");
}

static void begin_world(world *w) {
    wt_limits limits = device_limits(32, 0);
    memset(w, 0, sizeof *w);
    open_device(&w->allocator, &limits, WT_BUDDY);
    w->freed_key = granted(&w->allocator, &shared_request).key;
    w->blocks[SHARED_BLOCK] = granted(&w->allocator, &shared_request);
    w->blocks[HOST_BLOCK] = granted(&w->allocator, &host_request);
    w->blocks[LOCAL_BLOCK] = granted(&w->allocator, &local_request);
    expect(wt_free(&w->allocator, w->freed_key) == WT_OK, "a block is not taken back");
}

static void end_world(world *w) {
    wt_counts counts;
    uint64_t object;
    if (w->blocks[HOST_BLOCK].key) {
        expect(wt_unmap(&w->allocator, w->blocks[HOST_BLOCK].key, &object) == WT_OK, "a block is not unmapped");
        expect(object == w->mapped_object, "a refused mapping is a mapping, or an earlier one is lost");
    }
    free_all(w);
    if (wt_count(&w->allocator, &counts) == WT_OK) clean_and_close(&w->allocator);
}

/* All that calls tell of an allocator. */
typedef struct {
    uint32_t status, block_statuses[BLOCKS];
    wt_counts counts;
    wt_heap_counts heaps[HEAPS];
    wt_block blocks[BLOCKS];
    uint64_t free_space;
} picture;

static picture taken(world *w) {
    picture seen;
    memset(&seen, 0, sizeof seen);
    seen.status = wt_count(&w->allocator, &seen.counts);
    if (seen.status != WT_OK) return seen;
    for (uint32_t i = 0; i < HEAPS; i++) seen.heaps[i] = heap_counts_of(&w->allocator, i);
    for (size_t i = 0; i < BLOCKS; i++)
        seen.block_statuses[i] = wt_block_of(&w->allocator, w->blocks[i].key, &seen.blocks[i]);
    seen.free_space = free_space(&w->allocator);
    return seen;
}

/* ---- What comes before a call ---- */

static void shut(world *w, const test_case *c) {
    (void)c;
    free_all(w);
    clean_and_close(&w->allocator);
}

static void free_blocks_alone(world *w, const test_case *c) {
    (void)c;
    free_all(w);
    read_all_gone(&w->allocator);
}

static void free_and_clean_alone(world *w, const test_case *c) {
    (void)c;
    free_all(w);
    expect(wt_cleanup(&w->allocator) == WT_OK, "it is not cleaned up");
}

static void allow_no_more(world *w, const test_case *c) {
    (void)c;
    expect(wt_set_remaining(&w->allocator, 0) == WT_OK, "no objects more are refused");
}

static void map_blocks(world *w, const test_case *c) {
    questions talk;
    wt_range mapped;
    (void)c;
    expect(map(&w->allocator, w->blocks[SHARED_BLOCK].key, 0, 1, grants, &talk, &mapped) == WT_OK, "not mapped");
    expect(map(&w->allocator, w->blocks[HOST_BLOCK].key, 0, 1, grants, &talk, &mapped) == WT_OK, "not mapped");
    w->mapped_object = w->blocks[HOST_BLOCK].object;
}

/* As much as is held, and less, and nothing. */
static void limit_heap(world *w, const test_case *c) {
    uint64_t used = heap_counts_of(&w->allocator, LOCAL_HEAP).used;
    const uint64_t limits[] = { used + 999, used, used - 1, 0 };
    expect(wt_set_heap_limit(&w->allocator, LOCAL_HEAP, limits[c->which]) == WT_OK, "a limit is refused");
}

/* The first question of the case's request, answered, and nothing done with it yet. */
static void begin_request(world *w, const test_case *c) {
    wt_block block;
    expect(wt_alloc(&w->allocator, &c->request, NULL, 0, &block, &w->talk.asked[0]) == WT_ASK, "nothing is asked");
    w->talk.asked[0].answer = WT_GRANTED;
    w->talk.len = 1;
}

static void take_most_of_the_heap(world *w, const test_case *c) {
    wt_request most = REQUEST(10 * MEBIBYTE, 0, 0, ONLY(LOCAL_TYPE), WT_REQUIRED);
    (void)c;
    w->blocks[EXTRA_BLOCK] = granted(&w->allocator, &most);
}

/* Between the question and its answer its heap gets a limit, so that the question is another one. */
static void begin_and_limit_its_heap(world *w, const test_case *c) {
    begin_request(w, c);
    expect(wt_set_heap_limit(&w->allocator, LOCAL_HEAP, 7 * MEBIBYTE) == WT_OK, "a limit is refused");
}

/* Between the question and its answer, most of the heap goes to another block, so that the question is another one. */
static void begin_and_take_its_heap(world *w, const test_case *c) {
    begin_request(w, c);
    take_most_of_the_heap(w, c);
}

/* ---- Calls ---- */

#define CALL(name, ...) \
    static uint32_t name(world *w, const test_case *c) { \
        return (void)w, (void)c, (__VA_ARGS__); \
    }

CALL(request, allocate(&w->allocator, &c->request, c->answer ? c->answer : grants, &(questions){ .len = 0 },
                       &(wt_block){ 0 }))

static uint32_t is_never_asked(const wt_question *question) {
    (void)question;
    expect(0, "it is asked");
    return WT_GRANTED;
}

/* Two faults at once: flags without a name, and an answer that is none. */
static uint32_t request_with_a_bad_answer(world *w, const test_case *c) {
    wt_question answered = { 0, 0, 1, WT_ALLOCATE, 0, 0, 4 }, question;
    wt_block block;
    return wt_alloc(&w->allocator, &c->request, &answered, 1, &block, &question);
}

static uint32_t answer_begun_into(world *w, const test_case *c, wt_block *block) {
    wt_question question;
    return wt_alloc(&w->allocator, &c->request, w->talk.asked, w->talk.len, block, &question);
}

CALL(answer_begun, answer_begun_into(w, c, &(wt_block){ 0 }))

static uint32_t answer_with_another_field(world *w, const test_case *c) {
    wt_question *answered = &w->talk.asked[0];
    if (c->which == 0) answered->size++;
    if (c->which == 1) answered->kind = WT_MAP_MADE;
    if (c->which == 2) answered->memory_type = COHERENT_TYPE;
    if (c->which == 3) answered->flags ^= WT_ALLOCATE_DEVICE_ADDRESS;
    return answer_begun(w, c);
}

static uint32_t answer_badly(world *w, const test_case *c) {
    static const struct {
        uint32_t kind, answer;
    } bad[] = { { WT_ALLOCATE, 4 }, { WT_ALLOCATE, UINT32_MAX }, { 0, WT_GRANTED }, { 4, WT_GRANTED } };
    w->talk.asked[0].kind = bad[c->which].kind;
    w->talk.asked[0].answer = bad[c->which].answer;
    return answer_begun(w, c);
}

/* The question as it was told, with no answer written into it. */
static uint32_t answer_nothing(world *w, const test_case *c) {
    wt_block block;
    expect(wt_alloc(&w->allocator, &c->request, NULL, 0, &block, &w->talk.asked[0]) == WT_ASK, "nothing is asked");
    w->talk.len = 1;
    return answer_begun(w, c);
}

static uint32_t map_with(world *w, size_t of, uint64_t offset, uint64_t size, answering *answer) {
    questions talk;
    wt_range mapped;
    return map(&w->allocator, w->blocks[of].key, offset, size, answer, &talk, &mapped);
}

CALL(map_host, map_with(w, HOST_BLOCK, 0, 1, c->answer ? c->answer : grants))
CALL(map_shared, map_with(w, SHARED_BLOCK, 0, 1, grants))
CALL(map_local, map_with(w, LOCAL_BLOCK, 0, 1, grants))
CALL(map_nothing, map_with(w, HOST_BLOCK, 0, 0, grants))

/* Ranges that pass the end of a block of 1000 bytes: by one, from behind it, and by a sum that has no 64 bits. */
static const wt_range bad_ranges[] = { { 0, 0, 1001 }, { 0, 1001, 1 }, { 0, 1000, 1 }, { 0, 1, UINT64_MAX },
                                       { 0, UINT64_MAX, 1 } };

CALL(map_past_the_end, map_with(w, HOST_BLOCK, bad_ranges[c->which].offset, bad_ranges[c->which].size, grants))
CALL(range_past_the_end, wt_range_of(&w->allocator, w->blocks[HOST_BLOCK].key, bad_ranges[c->which].offset,
                                     bad_ranges[c->which].size, &(wt_range){ 0 }))
CALL(range_of_local, wt_range_of(&w->allocator, w->blocks[LOCAL_BLOCK].key, 0, 1, &(wt_range){ 0 }))

/* Maps with one answer, which is to the right question but for one field. */
static uint32_t map_with_another_field(world *w, const test_case *c) {
    const wt_block *of = &w->blocks[HOST_BLOCK];
    wt_question question;
    wt_range mapped;
    expect(wt_map(&w->allocator, of->key, 0, 1, NULL, 0, &mapped, &question) == WT_ASK, "nothing is asked");
    question.answer = c->which == 4 ? 4 : WT_GRANTED;
    if (c->which == 0) question.object = w->blocks[SHARED_BLOCK].object;
    if (c->which == 1) question.offset++;
    if (c->which == 2) question.size++;
    if (c->which == 3) question.kind = WT_ALLOCATE;
    return wt_map(&w->allocator, of->key, 0, 1, &question, 1, &mapped, &w->talk.asked[0]);
}

static uint32_t import_wrongly(world *w, const test_case *c) {
    static const struct {
        uint32_t memory_type;
        uint64_t object_size, offset, size;
    } wrong[] = {
        { TYPES, 100, 0, 100 },       { LOCAL_TYPE, 100, 0, 0 },           { LOCAL_TYPE, 100, 0, 101 },
        { LOCAL_TYPE, 100, 101, 1 },  { LOCAL_TYPE, 100, UINT64_MAX, 1 },  { LOCAL_TYPE, 100, 1, UINT64_MAX },
        { CACHED_TYPE, 200, 0, 100 }, { LOCAL_VISIBLE_TYPE, 200, 64, 65 }, { LOCAL_TYPE, 100, 0, 100 },
    };
    wt_block block;
    return wt_import(&w->allocator, wrong[c->which].memory_type, wrong[c->which].object_size, wrong[c->which].offset,
                     wrong[c->which].size, &block);
}

static uint32_t open_again(world *w, const test_case *c) {
    wt_limits limits = device_limits(32, 0);
    (void)c;
    return wt_open(&w->allocator, memory_types, TYPES, heap_sizes, HEAPS, &limits, &small_config);
}

static uint32_t open_wrongly(world *w, const test_case *c) {
    static const uint64_t bad_atoms[] = { 0, 3, 96, (uint64_t)1 << 63 };
    static const uint64_t bad_granularities[] = { 3, 96, (uint64_t)1 << 33, UINT64_MAX };
    static const uint64_t bad_sharings[] = { WT_FIT + 1, (uint64_t)1 << 32, UINT64_MAX };
    wt_memory_type many[33];
    wt_limits limits = device_limits(32, 0);
    wt_config config = small_config;
    size_t types_len = 1;
    for (size_t i = 0; i < LENGTH(many); i++) many[i] = memory_types[LOCAL_TYPE];
    if (c->which < LENGTH(bad_atoms)) limits.non_coherent_atom_size = bad_atoms[c->which];
    if (c->which == 4) many[0].heap = HEAPS;
    if (c->which == 5) types_len = LENGTH(many);
    if (c->which > 5 && c->which < 10) limits.buffer_image_granularity = bad_granularities[c->which - 6];
    if (c->which > 9) config.sharing = bad_sharings[c->which - 10];
    return wt_open(&w->allocator, many, types_len, heap_sizes, HEAPS, &limits, &config);
}

static uint32_t refused_everywhere(world *w, uint64_t key) {
    return is_refused_everywhere(&w->allocator, key) ? WT_UNKNOWN_KEY : WT_OK;
}

static uint32_t use_key(world *w, const test_case *c) {
    uint64_t live = w->blocks[LOCAL_BLOCK].key;
    const uint64_t wrong[] = { w->freed_key, live + ((uint64_t)1 << 32), live - ((uint64_t)1 << 32), live + 1000,
                               UINT64_MAX };
    return refused_everywhere(w, wrong[c->which]);
}

/* Keys of another allocator, but those that are keys of a live block of this one too. */
static uint32_t use_keys_of_another(world *w, const test_case *c) {
    wt_limits limits = device_limits(32, 0);
    wt_block theirs[2 * BLOCKS];
    uint32_t status = WT_OK, tried = 0;
    (void)c;
    open_device(&w->other, &limits, WT_FIT);
    for (size_t i = 0; i < LENGTH(theirs); i++) theirs[i] = granted(&w->other, &shared_request);
    for (size_t i = 0; i < LENGTH(theirs); i++) {
        int is_live = 0;
        for (size_t own = 0; own < BLOCKS; own++) is_live |= w->blocks[own].key == theirs[i].key;
        if (!is_live && (tried++ == 0 || status == WT_UNKNOWN_KEY)) status = refused_everywhere(w, theirs[i].key);
        expect(wt_free(&w->other, theirs[i].key) == WT_OK, "a block is not taken back");
    }
    clean_and_close(&w->other);
    return status;
}

static const uint32_t no_heaps[] = { HEAPS, HEAPS + 1, UINT32_MAX }, no_types[] = { TYPES, TYPES + 1, UINT32_MAX };

CALL(remain_too_many, wt_set_remaining(&w->allocator, UINT32_MAX - counts_of(&w->allocator).held + 1))
CALL(look_at_no_heap, wt_heap(&w->allocator, HEAPS, &(wt_heap_counts){ 0 }))
CALL(limit_no_heap, wt_set_heap_limit(&w->allocator, no_heaps[c->which], 0))
CALL(candidates_for, wt_candidates(&w->allocator, c->request.usage, c->request.memory_types, (uint32_t[TYPES]){ 0 },
                                   TYPES, &(size_t){ 0 }))
CALL(ranges_of_no_type, wt_free_ranges(&w->allocator, TYPES, 0, NULL, 0, &(size_t){ 0 }))
CALL(statistics_of_no_type, wt_statistics(&w->allocator, no_types[c->which], &(wt_type_statistics){ 0 }))
CALL(close_it, wt_close(&w->allocator))

static uint32_t any_call(world *w, const test_case *c) {
    wt_block block;
    wt_question question;
    wt_range range;
    wt_counts counts;
    wt_heap_counts heap;
    uint64_t name;
    wt_type_statistics statistics;
    uint32_t type;
    size_t count;
    switch (c->which) {
    case 0: return wt_alloc(&w->allocator, &local_request, NULL, 0, &block, &question);
    case 1: return wt_import(&w->allocator, LOCAL_TYPE, 1, 0, 1, &block);
    case 2: return wt_block_of(&w->allocator, w->freed_key, &block);
    case 3: return wt_map(&w->allocator, w->freed_key, 0, 1, NULL, 0, &range, &question);
    case 4: return wt_unmap(&w->allocator, w->freed_key, &name);
    case 5: return wt_range_of(&w->allocator, w->freed_key, 0, 1, &range);
    case 6: return wt_free(&w->allocator, w->freed_key);
    case 7: return wt_cleanup(&w->allocator);
    case 8: return wt_gone(&w->allocator, &name, 1, &count);
    case 9: return wt_count(&w->allocator, &counts);
    case 10: return wt_heap(&w->allocator, 0, &heap);
    case 11: return wt_set_remaining(&w->allocator, 1);
    case 12: return wt_free_ranges(&w->allocator, 0, 0, &range, 1, &count);
    case 13: return wt_set_user(&w->allocator, w->freed_key, 1);
    case 14: return wt_blocks(&w->allocator, 0, &block, 1, &count);
    case 15: return wt_candidates(&w->allocator, c->request.usage, 1, &type, 1, &count);
    case 16: return wt_set_heap_limit(&w->allocator, c->request.dedicated, 1);
    case 17: return wt_alloc(&w->allocator, &c->request, NULL, 0, &block, &question);
    case 18: return wt_report(&w->allocator, NULL, 0, &count);
    default: return wt_statistics(&w->allocator, c->request.usage, &statistics);
    }
}

/* ---- Answers ---- */

static uint32_t no_device_memory(const wt_question *q) { (void)q; return WT_NO_DEVICE_MEMORY; }
static uint32_t no_host_memory(const wt_question *q) { (void)q; return WT_NO_HOST_MEMORY; }
static uint32_t map_failed(const wt_question *q) { (void)q; return WT_DEVICE_MAP_FAILED; }

static uint32_t makes_and(const wt_question *q, uint32_t otherwise) {
    return q->kind == WT_ALLOCATE ? WT_GRANTED : otherwise;
}

static uint32_t makes_and_maps_without_device(const wt_question *q) { return makes_and(q, WT_NO_DEVICE_MEMORY); }
static uint32_t makes_and_maps_without_host(const wt_question *q) { return makes_and(q, WT_NO_HOST_MEMORY); }
static uint32_t makes_and_fails_to_map(const wt_question *q) { return makes_and(q, WT_DEVICE_MAP_FAILED); }

/* ---- The cases ---- */

#define OF_OWN REQUEST(1000, 0, 0, ONLY(LOCAL_TYPE), WT_REQUIRED)
#define OF_NEW_CHUNK REQUEST(100, 0, WT_USAGE_UPLOAD | WT_USAGE_TRANSIENT, ONLY(CACHED_TYPE), WT_SHARED)
#define OF_EITHER_HEAP REQUEST(7 * MEBIBYTE, 0, 0, ONLY(LOCAL_TYPE) | ONLY(COHERENT_TYPE), WT_REQUIRED)
#define WITH_FLAGS(size, align_mask, usage, types, dedicated, flags) \
    { size, align_mask, usage, types, dedicated, flags, 0 }

static const test_case cases[] = {
    { "a request over the limit is served", WT_OUT_OF_DEVICE_MEMORY, NULL, request,
      REQUEST(12 * MEBIBYTE + 1, 0, 0, ANY_TYPE, WT_REQUIRED), grants, 0 },
    { "a request that is larger than its heap is asked", WT_OUT_OF_DEVICE_MEMORY, NULL, request,
      REQUEST(9 * MEBIBYTE, 0, WT_USAGE_HOST_ACCESS, ONLY(COHERENT_TYPE), WT_REQUIRED), grants, 0 },
    { "a request over its heap's budget is asked", WT_OUT_OF_DEVICE_MEMORY, take_most_of_the_heap, request,
      REQUEST(7 * MEBIBYTE, 0, 0, ONLY(LOCAL_TYPE), WT_REQUIRED), grants, 0 },
    { "an object that was not made is granted", WT_OUT_OF_DEVICE_MEMORY, NULL, request, OF_OWN, no_device_memory, 0 },
    { "want of device memory ends otherwise in a mapping", WT_OUT_OF_DEVICE_MEMORY, NULL, request, OF_NEW_CHUNK,
      makes_and_maps_without_device, 0 },
    { "want of host memory ends otherwise", WT_OUT_OF_HOST_MEMORY, NULL, request, OF_OWN, no_host_memory, 0 },
    { "a failed mapping answers for an object otherwise than want of host memory", WT_OUT_OF_HOST_MEMORY, NULL, request,
      OF_OWN, map_failed, 0 },
    { "want of host memory ends otherwise in a mapping", WT_OUT_OF_HOST_MEMORY, NULL, request, OF_NEW_CHUNK,
      makes_and_maps_without_host, 0 },
    { "a shared object that was not mapped is used", WT_OUT_OF_HOST_MEMORY, NULL, request, OF_NEW_CHUNK,
      makes_and_fails_to_map, 0 },
    { "a request over its heap's limit is asked", WT_OUT_OF_DEVICE_MEMORY, limit_heap, request,
      OF_OWN, is_never_asked, 0 },
    { "a request is asked where as much is held as the limit", WT_OUT_OF_DEVICE_MEMORY, limit_heap, request, OF_OWN,
      is_never_asked, 1 },
    { "a request is asked where more is held than the limit", WT_OUT_OF_DEVICE_MEMORY, limit_heap, request, OF_OWN,
      is_never_asked, 2 },
    { "a request is asked at a limit of 0", WT_OUT_OF_DEVICE_MEMORY, limit_heap, request, OF_OWN, is_never_asked, 3 },
    { "no permitted type, and one serves", WT_NO_COMPATIBLE_MEMORY_TYPES, NULL, request, REQUEST(1, 0, 0, 0, WT_SHARED),
      grants, 0 },
    { "a type that the host does not see serves it", WT_NO_COMPATIBLE_MEMORY_TYPES, NULL, request,
      REQUEST(1, 0, WT_USAGE_HOST_ACCESS, ONLY(LOCAL_TYPE), WT_SHARED), grants, 0 },
    { "an object more than may be held", WT_TOO_MANY_OBJECTS, allow_no_more, request, OF_OWN, grants, 0 },
    { "a shared object more than may be held", WT_TOO_MANY_OBJECTS, allow_no_more, request, OF_NEW_CHUNK, grants, 0 },
    { "memory is mapped that the host does not see", WT_NON_HOST_VISIBLE, NULL, map_local, OF_OWN, NULL, 0 },
    { "a range is told of what the host does not see", WT_NON_HOST_VISIBLE, NULL, range_of_local, OF_OWN, NULL, 0 },
    { "a block is mapped twice", WT_ALREADY_MAPPED, map_blocks, map_host, OF_OWN, NULL, 0 },
    { "a block of a shared object is mapped twice", WT_ALREADY_MAPPED, map_blocks, map_shared, OF_OWN, NULL, 0 },
    { "a failed mapping ends otherwise", WT_MAP_FAILED, NULL, map_host, OF_OWN, map_failed, 0 },
    { "a mapping without device memory ends otherwise", WT_OUT_OF_DEVICE_MEMORY, NULL, map_host, OF_OWN,
      no_device_memory, 0 },
    { "a mapping without host memory ends otherwise", WT_OUT_OF_HOST_MEMORY, NULL, map_host,
      OF_OWN, no_host_memory, 0 },

    { "a closed one allocates", WT_NOT_OPEN, shut, any_call, OF_OWN, NULL, 0 },
    { "a closed one imports", WT_NOT_OPEN, shut, any_call, OF_OWN, NULL, 1 },
    { "a closed one tells a block", WT_NOT_OPEN, shut, any_call, OF_OWN, NULL, 2 },
    { "a closed one maps", WT_NOT_OPEN, shut, any_call, OF_OWN, NULL, 3 },
    { "a closed one unmaps", WT_NOT_OPEN, shut, any_call, OF_OWN, NULL, 4 },
    { "a closed one tells a range", WT_NOT_OPEN, shut, any_call, OF_OWN, NULL, 5 },
    { "a closed one frees", WT_NOT_OPEN, shut, any_call, OF_OWN, NULL, 6 },
    { "a closed one cleans up", WT_NOT_OPEN, shut, any_call, OF_OWN, NULL, 7 },
    { "a closed one tells what is gone", WT_NOT_OPEN, shut, any_call, OF_OWN, NULL, 8 },
    { "a closed one counts", WT_NOT_OPEN, shut, any_call, OF_OWN, NULL, 9 },
    { "a closed one counts a heap", WT_NOT_OPEN, shut, any_call, OF_OWN, NULL, 10 },
    { "a closed one takes a number of objects", WT_NOT_OPEN, shut, any_call, OF_OWN, NULL, 11 },
    { "a closed one tells free ranges", WT_NOT_OPEN, shut, any_call, OF_OWN, NULL, 12 },
    { "a closed one takes a value", WT_NOT_OPEN, shut, any_call, OF_OWN, NULL, 13 },
    { "a closed one walks", WT_NOT_OPEN, shut, any_call, OF_OWN, NULL, 14 },
    { "a closed one tells candidates", WT_NOT_OPEN, shut, any_call, OF_OWN, NULL, 15 },
    { "a closed one tells candidates for a usage without a name", WT_NOT_OPEN, shut, any_call,
      REQUEST(1, 0, 0x40, ANY_TYPE, WT_SHARED), NULL, 15 },
    { "a closed one takes a limit", WT_NOT_OPEN, shut, any_call, REQUEST(1, 0, 0, 1, LOCAL_HEAP), NULL, 16 },
    { "a closed one takes a limit of no heap", WT_NOT_OPEN, shut, any_call, REQUEST(1, 0, 0, 1, HEAPS), NULL, 16 },
    { "a closed one allocates with flags without a name", WT_NOT_OPEN, shut, any_call,
      WITH_FLAGS(1, 0, 0, ANY_TYPE, WT_SHARED, 2), NULL, 17 },
    { "a closed one reports", WT_NOT_OPEN, shut, any_call, OF_OWN, NULL, 18 },
    { "a closed one tells statistics", WT_NOT_OPEN, shut, any_call, OF_OWN, NULL, 19 },
    { "a closed one tells statistics of no memory type", WT_NOT_OPEN, shut, any_call,
      REQUEST(1, 0, TYPES, 1, WT_SHARED), NULL, 19 },
    { "it is closed twice", WT_NOT_OPEN, shut, close_it, OF_OWN, NULL, 0 },
    { "it is opened twice", WT_ALREADY_OPEN, NULL, open_again, OF_OWN, NULL, 0 },
    { "an atom of 0", WT_BAD_PROPERTIES, shut, open_wrongly, OF_OWN, NULL, 0 },
    { "an atom of 3", WT_BAD_PROPERTIES, shut, open_wrongly, OF_OWN, NULL, 1 },
    { "an atom of 96", WT_BAD_PROPERTIES, shut, open_wrongly, OF_OWN, NULL, 2 },
    { "an atom of 2^63", WT_BAD_PROPERTIES, shut, open_wrongly, OF_OWN, NULL, 3 },
    { "a memory type of no heap", WT_BAD_PROPERTIES, shut, open_wrongly, OF_OWN, NULL, 4 },
    { "33 memory types", WT_BAD_PROPERTIES, shut, open_wrongly, OF_OWN, NULL, 5 },
    { "a granularity of 3", WT_BAD_PROPERTIES, shut, open_wrongly, OF_OWN, NULL, 6 },
    { "a granularity of 96", WT_BAD_PROPERTIES, shut, open_wrongly, OF_OWN, NULL, 7 },
    { "a granularity of 2^33", WT_BAD_PROPERTIES, shut, open_wrongly, OF_OWN, NULL, 8 },
    { "a granularity of 2^64 - 1", WT_BAD_PROPERTIES, shut, open_wrongly, OF_OWN, NULL, 9 },
    { "a sharing of 2", WT_BAD_PROPERTIES, shut, open_wrongly, OF_OWN, NULL, 10 },
    { "a sharing of 2^32", WT_BAD_PROPERTIES, shut, open_wrongly, OF_OWN, NULL, 11 },
    { "a sharing of 2^64 - 1", WT_BAD_PROPERTIES, shut, open_wrongly, OF_OWN, NULL, 12 },

    { "a freed key is taken", WT_UNKNOWN_KEY, NULL, use_key, OF_OWN, NULL, 0 },
    { "a key is taken that its place has not had yet", WT_UNKNOWN_KEY, NULL, use_key, OF_OWN, NULL, 1 },
    { "a key is taken that its place never had", WT_UNKNOWN_KEY, NULL, use_key, OF_OWN, NULL, 2 },
    { "a key of no place is taken", WT_UNKNOWN_KEY, NULL, use_key, OF_OWN, NULL, 3 },
    { "the largest number is taken as a key", WT_UNKNOWN_KEY, NULL, use_key, OF_OWN, NULL, 4 },
    { "another's key is taken", WT_UNKNOWN_KEY, NULL, use_keys_of_another, OF_OWN, NULL, 0 },

    { "an answer about another size counts", WT_OTHER_QUESTION, begin_request, answer_with_another_field,
      OF_OWN, NULL, 0 },
    { "an answer of another kind counts", WT_OTHER_QUESTION, begin_request, answer_with_another_field,
      OF_OWN, NULL, 1 },
    { "an answer about another memory type counts", WT_OTHER_QUESTION, begin_request, answer_with_another_field,
      OF_OWN, NULL, 2 },
    { "an answer about other flags counts", WT_OTHER_QUESTION, begin_request, answer_with_another_field,
      OF_OWN, NULL, 3 },
    { "an answer counts that is to the question before another call", WT_OTHER_QUESTION, begin_and_take_its_heap,
      answer_begun, OF_EITHER_HEAP, NULL, 0 },
    { "an answer counts that is to the question before a limit", WT_OTHER_QUESTION, begin_and_limit_its_heap,
      answer_begun, OF_EITHER_HEAP, NULL, 0 },
    { "an answer about another object maps", WT_OTHER_QUESTION, NULL, map_with_another_field, OF_OWN, NULL, 0 },
    { "an answer about another offset maps", WT_OTHER_QUESTION, NULL, map_with_another_field, OF_OWN, NULL, 1 },
    { "an answer about another size maps", WT_OTHER_QUESTION, NULL, map_with_another_field, OF_OWN, NULL, 2 },
    { "an answer of another kind maps", WT_OTHER_QUESTION, NULL, map_with_another_field, OF_OWN, NULL, 3 },

    { "a question that nobody answered is taken", WT_BAD_ANSWER, NULL, answer_nothing, OF_OWN, NULL, 0 },
    { "an answer of 4 is taken", WT_BAD_ANSWER, begin_request, answer_badly, OF_OWN, NULL, 0 },
    { "the largest number is taken as an answer", WT_BAD_ANSWER, begin_request, answer_badly, OF_OWN, NULL, 1 },
    { "an answer to a question of kind 0 is taken", WT_BAD_ANSWER, begin_request, answer_badly, OF_OWN, NULL, 2 },
    { "an answer to a question of kind 4 is taken", WT_BAD_ANSWER, begin_request, answer_badly, OF_OWN, NULL, 3 },
    { "an answer of 4 maps", WT_BAD_ANSWER, NULL, map_with_another_field, OF_OWN, NULL, 4 },

    { "a block of no bytes", WT_BAD_SIZE, NULL, request, REQUEST(0, 0, 0, ANY_TYPE, WT_SHARED), grants, 0 },
    { "a mapping of no bytes", WT_BAD_SIZE, NULL, map_nothing, OF_OWN, NULL, 0 },
    { "an import of no bytes", WT_BAD_SIZE, NULL, import_wrongly, OF_OWN, NULL, 1 },
    { "an alignment of 3", WT_BAD_ALIGNMENT, NULL, request, REQUEST(1, 2, 0, ANY_TYPE, WT_SHARED), grants, 0 },
    { "an alignment of 2^64", WT_BAD_ALIGNMENT, NULL, request,
      REQUEST(1, UINT64_MAX, 0, ANY_TYPE, WT_SHARED), grants, 0 },
    { "a usage without a name", WT_BAD_USAGE, NULL, request, REQUEST(1, 0, 0x40, ANY_TYPE, WT_SHARED), grants, 0 },
    { "a usage of 32 bits", WT_BAD_USAGE, NULL, request, REQUEST(1, 0, 0x100, ANY_TYPE, WT_SHARED), grants, 0 },
    { "a wish of no name for an object of its own", WT_BAD_DEDICATED, NULL, request, REQUEST(1, 0, 0, ANY_TYPE, 3),
      grants, 0 },
    { "candidates for a usage without a name", WT_BAD_USAGE, NULL, candidates_for,
      REQUEST(1, 0, 0x40, ANY_TYPE, WT_SHARED), NULL, 0 },
    { "candidates for a usage of 32 bits", WT_BAD_USAGE, NULL, candidates_for,
      REQUEST(1, 0, 0x80000000, ANY_TYPE, WT_SHARED), NULL, 0 },
    { "candidates for a usage without a name, of no permitted type", WT_BAD_USAGE, NULL, candidates_for,
      REQUEST(1, 0, 0x100, 0, WT_SHARED), NULL, 0 },
    { "candidates for a usage without a name, and an address", WT_BAD_USAGE, NULL, candidates_for,
      REQUEST(1, 0, 0x40 | WT_USAGE_DEVICE_ADDRESS, ANY_TYPE, WT_SHARED), NULL, 0 },
    { "candidates for an address without the feature", WT_NO_DEVICE_ADDRESS, NULL, candidates_for,
      REQUEST(1, 0, WT_USAGE_DEVICE_ADDRESS, ANY_TYPE, WT_SHARED), NULL, 0 },

    { "flags without a name", WT_BAD_FLAGS, NULL, request, WITH_FLAGS(1, 0, 0, ANY_TYPE, WT_SHARED, 4), grants, 0 },
    { "a flag without a name beside one with it", WT_BAD_FLAGS, NULL, request,
      WITH_FLAGS(1, 0, 0, ANY_TYPE, WT_SHARED, WT_OPTIMAL | WT_HELD_ONLY | 4), grants, 0 },
    { "the highest flag", WT_BAD_FLAGS, NULL, request,
      WITH_FLAGS(1, 0, 0, ANY_TYPE, WT_SHARED, 0x80000000), grants, 0 },
    { "all flags", WT_BAD_FLAGS, NULL, request, WITH_FLAGS(1, 0, 0, ANY_TYPE, WT_SHARED, UINT32_MAX), grants, 0 },
    { "flags without a name, and a usage", WT_BAD_USAGE, NULL, request, WITH_FLAGS(1, 0, 0x40, ANY_TYPE, WT_SHARED, 4),
      grants, 0 },
    { "flags without a name, and a wish", WT_BAD_DEDICATED, NULL, request,
      WITH_FLAGS(1, 0, 0, ANY_TYPE, 3, 4), grants, 0 },
    { "flags without a name, and an answer that is none", WT_BAD_FLAGS, NULL, request_with_a_bad_answer,
      WITH_FLAGS(1, 0, 0, ANY_TYPE, WT_SHARED, 4), NULL, 0 },
    { "an optimal request, and an answer that is none", WT_BAD_ANSWER, NULL, request_with_a_bad_answer,
      WITH_FLAGS(1, 0, 0, ANY_TYPE, WT_SHARED, WT_OPTIMAL), NULL, 0 },
    { "flags without a name, and no bytes", WT_BAD_FLAGS, NULL, request, WITH_FLAGS(0, 0, 0, ANY_TYPE, WT_SHARED, 4),
      grants, 0 },
    { "flags without a name, and an alignment of 3", WT_BAD_FLAGS, NULL, request,
      WITH_FLAGS(1, 2, 0, ANY_TYPE, WT_SHARED, 4), grants, 0 },
    { "flags without a name, and an address", WT_BAD_FLAGS, NULL, request,
      WITH_FLAGS(1, 0, WT_USAGE_DEVICE_ADDRESS, ANY_TYPE, WT_SHARED, 4), grants, 0 },
    { "flags without a name, and no permitted type", WT_BAD_FLAGS, NULL, request, WITH_FLAGS(1, 0, 0, 0, WT_SHARED, 4),
      grants, 0 },
    { "an optimal block of no bytes", WT_BAD_SIZE, NULL, request, WITH_FLAGS(0, 0, 0, ANY_TYPE, WT_SHARED, WT_OPTIMAL),
      grants, 0 },
    { "nothing may be asked, and no object is held", WT_WOULD_ASK, free_and_clean_alone, request,
      WITH_FLAGS(1, 0, 0, ANY_TYPE, WT_SHARED, WT_HELD_ONLY), is_never_asked, 0 },
    { "nothing may be asked, and no type's object has a place", WT_WOULD_ASK, NULL, request,
      WITH_FLAGS(100, 0, WT_USAGE_TRANSIENT, ANY_TYPE & ~ONLY(COHERENT_TYPE), WT_SHARED, WT_HELD_ONLY),
      is_never_asked, 0 },
    { "nothing may be asked for an object of its own", WT_WOULD_ASK, NULL, request,
      WITH_FLAGS(100, 0, WT_USAGE_UPLOAD | WT_USAGE_TRANSIENT, ONLY(COHERENT_TYPE), WT_REQUIRED, WT_HELD_ONLY),
      is_never_asked, 0 },
    { "nothing may be asked for one where none remains", WT_WOULD_ASK, allow_no_more, request,
      WITH_FLAGS(100, 0, 0, ANY_TYPE, WT_REQUIRED, WT_HELD_ONLY), is_never_asked, 0 },
    { "nothing may be asked for whole pages of a large object", WT_WOULD_ASK, NULL, request,
      WITH_FLAGS(MEBIBYTE, 0, 0, ANY_TYPE, WT_SHARED, WT_HELD_ONLY | WT_OPTIMAL), is_never_asked, 0 },
    { "nothing may be asked, and the size is over the limit", WT_OUT_OF_DEVICE_MEMORY, NULL, request,
      WITH_FLAGS(12 * MEBIBYTE + 1, 0, 0, ANY_TYPE, WT_REQUIRED, WT_HELD_ONLY), is_never_asked, 0 },
    { "nothing may be asked of no permitted type", WT_NO_COMPATIBLE_MEMORY_TYPES, allow_no_more, request,
      WITH_FLAGS(1, 0, 0, 0, WT_REQUIRED, WT_HELD_ONLY), is_never_asked, 0 },
    { "nothing may be asked for no bytes", WT_BAD_SIZE, NULL, request,
      WITH_FLAGS(0, 0, 0, ANY_TYPE, WT_SHARED, WT_HELD_ONLY), is_never_asked, 0 },
    { "nothing may be asked, and an answer is none", WT_BAD_ANSWER, NULL, request_with_a_bad_answer,
      WITH_FLAGS(1, 0, 0, ANY_TYPE, WT_SHARED, WT_HELD_ONLY), NULL, 0 },
    { "an address without the feature", WT_NO_DEVICE_ADDRESS, NULL, request,
      REQUEST(1, 0, WT_USAGE_DEVICE_ADDRESS, ANY_TYPE, WT_SHARED), grants, 0 },
    { "a mapping passes its block by a byte", WT_BAD_RANGE, NULL, map_past_the_end, OF_OWN, NULL, 0 },
    { "a mapping begins behind its block", WT_BAD_RANGE, NULL, map_past_the_end, OF_OWN, NULL, 1 },
    { "a mapping begins at its block's end", WT_BAD_RANGE, NULL, map_past_the_end, OF_OWN, NULL, 2 },
    { "a mapping's size wraps", WT_BAD_RANGE, NULL, map_past_the_end, OF_OWN, NULL, 3 },
    { "a mapping's offset wraps", WT_BAD_RANGE, NULL, map_past_the_end, OF_OWN, NULL, 4 },
    { "a range passes its block by a byte", WT_BAD_RANGE, NULL, range_past_the_end, OF_OWN, NULL, 0 },
    { "a range begins behind its block", WT_BAD_RANGE, NULL, range_past_the_end, OF_OWN, NULL, 1 },
    { "a range's size wraps", WT_BAD_RANGE, NULL, range_past_the_end, OF_OWN, NULL, 3 },
    { "a range's offset wraps", WT_BAD_RANGE, NULL, range_past_the_end, OF_OWN, NULL, 4 },
    { "an import passes its object by a byte", WT_BAD_RANGE, NULL, import_wrongly, OF_OWN, NULL, 2 },
    { "an import begins behind its object", WT_BAD_RANGE, NULL, import_wrongly, OF_OWN, NULL, 3 },
    { "an import's offset wraps", WT_BAD_RANGE, NULL, import_wrongly, OF_OWN, NULL, 4 },
    { "an import's size wraps", WT_BAD_RANGE, NULL, import_wrongly, OF_OWN, NULL, 5 },
    { "an import of no memory type", WT_BAD_MEMORY_TYPE, NULL, import_wrongly, OF_OWN, NULL, 0 },
    { "free ranges of no memory type", WT_BAD_MEMORY_TYPE, NULL, ranges_of_no_type, OF_OWN, NULL, 0 },
    { "statistics of no memory type", WT_BAD_MEMORY_TYPE, NULL, statistics_of_no_type, OF_OWN, NULL, 0 },
    { "statistics of the type behind the last", WT_BAD_MEMORY_TYPE, NULL, statistics_of_no_type, OF_OWN, NULL, 1 },
    { "statistics of the type of the largest number", WT_BAD_MEMORY_TYPE, NULL, statistics_of_no_type,
      OF_OWN, NULL, 2 },
    { "a heap that is not there is counted", WT_BAD_HEAP, NULL, look_at_no_heap, OF_OWN, NULL, 0 },
    { "a heap that is not there gets a limit", WT_BAD_HEAP, NULL, limit_no_heap, OF_OWN, NULL, 0 },
    { "a heap behind the last gets a limit", WT_BAD_HEAP, NULL, limit_no_heap, OF_OWN, NULL, 1 },
    { "the heap of the largest number gets a limit", WT_BAD_HEAP, NULL, limit_no_heap, OF_OWN, NULL, 2 },
    { "an import ends inside an atom", WT_BAD_IMPORT_END, NULL, import_wrongly, OF_OWN, NULL, 6 },
    { "an import ends a byte behind an atom", WT_BAD_IMPORT_END, NULL, import_wrongly, OF_OWN, NULL, 7 },
    { "an import more than may be held", WT_NO_REMAINING, allow_no_more, import_wrongly, OF_OWN, NULL, 8 },
    { "2^32 objects may be held", WT_TOO_MANY_REMAINING, NULL, remain_too_many, OF_OWN, NULL, 0 },
    { "it is closed with live blocks", WT_STILL_HELD, NULL, close_it, OF_OWN, NULL, 0 },
    { "it is closed with a shared object", WT_STILL_HELD, free_blocks_alone, close_it, OF_OWN, NULL, 0 },
    { "it is closed with names to read", WT_UNREAD_NAMES, free_and_clean_alone, close_it, OF_OWN, NULL, 0 },
};

static void run(const test_case *c) {
    world w;
    picture before, after;
    char what[64];
    uint32_t status;
    current_case = c->name;
    begin_world(&w);
    if (c->prepare) c->prepare(&w, c);
    before = taken(&w);
    status = c->call(&w, c);
    after = taken(&w);
    snprintf(what, sizeof what, "status %u, and not %u", (unsigned)status, (unsigned)c->wanted);
    expect(status == c->wanted, what);
    expect(memcmp(&before, &after, sizeof before) == 0, "something was changed");
    end_world(&w);
}

/* Answers that are left over count nowhere: what was made for them is not the block's object. */
static void check_answers_left_over(void) {
    static const test_case shared = { "an answer that is left over counts", WT_OK, NULL, NULL, OF_NEW_CHUNK, NULL, 0 };
    wt_question answered, question;
    wt_range mapped;
    world w;
    current_case = shared.name;
    begin_world(&w);
    begin_request(&w, &shared);
    w.blocks[EXTRA_BLOCK] = granted(&w.allocator, &shared.request); /* so that there is room, and nothing is asked */
    expect(wt_free(&w.allocator, w.blocks[SHARED_BLOCK].key) == WT_OK, "a block is not taken back");
    expect(answer_begun_into(&w, &shared, &w.blocks[SHARED_BLOCK]) == WT_OK, "it is refused");
    expect(!w.blocks[SHARED_BLOCK].fresh, "its object is the one that was made");
    expect(w.blocks[SHARED_BLOCK].object == w.blocks[EXTRA_BLOCK].object, "it lies in another object");
    answered = (wt_question){ w.blocks[EXTRA_BLOCK].object, 0, 1, WT_MAP, 0, 0, WT_GRANTED };
    expect(wt_map(&w.allocator, w.blocks[EXTRA_BLOCK].key, 0, 1, &answered, 1, &mapped, &question) == WT_OK,
           "not mapped");
    end_world(&w);
}

int main(void) {
    check_answers_left_over();
    for (size_t i = 0; i < LENGTH(cases); i++) run(&cases[i]);
    current_case = "";
    for (uint32_t status = WT_OUT_OF_DEVICE_MEMORY; status <= WT_WOULD_ASK; status++) {
        int is_seen = 0;
        for (size_t i = 0; i < LENGTH(cases); i++) is_seen |= cases[i].wanted == status;
        expect(is_seen, "a status is wanted by no case");
    }
    printf("misuse: %u cases\n", (unsigned)LENGTH(cases));
    return 0;
}
