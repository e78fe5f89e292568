/* Drawn calls over a device that may refuse each question, with books of what has to be so after each step.
 *
 *     drawn SEED STEPS PERCENT SHARING    PERCENT: how many of a hundred questions are refused; SHARING: buddy, fit */
#include "common.h"

#include <string.h>

#define MOST 4096
#define MOST_OBJECTS 160u

typedef struct {
    uint64_t name, size, counted;
    uint32_t memory_type;
    int is_imported, is_own, is_transient, is_mapped_whole, is_mapped;
} object;

typedef struct {
    wt_block at;
    int is_mapped;
} block;

static wt_allocator allocator, other; /* of the other one nothing is wanted but its keys */
static object objects[MOST]; /* those that were not read from wt_gone */
static block blocks[MOST];   /* the live ones */
static uint64_t keys[MOST];  /* all that were ever given */
static uint64_t other_keys[64];
static size_t objects_len, blocks_len, keys_len;

static object pending; /* what was made for the request that is being served */
static int has_pending;

static uint64_t percent, last_name, made, freed, granted, refused, asked;
static uint64_t total; /* the objects that are held and that may be */
static uint32_t has_device_address;
static uint64_t heaps[HEAPS], heap_limits[HEAPS];
static uint64_t granularity, sharing;
static const wt_request *serving; /* the request that the device is asked for */

static object *find_object(uint64_t name) {
    for (size_t i = 0; i < objects_len; i++)
        if (objects[i].name == name) return &objects[i];
    expect(0, "an object is named that is not there");
    return NULL;
}

static int is_live(uint64_t key) {
    for (size_t i = 0; i < blocks_len; i++)
        if (blocks[i].at.key == key) return 1;
    return 0;
}

/* ---- The device ---- */

static void free_pending(void) {
    freed += (uint64_t)has_pending;
    has_pending = 0;
}

static void make_pending(const wt_question *question) {
    object fresh = { 0, question->size, question->size, question->memory_type, 0, 0, 0, 0, 0 };
    pending = fresh;
    pending.is_own = (question->flags & WT_ALLOCATE_OWN) != 0;
    pending.is_transient = (serving->usage & WT_USAGE_TRANSIENT) != 0;
    has_pending = 1;
    made++;
}

static uint64_t limit_of(uint32_t heap) {
    return heap_limits[heap] < heaps[heap] ? heap_limits[heap] : heaps[heap];
}

/* What the objects count that were not read from wt_gone. */
static uint64_t counted_of(uint32_t heap) {
    uint64_t sum = 0;
    for (size_t i = 0; i < objects_len; i++)
        if (memory_types[objects[i].memory_type].heap == heap) sum += objects[i].counted;
    return sum;
}

/* The grain of fit chunks: the device's atom is smaller. */
#define GRAIN 256u

static uint64_t whole(uint64_t size, uint64_t unit) {
    return (size + unit - 1) / unit * unit;
}

/* The size by which a request is served: in whole pages, where it is optimal. */
static uint64_t served_size(const wt_request *request) {
    return whole(request->size, request->flags == WT_OPTIMAL && granularity ? granularity : 1);
}

/* Whether a request that shares an object shares a fit chunk. */
static int shares_fit(const wt_request *request) {
    return sharing == WT_FIT && !(request->usage & WT_USAGE_TRANSIENT);
}

/* The size from which on a request gets an object of its own: 1/32 of its heap at most, and more than the first chunk
 * where it would share a fit chunk. */
static uint64_t own_from(const wt_request *request, uint32_t memory_type) {
    uint64_t part = heaps[memory_types[memory_type].heap] / 32, size = small_config.dedicated_threshold;
    if (request->usage & WT_USAGE_TRANSIENT) size = small_config.transient_dedicated_threshold;
    if (request->dedicated == WT_PREFERRED && small_config.preferred_dedicated_threshold < size)
        size = small_config.preferred_dedicated_threshold;
    if (request->dedicated == WT_REQUIRED) size = 0;
    if (part < size) size = part;
    if (shares_fit(request)) {
        uint64_t first = small_config.starting_free_list_chunk < part ? small_config.starting_free_list_chunk : part;
        first -= first % GRAIN;
        if (first + 1 < size) size = first + 1;
    }
    return size;
}

static void check_own(const wt_question *question) {
    int is_own = (question->flags & WT_ALLOCATE_OWN) != 0;
    uint64_t served = served_size(serving);
    expect(!is_own || question->size == serving->size, "an object of its own has another size than its request");
    expect(is_own == (served >= own_from(serving, question->memory_type)),
           "an object of its own is told as shared, or not");
}

static void check_allocate(const wt_question *question) {
    uint32_t flags = has_device_address ? WT_ALLOCATE_DEVICE_ADDRESS : 0, heap;
    expect(question->object == 0 && question->offset == 0, "a field of an object to make is not 0");
    expect(question->memory_type < TYPES, "an object is wanted of no memory type");
    expect((question->flags & ~WT_ALLOCATE_OWN) == flags, "the address flag is wrong");
    check_own(question);
    heap = memory_types[question->memory_type].heap;
    expect(question->size > 0 && question->size <= heap_counts_of(&allocator, heap).budget,
           "an object is wanted that is over the heap's budget");
    expect(heap_counts_of(&allocator, heap).used + question->size <= limit_of(heap),
           "an object passes the heap's limit");
    expect(counts_of(&allocator).unread > 0 || counted_of(heap) + question->size <= limit_of(heap),
           "with what is held an object passes the heap's limit");
}

static void check_map_made(const wt_question *question) {
    expect(question->object == 0 && question->memory_type == 0 && question->flags == 0,
           "a field of a mapping is not 0");
    expect(has_pending && !pending.is_mapped_whole, "an object is to be mapped that was not made, or twice");
    expect(is_host_visible(pending.memory_type), "an object is to be mapped that the host does not see");
    expect(question->offset == 0 && question->size == pending.size, "a shared object is not mapped whole");
}

static void check_map(const wt_question *question) {
    const object *of = find_object(question->object);
    expect(question->memory_type == 0 && question->flags == 0, "a field of a mapping is not 0");
    expect(!of->is_mapped && !of->is_mapped_whole, "an object is to be mapped that is mapped");
    expect(is_host_visible(of->memory_type), "an object is to be mapped that the host does not see");
    expect(question->size > 0 && question->offset <= of->size && question->size <= of->size - question->offset,
           "a mapping passes the end of its object");
}

static uint32_t answer(const wt_question *question) {
    int is_refused = draw(100) < percent;
    asked++;
    if (question->kind == WT_ALLOCATE) {
        free_pending(); /* the memory type that it was made for is passed */
        check_allocate(question);
        if (!is_refused) make_pending(question);
    } else if (question->kind == WT_MAP_MADE) {
        check_map_made(question);
        pending.is_mapped_whole = !is_refused;
    } else {
        expect(question->kind == WT_MAP, "a question is of no kind");
        check_map(question);
        find_object(question->object)->is_mapped = !is_refused;
    }
    return is_refused ? WT_NO_DEVICE_MEMORY + (uint32_t)draw(3) : WT_GRANTED;
}

/* ---- What has to be so after each step ---- */

static void check_heap(uint32_t heap, int is_all_read) {
    wt_heap_counts counts = heap_counts_of(&allocator, heap);
    uint64_t sum = counted_of(heap), limit = limit_of(heap);
    expect(counts.used_high == 0, "a heap counts 2^64 bytes");
    expect(counts.used == sum || (!is_all_read && counts.used < sum), "a heap counts other bytes than are held");
    expect(counts.limit == limit, "a wrong limit");
    expect(counts.budget == (counts.used < limit ? limit - counts.used : 0), "a wrong budget");
}

static void check_books(void) {
    wt_counts counts = counts_of(&allocator);
    wt_block told;
    expect(counts.blocks == blocks_len, "other blocks are counted than are live");
    expect(counts.held + counts.unread == objects_len, "other objects are counted than are there");
    expect((uint64_t)counts.held + counts.remaining == total, "held and remaining objects are other ones in all");
    for (uint32_t heap = 0; heap < HEAPS; heap++) check_heap(heap, counts.unread == 0);
    for (size_t i = 0; i < blocks_len; i++) {
        expect(wt_block_of(&allocator, blocks[i].at.key, &told) == WT_OK, "a live block is not told");
        expect(is_same_block(&told, &blocks[i].at), "a live block was changed");
    }
}

/* ---- Blocks ---- */

static void remember(const wt_block *given) {
    block fresh = { *given, 0 };
    for (size_t i = 0; i < keys_len; i++) expect(keys[i] != given->key, "a key is given twice");
    expect(keys_len < MOST, "so many blocks have no room");
    keys[keys_len++] = given->key;
    fresh.at.fresh = 0;
    blocks[blocks_len++] = fresh;
}

static void add_object(object new_one, uint64_t name) {
    expect(name > last_name, "an object has a name that was used");
    last_name = name;
    new_one.name = name;
    objects[objects_len++] = new_one;
}

static void check_place(const wt_block *given, const object *of) {
    expect(given->memory_type == of->memory_type, "a block has another memory type than its object");
    expect(given->offset <= of->size && given->size <= of->size - given->offset, "a block passes its object's end");
    for (size_t i = 0; i < blocks_len; i++)
        expect(blocks[i].at.object != given->object
                   || !share_a_byte(blocks[i].at.offset, blocks[i].at.size, given->offset, given->size),
               "two blocks share a byte");
}

/* No page has bytes of an optimal block and of a linear one, and no object of its own a second block. */
static void check_neighbours(const wt_block *given, const object *of) {
    for (size_t i = 0; i < blocks_len; i++) {
        expect(!share_a_page(&blocks[i].at, given, granularity), "an optimal block and a linear one share a page");
        expect(!of->is_own || blocks[i].at.object != given->object, "an object of its own has a second block");
    }
}

static int serves(const wt_request *request, uint32_t memory_type) {
    uint32_t host = WT_USAGE_HOST_ACCESS | WT_USAGE_DOWNLOAD | WT_USAGE_UPLOAD;
    return (request->memory_types >> memory_type & 1) && (!(request->usage & host) || is_host_visible(memory_type));
}

static void check_granted(const wt_request *request, const questions *talk, const wt_block *given) {
    const object *of;
    expect(given->fresh <= 1, "fresh is neither 0 nor 1");
    if (given->fresh) {
        expect(has_pending && talk->asked[talk->len - 1].answer == WT_GRANTED, "an object is fresh that was not made");
        add_object(pending, given->object);
        has_pending = 0;
    }
    free_pending();
    of = find_object(given->object);
    check_place(given, of);
    check_neighbours(given, of);
    expect(!of->is_imported, "a block lies in an imported object");
    expect(given->user == request->user && given->asked == request->size, "it is told otherwise than asked");
    expect(given->flags == request->flags && given->reserved == 0, "its flags are others");
    if (is_host_visible(of->memory_type))
        expect(of->is_own != of->is_mapped_whole, "a shared object is of its own, or none");
    if (of->is_own)
        expect(given->fresh && given->offset == 0 && given->size == of->size && of->size == request->size,
               "an object of its own is no whole block");
    expect(given->size >= request->size, "a block is smaller than was asked for");
    if (!of->is_own && shares_fit(request)) {
        expect(given->size == whole(served_size(request), GRAIN), "a block of a fit chunk is not as long as asked");
        expect(given->offset % GRAIN == 0, "a block of a fit chunk does not start at a grain");
    }
    expect((given->offset & request->align_mask) == 0, "a block is not aligned");
    expect(serves(request, given->memory_type), "a block is of a memory type that may not serve it");
    if (request->dedicated == WT_REQUIRED)
        expect(of->is_own && !of->is_mapped_whole, "a block that has to be a whole object is none");
    remember(given);
    granted++;
}

/* The memory types that were asked come in the order of the candidates. */
static void check_order(const wt_request *request, const questions *talk) {
    uint32_t types[TYPES];
    size_t count, at = 0;
    expect(wt_candidates(&allocator, request->usage, request->memory_types, types, TYPES, &count) == WT_OK,
           "no candidates");
    for (size_t i = 0; i < talk->len; i++) {
        if (talk->asked[i].kind != WT_ALLOCATE) continue;
        while (at < count && types[at] != talk->asked[i].memory_type) at++;
        expect(at++ < count, "a memory type is asked out of order, or is no candidate");
    }
}

/* Whether a block with an object of its own was refused though a heap had room, and nothing was asked. */
static int is_refused_with_room(const wt_request *request, const questions *talk) {
    int has_room = 0;
    for (uint32_t type = 0; type < TYPES; type++)
        has_room |= serves(request, type)
            && heap_counts_of(&allocator, memory_types[type].heap).budget >= request->size;
    return request->dedicated == WT_REQUIRED && talk->len == 0 && has_room;
}

static void check_refused(const wt_request *request, uint32_t status, const questions *talk) {
    uint32_t last = talk->len ? talk->asked[talk->len - 1].answer : WT_GRANTED;
    int is_served = 0;
    for (uint32_t type = 0; type < TYPES; type++) is_served |= serves(request, type);
    free_pending();
    if (status == WT_OUT_OF_DEVICE_MEMORY) {
        expect(talk->len == 0 || last == WT_NO_DEVICE_MEMORY, "device memory is wanting that was granted");
        expect(!is_refused_with_room(request, talk), "device memory is wanting where a heap has room");
    } else if (status == WT_OUT_OF_HOST_MEMORY) {
        expect(last == WT_NO_HOST_MEMORY || last == WT_DEVICE_MAP_FAILED, "host memory is wanting that was granted");
    } else if (status == WT_TOO_MANY_OBJECTS) {
        expect(counts_of(&allocator).remaining == 0, "too many objects are held where one more may be");
    } else {
        expect(status == WT_NO_COMPATIBLE_MEMORY_TYPES && !is_served, "a request is refused for no reason");
    }
    refused++;
}

/* ---- The steps ---- */

static wt_request draw_request(void) {
    wt_request request = WT_REQUEST_INIT;
    request.size = 1 + (draw(10) ? draw(4000) : draw(200 * KIBIBYTE));
    request.align_mask = ((uint64_t)1 << draw(9)) - 1;
    request.usage = draw(2) ? WT_USAGE_TRANSIENT | (uint32_t)draw(16) : (uint32_t)draw(32);
    if (has_device_address && draw(2)) request.usage |= WT_USAGE_DEVICE_ADDRESS;
    request.memory_types = draw(4) ? UINT32_MAX : (uint32_t)draw(1 << TYPES);
    if (draw(8) == 0) request.dedicated = (uint32_t)draw(3);
    request.flags = draw(2) ? WT_OPTIMAL : 0;
    request.user = draw(UINT64_MAX);
    return request;
}

static void step_allocate(void) {
    wt_request request = draw_request();
    questions talk;
    wt_block given;
    uint64_t before = free_space(&allocator);
    uint32_t status;
    serving = &request;
    status = allocate(&allocator, &request, answer, &talk, &given);
    check_order(&request, &talk);
    if (status == WT_OK) {
        check_granted(&request, &talk, &given);
    } else {
        check_refused(&request, status, &talk);
        expect(free_space(&allocator) == before, "a refused request changed what is free");
    }
}

/* A request that is not asked again after its first question. */
static void step_abandon(void) {
    wt_request request = draw_request();
    wt_question question;
    wt_block given;
    uint64_t before = free_space(&allocator);
    request.dedicated = WT_REQUIRED;
    if (wt_alloc(&allocator, &request, NULL, 0, &given, &question) == WT_ASK)
        expect(free_space(&allocator) == before, "a question changed what is free");
}

static void free_block(size_t at) {
    uint64_t key = blocks[at].at.key;
    expect(wt_free(&allocator, key) == WT_OK, "a live block is not taken back");
    blocks[at] = blocks[--blocks_len];
    expect(wt_free(&allocator, key) == WT_UNKNOWN_KEY, "a block is taken back twice");
}

static void step_free(void) {
    size_t at = (size_t)draw(blocks_len + 1);
    if (at < blocks_len) free_block(at);
}

static void step_set_user(void) {
    block *of = &blocks[draw(blocks_len + 1)];
    if (of == &blocks[blocks_len]) return;
    of->at.user = draw(3) ? draw(UINT64_MAX) : 0;
    expect(wt_set_user(&allocator, of->at.key, of->at.user) == WT_OK, "a value is refused");
}

static size_t place_of_live(uint64_t key) {
    for (size_t i = 0; i < blocks_len; i++)
        if (blocks[i].at.key == key) return i;
    expect(0, "a walk tells a block that is not live");
    return 0;
}

/* Goes on with a walk: its next blocks are live ones, as they were given, in the order of their keys' places. Answers
 * whether it goes on behind them. */
static int walk_on(uint64_t *after, uint64_t *walked, size_t *walked_len) {
    wt_block page[4];
    size_t count = SIZE_MAX, room = 1 + (size_t)draw(LENGTH(page));
    expect(wt_blocks(&allocator, *after, page, room, &count) == WT_OK && count <= room, "a walk goes wrong");
    for (size_t i = 0; i < count; i++) {
        expect(is_same_block(&page[i], &blocks[place_of_live(page[i].key)].at), "a walk tells a block otherwise");
        expect(*after == 0 || (uint32_t)page[i].key > (uint32_t)*after, "a walk goes back");
        *after = page[i].key;
        walked[(*walked_len)++] = page[i].key;
    }
    return count == room;
}

static unsigned times_in(uint64_t key, const uint64_t *walked, size_t walked_len) {
    unsigned times = 0;
    for (size_t i = 0; i < walked_len; i++) times += walked[i] == key;
    return times;
}

static void step_walk(void) {
    static uint64_t walked[MOST + 4];
    wt_block last;
    uint64_t after = 0;
    size_t walked_len = 0, count = SIZE_MAX;
    while (walk_on(&after, walked, &walked_len));
    expect(walked_len == blocks_len, "a walk tells other blocks than are live");
    for (size_t i = 0; i < blocks_len; i++)
        expect(times_in(blocks[i].at.key, walked, walked_len) == 1, "a walk does not tell a block once");
    expect(wt_blocks(&allocator, after, NULL, 0, &count) == WT_OK && count == 0, "a walk with no room writes");
    expect(wt_blocks(&allocator, UINT32_MAX, &last, 1, &count) == WT_OK && count == 0, "a walk goes on behind its end");
}

/* A walk with grants and returns between: each block that lived all along is told once. The block that it goes on from
 * may be freed, and its place may be another's. */
static void step_walk_and_change(void) {
    static uint64_t walked[2 * MOST], before[MOST];
    uint64_t after = 0;
    size_t walked_len = 0, before_len = blocks_len;
    for (size_t i = 0; i < blocks_len; i++) before[i] = blocks[i].at.key;
    while (walk_on(&after, walked, &walked_len)) {
        if (draw(3) == 0 && is_live(after)) free_block(place_of_live(after));
        if (draw(3) == 0) step_free();
        if (draw(3) == 0 && keys_len < MOST - 1) step_allocate();
        if (draw(3) == 0) step_set_user();
    }
    for (size_t i = 0; i < before_len; i++) {
        unsigned times = times_in(before[i], walked, walked_len);
        expect(is_live(before[i]) ? times == 1 : times <= 1, "a block that lived all along is not told once");
    }
}

static int is_local(uint32_t memory_type) {
    return (memory_types[memory_type].props & WT_DEVICE_LOCAL) != 0;
}

/* The candidates are the types that serve, each once, device-local ones first or last. */
static void check_candidates(const wt_request *request, const uint32_t *types, size_t count) {
    int is_fast = request->usage == 0 || (request->usage & WT_USAGE_FAST_DEVICE_ACCESS) != 0;
    size_t serving_types = 0;
    for (uint32_t type = 0; type < TYPES; type++) serving_types += (size_t)serves(request, type);
    expect(count == serving_types, "other candidates are told than serve");
    for (size_t i = 0; i < count; i++) {
        expect(types[i] < TYPES && serves(request, types[i]), "a candidate does not serve");
        for (size_t j = 0; j < i; j++) expect(types[i] != types[j], "a candidate is told twice");
        if (i > 0 && is_local(types[i]) != is_local(types[i - 1]))
            expect(is_local(types[i]) != is_fast, "device-local types are at the wrong end");
    }
}

static void step_candidates(void) {
    wt_request request = draw_request();
    uint32_t types[TYPES], some[TYPES + 1];
    size_t count = SIZE_MAX, again = SIZE_MAX, room = (size_t)draw(TYPES + 1);
    uint32_t status = wt_candidates(&allocator, request.usage, request.memory_types, types, TYPES, &count);
    expect(status == WT_OK, "candidates are refused");
    check_candidates(&request, types, count);
    for (size_t i = 0; i <= TYPES; i++) some[i] = UINT32_MAX;
    expect(wt_candidates(&allocator, request.usage, request.memory_types, some, room, &again) == WT_OK
           && again == count,
           "other candidates are told where there is less room");
    for (size_t i = 0; i <= TYPES; i++)
        expect(some[i] == (i < room && i < count ? types[i] : UINT32_MAX), "candidates pass their room, or are others");
}

/* From now on a heap has another limit: none, some of it, less than is held, or a little more. */
static void step_set_heap_limit(void) {
    uint32_t heap = (uint32_t)draw(HEAPS);
    uint64_t used = heap_counts_of(&allocator, heap).used, before = free_space(&allocator);
    const uint64_t drawn[] = { UINT64_MAX, heaps[heap], draw(heaps[heap] + 1), draw(used + 1),
                               used + draw(64 * KIBIBYTE), UINT64_MAX };
    heap_limits[heap] = drawn[draw(LENGTH(drawn))];
    expect(wt_set_heap_limit(&allocator, heap, heap_limits[heap]) == WT_OK, "a limit is refused");
    expect(wt_set_heap_limit(&allocator, HEAPS + (uint32_t)draw(3), 0) == WT_BAD_HEAP, "a limit of no heap is taken");
    expect(free_space(&allocator) == before, "a limit changed what is free");
}

static void step_old_key(void) {
    uint64_t key = keys_len ? keys[draw(keys_len)] : UINT64_MAX;
    if (!is_live(key)) expect(is_refused_everywhere(&allocator, key), "a key that was freed is taken");
}

static void step_other_key(void) {
    uint64_t key = other_keys[draw(LENGTH(other_keys))];
    if (!is_live(key)) expect(is_refused_everywhere(&allocator, key), "a key that another gave is taken");
}

static uint32_t map_status(uint32_t answered) {
    static const uint32_t statuses[] = { WT_OK, WT_OUT_OF_DEVICE_MEMORY, WT_OUT_OF_HOST_MEMORY, WT_MAP_FAILED };
    return statuses[answered];
}

static void check_mapping(const block *of, uint64_t start, uint64_t size, const wt_question *question) {
    uint64_t end = question->offset + question->size, atom = is_non_coherent(of->at.memory_type) ? ATOM : 1;
    expect(question->object == of->at.object, "another object is to be mapped");
    expect(question->offset <= start && end >= start + size, "a mapping leaves bytes out");
    expect(start - question->offset < ATOM && end - (start + size) < ATOM, "a mapping is larger than its atoms");
    expect(question->offset % atom == 0 && (end % atom == 0 || end == of->at.offset + of->at.size),
           "a mapping is not of whole atoms");
}

static void map_unmapped(block *of, uint64_t offset, uint64_t size) {
    questions talk;
    wt_range mapped;
    const object *in = find_object(of->at.object);
    uint64_t start = of->at.offset + offset;
    uint32_t status = map(&allocator, of->at.key, offset, size, answer, &talk, &mapped);
    expect(talk.len == (in->is_mapped_whole ? 0u : 1u), "a shared object is mapped again, or another is not");
    expect(status == (talk.len ? map_status(talk.asked[0].answer) : WT_OK), "a mapping ends otherwise than answered");
    if (talk.len) check_mapping(of, start, size, &talk.asked[0]);
    if (status != WT_OK) return;
    expect(mapped.object == of->at.object && mapped.offset == start && mapped.size == size, "other bytes are mapped");
    of->is_mapped = 1;
}

static void step_map(void) {
    block *of = &blocks[draw(blocks_len + 1)];
    wt_question question;
    wt_range mapped;
    uint64_t offset, size;
    if (of == &blocks[blocks_len]) return;
    offset = draw(of->at.size);
    size = 1 + draw(of->at.size - offset);
    if (is_host_visible(of->at.memory_type) && !of->is_mapped) {
        map_unmapped(of, offset, size);
    } else {
        uint32_t status = wt_map(&allocator, of->at.key, offset, size, NULL, 0, &mapped, &question);
        expect(status == (of->is_mapped ? WT_ALREADY_MAPPED : WT_NON_HOST_VISIBLE),
               "a block is mapped that may not be");
    }
}

static void step_unmap(void) {
    block *of = &blocks[draw(blocks_len + 1)];
    object *in;
    uint64_t name = UINT64_MAX;
    if (of == &blocks[blocks_len]) return;
    in = find_object(of->at.object);
    expect(wt_unmap(&allocator, of->at.key, &name) == WT_OK, "a live block is not unmapped");
    expect(name == (of->is_mapped && !in->is_mapped_whole ? in->name : 0), "the wrong object is to be unmapped");
    of->is_mapped = 0;
    in->is_mapped = 0;
}

static void check_range(const block *of, uint64_t start, uint64_t size, const wt_range *range) {
    const object *in = find_object(of->at.object);
    uint64_t block_end = of->at.offset + of->at.size, end = (start + size + ATOM - 1) / ATOM * ATOM;
    if (end > block_end) end = block_end;
    expect(range->object == of->at.object, "a range of another object is told");
    expect(range->offset == start / ATOM * ATOM && range->offset + range->size == end, "other atoms are told");
    expect(end % ATOM == 0 || end == in->size, "a range ends neither on an atom nor with its object");
    expect(in->is_imported || range->offset >= of->at.offset, "a range begins before its block");
}

static void step_range(void) {
    const block *of = &blocks[draw(blocks_len + 1)];
    wt_range range;
    uint64_t offset, size;
    uint32_t status;
    if (of == &blocks[blocks_len]) return;
    offset = draw(of->at.size + 1);
    size = draw(of->at.size - offset + 1);
    status = wt_range_of(&allocator, of->at.key, offset, size, &range);
    if (!is_host_visible(of->at.memory_type)) {
        expect(status == WT_NON_HOST_VISIBLE, "a range is told of what the host does not see");
    } else {
        expect(status == WT_OK, "a range is not told");
        if (size == 0 || !is_non_coherent(of->at.memory_type))
            expect(range.size == 0, "bytes are told that need no flush");
        else check_range(of, of->at.offset + offset, size, &range);
    }
}

static void check_imported(object own, uint64_t offset, uint64_t size, const wt_block *given) {
    add_object(own, given->object);
    expect(given->offset == offset && given->size == size, "an import is another range");
    expect(given->fresh == 0, "an import is told as fresh");
    expect(given->user == 0 && given->asked == size && given->flags == 0 && given->reserved == 0,
           "an import is told as asked");
    check_place(given, &objects[objects_len - 1]);
    remember(given);
    made++;
}

static void step_import(void) {
    object own = { 0, 1 + draw(20000), 0, (uint32_t)draw(TYPES), 1, 1, 0, 0, 0 };
    uint64_t offset = draw(own.size), size = 1 + draw(own.size - offset);
    uint32_t remaining = counts_of(&allocator).remaining, status;
    int is_bad_end;
    wt_block given;
    if (draw(2) || remaining == 0) size = own.size - offset;
    is_bad_end = is_non_coherent(own.memory_type) && (offset + size) % ATOM && offset + size != own.size;
    own.counted = size;
    status = wt_import(&allocator, own.memory_type, own.size, offset, size, &given);
    if (is_bad_end) expect(status == WT_BAD_IMPORT_END, "an import with a bad end is taken");
    else if (remaining == 0) expect(status == WT_NO_REMAINING, "one object too many is taken");
    else expect(status == WT_OK, "an import is refused");
    if (status == WT_OK) check_imported(own, offset, size, &given);
}

static void take_gone(uint64_t name) {
    object *gone = find_object(name);
    for (size_t i = 0; i < blocks_len; i++)
        expect(blocks[i].at.object != name, "an object of a live block is told as gone");
    *gone = objects[--objects_len];
    freed++;
}

static void read_gone(size_t room) {
    uint64_t names[8];
    size_t count = SIZE_MAX;
    uint64_t before = counts_of(&allocator).unread;
    expect(wt_gone(&allocator, names, room, &count) == WT_OK, "what is gone is not told");
    expect(count == (before < room ? before : room), "other names are read than there are and fit");
    for (size_t i = 0; i < count; i++) take_gone(names[i]);
    expect(counts_of(&allocator).unread == before - count, "a name is lost, or stays after it was read");
}

static void step_gone(void) {
    static const size_t rooms[] = { 0, 1, 1, 2, 8, 8 };
    read_gone(rooms[draw(LENGTH(rooms))]);
}

static void step_cleanup(void) {
    expect(wt_cleanup(&allocator) == WT_OK, "it is not cleaned up");
}

static void step_set_remaining(void) {
    uint32_t remaining = (uint32_t)draw(MOST_OBJECTS);
    expect(wt_set_remaining(&allocator, remaining) == WT_OK, "a number of objects is refused");
    total = (uint64_t)counts_of(&allocator).held + remaining;
}

/* The bytes of an object that are free or lie in live blocks, which have to be all where any block is live. */
static void check_filled(const object *of, uint64_t free_bytes) {
    uint64_t live_bytes = 0;
    for (size_t i = 0; i < blocks_len; i++)
        if (blocks[i].at.object == of->name) live_bytes += blocks[i].at.size;
    if (of->is_imported) expect(free_bytes == 0, "bytes of an import are free");
    else if (live_bytes) expect(free_bytes == of->size - live_bytes, "bytes are neither live nor free");
    else expect(free_bytes == 0 || free_bytes == of->size, "an object with no block is not wholly free");
}

static void check_free_range(const wt_range *range, const wt_range *before, uint32_t memory_type) {
    const object *in = find_object(range->object);
    expect(in->memory_type == memory_type, "a free range is of another memory type");
    expect(range->size > 0 && range->offset + range->size <= in->size,
           "a free range is empty or passes its object's end");
    expect(range->object > before->object
               || (range->object == before->object && range->offset >= before->offset + before->size),
           "free ranges are out of order");
    for (size_t i = 0; i < blocks_len; i++)
        expect(blocks[i].at.object != range->object
                   || !share_a_byte(blocks[i].at.offset, blocks[i].at.size, range->offset, range->size),
               "a live byte is free");
}

static void step_free_ranges(void) {
    static uint64_t free_bytes[MOST];
    uint32_t type = (uint32_t)draw(TYPES);
    size_t count = SIZE_MAX, again, room = 1 + (size_t)draw(3);
    wt_range page[3], before = { 0, 0, 0 };
    for (size_t i = 0; i < objects_len; i++) free_bytes[i] = 0;
    expect(wt_free_ranges(&allocator, type, 0, NULL, 0, &count) == WT_OK, "free ranges are not counted");
    for (size_t first = 0; first < count; first += room) {
        expect(wt_free_ranges(&allocator, type, first, page, room, &again) == WT_OK, "free ranges are not told");
        expect(again == count, "free ranges are other ones in all");
        for (size_t i = 0; i < room && first + i < count; i++) {
            check_free_range(&page[i], &before, type);
            free_bytes[find_object(page[i].object) - objects] += page[i].size;
            before = page[i];
        }
    }
    for (size_t i = 0; i < objects_len; i++)
        if (objects[i].memory_type == type) check_filled(&objects[i], free_bytes[i]);
}

/* How many objects with a live block requests of a memory type share that are not transient. */
static uint64_t busy_objects(uint32_t type) {
    uint64_t busy = 0;
    for (size_t i = 0; i < objects_len; i++) {
        int is_busy = 0;
        if (objects[i].memory_type != type || objects[i].is_own || objects[i].is_transient) continue;
        for (size_t j = 0; j < blocks_len; j++) is_busy |= blocks[j].at.object == objects[i].name;
        busy += (uint64_t)is_busy;
    }
    return busy;
}

/* Of buddy and fit chunks there are those that were chosen. At most one fit chunk has no live block. */
static void check_chosen(uint32_t type, const wt_type_statistics *told) {
    static const wt_kind_statistics nothing;
    uint64_t busy = busy_objects(type);
    const wt_kind_statistics *chosen = sharing == WT_FIT ? &told->fit : &told->buddy;
    const wt_kind_statistics *none = sharing == WT_FIT ? &told->buddy : &told->fit;
    expect(memcmp(none, &nothing, sizeof nothing) == 0, "requests share objects in another way than was chosen");
    expect(chosen->objects >= busy && chosen->objects <= busy + (sharing == WT_FIT),
           "a chunk stays without a live block, or a second one does");
}

/* The sums of a memory type, by what its objects are held for. */
typedef struct {
    wt_kind_statistics own, imported, transient, shared;
} sums;

static wt_kind_statistics *sums_of(sums *all, const object *of) {
    if (of->is_imported) return &all->imported;
    if (of->is_own) return &all->own;
    return of->is_transient ? &all->transient : &all->shared;
}

/* What a walk over all blocks comes to. */
static void add_walked(sums *all, uint32_t type) {
    wt_block page[3];
    uint64_t after = 0;
    size_t count = LENGTH(page);
    while (count == LENGTH(page)) {
        expect(wt_blocks(&allocator, after, page, LENGTH(page), &count) == WT_OK, "a walk goes wrong");
        for (size_t i = 0; i < count; i++) {
            wt_kind_statistics *of = sums_of(all, find_object(page[i].object));
            after = page[i].key;
            if (page[i].memory_type != type) continue;
            of->blocks++;
            of->live_bytes += page[i].size;
            of->asked_bytes += page[i].asked;
        }
    }
}

/* What free ranges come to: first their bytes and the largest, and then the bytes of those below half of it. */
static void add_free(sums *all, uint32_t type) {
    wt_range range;
    size_t count;
    uint64_t below[2] = { 0, 0 };
    expect(wt_free_ranges(&allocator, type, 0, NULL, 0, &count) == WT_OK, "free ranges are not counted");
    for (size_t i = 0; i < 2 * count; i++) {
        wt_kind_statistics *of;
        expect(wt_free_ranges(&allocator, type, i % count, &range, 1, &count) == WT_OK, "free ranges are not told");
        of = sums_of(all, find_object(range.object));
        if (i < count) {
            of->free_bytes += range.size;
            if (range.size > of->largest_free) of->largest_free = range.size;
        } else if (2 * range.size < of->largest_free) {
            below[of == &all->transient] += range.size;
        }
    }
    if (all->shared.free_bytes) all->shared.scattered = 1000 * below[0] / all->shared.free_bytes;
    if (all->transient.free_bytes) all->transient.scattered = 1000 * below[1] / all->transient.free_bytes;
}

static void check_sums(const wt_kind_statistics *told, wt_kind_statistics wanted, const char *what) {
    wanted.objects = told->objects;
    expect(memcmp(told, &wanted, sizeof wanted) == 0, what);
}

/* The sums of a memory type are those of the blocks and free ranges that there are: each object is held for one
 * purpose, and no sum passes 64 bits. */
static void step_statistics(void) {
    uint32_t type = (uint32_t)draw(TYPES);
    wt_type_statistics told;
    sums all;
    memset(&all, 0, sizeof all);
    add_walked(&all, type);
    add_free(&all, type);
    expect(wt_statistics(&allocator, type, &told) == WT_OK, "statistics are refused");
    check_sums(&told.dedicated, all.own, "objects of their own are summed otherwise");
    check_sums(&told.imported, all.imported, "imports are summed otherwise");
    check_sums(&told.free_list, all.transient, "objects of transient blocks are summed otherwise");
    check_sums(sharing == WT_FIT ? &told.fit : &told.buddy, all.shared, "shared objects are summed otherwise");
    expect(told.dedicated.objects == all.own.blocks && told.imported.objects == all.imported.blocks,
           "an object of one block has none or two");
    check_chosen(type, &told);
}

/* How many times words stand in a text. */
static size_t times_written(const char *text, const char *words) {
    size_t times = 0;
    for (const char *at = text; (at = strstr(at, words)) != NULL; at++) times++;
    return times;
}

/* A report is the same however much room there is, and has each live block with its value and what was asked for, and
 * no other. */
static void step_report(void) {
    static char text[MOST * 128], some[MOST * 128];
    char words[160];
    size_t length = SIZE_MAX, again = SIZE_MAX, room;
    expect(wt_report(&allocator, NULL, 0, &length) == WT_OK && length < sizeof text,
           "a report is refused, or too long");
    text[length] = 'x';
    expect(wt_report(&allocator, text, length, &again) == WT_OK && again == length, "a report has another length");
    expect(text[length] == 'x', "a report passes its room");
    text[length] = 0;
    expect(strlen(text) == length, "a report has a 0");
    room = (size_t)draw(length);
    memset(some, 'x', length);
    expect(wt_report(&allocator, some, room, &again) == WT_OK && again == length, "a report has another length");
    expect(memcmp(some, text, room) == 0 && some[room] == 'x', "a report with less room is another");
    for (size_t i = 0; i < blocks_len; i++) {
        snprintf(words, sizeof words, "{\"key\":%llu,\"user\":%llu,\"asked\":%llu,\"offset\":%llu,\"size\":%llu}",
                 (unsigned long long)blocks[i].at.key, (unsigned long long)blocks[i].at.user,
                 (unsigned long long)blocks[i].at.asked, (unsigned long long)blocks[i].at.offset,
                 (unsigned long long)blocks[i].at.size);
        expect(times_written(text, words) == 1, "a live block is not reported once");
    }
    expect(times_written(text, "{\"key\":") - times_written(text, "{\"key\":null,") == blocks_len,
           "other blocks are reported than are live");
    expect(times_written(text, "{\"object\":") == counts_of(&allocator).held,
           "other objects are reported than are held");
}

static void take_step(void) {
    static const struct {
        void (*step)(void);
        unsigned weight;
    } steps[] = {
        { step_allocate, 40 }, { step_abandon, 3 }, { step_free, 22 },   { step_old_key, 3 },     { step_other_key, 2 },
        { step_map, 8 },       { step_unmap, 6 },   { step_range, 6 },   { step_import, 3 },      { step_gone, 8 },
        { step_cleanup, 1 },   { step_set_remaining, 1 },                { step_free_ranges, 3 },
        { step_set_user, 3 },  { step_walk, 2 },    { step_walk_and_change, 2 },                 { step_candidates, 2 },
        { step_set_heap_limit, 3 },                 { step_statistics, 2 },                      { step_report, 1 },
    };
    unsigned sum = 0;
    uint64_t drawn;
    for (size_t i = 0; i < LENGTH(steps); i++) sum += steps[i].weight;
    drawn = draw(sum);
    for (size_t i = 0; i < LENGTH(steps); i++) {
        if (drawn < steps[i].weight) {
            steps[i].step();
            return;
        }
        drawn -= steps[i].weight;
    }
}

/* Some blocks of another allocator, each in a place that another block had before. */
static void fill_other(void) {
    wt_limits limits = device_limits(LENGTH(other_keys) + 1, 0);
    wt_request request = REQUEST(16, 0, WT_USAGE_TRANSIENT, UINT32_MAX, WT_SHARED);
    questions talk;
    wt_block first, given;
    open_device(&other, &limits, WT_BUDDY);
    for (size_t i = 0; i < LENGTH(other_keys); i++) {
        expect(allocate(&other, &request, grants, &talk, &first) == WT_OK, "another gives no block");
        expect(wt_free(&other, first.key) == WT_OK, "another takes no block back");
        expect(allocate(&other, &request, grants, &talk, &given) == WT_OK, "another gives no block");
        other_keys[i] = given.key;
    }
}

static void close_other(void) {
    uint64_t name;
    size_t count = 1;
    for (size_t i = 0; i < LENGTH(other_keys); i++)
        expect(wt_free(&other, other_keys[i]) == WT_OK, "a block was taken back by the wrong allocator");
    expect(wt_cleanup(&other) == WT_OK, "another is not cleaned up");
    while (count) expect(wt_gone(&other, &name, 1, &count) == WT_OK, "another does not tell what is gone");
    expect(wt_close(&other) == WT_OK, "another is not closed");
}

static void finish(void) {
    while (blocks_len) step_free();
    step_cleanup();
    while (objects_len) {
        expect(counts_of(&allocator).unread > 0, "an object is neither needed nor told");
        read_gone(1);
    }
    check_books();
    expect(wt_close(&allocator) == WT_OK, "an allocator that holds nothing is not closed");
    expect(made == freed, "other objects were freed than made");
}

int main(int argc, char **argv) {
    static const uint64_t granularities[] = { 0, 1, ATOM, 1024, 4096, 65536 };
    unsigned long steps;
    wt_limits limits;
    if (argc != 5) {
        fprintf(stderr, "usage: drawn SEED STEPS PERCENT SHARING\n");
        return 2;
    }
    seed_draws(strtoull(argv[1], NULL, 10));
    steps = strtoul(argv[2], NULL, 10);
    percent = strtoull(argv[3], NULL, 10);
    sharing = sharing_named(argv[4]);
    expect(steps < MOST, "so many steps have no room");
    has_device_address = (uint32_t)draw(2);
    limits = device_limits(MOST_OBJECTS, has_device_address);
    total = MOST_OBJECTS;
    granularity = granularities[draw(LENGTH(granularities))];
    limits.buffer_image_granularity = granularity;
    /* Some heaps are small, so that they are often full. */
    for (size_t i = 0; i < HEAPS; i++) {
        heaps[i] = heap_sizes[i] >> (draw(2) ? 3 + draw(5) : 0);
        heap_limits[i] = UINT64_MAX;
    }
    open_heaps(&allocator, &limits, heaps, sharing);
    fill_other();
    for (unsigned long i = 0; i < steps; i++) {
        current_step++;
        take_step();
        check_books();
    }
    finish();
    close_other();
    printf("drawn %s %s %s %s: %llu granted, %llu refused, %llu questions, %llu objects made and freed\n",
           argv[1], argv[2], argv[3], argv[4], (unsigned long long)granted, (unsigned long long)refused,
           (unsigned long long)asked, (unsigned long long)made);
    return 0;
}
