/* Each field of the header's structs stands where the library has it. The library has no offsets to tell, so what is
 * written into a field has to be seen in what the library does, and what it writes has to be found in the field.
 *
 * Neighbours of one type have different values, and each field is written and read by its name. So where two of them
 * change places, in the header or in the library, something below fails; tests/exchange shows it of each two. */
#include "common.h"

#define LARGEST ((uint64_t)1 << 36)
#define HEAP_SIZE ((uint64_t)1 << 40)
#define OBJECTS_ALLOWED 40
#define ADDRESS_FLAG 1u /* wt_limits.buffer_device_address: any number but 0 */
#define GRANULARITY 8192u
#define USER 0x123456789abcdefu

enum { DEVICE_SIDE, COHERENT, NON_COHERENT, KINDS };

/* The heap of each memory type is another number than its properties. */
static const uint32_t heap_of[KINDS] = { 2, 1, 0 };

static void fill_types(wt_memory_type *types) {
    static const uint32_t props[KINDS] = { WT_DEVICE_LOCAL, WT_HOST_VISIBLE | WT_HOST_COHERENT,
                                           WT_HOST_VISIBLE | WT_HOST_CACHED };
    for (size_t i = 0; i < KINDS; i++) {
        types[i].heap = heap_of[i];
        types[i].props = props[i];
    }
}

static void open_it(wt_allocator *a, uint64_t sharing) {
    const uint64_t heaps[KINDS] = { HEAP_SIZE, HEAP_SIZE, HEAP_SIZE };
    wt_memory_type types[KINDS];
    wt_limits limits;
    wt_config config;
    fill_types(types);
    limits.max_memory_allocation_size = LARGEST;
    limits.non_coherent_atom_size = ATOM;
    limits.max_memory_allocation_count = OBJECTS_ALLOWED;
    limits.buffer_device_address = ADDRESS_FLAG;
    limits.buffer_image_granularity = GRANULARITY;
    config.dedicated_threshold = 64 * KIBIBYTE;
    config.preferred_dedicated_threshold = 4 * KIBIBYTE;
    config.transient_dedicated_threshold = 256 * KIBIBYTE;
    config.starting_free_list_chunk = 8 * KIBIBYTE;
    config.final_free_list_chunk = MEBIBYTE;
    config.minimal_buddy_size = 256;
    config.initial_buddy_dedicated_size = 32 * KIBIBYTE;
    config.sharing = sharing;
    expect(wt_open(a, types, KINDS, heaps, KINDS, &limits, &config) == WT_OK, "it was not opened");
}

static wt_request request_of(uint64_t size, uint32_t usage, uint32_t memory_type, uint32_t dedicated) {
    wt_request request = WT_REQUEST_INIT;
    request.size = size;
    request.usage = usage;
    request.memory_types = 1u << memory_type;
    request.dedicated = dedicated;
    return request;
}

static wt_block granted(wt_allocator *a, const wt_request *request, questions *talk) {
    wt_block block;
    expect(allocate(a, request, grants, talk, &block) == WT_OK, "a request is refused that its device grants");
    return block;
}

/* The size of the object that a request asks for first; nothing is answered, so that nothing is changed. */
static uint64_t size_asked(wt_allocator *a, uint64_t size, uint32_t usage, uint32_t dedicated) {
    const wt_request request = request_of(size, usage, DEVICE_SIDE, dedicated);
    wt_question question;
    wt_block block;
    expect(wt_alloc(a, &request, NULL, 0, &block, &question) == WT_ASK, "nothing is asked");
    return question.size;
}

static void check_limits(wt_allocator *a) {
    wt_request request = request_of(LARGEST, WT_USAGE_DEVICE_ADDRESS, DEVICE_SIDE, WT_REQUIRED);
    wt_question question;
    wt_block block;
    current_case = "limits";
    expect(counts_of(a).remaining == OBJECTS_ALLOWED, "another number of objects may be held");
    expect(wt_alloc(a, &request, NULL, 0, &block, &question) == WT_ASK, "the largest request or addresses are refused");
    request.size++;
    expect(wt_alloc(a, &request, NULL, 0, &block, &question) == WT_OUT_OF_DEVICE_MEMORY, "a larger one is not refused");
}

/* Each size of the configuration decides a question's size. The smallest buddy and the last chunk of a free list are
 * looked at where blocks are granted. */
static void check_thresholds(wt_allocator *a) {
    current_case = "config";
    expect(size_asked(a, 64 * KIBIBYTE, 0, WT_SHARED) == 64 * KIBIBYTE, "dedicated_threshold: no object of its own");
    expect(size_asked(a, 64 * KIBIBYTE - 1, 0, WT_SHARED) == 128 * KIBIBYTE, "dedicated_threshold: not shared");
    expect(size_asked(a, 4 * KIBIBYTE, 0, WT_PREFERRED) == 4 * KIBIBYTE,
           "preferred_dedicated_threshold: no object of its own");
    expect(size_asked(a, 4 * KIBIBYTE - 1, 0, WT_PREFERRED) == 32 * KIBIBYTE,
           "preferred_dedicated_threshold: not shared, or initial_buddy_dedicated_size is another");
    expect(size_asked(a, 256 * KIBIBYTE, WT_USAGE_TRANSIENT, WT_SHARED) == 256 * KIBIBYTE,
           "transient_dedicated_threshold: no object of its own");
    expect(size_asked(a, 256 * KIBIBYTE - 1, WT_USAGE_TRANSIENT, WT_SHARED) != 256 * KIBIBYTE - 1,
           "transient_dedicated_threshold: not shared");
    expect(size_asked(a, 1, WT_USAGE_TRANSIENT, WT_SHARED) == 8 * KIBIBYTE, "starting_free_list_chunk is another");
}

/* The smallest buddy, and the objects of a free list, which grow to the last of its sizes and no further. */
static void check_sizes_granted(wt_allocator *a) {
    const wt_request smallest = request_of(1, 0, DEVICE_SIDE, WT_SHARED);
    const wt_request transient = request_of(200000, WT_USAGE_TRANSIENT, DEVICE_SIDE, WT_SHARED);
    uint64_t keys[24], largest = 0;
    questions talk;
    wt_block block = granted(a, &smallest, &talk);
    expect(block.size == 256, "minimal_buddy_size is another");
    expect(wt_free(a, block.key) == WT_OK, "a block is not taken back");
    for (size_t i = 0; i < LENGTH(keys); i++) {
        keys[i] = granted(a, &transient, &talk).key;
        if (talk.len && talk.asked[0].size > largest) largest = talk.asked[0].size;
    }
    expect(largest == MEBIBYTE, "final_free_list_chunk is another");
    for (size_t i = 0; i < LENGTH(keys); i++) expect(wt_free(a, keys[i]) == WT_OK, "a block is not taken back");
}

/* Reads all names, which have to be as many. */
static void read_gone(wt_allocator *a, size_t wanted) {
    uint64_t names[64];
    size_t count;
    expect(wt_gone(a, names, LENGTH(names), &count) == WT_OK && count == wanted, "another number of objects is told");
}

/* A block of an object of its own, its question, and what is asked to map a part of it. */
static void check_own(wt_allocator *a) {
    wt_request request = request_of(5000, WT_USAGE_HOST_ACCESS, NON_COHERENT, WT_REQUIRED);
    wt_block block;
    questions talk;
    wt_range mapped;
    current_case = "an object of its own";
    request.align_mask = 4095;
    request.flags = WT_OPTIMAL;
    request.user = USER;
    block = granted(a, &request, &talk);
    expect(talk.len == 1 && talk.asked[0].object == 0 && talk.asked[0].offset == 0, "an object is asked for otherwise");
    expect(talk.asked[0].kind == WT_ALLOCATE && talk.asked[0].size == 5000, "an object is asked for otherwise");
    expect(talk.asked[0].memory_type == NON_COHERENT, "another memory type is asked");
    expect(talk.asked[0].flags == (WT_ALLOCATE_DEVICE_ADDRESS | WT_ALLOCATE_OWN), "other flags are asked");
    expect(block.offset == 0 && block.size == 5000, "it lies elsewhere");
    expect(block.user == USER && block.asked == 5000, "user and asked are others");
    expect(block.flags == WT_OPTIMAL && block.reserved == 0, "flags and reserved are others");
    expect(block.memory_type == NON_COHERENT && block.fresh == 1, "memory_type and fresh are others");
    expect(heap_counts_of(a, heap_of[NON_COHERENT]).used == 5000, "another heap pays");
    expect(map(a, block.key, 2 * ATOM + 1, ATOM / 2, grants, &talk, &mapped) == WT_OK, "it is not mapped");
    expect(talk.len == 1 && talk.asked[0].kind == WT_MAP && talk.asked[0].object == block.object, "another is mapped");
    expect(talk.asked[0].offset == 2 * ATOM && talk.asked[0].size == ATOM, "another range is mapped");
    expect(mapped.object == block.object && mapped.offset == 2 * ATOM + 1 && mapped.size == ATOM / 2,
           "the mapped range is told otherwise");
    expect(wt_free(a, block.key) == WT_OK, "it is not taken back");
    read_gone(a, 1);
}

/* What stands in a question's answer before it is written: no answer, and none of the numbers beside it. */
static void check_unanswered(wt_allocator *a) {
    const wt_request request = request_of(5000, 0, DEVICE_SIDE, WT_REQUIRED);
    wt_question question, next;
    wt_block block;
    current_case = "a question";
    question.answer = WT_GRANTED;
    expect(wt_alloc(a, &request, NULL, 0, &block, &question) == WT_ASK, "nothing is asked");
    expect(question.answer > WT_DEVICE_MAP_FAILED, "a question is told with an answer");
    question.answer = WT_NO_HOST_MEMORY;
    expect(wt_alloc(a, &request, &question, 1, &block, &next) == WT_OUT_OF_HOST_MEMORY, "another answer is read");
}

/* Two blocks of one shared object, with what is told of them, of a range and of all that is held. */
static void check_shared(wt_allocator *a) {
    const wt_request request = request_of(640, WT_USAGE_UPLOAD | WT_USAGE_TRANSIENT, NON_COHERENT, WT_SHARED);
    questions talk;
    wt_block one, other, own;
    wt_range range;
    wt_counts counts;
    wt_request for_own = request_of(700, 0, DEVICE_SIDE, WT_REQUIRED);
    current_case = "a shared object";
    one = granted(a, &request, &talk);
    expect(talk.len == 2 && talk.asked[1].kind == WT_MAP_MADE, "it is not mapped when it was made");
    expect(talk.asked[1].offset == 0 && talk.asked[1].size == 8 * KIBIBYTE, "it is not mapped whole");
    other = granted(a, &request, &talk);
    expect(talk.len == 0 && one.fresh == 1 && other.fresh == 0, "there is no room in it, or fresh is another");
    expect(talk.len == 0 && one.flags == 0 && one.user == 0 && one.asked == 640, "it is told otherwise than asked");
    expect(one.object == other.object && one.key != other.key, "keys are not told by blocks, or objects by objects");
    expect(one.size == 640 && other.size == 640 && one.offset != other.offset, "offsets or sizes are others");
    expect(one.offset % ATOM == 0 && other.offset % ATOM == 0, "a block is not aligned");
    expect(wt_range_of(a, other.key, ATOM + 6, ATOM / 2, &range) == WT_OK, "a range is not told");
    expect(range.object == other.object && range.offset == other.offset + ATOM && range.size == ATOM, "it is another");
    own = granted(a, &for_own, &talk);
    expect(wt_free(a, own.key) == WT_OK, "a block is not taken back");
    own = granted(a, &for_own, &talk);
    counts = counts_of(a);
    expect(counts.blocks == 3 && counts.unread == 1, "blocks and objects to free are counted otherwise");
    expect(counts.held == 2 && counts.remaining == OBJECTS_ALLOWED - 2, "objects are counted otherwise");
    expect(wt_free(a, own.key) == WT_OK, "a block is not taken back");
    expect(wt_free(a, one.key) == WT_OK && wt_free(a, other.key) == WT_OK, "a block is not taken back");
    expect(wt_cleanup(a) == WT_OK, "it is not cleaned up");
    read_gone(a, 3);
}

/* An optimal block of a shared object: whole pages of the granularity. */
static void check_optimal(wt_allocator *a) {
    wt_request request = request_of(700, WT_USAGE_TRANSIENT, DEVICE_SIDE, WT_SHARED);
    questions talk;
    wt_block linear, optimal;
    current_case = "an optimal block";
    linear = granted(a, &request, &talk);
    expect(talk.len == 1 && talk.asked[0].flags == WT_ALLOCATE_DEVICE_ADDRESS, "a shared object is of its own");
    request.flags = WT_OPTIMAL;
    optimal = granted(a, &request, &talk);
    expect(optimal.offset % GRANULARITY == 0 && optimal.size >= GRANULARITY, "it is not of whole pages");
    expect(linear.flags == 0 && optimal.flags == WT_OPTIMAL && optimal.asked == 700, "it is told otherwise than asked");
    expect(wt_free(a, linear.key) == WT_OK && wt_free(a, optimal.key) == WT_OK, "a block is not taken back");
    expect(wt_cleanup(a) == WT_OK, "it is not cleaned up");
    read_gone(a, (size_t)counts_of(a).unread);
}

/* What a heap counts is past 64 bits by imports alone. */
static void check_heap_counts(wt_allocator *a) {
    const uint32_t heap = heap_of[DEVICE_SIDE];
    wt_heap_counts counts;
    wt_block one, other;
    current_case = "a heap";
    expect(wt_import(a, DEVICE_SIDE, 700, 0, 700, &one) == WT_OK, "it is not imported");
    counts = heap_counts_of(a, heap);
    expect(counts.used == 700 && counts.used_high == 0 && counts.budget == HEAP_SIZE - 700, "it is counted otherwise");
    expect(counts.limit == HEAP_SIZE, "its limit is another than its size");
    expect(wt_set_heap_limit(a, heap, 1000) == WT_OK, "no limit is set");
    counts = heap_counts_of(a, heap);
    expect(counts.budget == 300 && counts.limit == 1000, "its limit is counted otherwise");
    expect(wt_set_heap_limit(a, heap, UINT64_MAX) == WT_OK, "no limit is taken away");
    expect(heap_counts_of(a, heap).limit == HEAP_SIZE, "a limit over the heap's size is one");
    expect(wt_import(a, DEVICE_SIDE, UINT64_MAX, 0, UINT64_MAX, &other) == WT_OK, "it is not imported");
    counts = heap_counts_of(a, heap);
    expect(counts.used == 699 && counts.used_high == 1 && counts.budget == 0, "its upper bits are counted otherwise");
    expect(wt_free(a, one.key) == WT_OK && wt_free(a, other.key) == WT_OK, "a block is not taken back");
    read_gone(a, 2);
}

/* The sums of each kind, all of them others, and past 64 bits by imports. */
static void check_statistics(wt_allocator *a) {
    const wt_request own = request_of(5000, 0, DEVICE_SIDE, WT_REQUIRED);
    const wt_request buddy = request_of(300, 0, DEVICE_SIDE, WT_SHARED);
    const wt_request transient = request_of(640, WT_USAGE_TRANSIENT, DEVICE_SIDE, WT_SHARED);
    wt_type_statistics told;
    wt_block blocks[8];
    uint64_t chunk;
    questions talk;
    current_case = "statistics";
    blocks[0] = granted(a, &own, &talk);
    for (size_t i = 1; i < 4; i++) blocks[i] = granted(a, &buddy, &talk);
    blocks[4] = granted(a, &transient, &talk);
    chunk = talk.asked[0].size;
    blocks[5] = granted(a, &transient, &talk);
    for (size_t i = 6; i < 8; i++)
        expect(wt_import(a, DEVICE_SIDE, UINT64_MAX, 0, UINT64_MAX, &blocks[i]) == WT_OK, "no import");
    expect(wt_statistics(a, DEVICE_SIDE, &told) == WT_OK, "they are not told");
    expect(told.dedicated.objects == 1 && told.dedicated.blocks == 1 && told.dedicated.live_bytes == 5000, "dedicated");
    expect(told.dedicated.asked_bytes == 5000 && told.dedicated.scattered == 0, "dedicated: the bytes asked for");
    expect(told.imported.objects == 2 && told.imported.blocks == 2, "imported");
    expect(told.imported.live_bytes == UINT64_MAX - 1 && told.imported.live_bytes_high == 1, "imported: its bytes");
    expect(told.imported.asked_bytes == UINT64_MAX - 1 && told.imported.asked_bytes_high == 1,
           "imported: the bytes asked for");
    expect(told.buddy.objects == 1 && told.buddy.blocks == 3 && told.buddy.live_bytes == 3 * 512, "buddy");
    expect(told.buddy.asked_bytes == 3 * 300 && told.buddy.asked_bytes_high == 0, "buddy: the bytes asked for");
    expect(told.buddy.free_bytes == 32 * KIBIBYTE - 3 * 512 && told.buddy.free_bytes_high == 0,
           "buddy: its free bytes");
    expect(told.buddy.largest_free == 16 * KIBIBYTE, "buddy: its largest free range");
    /* Free are 512, 2048, 4096, 8192 and 16384 bytes, of which the first three lie below half of the last. */
    expect(told.buddy.scattered == 1000 * 6656 / 31232, "buddy: its scattered share");
    expect(told.free_list.objects == 1 && told.free_list.blocks == 2 && told.free_list.live_bytes == 1280, "free_list");
    expect(told.free_list.free_bytes == chunk - 1280 && told.free_list.largest_free == chunk - 1280,
           "free_list: its free bytes");
    expect(told.free_list.asked_bytes == 1280 && told.free_list.scattered == 0, "free_list: the bytes asked for");
    expect(told.fit.objects == 0 && told.fit.blocks == 0 && told.fit.free_bytes == 0, "fit");
    for (size_t i = 0; i < LENGTH(blocks); i++) expect(wt_free(a, blocks[i].key) == WT_OK, "a block is not taken back");
    expect(wt_cleanup(a) == WT_OK, "it is not cleaned up");
    read_gone(a, (size_t)counts_of(a).unread);
}

/* Two blocks of a fit chunk, as long as asked in whole grains, with its sums. */
static void check_fit(wt_allocator *a) {
    const wt_request request = request_of(300, 0, DEVICE_SIDE, WT_SHARED);
    wt_type_statistics told;
    wt_block one, other;
    questions talk;
    current_case = "a fit chunk";
    one = granted(a, &request, &talk);
    expect(talk.len == 1 && talk.asked[0].size == 8 * KIBIBYTE, "sharing or starting_free_list_chunk is another");
    other = granted(a, &request, &talk);
    expect(one.size == 512 && other.size == 512 && one.object == other.object, "a block is not as long as asked");
    expect(wt_statistics(a, DEVICE_SIDE, &told) == WT_OK, "they are not told");
    expect(told.fit.objects == 1 && told.fit.blocks == 2 && told.fit.live_bytes == 1024
           && told.fit.live_bytes_high == 0, "fit");
    expect(told.fit.asked_bytes == 600 && told.fit.asked_bytes_high == 0, "fit: the bytes asked for");
    expect(told.fit.free_bytes == 8 * KIBIBYTE - 1024 && told.fit.free_bytes_high == 0, "fit: its free bytes");
    expect(told.fit.largest_free == 8 * KIBIBYTE - 1024, "fit: its largest free range");
    expect(told.buddy.objects == 0 && told.free_list.objects == 0, "buddy or free_list");
    expect(wt_free(a, one.key) == WT_OK && wt_free(a, other.key) == WT_OK, "a block is not taken back");
    expect(counts_of(a).held == 1, "no fit chunk waits for a cleanup");
    expect(wt_cleanup(a) == WT_OK, "it is not cleaned up");
    read_gone(a, 1);
}

int main(void) {
    wt_allocator allocator = { 0, NULL };
    open_it(&allocator, WT_BUDDY);
    check_limits(&allocator);
    check_thresholds(&allocator);
    check_sizes_granted(&allocator);
    expect(wt_cleanup(&allocator) == WT_OK, "it is not cleaned up");
    read_gone(&allocator, (size_t)counts_of(&allocator).unread);
    check_own(&allocator);
    check_unanswered(&allocator);
    check_shared(&allocator);
    check_optimal(&allocator);
    check_heap_counts(&allocator);
    check_statistics(&allocator);
    expect(wt_close(&allocator) == WT_OK, "it is not closed");
    open_it(&allocator, WT_FIT);
    check_fit(&allocator);
    expect(wt_close(&allocator) == WT_OK, "it is not closed");
    printf("fields: each where the library has it\n");
    return 0;
}
