/* Each error that wallthyme_vulkan.h names, one at a time, over an allocator with some blocks: the result is the one
 * that stands there, and nothing is changed. Then each call of the driver is refused in turn with each of its errors,
 * and each request for memory of this side's. */
#include "stub.h"

#include <stdarg.h>
#include <string.h>
#ifdef _WIN32
#include <windows.h>
#else
#include <pthread.h>
#endif

/* ---- What the linker puts in place of the functions for memory, of the lock's, and of four of the library's. ---- */

/* Declares what a function really is, and begins what stands in its place. */
#define WRAP(type, name, parameters) \
    type __real_##name parameters; \
    type __wrap_##name parameters

static long served_before = -1; /* how many requests are served before one is refused; below 0: each is served */
static bool is_all_refused, is_lock_refused, is_in_vain, is_mapped_in_vain;
static unsigned refusals;
static long live_memory; /* pieces */
static uint32_t other_version;

/* What is seen of the allocator that was created last: its lock, and how often it was held; the calls of wt_block_of;
   and copies of the program's bytes, and how many of them were made under the lock. Volatile: to the compiler, a memcpy
   does not read it. */
static volatile struct {
    const void *lock; /* of Windows' locks each counts: they have no start that is seen, and the tests have no other */
    bool is_held;
    const char *bytes;
    void (*during)(void); /* what another thread does while they are copied, or null */
    unsigned holds, lookups, copies, copies_under_lock;
} seen_of_lock;

static void *counted(void *memory)
{
    live_memory += memory != NULL;
    return memory;
}

static bool is_refused(void)
{
    bool refused = is_all_refused || served_before == 0;
    if (served_before >= 0)
        served_before--;
    refusals += refused;
    return refused;
}

WRAP(void *, malloc, (size_t size))
{
    return is_refused() ? NULL : counted(__real_malloc(size));
}

WRAP(void *, calloc, (size_t count, size_t size))
{
    return is_refused() ? NULL : counted(__real_calloc(count, size));
}

WRAP(void *, realloc, (void *old, size_t size))
{
    if (is_refused())
        return NULL;
    void *larger = __real_realloc(old, size);
    live_memory += old == NULL && larger != NULL;
    return larger;
}

WRAP(void, free, (void *memory))
{
    live_memory -= memory != NULL;
    __real_free(memory);
}

WRAP(void *, memcpy, (void *to, const void *from, size_t size))
{
    if (seen_of_lock.bytes != NULL && (from == seen_of_lock.bytes || to == seen_of_lock.bytes)) {
        seen_of_lock.copies++;
        seen_of_lock.copies_under_lock += seen_of_lock.is_held;
        if (seen_of_lock.during != NULL)
            seen_of_lock.during();
    }
    return __real_memcpy(to, from, size);
}

#ifdef _WIN32
WRAP(void, AcquireSRWLockExclusive, (SRWLOCK *lock))
{
    __real_AcquireSRWLockExclusive(lock);
    seen_of_lock.holds++;
    seen_of_lock.is_held = true;
}

WRAP(void, ReleaseSRWLockExclusive, (SRWLOCK *lock))
{
    seen_of_lock.is_held = false;
    __real_ReleaseSRWLockExclusive(lock);
}
#else
WRAP(int, pthread_mutex_init, (pthread_mutex_t *lock, const pthread_mutexattr_t *attributes))
{
    seen_of_lock.lock = lock;
    return is_lock_refused ? 1 : __real_pthread_mutex_init(lock, attributes);
}

WRAP(int, pthread_mutex_lock, (pthread_mutex_t *lock))
{
    int result = __real_pthread_mutex_lock(lock);
    if (lock == seen_of_lock.lock) {
        seen_of_lock.holds++;
        seen_of_lock.is_held = true;
    }
    return result;
}

WRAP(int, pthread_mutex_unlock, (pthread_mutex_t *lock))
{
    if (lock == seen_of_lock.lock)
        seen_of_lock.is_held = false;
    return __real_pthread_mutex_unlock(lock);
}
#endif

WRAP(uint32_t, wt_version, (void))
{
    return other_version != 0 ? other_version : __real_wt_version();
}

/* The library may lack memory once the driver has answered. */
WRAP(uint32_t, wt_alloc, (wt_allocator *a, const wt_request *request, const wt_question *asked, size_t asked_len,
                          wt_block *block, wt_question *question))
{
    if (is_in_vain && asked_len > 0)
        return WT_OUT_OF_HOST_MEMORY;
    return __real_wt_alloc(a, request, asked, asked_len, block, question);
}

WRAP(uint32_t, wt_block_of, (wt_allocator *a, uint64_t key, wt_block *block))
{
    seen_of_lock.lookups++;
    return __real_wt_block_of(a, key, block);
}

WRAP(uint32_t, wt_map, (wt_allocator *a, uint64_t key, uint64_t offset, uint64_t size, const wt_question *asked,
                        size_t asked_len, wt_range *mapped, wt_question *question))
{
    if ((is_in_vain || is_mapped_in_vain) && asked_len > 0)
        return WT_OUT_OF_HOST_MEMORY;
    return __real_wt_map(a, key, offset, size, asked, asked_len, mapped, question);
}

/* ---- The world of a row. ---- */

enum which {
    SHARED,   /* coherent */
    CACHED,   /* of a shared object, and not coherent */
    OWN,      /* an object of its own, not coherent and not mapped */
    LOCAL,    /* the host does not see it */
    IMPORTED, /* not coherent */
    BUFFER,   /* of world.buffer */
    IMAGE,    /* of world.image */
    BLOCKS,
    ZERO = BLOCKS,
    FREED,
    UNKNOWN, /* of no allocator */
    WHICH
};

enum { BLOCK_SIZE = 4096, OBJECT_SIZE = 16 << 10, SMALL = 1000, SIDE = 20, MANY_RANGES = 40, MOST_OBJECTS = 64 };

typedef struct world {
    stub *driver;
    wtv_allocator *allocator;
    wtv_allocation at[WHICH];
    VkBuffer buffer, loose_buffer; /* a loose one is bound to nothing */
    VkImage image, loose_image;
    VkDeviceMemory loose_memory;
    wtv_allocation made; /* by the last deed that was done, with its resource */
    VkBuffer made_buffer;
    VkImage made_image;
} world;

static const char *current = "";

static void expect(bool is_so, const char *what)
{
    if (!is_so) {
        fprintf(stderr, "FAILED: %s: %s\n", current, what);
        exit(1);
    }
}

/* A block that each of the small resources fits. The one that the host does not see is for an image. */
static wtv_allocation allocated(world *w, uint32_t type, uint32_t dedicated)
{
    const VkMemoryRequirements needs = {BLOCK_SIZE, BLOCK_SIZE, 1u << type};
    const wtv_request request = {.dedicated = dedicated, .flags = type == STUB_LOCAL ? WT_OPTIMAL : 0};
    wtv_allocation allocation = 0;
    expect(wtv_allocate(w->allocator, &needs, &request, &allocation, NULL) == VK_SUCCESS, "no block is allocated");
    return allocation;
}

static VkBuffer made_buffer(world *w)
{
    const VkBufferCreateInfo info = stub_buffer_info(SMALL);
    VkBuffer made = VK_NULL_HANDLE;
    expect(stub_table.create_buffer(stub_info(w->driver).device, &info, NULL, &made) == VK_SUCCESS, "no buffer");
    return made;
}

static VkImage made_image(world *w)
{
    const VkImageCreateInfo info = stub_image_info(SIDE, SIDE, true);
    VkImage made = VK_NULL_HANDLE;
    expect(stub_table.create_image(stub_info(w->driver).device, &info, NULL, &made) == VK_SUCCESS, "no image");
    return made;
}

static void fill(world *w)
{
    const VkBufferCreateInfo buffer = stub_buffer_info(SMALL);
    const VkImageCreateInfo image = stub_image_info(SIDE, SIDE, true);
    const wtv_request upload = {.usage = WT_USAGE_UPLOAD};
    w->at[FREED] = allocated(w, STUB_COHERENT, WT_SHARED);
    w->at[SHARED] = allocated(w, STUB_COHERENT, WT_SHARED);
    w->at[CACHED] = allocated(w, STUB_CACHED, WT_SHARED);
    w->at[OWN] = allocated(w, STUB_CACHED, WT_REQUIRED);
    w->at[LOCAL] = allocated(w, STUB_LOCAL, WT_SHARED);
    w->at[UNKNOWN] = UINT64_C(0xffffffff00000001);
    VkDeviceMemory memory = stub_make_object(w->driver, STUB_CACHED, OBJECT_SIZE);
    expect(wtv_import(w->allocator, memory, STUB_CACHED, OBJECT_SIZE, 0, OBJECT_SIZE, &w->at[IMPORTED], NULL)
               == VK_SUCCESS, "nothing is imported");
    expect(wtv_create_buffer(w->allocator, &buffer, &upload, &w->buffer, &w->at[BUFFER], NULL) == VK_SUCCESS,
           "no buffer is created");
    expect(wtv_create_image(w->allocator, &image, NULL, &w->image, &w->at[IMAGE], NULL) == VK_SUCCESS,
           "no image is created");
    expect(wtv_free(w->allocator, w->at[FREED]) == VK_SUCCESS, "a block is not taken back");
    expect(wtv_set_name(w->allocator, w->at[SHARED], "shared") == VK_SUCCESS, "a block is not named");
    w->loose_buffer = made_buffer(w);
    w->loose_image = made_image(w);
    w->loose_memory = stub_make_object(w->driver, STUB_CACHED, OBJECT_SIZE);
}

/* Small chunks, which cost the stub little. */
static const wt_config small_config = {
    .dedicated_threshold = 32 << 10,
    .preferred_dedicated_threshold = 4 << 10,
    .transient_dedicated_threshold = 32 << 10,
    .starting_free_list_chunk = 8 << 10,
    .final_free_list_chunk = 32 << 10,
    .minimal_buddy_size = 64,
    .initial_buddy_dedicated_size = 8 << 10,
};

static wtv_allocator *created(stub *s, const wtv_functions *functions, const wt_config *config)
{
    wtv_create_info info = stub_info(s);
    wtv_allocator *a = NULL;
    info.config = config;
    info.functions = functions;
    info.other_objects = 1;
    expect(wtv_create(&info, &a) == VK_SUCCESS, "no allocator is created");
    return a;
}

static void closed(stub *s, wtv_allocator *a)
{
    expect(wtv_destroy(a, NULL, 0, NULL) == VK_SUCCESS, "an allocator is not destroyed");
    expect(stub_close(s) == 0, "the stub found failures");
}

static world begun(const char *name)
{
    stub_plan plan = stub_usual_plan();
    plan.max_objects = MOST_OBJECTS;
    world w = {.driver = stub_open(&plan)};
    current = name;
    w.allocator = created(w.driver, NULL, &small_config);
    fill(&w);
    return w;
}

static void ended(world *w)
{
    VkDevice device = stub_info(w->driver).device;
    stub_refuse(w->driver, STUB_FUNCTIONS, VK_SUCCESS, 0, false);
    stub_table.destroy_buffer(device, w->loose_buffer, NULL);
    stub_table.destroy_image(device, w->loose_image, NULL);
    stub_table.free_memory(device, w->loose_memory, NULL);
    for (int i = 0; i < BUFFER; i++)
        expect(wtv_free(w->allocator, w->at[i]) == VK_SUCCESS, "a block is not taken back");
    expect(wtv_destroy_buffer(w->allocator, w->buffer, w->at[BUFFER]) == VK_SUCCESS, "a buffer is not destroyed");
    expect(wtv_destroy_image(w->allocator, w->image, w->at[IMAGE]) == VK_SUCCESS, "an image is not destroyed");
    closed(w->driver, w->allocator);
}

/* All that can be seen of a world, but for free chunks. */
typedef struct picture {
    char *texts[2];
    wt_counts counts;
    stub_held held;
    wtv_block blocks[MOST_OBJECTS + BLOCKS];
    size_t blocks_len;
} picture;

static picture taken(world *w)
{
    picture seen;
    memset(&seen, 0, sizeof seen);
    expect(wtv_cleanup(w->allocator) == VK_SUCCESS, "a cleanup fails");
    expect(wtv_report_text(w->allocator, &seen.texts[0]) == VK_SUCCESS, "no report");
    expect(wtv_statistics_text(w->allocator, &seen.texts[1]) == VK_SUCCESS, "no statistics");
    expect(wtv_count(w->allocator, &seen.counts) == VK_SUCCESS, "nothing is counted");
    expect(wtv_blocks(w->allocator, 0, seen.blocks, LENGTH(seen.blocks), &seen.blocks_len) == VK_SUCCESS, "no walk");
    seen.held = stub_held_now(w->driver);
    return seen;
}

static void compare(picture before, picture after)
{
    expect(strcmp(before.texts[0], after.texts[0]) == 0, "a report is another one");
    expect(strcmp(before.texts[1], after.texts[1]) == 0, "statistics are other ones");
    expect(memcmp(&before.counts, &after.counts, sizeof before.counts) == 0, "other things are counted");
    expect(memcmp(&before.held, &after.held, sizeof before.held) == 0, "the driver holds other things");
    expect(before.blocks_len == after.blocks_len, "other blocks are live");
    for (size_t i = 0; i < before.blocks_len; i++)
        expect(before.blocks[i].allocation == after.blocks[i].allocation
                   && before.blocks[i].mapped == after.blocks[i].mapped
                   && before.blocks[i].name == after.blocks[i].name
                   && before.blocks[i].user == after.blocks[i].user, "a block was changed");
    for (size_t i = 0; i < LENGTH(before.texts); i++) {
        wtv_free_text(before.texts[i]);
        wtv_free_text(after.texts[i]);
    }
}

/* ---- Rows. ---- */

typedef struct row {
    const char *name;
    VkResult wanted;
    VkResult (*call)(world *, const struct row *);
    enum which which;
    uint64_t offset, size;
    wtv_request request;
    uint32_t flags;  /* of a resource, or bits of memory types */
    uint32_t number; /* of a memory type, a heap, an alignment or a usage */
    void (*prepare)(world *, const struct row *);
} row;

static const char bytes_of_program[BLOCK_SIZE];

/* A call, of which AT is the row's allocation; and one that makes an allocation, which an error does not write. */
#define CALL(name, ...) \
    static VkResult call_##name(world *w, const row *r) \
    { \
        return (void)r, (__VA_ARGS__); \
    }
#define MAKES(name, ...) \
    static VkResult call_##name(world *w, const row *r) \
    { \
        wtv_allocation allocation = 7; \
        VkResult result = __VA_ARGS__; \
        expect(result == VK_SUCCESS || allocation == 7, "an error writes an allocation"); \
        return result; \
    }
#define AT w->at[r->which]

CALL(block_of, wtv_block_of(w->allocator, AT, &(wtv_block){0}))
CALL(set_user, wtv_set_user(w->allocator, AT, 7))
CALL(set_name, wtv_set_name(w->allocator, AT, r->name))
CALL(take_name_away, wtv_set_name(w->allocator, AT, NULL))
CALL(set_wrong_name, wtv_set_name(w->allocator, AT, "\xc3"))
CALL(free, wtv_free(w->allocator, AT))
CALL(unmap, wtv_unmap(w->allocator, AT))
CALL(write, wtv_write(w->allocator, AT, r->offset, bytes_of_program, (size_t)r->size))
CALL(read, wtv_read(w->allocator, AT, r->offset, (char[BLOCK_SIZE]){0}, (size_t)r->size))
CALL(flush_too_many, wtv_flush(w->allocator, &(wtv_range){AT, 0, 1}, (size_t)UINT32_MAX + 1))
CALL(bind_buffer, wtv_bind_buffer(w->allocator, AT, r->offset, w->loose_buffer))
CALL(bind_image, wtv_bind_image(w->allocator, AT, r->offset, w->loose_image))
CALL(bind_no_buffer, wtv_bind_buffer(w->allocator, AT, r->offset, VK_NULL_HANDLE))
CALL(bind_no_image, wtv_bind_image(w->allocator, AT, r->offset, VK_NULL_HANDLE))
CALL(destroy_buffer, wtv_destroy_buffer(w->allocator, w->loose_buffer, AT))
CALL(destroy_image, wtv_destroy_image(w->allocator, w->loose_image, AT))
CALL(destroy_no_buffer, wtv_destroy_buffer(w->allocator, VK_NULL_HANDLE, AT))
CALL(destroy_no_image, wtv_destroy_image(w->allocator, VK_NULL_HANDLE, AT))
CALL(set_heap_limit, wtv_set_heap_limit(w->allocator, r->number, 1000))
CALL(heap, wtv_heap(w->allocator, r->number, &(wt_heap_counts){0}))
CALL(statistics, wtv_statistics(w->allocator, r->number, &(wt_type_statistics){0}))
CALL(update_budget, wtv_update_budget(w->allocator))
MAKES(import, wtv_import(w->allocator, w->loose_memory, r->number, OBJECT_SIZE, r->offset, r->size, &allocation, NULL))
MAKES(allocate, wtv_allocate(w->allocator, &(VkMemoryRequirements){r->size, r->number, r->flags}, &r->request,
                             &allocation, NULL))
MAKES(allocate_for_buffer, wtv_allocate_for_buffer(w->allocator, w->loose_buffer, &r->request, &allocation, NULL))
MAKES(allocate_for_image, wtv_allocate_for_image(w->allocator, w->loose_image, &r->request, &allocation, NULL))
MAKES(allocate_for_no_buffer, wtv_allocate_for_buffer(w->allocator, VK_NULL_HANDLE, &r->request, &allocation, NULL))
MAKES(allocate_for_no_image, wtv_allocate_for_image(w->allocator, VK_NULL_HANDLE, &r->request, &allocation, NULL))

static VkResult call_map(world *w, const row *r)
{
    void *bytes = w;
    VkResult result = wtv_map(w->allocator, w->at[r->which], &bytes);
    expect(result == VK_SUCCESS || bytes == w, "an error writes a pointer");
    return result;
}

/* The ranges of a row: r->number good ones before the one that it names. */
static size_t ranges_of(const world *w, const row *r, wtv_range *ranges)
{
    for (uint32_t i = 0; i < r->number; i++)
        ranges[i] = (wtv_range){w->at[CACHED], i, 1};
    ranges[r->number] = (wtv_range){w->at[r->which], r->offset, r->size};
    return (size_t)r->number + 1;
}

static VkResult call_flush(world *w, const row *r)
{
    wtv_range ranges[MANY_RANGES + 1];
    return wtv_flush(w->allocator, ranges, ranges_of(w, r, ranges));
}

static VkResult call_invalidate(world *w, const row *r)
{
    wtv_range ranges[MANY_RANGES + 1];
    return wtv_invalidate(w->allocator, ranges, ranges_of(w, r, ranges));
}

static VkResult call_candidates(world *w, const row *r)
{
    uint32_t types[32], count = 7;
    VkResult result = wtv_candidates(w->allocator, r->number, STUB_ALL_TYPES, types, &count);
    expect(result == VK_SUCCESS || count == 7, "an error writes a count");
    return result;
}

static VkResult call_destroy(world *w, const row *r)
{
    wtv_block live[2];
    size_t count = 0;
    VkResult result = wtv_destroy(w->allocator, live, (size_t)r->number, &count);
    expect(count == BLOCKS, "other blocks are live");
    return result;
}

static VkResult call_create_buffer(world *w, const row *r)
{
    VkBufferCreateInfo info = stub_buffer_info(r->size);
    VkBuffer buffer = w->loose_buffer;
    wtv_allocation allocation = 7;
    info.flags = r->flags;
    VkResult result = wtv_create_buffer(w->allocator, &info, &r->request, &buffer, &allocation, NULL);
    expect(result == VK_SUCCESS || (allocation == 7 && buffer == w->loose_buffer), "an error writes something");
    return result;
}

static VkResult call_create_image(world *w, const row *r)
{
    VkImageCreateInfo info = stub_image_info((uint32_t)r->size, (uint32_t)r->size, r->number == 0);
    VkImage image = w->loose_image;
    wtv_allocation allocation = 7;
    info.flags = r->flags;
    VkResult result = wtv_create_image(w->allocator, &info, &r->request, &image, &allocation, NULL);
    expect(result == VK_SUCCESS || (allocation == 7 && image == w->loose_image), "an error writes something");
    return result;
}

static void map_cached(world *w, const row *r)
{
    void *bytes;
    (void)r;
    expect(wtv_map(w->allocator, w->at[CACHED], &bytes) == VK_SUCCESS, "a block is not mapped");
}

static void map_and_unmap(world *w, const row *r)
{
    void *bytes;
    expect(wtv_map(w->allocator, w->at[r->which], &bytes) == VK_SUCCESS, "a block is not mapped");
    expect(wtv_map(w->allocator, w->at[r->which], &bytes) == VK_SUCCESS, "a block is not mapped again");
    expect(wtv_unmap(w->allocator, w->at[r->which]) == VK_SUCCESS, "a block is not unmapped");
    expect(wtv_unmap(w->allocator, w->at[r->which]) == VK_SUCCESS, "a block is not unmapped");
}

static void answer_in_vain(world *w, const row *r)
{
    (void)w, (void)r;
    is_in_vain = true;
}

static void map_in_vain(world *w, const row *r)
{
    (void)w, (void)r;
    is_mapped_in_vain = true;
}

static void refuse_in_vain(world *w, const row *r)
{
    (void)r;
    is_in_vain = true;
    stub_refuse(w->driver, STUB_ALLOCATE, VK_ERROR_OUT_OF_DEVICE_MEMORY, 0, true);
}

static void limit_all_heaps(world *w, const row *r)
{
    (void)r;
    for (uint32_t i = 0; i < STUB_HEAPS; i++) {
        expect(wtv_set_heap_limit(w->allocator, i, 0) == VK_SUCCESS, "no limit is set");
        stub_set_limit(w->driver, i, 0);
    }
}

/* What holds the objects that the device allows. */
static wtv_allocation fillers[MOST_OBJECTS];
static size_t fillers_len;

static void hold_all_objects(world *w, const row *r)
{
    const VkMemoryRequirements needs = {16, 1, STUB_ALL_TYPES};
    const wtv_request request = {.dedicated = WT_REQUIRED};
    (void)r;
    fillers_len = 0;
    while (wtv_allocate(w->allocator, &needs, &request, &fillers[fillers_len], NULL) == VK_SUCCESS)
        expect(++fillers_len < LENGTH(fillers), "more objects are held than the device allows");
    expect(stub_refusals(w->driver, STUB_ALLOCATE) == 0, "the stub refused");
}

static const VkMemoryDedicatedAllocateInfo owner = {
    .sType = VK_STRUCTURE_TYPE_MEMORY_DEDICATED_ALLOCATE_INFO,
};
static const VkMemoryAllocateFlagsInfo address = {
    .sType = VK_STRUCTURE_TYPE_MEMORY_ALLOCATE_FLAGS_INFO,
};
static const VkMemoryPriorityAllocateInfoEXT before_owner = {
    .sType = VK_STRUCTURE_TYPE_MEMORY_PRIORITY_ALLOCATE_INFO_EXT,
    .pNext = &owner,
};
static const VkMemoryPriorityAllocateInfoEXT before_address = {
    .sType = VK_STRUCTURE_TYPE_MEMORY_PRIORITY_ALLOCATE_INFO_EXT,
    .pNext = &address,
};

#define INVALID VK_ERROR_VALIDATION_FAILED_EXT
#define ABSENT VK_ERROR_FEATURE_NOT_PRESENT
#define LACKING VK_ERROR_OUT_OF_DEVICE_MEMORY
#define UNMAPPABLE VK_ERROR_MEMORY_MAP_FAILED
#define OF_TYPES(types) .call = call_allocate, .size = 100, .number = 16, .flags = types
#define ALLOCATE OF_TYPES(STUB_ALL_TYPES)
#define BUFFER_WITH .call = call_create_buffer, .size = 100
#define IMAGE_WITH .call = call_create_image, .size = 10
#define SPARSE_BUFFER(kind) BUFFER_WITH, .flags = VK_BUFFER_CREATE_SPARSE_##kind##_BIT
#define SPARSE_IMAGE(kind) IMAGE_WITH, .flags = VK_IMAGE_CREATE_SPARSE_##kind##_BIT
#define OWN_OF_HELD .request.flags = WT_HELD_ONLY, .request.dedicated = WT_REQUIRED

static const row rows[] = {
    {"map what the host does not see", UNMAPPABLE, call_map, .which = LOCAL},
    {"write what the host does not see", UNMAPPABLE, call_write, .which = LOCAL, .size = 1},
    {"read what the host does not see", UNMAPPABLE, call_read, .which = LOCAL, .size = 1},
    {"map in vain", VK_ERROR_OUT_OF_HOST_MEMORY, call_map, .which = OWN, .prepare = answer_in_vain},
    {"unmap a shared block that is not mapped", INVALID, call_unmap, .which = SHARED},
    {"unmap an own block that is not mapped", INVALID, call_unmap, .which = OWN},
    {"unmap what the host does not see", INVALID, call_unmap, .which = LOCAL},
    {"unmap once too often", INVALID, call_unmap, .which = OWN, .prepare = map_and_unmap},
    {"unmap a shared block once too often", INVALID, call_unmap, .which = CACHED, .prepare = map_and_unmap},
    {"unmap 0 beside a mapped block", INVALID, call_unmap, .which = ZERO, .prepare = map_cached},

    {"write past the end", INVALID, call_write, .which = OWN, .offset = BLOCK_SIZE - 1, .size = 2},
    {"write behind the end", INVALID, call_write, .which = OWN, .offset = BLOCK_SIZE + 1},
    {"write from far behind", INVALID, call_write, .which = OWN, .offset = UINT64_MAX, .size = 2},
    {"write too much", INVALID, call_write, .which = OWN, .offset = 1, .size = SIZE_MAX},
    {"read past the end", INVALID, call_read, .which = OWN, .offset = BLOCK_SIZE - 1, .size = 2},
    {"read behind the end", INVALID, call_read, .which = OWN, .offset = BLOCK_SIZE + 1},
    {"read from far behind", INVALID, call_read, .which = OWN, .offset = UINT64_MAX, .size = 2},
    {"read too much", INVALID, call_read, .which = OWN, .offset = 1, .size = SIZE_MAX},

    {"flush what is not mapped", INVALID, call_flush, .which = OWN, .size = 1},
    {"flush all of what is not mapped", INVALID, call_flush, .which = OWN, .size = VK_WHOLE_SIZE},
    {"flush nothing of what is not mapped", INVALID, call_flush, .which = OWN},
    {"flush what was mapped", INVALID, call_flush, .which = OWN, .size = 1, .prepare = map_and_unmap},
    {"flush what the host does not see", INVALID, call_flush, .which = LOCAL, .size = 1},
    {"flush past the end", INVALID, call_flush, .which = IMPORTED, .offset = OBJECT_SIZE, .size = 1},
    {"flush past a shared block's end", INVALID, call_flush, .which = CACHED, .size = OBJECT_SIZE},
    {"flush from behind the end", INVALID, call_flush, .which = CACHED, .offset = OBJECT_SIZE, .size = VK_WHOLE_SIZE},
    {"flush an unknown block behind a good one", INVALID, call_flush, .which = FREED, .size = 1, .number = 1},
    {"flush an unknown block behind many", INVALID, call_flush, .which = UNKNOWN, .size = 1, .number = MANY_RANGES},
    {"flush more than a driver takes", INVALID, call_flush_too_many, .which = CACHED},
    {"invalidate what is not mapped", INVALID, call_invalidate, .which = OWN, .size = 1},
    {"invalidate what the host does not see", INVALID, call_invalidate, .which = LOCAL, .size = 1},
    {"invalidate past the end", INVALID, call_invalidate, .which = CACHED, .size = OBJECT_SIZE},
    {"invalidate from behind the end", INVALID, call_invalidate, .which = CACHED, .offset = OBJECT_SIZE,
     .size = VK_WHOLE_SIZE},
    {"invalidate an unknown block behind many", INVALID, call_invalidate, .which = FREED, .size = 1,
     .number = MANY_RANGES},

    {"bind a buffer behind the end", INVALID, call_bind_buffer, .which = SHARED, .offset = BLOCK_SIZE},
    {"bind a buffer far behind", INVALID, call_bind_buffer, .which = SHARED, .offset = UINT64_MAX},
    {"bind an image behind the end", INVALID, call_bind_image, .which = LOCAL, .offset = BLOCK_SIZE},
    {"bind no buffer", INVALID, call_bind_no_buffer, .which = SHARED},
    {"bind no image", INVALID, call_bind_no_image, .which = LOCAL},
    {"destroy no buffer with an unknown block", INVALID, call_destroy_no_buffer, .which = UNKNOWN},
    {"destroy no image with a freed block", INVALID, call_destroy_no_image, .which = FREED},

    {"import of no type", INVALID, call_import, .size = OBJECT_SIZE, .number = STUB_TYPES},
    {"import nothing", INVALID, call_import, .number = STUB_CACHED},
    {"import past the end", INVALID, call_import, .offset = 1, .size = OBJECT_SIZE, .number = STUB_CACHED},
    {"import from far behind", INVALID, call_import, .offset = UINT64_MAX, .size = 2, .number = STUB_CACHED},
    {"import up to the middle of an atom", INVALID, call_import, .size = 100, .number = STUB_CACHED},
    {"import with all objects held", VK_ERROR_TOO_MANY_OBJECTS, call_import, .size = OBJECT_SIZE,
     .number = STUB_CACHED, .prepare = hold_all_objects},
    {"candidates for no usage", INVALID, call_candidates, .number = 0x40},
    {"candidates for an intent", INVALID, call_candidates, .number = WTV_USAGE_AUTO},
    {"candidates for addresses", INVALID, call_candidates, .number = WT_USAGE_DEVICE_ADDRESS},
    {"limit no heap", INVALID, call_set_heap_limit, .number = STUB_HEAPS},
    {"count no heap", INVALID, call_heap, .number = STUB_HEAPS},
    {"statistics of no type", INVALID, call_statistics, .number = STUB_TYPES},
    {"budgets without the extension", VK_ERROR_EXTENSION_NOT_PRESENT, call_update_budget, .which = ZERO},
    {"a name that is not UTF-8", INVALID, call_set_wrong_name, .which = SHARED},
    {"a first name that is not UTF-8", INVALID, call_set_wrong_name, .which = OWN},
    {"destroy with live blocks", INVALID, call_destroy, .number = 2},
    {"destroy with live blocks and no room", INVALID, call_destroy, .number = 0},

    {"allocate nothing", INVALID, call_allocate, .number = 16, .flags = STUB_ALL_TYPES},
    {"allocate with no alignment", INVALID, call_allocate, .size = 100, .flags = STUB_ALL_TYPES},
    {"allocate with alignment 3", INVALID, call_allocate, .size = 100, .number = 3, .flags = STUB_ALL_TYPES},
    {"allocate for no usage", INVALID, ALLOCATE, .request.usage = 0x40},
    {"allocate for addresses", INVALID, ALLOCATE, .request.usage = WT_USAGE_DEVICE_ADDRESS},
    {"allocate with no such wish", INVALID, ALLOCATE, .request.dedicated = 3},
    {"allocate with no such flag", INVALID, ALLOCATE, .request.flags = 4},
    {"allocate with no such flag of this side's", INVALID, ALLOCATE, .request.flags = 0x200000},
    {"allocate for an intent", INVALID, ALLOCATE, .request.usage = WTV_USAGE_AUTO},
    {"allocate for the host without an intent", INVALID, ALLOCATE, .request.usage = WT_USAGE_UPLOAD,
     .request.flags = WTV_HOST_ACCESS_SEQUENTIAL_WRITE},
    {"allocate with alignment 3 beside a greater one", INVALID, call_allocate, .size = 100, .number = 3,
     .flags = STUB_ALL_TYPES, .request.min_alignment = 16},
    {"allocate with a least alignment of 24", INVALID, ALLOCATE, .request.min_alignment = 24},
    {"allocate with properties for no usage", INVALID, ALLOCATE, .request.usage = 0x40,
     .request.preferred = VK_MEMORY_PROPERTY_HOST_CACHED_BIT},
    {"allocate lazily allocated memory", ABSENT, ALLOCATE,
     .request.required = VK_MEMORY_PROPERTY_LAZILY_ALLOCATED_BIT},
    {"allocate protected memory, if there is some", ABSENT, ALLOCATE,
     .request.preferred = VK_MEMORY_PROPERTY_PROTECTED_BIT},
    {"allocate what no type has", ABSENT, ALLOCATE,
     .request.required = VK_MEMORY_PROPERTY_HOST_CACHED_BIT | VK_MEMORY_PROPERTY_DEVICE_LOCAL_BIT},
    {"allocate what is preferred of no type", ABSENT, OF_TYPES(0),
     .request.preferred = VK_MEMORY_PROPERTY_HOST_CACHED_BIT},
    {"allocate what is preferred over all limits", LACKING, ALLOCATE, .request.dedicated = WT_REQUIRED,
     .request.preferred = VK_MEMORY_PROPERTY_HOST_CACHED_BIT, .prepare = limit_all_heaps},
    {"allocate what is preferred in vain", VK_ERROR_OUT_OF_HOST_MEMORY, ALLOCATE, .request.dedicated = WT_REQUIRED,
     .request.preferred = VK_MEMORY_PROPERTY_HOST_CACHED_BIT, .prepare = answer_in_vain},
    {"allocate what is mapped in vain", VK_ERROR_OUT_OF_HOST_MEMORY, ALLOCATE, .request.usage = WT_USAGE_UPLOAD,
     .request.dedicated = WT_REQUIRED, .request.flags = WTV_MAPPED, .prepare = map_in_vain},
    {"allocate with an owner chained", INVALID, ALLOCATE, .request.next = &owner},
    {"allocate with an address chained", INVALID, ALLOCATE, .request.next = &address},
    {"allocate with an owner chained behind", INVALID, ALLOCATE, .request.next = &before_owner},
    {"allocate with an address chained behind", INVALID, ALLOCATE, .request.next = &before_address},
    {"allocate of no type", ABSENT, OF_TYPES(0)},
    {"allocate of types that never serve", ABSENT, OF_TYPES((uint32_t)STUB_ALL_TYPES & ~0u << STUB_SERVING)},
    {"allocate of none of the program's types", ABSENT, OF_TYPES(1u << STUB_LOCAL),
     .request.memory_types = 1u << STUB_CACHED},
    {"allocate for the host where it sees nothing", ABSENT, OF_TYPES(1u << STUB_LOCAL),
     .request.usage = WT_USAGE_HOST_ACCESS},
    {"allocate more than the device allows", LACKING, call_allocate, .size = (4 << 20) + 1, .number = 16,
     .flags = STUB_ALL_TYPES},
    {"allocate over all limits", LACKING, ALLOCATE, .request.dedicated = WT_REQUIRED, .prepare = limit_all_heaps},
    {"allocate with all objects held", VK_ERROR_TOO_MANY_OBJECTS, ALLOCATE, .request.dedicated = WT_REQUIRED,
     .prepare = hold_all_objects},

    {"allocate an object where nothing may be made", LACKING, ALLOCATE, OWN_OF_HELD},
    {"allocate an object where nothing may be made and no more held", LACKING, ALLOCATE, OWN_OF_HELD,
     .prepare = hold_all_objects},
    {"allocate of no type where nothing may be made", ABSENT, OF_TYPES(0), .request.flags = WT_HELD_ONLY},

    {"allocate in vain", VK_ERROR_OUT_OF_HOST_MEMORY, ALLOCATE, .request.dedicated = WT_REQUIRED,
     .prepare = answer_in_vain},
    {"allocate in vain behind a refusal", VK_ERROR_OUT_OF_HOST_MEMORY, ALLOCATE, .request.dedicated = WT_REQUIRED,
     .prepare = refuse_in_vain},

    {"allocate for no buffer", INVALID, call_allocate_for_no_buffer, .which = ZERO},
    {"allocate for no image", INVALID, call_allocate_for_no_image, .which = ZERO},
    {"allocate for a buffer and an intent", INVALID, call_allocate_for_buffer,
     .request.usage = WTV_USAGE_AUTO_PREFER_HOST},
    {"allocate for an image and an intent", INVALID, call_allocate_for_image,
     .request.usage = WTV_USAGE_AUTO_PREFER_DEVICE},
    {"allocate for a buffer with a flag", INVALID, call_allocate_for_buffer, .request.flags = WT_OPTIMAL},
    {"allocate for a buffer with a wrong flag", INVALID, call_allocate_for_buffer, .request.flags = 4},
    {"allocate for an image with a wrong flag", INVALID, call_allocate_for_image, .request.flags = 4},
    {"allocate for a buffer with a wrong chain", INVALID, call_allocate_for_buffer, .request.next = &before_owner},
    {"allocate for an image with a wrong chain", INVALID, call_allocate_for_image, .request.next = &address},

    {"a sparse buffer", ABSENT, SPARSE_BUFFER(BINDING)},
    {"a buffer of sparse residency", ABSENT, SPARSE_BUFFER(RESIDENCY)},
    {"a sparse aliased buffer", ABSENT, SPARSE_BUFFER(ALIASED)},
    {"a buffer with a flag", INVALID, BUFFER_WITH, .request.flags = WT_OPTIMAL},
    {"a buffer with a flag beside one that it may have", INVALID, BUFFER_WITH,
     .request.flags = WT_OPTIMAL | WT_HELD_ONLY},
    {"a buffer with an object of its own where nothing may be made", LACKING, BUFFER_WITH, OWN_OF_HELD},
    {"a buffer with two intents", INVALID, BUFFER_WITH,
     .request.usage = WTV_USAGE_AUTO | WTV_USAGE_AUTO_PREFER_HOST},
    {"a buffer with an intent and a usage", INVALID, BUFFER_WITH, .request.usage = WTV_USAGE_AUTO | WT_USAGE_UPLOAD},
    {"a buffer with both kinds of access", INVALID, BUFFER_WITH, .request.usage = WTV_USAGE_AUTO,
     .request.flags = WTV_HOST_ACCESS_SEQUENTIAL_WRITE | WTV_HOST_ACCESS_RANDOM},
    {"a buffer that may be copied, without access", INVALID, BUFFER_WITH, .request.usage = WTV_USAGE_AUTO,
     .request.flags = WTV_HOST_ACCESS_ALLOW_TRANSFER_INSTEAD},
    {"a buffer of an intent over all limits", LACKING, BUFFER_WITH, .request.usage = WTV_USAGE_AUTO,
     .request.dedicated = WT_REQUIRED, .prepare = limit_all_heaps},
    {"a buffer of an intent with all objects held", VK_ERROR_TOO_MANY_OBJECTS, BUFFER_WITH,
     .request.usage = WTV_USAGE_AUTO, .request.dedicated = WT_REQUIRED, .prepare = hold_all_objects},
    {"a buffer of an intent with an object of its own where nothing may be made", LACKING, BUFFER_WITH, OWN_OF_HELD,
     .request.usage = WTV_USAGE_AUTO},
    {"a buffer of an intent and no permitted type", ABSENT, BUFFER_WITH, .request.usage = WTV_USAGE_AUTO,
     .request.memory_types = 1u << STUB_UNKNOWN},
    {"a buffer of an intent that is too large", LACKING, call_create_buffer, .size = 5 << 20,
     .request.usage = WTV_USAGE_AUTO},
    {"a buffer of an intent in vain", VK_ERROR_OUT_OF_HOST_MEMORY, BUFFER_WITH, .request.usage = WTV_USAGE_AUTO,
     .request.dedicated = WT_REQUIRED, .prepare = answer_in_vain},
    {"a buffer with a wrong usage", INVALID, BUFFER_WITH, .request.usage = 0x80},
    {"a buffer with a wrong wish", INVALID, BUFFER_WITH, .request.dedicated = 4},
    {"a buffer with a wrong chain", INVALID, BUFFER_WITH, .request.next = &owner},
    {"a buffer of no permitted type", ABSENT, BUFFER_WITH, .request.memory_types = 1u << STUB_LAZY},
    {"a buffer that is too large", LACKING, call_create_buffer, .size = 5 << 20},
    {"a sparse image", ABSENT, SPARSE_IMAGE(BINDING)},
    {"an image of sparse residency", ABSENT, SPARSE_IMAGE(RESIDENCY)},
    {"a sparse aliased image", ABSENT, SPARSE_IMAGE(ALIASED)},
    {"a disjoint image", ABSENT, IMAGE_WITH, .flags = VK_IMAGE_CREATE_DISJOINT_BIT},
    {"an image with a flag", INVALID, IMAGE_WITH, .request.flags = WT_OPTIMAL},
    {"a linear image with a flag", INVALID, IMAGE_WITH, .number = 1, .request.flags = WT_OPTIMAL},
    {"an image with an object of its own where nothing may be made", LACKING, IMAGE_WITH, OWN_OF_HELD},
    {"an image with an intent and a usage", INVALID, IMAGE_WITH,
     .request.usage = WTV_USAGE_AUTO | WT_USAGE_FAST_DEVICE_ACCESS},
    {"an image with access and no intent", INVALID, IMAGE_WITH, .request.flags = WTV_HOST_ACCESS_RANDOM},
    {"an image with a wrong chain", INVALID, IMAGE_WITH, .request.next = &before_address},
    {"an image that is too large", LACKING, call_create_image, .size = 1500},
};

static void undo_preparation(world *w)
{
    is_in_vain = is_mapped_in_vain = false;
    while (fillers_len > 0)
        expect(wtv_free(w->allocator, fillers[--fillers_len]) == VK_SUCCESS, "a block is not taken back");
}

static void run_row(const row *r)
{
    world w = begun(r->name);
    if (r->prepare != NULL)
        r->prepare(&w, r);
    uint64_t flushes = stub_calls(w.driver, STUB_FLUSH) + stub_calls(w.driver, STUB_INVALIDATE);
    picture before = taken(&w);
    VkResult result = r->call(&w, r);
    if (result != r->wanted)
        fprintf(stderr, "the result is %d, and not %d\n", result, r->wanted);
    expect(result == r->wanted, "another result than the header says");
    expect(stub_calls(w.driver, STUB_FLUSH) + stub_calls(w.driver, STUB_INVALIDATE) == flushes, "the driver flushes");
    compare(before, taken(&w));
    undo_preparation(&w);
    ended(&w);
}

/* Each call that takes an allocation refuses 0, a freed one and one that never was, also while another is mapped. */
static void run_unknown(void)
{
    static const row calls[] = {
        {"wtv_block_of", INVALID, call_block_of, .which = ZERO},
        {"wtv_set_user", INVALID, call_set_user, .which = ZERO},
        {"wtv_set_name", INVALID, call_set_name, .which = ZERO},
        {"wtv_set_name of no name", INVALID, call_take_name_away, .which = ZERO},
        {"wtv_set_name of no text", INVALID, call_set_wrong_name, .which = ZERO},
        {"wtv_free", INVALID, call_free, .which = ZERO},
        {"wtv_map", INVALID, call_map, .which = ZERO},
        {"wtv_unmap", INVALID, call_unmap, .which = ZERO},
        {"wtv_write", INVALID, call_write, .size = 1},
        {"wtv_write of nothing", INVALID, call_write, .which = ZERO},
        {"wtv_read", INVALID, call_read, .size = 1},
        {"wtv_flush", INVALID, call_flush, .size = 1},
        {"wtv_flush of all", INVALID, call_flush, .size = VK_WHOLE_SIZE},
        {"wtv_invalidate", INVALID, call_invalidate, .size = 1},
        {"wtv_bind_buffer", INVALID, call_bind_buffer, .which = ZERO},
        {"wtv_bind_image", INVALID, call_bind_image, .which = ZERO},
        {"wtv_destroy_buffer", INVALID, call_destroy_buffer, .which = ZERO},
        {"wtv_destroy_image", INVALID, call_destroy_image, .which = ZERO},
    };
    static void (*const preparations[])(world *, const row *) = {NULL, map_cached};
    for (size_t i = 0; i < LENGTH(calls); i++)
        for (int which = ZERO; which <= UNKNOWN; which++)
            for (size_t j = 0; j < LENGTH(preparations); j++) {
                row unknown = calls[i];
                unknown.which = (enum which)which;
                unknown.prepare = preparations[j];
                if (which == ZERO && unknown.call == call_free)
                    unknown.wanted = VK_SUCCESS;
                run_row(&unknown);
            }
}

/* ---- Created over what does not serve. ---- */

typedef struct creation {
    const char *name;
    VkResult wanted;
    void (*spoil)(wtv_create_info *);
    uint32_t flags, api_version; /* of the plan; a version of 0 is 1.1 */
    VkDeviceSize atom, page;     /* of the plan, where they are not 0 */
} creation;

#define SPOIL(name, ...) \
    static void name(wtv_create_info *info) \
    { \
        (void)info, __VA_ARGS__; \
    }

SPOIL(take_instance, info->functions = &stub_table, info->instance = VK_NULL_HANDLE)
SPOIL(take_physical_device, info->functions = &stub_table, info->physical_device = VK_NULL_HANDLE)
SPOIL(take_device, info->functions = &stub_table, info->device = VK_NULL_HANDLE)
SPOIL(take_functions, info->get_instance_proc_addr = NULL)
SPOIL(add_flag, info->flags |= 0x20)
SPOIL(ask_for_budgets, info->flags |= WTV_CREATE_MEMORY_BUDGET)
SPOIL(say_a_variant, info->api_version |= 1u << 29)
SPOIL(say_a_higher_version, info->api_version = VK_MAKE_API_VERSION(0, 1, 4, 0))
SPOIL(say_no_version, info->api_version = 1)
#ifndef _WIN32 /* whose lock is never refused */
SPOIL(refuse_lock, is_lock_refused = true)
#endif
SPOIL(change_version, other_version = WT_VERSION + 0x100)
SPOIL(change_last_number, other_version = WT_VERSION + 1)

static void share_in_a_third_way(wtv_create_info *info)
{
    static wt_config third = WT_CONFIG_POTATO;
    third.sharing = WT_FIT + 1;
    info->config = &third;
}

#define UNFIT VK_ERROR_INITIALIZATION_FAILED

static const creation creations[] = {
    {"no instance", UNFIT, .spoil = take_instance},
    {"no physical device", UNFIT, .spoil = take_physical_device},
    {"no device", UNFIT, .spoil = take_device},
    {"no functions", UNFIT, .spoil = take_functions},
    {"no such flag", UNFIT, .spoil = add_flag},
    {"budgets without properties2", UNFIT, .spoil = ask_for_budgets, .api_version = VK_API_VERSION_1_0},
    {"a version of another variant", UNFIT, .spoil = say_a_variant},
    {"a version below 1.0", UNFIT, .spoil = say_no_version},
    {"an atom of 3 bytes", UNFIT, .atom = 3},
    {"pages of 3 bytes", UNFIT, .page = 3},
    {"neither buddy nor fit chunks", UNFIT, .spoil = share_in_a_third_way},
#ifndef _WIN32
    {"no lock", VK_ERROR_OUT_OF_HOST_MEMORY, .spoil = refuse_lock},
#endif
    {"another version of the library", UNFIT, .spoil = change_version},
    {"a version that differs in its last number", VK_SUCCESS, .spoil = change_last_number},
    {"1.0", VK_SUCCESS, .api_version = VK_API_VERSION_1_0},
    {"1.0 with extensions", VK_SUCCESS, .api_version = VK_API_VERSION_1_0,
     .flags = WTV_CREATE_PROPERTIES2 | WTV_CREATE_DEDICATED_ALLOCATION | WTV_CREATE_MEMORY_BUDGET},
    {"1.3", VK_SUCCESS, .api_version = VK_API_VERSION_1_3, .flags = WTV_CREATE_MEMORY_BUDGET},
    {"1.4 over 1.3", VK_SUCCESS, .spoil = say_a_higher_version, .api_version = VK_API_VERSION_1_3},
    {"1.4 over 1.0", UNFIT, .spoil = say_a_higher_version, .api_version = VK_API_VERSION_1_0},
};

static stub *opened_for(const creation *c)
{
    stub_plan plan = stub_usual_plan();
    plan.flags = c->flags;
    plan.api_version = c->api_version != 0 ? c->api_version : VK_API_VERSION_1_1;
    if (c->atom != 0)
        plan.atom = c->atom;
    if (c->page != 0)
        plan.page = c->page;
    return stub_open(&plan);
}

static void create_and_destroy(stub *s, const wtv_create_info *info, VkResult wanted)
{
    wtv_allocator *a = NULL;
    VkResult result = wtv_create(info, &a);
    expect(result == wanted, "another result of wtv_create than the header says");
    expect((a != NULL) == (result == VK_SUCCESS), "an error writes an allocator");
    expect(wtv_destroy(a, NULL, 0, NULL) == VK_SUCCESS, "an allocator is not destroyed");
    expect(stub_close(s) == 0, "the stub found failures");
}

static void run_creation(const creation *c)
{
    stub *s = opened_for(c);
    wtv_create_info info = stub_info(s);
    current = c->name;
    if (c->spoil != NULL)
        c->spoil(&info);
    create_and_destroy(s, &info, c->wanted);
    is_lock_refused = false;
    other_version = 0;
}

/* Each function that is wanted is missing in turn: where it is loaded, and in the table. */
static void run_missing(const creation *c, bool has_properties2, bool has_requirements2)
{
    for (int i = 0; i < STUB_FUNCTIONS; i++) {
        bool is_properties2 = i == STUB_PROPERTIES2 || i == STUB_MEMORY_PROPERTIES2;
        bool is_requirements2 = i == STUB_BUFFER_NEEDS2 || i == STUB_IMAGE_NEEDS2;
        bool is_wanted = is_properties2 ? has_properties2 : is_requirements2 ? has_requirements2 : true;
        VkResult wanted = is_wanted ? UNFIT : VK_SUCCESS;
        wtv_functions table = stub_table;
        stub *s = opened_for(c);
        wtv_create_info info = stub_info(s);
        stub_hide(s, (stub_function)i);
        create_and_destroy(s, &info, wanted);
        s = opened_for(c);
        info = stub_info(s);
        info.functions = &table;
        info.get_instance_proc_addr = NULL;
        memset((char *)&table + (size_t)i * sizeof(PFN_vkVoidFunction), 0, sizeof(PFN_vkVoidFunction));
        create_and_destroy(s, &info, wanted);
        s = opened_for(c);
        info = stub_info(s);
        info.functions = &table; /* the one that is missing is loaded */
        create_and_destroy(s, &info, VK_SUCCESS);
    }
}

static void run_creations(void)
{
    static const creation plain = {.api_version = VK_API_VERSION_1_0};
    static const creation extended = {.api_version = VK_API_VERSION_1_0, .flags = WTV_CREATE_PROPERTIES2};
    static const creation core = {.api_version = VK_API_VERSION_1_1};
    for (size_t i = 0; i < LENGTH(creations); i++)
        run_creation(&creations[i]);
    current = "a missing function of 1.0";
    run_missing(&plain, false, false);
    current = "a missing function of 1.0 with properties2";
    run_missing(&extended, true, false);
    current = "a missing function of 1.1";
    run_missing(&core, true, true);
}

/* ---- Deeds, whose calls of the driver are refused. ---- */

/* A call that succeeds, and what undoes it. */
typedef struct deed {
    const char *name;
    VkResult (*call)(world *);
    void (*undo)(world *);
    bool has_next;   /* another memory type serves too */
    bool has_to_map; /* a memory type whose block is not mapped does not serve */
} deed;

static const wtv_request shared_wish = {.usage = WT_USAGE_UPLOAD | WT_USAGE_TRANSIENT};
static const wtv_request own_wish = {.usage = WT_USAGE_UPLOAD, .dedicated = WT_REQUIRED};
static const wtv_request mapped_wish = {.usage = WT_USAGE_UPLOAD | WT_USAGE_TRANSIENT, .flags = WTV_MAPPED};
static const wtv_request own_mapped_wish = {
    .usage = WT_USAGE_UPLOAD,
    .dedicated = WT_REQUIRED,
    .flags = WTV_MAPPED,
};
static const wtv_request intent_wish = {
    .usage = WTV_USAGE_AUTO | WT_USAGE_TRANSIENT,
    .flags = WTV_MAPPED | WTV_HOST_ACCESS_SEQUENTIAL_WRITE,
};
static const wtv_request own_intent_wish = {.usage = WTV_USAGE_AUTO_PREFER_HOST, .dedicated = WT_REQUIRED};
static const wtv_request preferred_wish = {
    .usage = WT_USAGE_UPLOAD | WT_USAGE_TRANSIENT,
    .preferred = VK_MEMORY_PROPERTY_HOST_CACHED_BIT,
    .min_alignment = 512,
};
static const wtv_request image_wish = {.usage = WT_USAGE_FAST_DEVICE_ACCESS | WT_USAGE_TRANSIENT};
static const wtv_request optimal_wish = {
    .usage = WT_USAGE_FAST_DEVICE_ACCESS | WT_USAGE_TRANSIENT,
    .flags = WT_OPTIMAL,
};
static const wtv_request own_image_wish = {.dedicated = WT_REQUIRED};

static VkResult create_buffer(world *w, const wtv_request *wish)
{
    const VkBufferCreateInfo info = stub_buffer_info(SMALL);
    return wtv_create_buffer(w->allocator, &info, wish, &w->made_buffer, &w->made, NULL);
}

static VkResult create_image(world *w, const wtv_request *wish, bool is_optimal)
{
    const VkImageCreateInfo info = stub_image_info(SIDE, SIDE, is_optimal);
    return wtv_create_image(w->allocator, &info, wish, &w->made_image, &w->made, NULL);
}

#define DEED(name, ...) \
    static VkResult name(world *w) \
    { \
        return __VA_ARGS__; \
    }
#define SMALL_NEEDS &(VkMemoryRequirements){SMALL, 16, STUB_ALL_TYPES}
#define ALL_OF_CACHED(ranges) &(row){.which = CACHED, .size = VK_WHOLE_SIZE, .number = ranges}

DEED(create_shared_buffer, create_buffer(w, &shared_wish))
DEED(create_own_buffer, create_buffer(w, &own_wish))
DEED(create_mapped_buffer, create_buffer(w, &mapped_wish))
DEED(create_own_mapped_buffer, create_buffer(w, &own_mapped_wish))
DEED(create_buffer_of_intent, create_buffer(w, &intent_wish))
DEED(create_own_image_of_intent, create_image(w, &own_intent_wish, true))
DEED(allocate_preferred, wtv_allocate(w->allocator, SMALL_NEEDS, &preferred_wish, &w->made, NULL))
DEED(allocate_own_mapped, wtv_allocate(w->allocator, SMALL_NEEDS, &own_mapped_wish, &w->made, NULL))
DEED(create_shared_image, create_image(w, &image_wish, true))
DEED(create_own_image, create_image(w, &own_image_wish, false))
DEED(allocate_for_buffer, wtv_allocate_for_buffer(w->allocator, w->loose_buffer, &shared_wish, &w->made, NULL))
DEED(allocate_for_image, wtv_allocate_for_image(w->allocator, w->loose_image, &optimal_wish, &w->made, NULL))
DEED(allocate_shared, wtv_allocate(w->allocator, SMALL_NEEDS, &shared_wish, &w->made, NULL))
DEED(allocate_own, wtv_allocate(w->allocator, SMALL_NEEDS, &own_wish, &w->made, NULL))
DEED(bind_loose_buffer, wtv_bind_buffer(w->allocator, w->at[SHARED], 0, w->loose_buffer))
DEED(bind_loose_image, wtv_bind_image(w->allocator, w->at[LOCAL], 0, w->loose_image))
DEED(map_own, wtv_map(w->allocator, w->at[OWN], &(void *){NULL}))
DEED(write_own, wtv_write(w->allocator, w->at[OWN], 5, bytes_of_program, 100))
DEED(read_own, wtv_read(w->allocator, w->at[OWN], 5, (char[100]){0}, 100))
DEED(flush_cached, call_flush(w, ALL_OF_CACHED(MANY_RANGES)))
DEED(invalidate_cached, call_invalidate(w, ALL_OF_CACHED(1)))

static void destroy_made(world *w)
{
    VkResult result = w->made_image != VK_NULL_HANDLE ? wtv_destroy_image(w->allocator, w->made_image, w->made)
                                                      : wtv_destroy_buffer(w->allocator, w->made_buffer, w->made);
    expect(result == VK_SUCCESS, "a resource is not destroyed");
    w->made_buffer = VK_NULL_HANDLE;
    w->made_image = VK_NULL_HANDLE;
}

/* A resource that was bound is bound for ever: another one takes its place. */
static void replace_loose(world *w)
{
    stub_table.destroy_buffer(stub_info(w->driver).device, w->loose_buffer, NULL);
    stub_table.destroy_image(stub_info(w->driver).device, w->loose_image, NULL);
    w->loose_buffer = made_buffer(w);
    w->loose_image = made_image(w);
}

static void free_made(world *w)
{
    expect(wtv_free(w->allocator, w->made) == VK_SUCCESS, "a block is not taken back");
}

static void replace_and_free(world *w)
{
    replace_loose(w);
    free_made(w);
}

static void unmap_own(world *w)
{
    expect(wtv_unmap(w->allocator, w->at[OWN]) == VK_SUCCESS, "a block is not unmapped");
}

static void undo_nothing(world *w)
{
    (void)w;
}

static const deed deeds[] = {
    {"a shared buffer", create_shared_buffer, destroy_made, true, false},
    {"a buffer with an own object", create_own_buffer, destroy_made, true, false},
    {"a shared buffer that stays mapped", create_mapped_buffer, destroy_made, true, true},
    {"a buffer with an own object that stays mapped", create_own_mapped_buffer, destroy_made, true, true},
    {"a mapped buffer of an intent", create_buffer_of_intent, destroy_made, true, true},
    {"an image of an intent with an own object", create_own_image_of_intent, destroy_made, true, false},
    {"a shared image", create_shared_image, destroy_made, true, false},
    {"an image with an own object", create_own_image, destroy_made, true, false},
    {"allocate for a buffer", allocate_for_buffer, replace_and_free, true, false},
    {"allocate for an image", allocate_for_image, replace_and_free, true, false},
    {"allocate in a shared object", allocate_shared, free_made, true, false},
    {"allocate an own object", allocate_own, free_made, true, false},
    {"allocate an own object that stays mapped", allocate_own_mapped, free_made, true, true},
    {"allocate what is preferred", allocate_preferred, free_made, true, false},
    {"bind a buffer", bind_loose_buffer, replace_loose, false, false},
    {"bind an image", bind_loose_image, replace_loose, false, false},
    {"map", map_own, unmap_own, false, false},
    {"write", write_own, undo_nothing, false, false},
    {"read", read_own, undo_nothing, false, false},
    {"flush", flush_cached, undo_nothing, false, false},
    {"invalidate", invalidate_cached, undo_nothing, false, false},
};

/* Does a deed of which calls may be refused, and undoes it: then all is as before. */
static VkResult done_and_undone(world *w, const deed *d)
{
    picture before = taken(w);
    VkResult result = d->call(w);
    bool has_made = w->made_buffer != VK_NULL_HANDLE || w->made_image != VK_NULL_HANDLE;
    stub_refuse(w->driver, STUB_FUNCTIONS, VK_SUCCESS, 0, false);
    expect(result == VK_SUCCESS || !has_made, "an error writes a resource");
    if (result == VK_SUCCESS)
        d->undo(w);
    compare(before, taken(w));
    return result;
}

/* Without an error that lets the next memory type be tried, the deed ends with the driver's own. An object for one
   block alone is not mapped when it is made, unless its block has to stay mapped: where each mapping lacks device
   memory, the request is served by one. */
static bool is_as_said(const deed *d, stub_function refused, VkResult error, bool is_each, VkResult result)
{
    bool is_for_objects = refused == STUB_ALLOCATE || refused == STUB_MAP;
    bool is_lack = error == VK_ERROR_OUT_OF_DEVICE_MEMORY || error == VK_ERROR_TOO_MANY_OBJECTS;
    bool goes_on = is_for_objects && is_lack && d->has_next && (!is_each || (refused == STUB_MAP && !d->has_to_map));
    return result == (goes_on ? VK_SUCCESS : error);
}

/* Refuses one call of a function, or each from there on, until the deed makes no call more of it. */
static unsigned refuse_in_turn(const deed *d, stub_function refused, VkResult error, bool is_each)
{
    for (unsigned skip = 0;; skip++) {
        world w = begun(d->name);
        uint64_t before = stub_refusals(w.driver, refused);
        stub_refuse(w.driver, refused, error, skip, is_each);
        VkResult result = done_and_undone(&w, d);
        bool is_reached = stub_refusals(w.driver, refused) > before;
        expect(is_reached ? is_as_said(d, refused, error, is_each, result) : result == VK_SUCCESS,
               "a call of the driver's is refused, and the result is another one");
        ended(&w);
        if (!is_reached)
            return skip;
    }
}

static unsigned lose_device_in_turn(const deed *d)
{
    for (unsigned skip = 0;; skip++) {
        world w = begun(d->name);
        stub_refuse(w.driver, STUB_ANY, VK_ERROR_DEVICE_LOST, skip, true);
        VkResult result = done_and_undone(&w, d);
        expect(result == VK_SUCCESS || result == VK_ERROR_DEVICE_LOST, "a lost device ends a request otherwise");
        ended(&w);
        if (result == VK_SUCCESS)
            return skip;
    }
}

static bool does_call(const deed *d, stub_function called)
{
    world w = begun(d->name);
    uint64_t before = stub_calls(w.driver, called);
    expect(d->call(&w) == VK_SUCCESS, "a deed fails");
    bool is_called = stub_calls(w.driver, called) > before;
    d->undo(&w);
    ended(&w);
    return is_called;
}

static void run_refusals(void)
{
    unsigned refused = 0, lost = 0;
    for (size_t i = 0; i < LENGTH(deeds); i++) {
        for (int j = 0; j < STUB_FUNCTIONS; j++) {
            const VkResult *errors = stub_errors_of((stub_function)j);
            bool is_called = errors[0] != VK_SUCCESS && does_call(&deeds[i], (stub_function)j);
            for (size_t k = 0; is_called && errors[k] != VK_SUCCESS; k++) {
                refused += refuse_in_turn(&deeds[i], (stub_function)j, errors[k], false);
                refused += refuse_in_turn(&deeds[i], (stub_function)j, errors[k], true);
            }
        }
        unsigned calls = lose_device_in_turn(&deeds[i]);
        expect(calls > 0, "a deed makes no call that can fail");
        lost += calls;
    }
    printf("misuse: %u refusals of the driver's, and %u times a device was lost\n", refused, lost);
}

/* ---- This side's memory, of which each piece is refused in turn. ---- */

enum { OWN_BLOCKS = 20, MAPPED_BLOCKS = 20, MOST_SCARCE = OWN_BLOCKS + MAPPED_BLOCKS + 4 };

static unsigned calls_failed;

typedef struct scarcity {
    stub *driver;
    wtv_allocator *allocator;
    wtv_allocation blocks[MOST_SCARCE];
    size_t blocks_len;
    VkDeviceMemory memory; /* to be imported */
} scarcity;

static VkResult take(scarcity *s, const wtv_request *request)
{
    const VkMemoryRequirements needs = {SMALL, 16, 1u << STUB_CACHED};
    VkResult result = wtv_allocate(s->allocator, &needs, request, &s->blocks[s->blocks_len], NULL);
    s->blocks_len += result == VK_SUCCESS;
    return result;
}

static VkResult create_scarcely(scarcity *s)
{
    wtv_create_info info = stub_info(s->driver);
    info.config = &small_config;
    return wtv_create(&info, &s->allocator);
}

static VkResult import_scarcely(scarcity *s)
{
    VkResult result = wtv_import(s->allocator, s->memory, STUB_CACHED, OBJECT_SIZE, 0, OBJECT_SIZE,
                                 &s->blocks[s->blocks_len], NULL);
    s->blocks_len += result == VK_SUCCESS;
    return result;
}

static VkResult flush_many(scarcity *s)
{
    wtv_range ranges[MANY_RANGES];
    for (size_t i = 0; i < LENGTH(ranges); i++)
        ranges[i] = (wtv_range){s->blocks[0], i, 1};
    return wtv_flush(s->allocator, ranges, LENGTH(ranges));
}

static VkResult write_text(scarcity *s, VkResult (*write)(wtv_allocator *, char **))
{
    char *text = NULL;
    VkResult result = write(s->allocator, &text);
    expect((text != NULL) == (result == VK_SUCCESS), "an error writes a text");
    wtv_free_text(text);
    return result;
}

#define SCARCELY(name, ...) \
    static VkResult name(scarcity *s) \
    { \
        return __VA_ARGS__; \
    }

SCARCELY(take_own, take(s, &(wtv_request){.usage = WT_USAGE_HOST_ACCESS, .dedicated = WT_REQUIRED}))
SCARCELY(take_mapped, take(s, &(wtv_request){.usage = WT_USAGE_HOST_ACCESS, .dedicated = WT_REQUIRED,
                                             .flags = WTV_MAPPED}))
SCARCELY(take_preferred, take(s, &(wtv_request){.usage = WT_USAGE_HOST_ACCESS,
                                                .preferred = VK_MEMORY_PROPERTY_HOST_CACHED_BIT}))
SCARCELY(take_shared, take(s, &(wtv_request){.usage = WT_USAGE_HOST_ACCESS}))
SCARCELY(take_transient, take(s, &(wtv_request){.usage = WT_USAGE_HOST_ACCESS | WT_USAGE_TRANSIENT}))
SCARCELY(name_last, wtv_set_name(s->allocator, s->blocks[s->blocks_len - 1], "the last one"))
SCARCELY(name_first, wtv_set_name(s->allocator, s->blocks[0], "\"the first one\", in the place of another name"))
SCARCELY(map_last, wtv_map(s->allocator, s->blocks[s->blocks_len - 1], &(void *){NULL}))
SCARCELY(ask_candidates, wtv_candidates(s->allocator, WT_USAGE_UPLOAD, STUB_ALL_TYPES, (uint32_t[32]){0},
                                        &(uint32_t){0}))
SCARCELY(ask_statistics, wtv_statistics(s->allocator, STUB_CACHED, &(wt_type_statistics){0}))
SCARCELY(write_statistics, write_text(s, wtv_statistics_text))
SCARCELY(write_report, write_text(s, wtv_report_text))

/* The library does with less where it can: then a call succeeds though a piece was refused. */
static void call_scarcely(scarcity *s, VkResult (*call)(scarcity *))
{
    wt_counts before = {0}, after = {0};
    unsigned refused_before = refusals;
    if (s->allocator != NULL)
        expect(wtv_count(s->allocator, &before) == VK_SUCCESS, "nothing is counted");
    stub_held held = stub_held_now(s->driver);
    VkResult result = call(s);
    if (result == VK_SUCCESS)
        return;
    expect(refusals > refused_before, "a call fails for another cause than memory");
    if (result != VK_ERROR_OUT_OF_HOST_MEMORY)
        fprintf(stderr, "the result is %d\n", result);
    expect(result == VK_ERROR_OUT_OF_HOST_MEMORY, "a call without memory says something else");
    calls_failed++;
    if (s->allocator != NULL)
        expect(wtv_count(s->allocator, &after) == VK_SUCCESS, "nothing is counted");
    stub_held held_after = stub_held_now(s->driver);
    expect(memcmp(&before, &after, sizeof before) == 0, "a call without memory changes something");
    expect(memcmp(&held, &held_after, sizeof held) == 0, "a call without memory changes what the driver holds");
    expect(call(s) == VK_SUCCESS, "a call fails though there is memory again");
}

/* What only looks, or gives back, takes no memory. */
static void end_without_memory(scarcity *s)
{
    wtv_block blocks[MOST_SCARCE];
    wtv_range ranges[2] = {{s->blocks[0], 0, 1}, {s->blocks[1], 0, VK_WHOLE_SIZE}};
    wt_heap_counts heap;
    size_t count;
    is_all_refused = true;
    expect(wtv_block_of(s->allocator, s->blocks[0], &blocks[0]) == VK_SUCCESS, "looking at a block takes memory");
    expect(wtv_set_user(s->allocator, s->blocks[0], 1) == VK_SUCCESS, "setting a value takes memory");
    expect(wtv_set_name(s->allocator, s->blocks[1], NULL) == VK_SUCCESS, "taking a name away takes memory");
    expect(wtv_set_name(s->allocator, s->blocks[2], "") == VK_SUCCESS, "taking a name away takes memory");
    expect(wtv_blocks(s->allocator, 0, blocks, LENGTH(blocks), &count) == VK_SUCCESS && count == s->blocks_len,
           "a walk takes memory");
    expect(wtv_flush(s->allocator, ranges, LENGTH(ranges)) == VK_SUCCESS, "a flush takes memory");
    expect(wtv_invalidate(s->allocator, ranges, LENGTH(ranges)) == VK_SUCCESS, "an invalidation takes memory");
    expect(wtv_update_budget(s->allocator) == VK_SUCCESS, "a budget takes memory");
    expect(wtv_set_heap_limit(s->allocator, STUB_HOST_HEAP, 0) == VK_SUCCESS, "a limit takes memory");
    expect(wtv_heap(s->allocator, STUB_HOST_HEAP, &heap) == VK_SUCCESS, "counting takes memory");
    expect(wtv_destroy(s->allocator, blocks, LENGTH(blocks), &count) == INVALID && count == s->blocks_len,
           "a list of live blocks takes memory");
    expect(wtv_unmap(s->allocator, s->blocks[0]) == VK_SUCCESS, "an unmapping takes memory");
    while (s->blocks_len > 0)
        expect(wtv_free(s->allocator, s->blocks[--s->blocks_len]) == VK_SUCCESS, "a return takes memory");
    expect(wtv_cleanup(s->allocator) == VK_SUCCESS, "a cleanup takes memory");
    closed(s->driver, s->allocator);
    is_all_refused = false;
}

/* All calls that take memory, with one of its pieces refused. It says whether there is a piece of that number. */
static bool run_scarcely(long served)
{
    static VkResult (*const calls[])(scarcity *) = {
        take_shared, import_scarcely, map_last, take_transient, take_preferred, name_first, ask_candidates,
        ask_statistics, write_statistics, write_report,
    };
    stub_plan plan = stub_usual_plan();
    plan.flags = WTV_CREATE_MEMORY_BUDGET;
    scarcity s = {.driver = stub_open(&plan)};
    s.memory = stub_make_object(s.driver, STUB_CACHED, OBJECT_SIZE);
    served_before = served;
    call_scarcely(&s, create_scarcely);
    for (int i = 0; i < OWN_BLOCKS; i++) {
        call_scarcely(&s, take_own);
        call_scarcely(&s, map_last);
        call_scarcely(&s, name_last);
    }
    for (int i = 0; i < MAPPED_BLOCKS; i++)
        call_scarcely(&s, take_mapped);
    for (size_t i = 0; i < LENGTH(calls); i++)
        call_scarcely(&s, calls[i]);
    call_scarcely(&s, flush_many);
    bool is_refused_one = served_before < 0;
    served_before = -1;
    end_without_memory(&s);
    return is_refused_one;
}

static void run_scarcity(void)
{
    long served = 0;
    current = "scarce memory";
    while (run_scarcely(served))
        served++;
    expect(calls_failed > OWN_BLOCKS, "fewer calls fail than take memory");
    printf("misuse: each of %ld requests for memory refused in turn, and %u calls failed\n", served, calls_failed);
}

/* ---- What is raised by itself, what zeros mean, budgets, and the usual configuration. ---- */

/* An image of that many texels a side, and whether it gets an object of its own for nothing but the driver's wish. */
static void check_wish(uint32_t side, uint32_t version, bool is_wanted)
{
    stub_plan plan = stub_usual_plan();
    plan.api_version = version;
    stub *s = stub_open(&plan);
    wtv_allocator *a = created(s, &stub_table, &small_config);
    const VkImageCreateInfo info = stub_image_info(side, side, true);
    VkImage image;
    wtv_block block;
    bool requires_own;
    wtv_allocation allocation;
    expect(wtv_create_image(a, &info, NULL, &image, &allocation, &block) == VK_SUCCESS, "no image is created");
    stub_needs_of_image(s, image, &requires_own);
    expect(!requires_own, "the stub requires what it should prefer");
    expect(block.dedicated == is_wanted, "a driver's wish is passed over, or one that it does not have is met");
    expect(wtv_destroy_image(a, image, allocation) == VK_SUCCESS, "an image is not destroyed");
    closed(s, a);
}

/* Images of 8 KiB and more would like an object of their own, which they get from 4 KiB on. */
static void run_wishes(void)
{
    current = "a driver's wish";
    check_wish(60, VK_API_VERSION_1_1, true);
    check_wish(60, VK_API_VERSION_1_0, false);
    check_wish(40, VK_API_VERSION_1_1, false);
}

static VKAPI_ATTR VkResult VKAPI_CALL create_without_addresses(VkDevice device, const VkBufferCreateInfo *info,
                                                               const VkAllocationCallbacks *callbacks,
                                                               VkBuffer *buffer)
{
    VkBufferCreateInfo plain = *info;
    plain.pNext = NULL;
    plain.usage &= ~(VkBufferUsageFlags)VK_BUFFER_USAGE_SHADER_DEVICE_ADDRESS_BIT;
    return stub_table.create_buffer(device, &plain, callbacks, buffer);
}

/* A buffer with addresses, by its own usage or by the one that is chained: refused where they are not enabled, and else
   in memory that is near the device. */
static void check_addresses(bool is_chained, uint32_t flags, VkResult wanted, uint32_t usage, uint32_t wanted_type)
{
    const stub_usage_flags2 chained = {STUB_USAGE_FLAGS2, NULL, VK_BUFFER_USAGE_SHADER_DEVICE_ADDRESS_BIT};
    const wtv_functions without = {.create_buffer = create_without_addresses};
    stub_plan plan = stub_usual_plan();
    plan.flags = flags;
    stub *s = stub_open(&plan);
    wtv_allocator *a = created(s, flags == 0 ? &without : NULL, &small_config);
    VkBufferCreateInfo info = stub_buffer_info(SMALL);
    const wtv_request request = {.usage = usage};
    VkBuffer buffer = VK_NULL_HANDLE;
    wtv_allocation allocation = 0;
    wtv_block block;
    if (is_chained)
        info.pNext = &chained;
    else
        info.usage |= VK_BUFFER_USAGE_SHADER_DEVICE_ADDRESS_BIT;
    expect(wtv_create_buffer(a, &info, &request, &buffer, &allocation, &block) == wanted, "another result");
    expect(wanted != VK_SUCCESS || block.memory_type == wanted_type, "another memory type");
    expect(wtv_destroy_buffer(a, buffer, allocation) == VK_SUCCESS, "a buffer is not destroyed");
    closed(s, a);
}

/* Whether copies are seen: clang's sanitizer for addresses has a memcpy of its own. */
static bool are_copies_seen(void)
{
    static char from[100], to[100];
    volatile size_t size = sizeof from;
    seen_of_lock.copies = 0;
    seen_of_lock.bytes = from;
    memcpy(to, from, size);
    seen_of_lock.bytes = NULL;
    expect(memcmp(to, from, size) == 0, "bytes are not copied");
    return seen_of_lock.copies == 1;
}

/* Of a write or a read: how often the lock is held, and that each byte is copied once, and none under the lock. The
   block is looked up once. */
static void check_copy(world *w, enum which which, bool is_write, VkResult wanted, unsigned holds)
{
    static char bytes[100];
    const bool is_seen = wanted == VK_SUCCESS && are_copies_seen();
    picture before = taken(w);
    seen_of_lock.bytes = bytes;
    seen_of_lock.holds = seen_of_lock.lookups = seen_of_lock.copies = seen_of_lock.copies_under_lock = 0;
    VkResult result = is_write ? wtv_write(w->allocator, w->at[which], 5, bytes, sizeof bytes)
                               : wtv_read(w->allocator, w->at[which], 5, bytes, sizeof bytes);
    seen_of_lock.bytes = NULL;
    expect(result == wanted, "another result");
    expect(seen_of_lock.copies == (is_seen ? 1 : 0) && seen_of_lock.copies_under_lock == 0,
           "bytes are copied under the lock, or twice");
    if (seen_of_lock.holds != holds)
        fprintf(stderr, "the lock is held %u times, and not %u\n", seen_of_lock.holds, holds);
    expect(seen_of_lock.holds == holds, "the lock is held more often than it has to be");
    expect(seen_of_lock.lookups == 1, "a block is looked up more than once");
    compare(before, taken(w));
}

/* The lock is held a second time only to flush what is not coherent, or to end a mapping. */
static void run_copies(void)
{
    static const struct {
        enum which which;
        VkResult wanted;
        unsigned write_holds, read_holds;
    } copies[] = {
        {SHARED, VK_SUCCESS, 1, 1},
        {CACHED, VK_SUCCESS, 2, 1},
        {OWN, VK_SUCCESS, 2, 2},
        {IMPORTED, VK_SUCCESS, 2, 2},
        {LOCAL, VK_ERROR_MEMORY_MAP_FAILED, 1, 1},
        {FREED, INVALID, 1, 1},
    };
    for (size_t i = 0; i < LENGTH(copies); i++)
        for (int is_mapped = 0; is_mapped < 2; is_mapped++) {
            world w = begun("copies");
            void *mapped;
            if (is_mapped)
                (void)wtv_map(w.allocator, w.at[copies[i].which], &mapped);
            check_copy(&w, copies[i].which, true, copies[i].wanted, copies[i].write_holds);
            check_copy(&w, copies[i].which, false, copies[i].wanted, copies[i].read_holds);
            ended(&w);
        }
}

static world *beside;

static void unmap_beside(void)
{
    wtv_block block;
    expect(wtv_unmap(beside->allocator, beside->at[OWN]) == VK_SUCCESS, "a block is not unmapped");
    expect(wtv_block_of(beside->allocator, beside->at[OWN], &block) == VK_SUCCESS && block.mapped != NULL
               && stub_object_of(beside->driver, block.memory).is_mapped, "a mapping ends while bytes are copied");
}

/* A call holds the lock once, whatever it does under it. */
static void check_holds(world *w, const row *r)
{
    current = r->name;
    seen_of_lock.holds = 0;
    VkResult result = r->call(w, r);
    stub_refuse(w->driver, STUB_FUNCTIONS, VK_SUCCESS, 0, false);
    expect(result == r->wanted, "another result");
    expect(seen_of_lock.holds == 1, "the lock is held more than once");
}

static void refuse_objects(world *w, const row *r)
{
    (void)r;
    stub_refuse(w->driver, STUB_ALLOCATE, LACKING, 0, true);
}

static void refuse_mappings(world *w, const row *r)
{
    (void)r;
    stub_refuse(w->driver, STUB_MAP, LACKING, 0, true);
}

#define OWN_OF(...) .request = {.dedicated = WT_REQUIRED, __VA_ARGS__}
#define TRANSIENT_OF(...) .request = {__VA_ARGS__}

/* Each memory type is asked, and asked once more, under one hold. */
static void run_holds(void)
{
    static const row calls[] = {
        {"a name", VK_SUCCESS, call_set_name, .which = OWN},
        {"another name", VK_SUCCESS, call_set_name, .which = OWN},
        {"no name", VK_SUCCESS, call_take_name_away, .which = OWN},
        {"a name for no block", INVALID, call_set_name, .which = FREED},
        {"an own object of preferred properties", LACKING, ALLOCATE, .prepare = refuse_objects,
         OWN_OF(.usage = WT_USAGE_UPLOAD, .preferred = VK_MEMORY_PROPERTY_HOST_CACHED_BIT)},
        {"preferred properties", LACKING, ALLOCATE, .prepare = refuse_objects,
         TRANSIENT_OF(.usage = WT_USAGE_UPLOAD | WT_USAGE_TRANSIENT, .preferred = VK_MEMORY_PROPERTY_HOST_CACHED_BIT)},
        {"a buffer of an intent", LACKING, BUFFER_WITH, .prepare = refuse_objects,
         TRANSIENT_OF(.usage = WTV_USAGE_AUTO | WT_USAGE_TRANSIENT)},
        {"an own object that is not mapped", LACKING, ALLOCATE, .prepare = refuse_mappings,
         OWN_OF(.usage = WT_USAGE_UPLOAD, .flags = WTV_MAPPED)},
        {"an own object of an intent that is not mapped", LACKING, BUFFER_WITH, .prepare = refuse_mappings,
         OWN_OF(.usage = WTV_USAGE_AUTO, .flags = WTV_MAPPED | WTV_HOST_ACCESS_RANDOM)},
    };
    world w = begun("holds");
    for (size_t i = 0; i < LENGTH(calls); i++) {
        if (calls[i].prepare != NULL)
            calls[i].prepare(&w, &calls[i]);
        check_holds(&w, &calls[i]);
    }
    ended(&w);
}

/* Where another thread unmaps a block while bytes of it are copied, it stays mapped until they are. */
static void run_unmapped_copies(void)
{
    static char bytes[100];
    for (int is_write = 0; is_write < 2 && are_copies_seen(); is_write++) {
        world w = begun("copies beside an unmapping");
        void *mapped;
        picture before = taken(&w);
        expect(wtv_map(w.allocator, w.at[OWN], &mapped) == VK_SUCCESS, "a block is not mapped");
        beside = &w;
        seen_of_lock.bytes = bytes;
        seen_of_lock.during = unmap_beside;
        VkResult result = is_write ? wtv_write(w.allocator, w.at[OWN], 0, bytes, sizeof bytes)
                                   : wtv_read(w.allocator, w.at[OWN], 0, bytes, sizeof bytes);
        seen_of_lock.bytes = NULL;
        seen_of_lock.during = NULL;
        expect(result == VK_SUCCESS, "bytes are not copied");
        compare(before, taken(&w));
        ended(&w);
    }
}

/* Two buffers in one block, behind its first bytes. */
static void run_binds(void)
{
    world w = begun("binds within a block");
    const VkMemoryRequirements needs = {4 * BLOCK_SIZE, BLOCK_SIZE, 1u << STUB_COHERENT};
    VkBuffer second = made_buffer(&w);
    wtv_block block;
    expect(wtv_allocate(w.allocator, &needs, NULL, &w.made, &block) == VK_SUCCESS, "no block is allocated");
    expect(wtv_bind_buffer(w.allocator, w.made, BLOCK_SIZE, w.loose_buffer) == VK_SUCCESS, "a buffer is not bound");
    expect(wtv_bind_buffer(w.allocator, w.made, 3 * BLOCK_SIZE, second) == VK_SUCCESS, "a buffer is not bound");
    expect(stub_buffer_bytes(w.driver, w.loose_buffer)
               == stub_memory_bytes(w.driver, block.memory, block.offset + BLOCK_SIZE, SMALL), "it is bound elsewhere");
    expect(stub_buffer_bytes(w.driver, second)
               == stub_memory_bytes(w.driver, block.memory, block.offset + 3 * BLOCK_SIZE, SMALL),
           "it is bound elsewhere");
    stub_table.destroy_buffer(stub_info(w.driver).device, second, NULL);
    replace_and_free(&w);
    ended(&w);
}

/* An allocator over a driver of this version, with a buffer and an image that are bound to nothing. */
static world begun_with(uint32_t version, const char *name)
{
    stub_plan plan = stub_usual_plan();
    plan.api_version = version;
    world w = {.driver = stub_open(&plan)};
    current = name;
    w.allocator = created(w.driver, NULL, &small_config);
    w.loose_buffer = made_buffer(&w);
    w.loose_image = made_image(&w);
    return w;
}

static void end_with(world *w)
{
    VkDevice device = stub_info(w->driver).device;
    stub_table.destroy_buffer(device, w->loose_buffer, NULL);
    stub_table.destroy_image(device, w->loose_image, NULL);
    closed(w->driver, w->allocator);
}

static void expect_no_bind(world *w, VkBuffer buffer, VkImage image, VkDeviceSize offset)
{
    picture before = taken(w);
    VkResult result = buffer != VK_NULL_HANDLE ? wtv_bind_buffer(w->allocator, w->made, offset, buffer)
                                               : wtv_bind_image(w->allocator, w->made, offset, image);
    expect(result == INVALID, "a second resource, or another offset, gets an object that was made for one resource");
    compare(before, taken(w));
}

/* An object that was made for one resource keeps it. */
static void check_owned(VkResult (*create)(world *))
{
    world w = begun_with(VK_API_VERSION_1_1, "binds to an object for one resource");
    expect(create(&w) == VK_SUCCESS, "no resource is created");
    uint64_t binds = stub_calls(w.driver, STUB_BIND_BUFFER) + stub_calls(w.driver, STUB_BIND_IMAGE);
    expect_no_bind(&w, w.loose_buffer, VK_NULL_HANDLE, 0);
    expect_no_bind(&w, VK_NULL_HANDLE, w.loose_image, 0);
    expect_no_bind(&w, w.made_buffer, w.made_image, 256);
    expect(stub_calls(w.driver, STUB_BIND_BUFFER) + stub_calls(w.driver, STUB_BIND_IMAGE) == binds,
           "a bind that is refused comes to the driver");
    destroy_made(&w);
    end_with(&w);
}

static VkResult allocate_for_none(world *w)
{
    w->made = allocated(w, STUB_COHERENT, WT_REQUIRED);
    return VK_SUCCESS;
}

/* Where nothing says so to the driver, a block alone in its object serves several resources, one after the other. */
static void check_not_owned(uint32_t version, VkResult (*create)(world *))
{
    world w = begun_with(version, "binds to an object for no resource");
    wtv_block block;
    expect(create(&w) == VK_SUCCESS, "no block is allocated");
    expect(wtv_block_of(w.allocator, w.made, &block) == VK_SUCCESS && block.dedicated == 1, "an object is shared");
    stub_table.destroy_buffer(stub_info(w.driver).device, w.made_buffer, NULL);
    expect(wtv_bind_buffer(w.allocator, w.made, 0, w.loose_buffer) == VK_SUCCESS, "a buffer is not bound");
    replace_and_free(&w);
    end_with(&w);
}

static void run_owners(void)
{
    check_owned(create_own_buffer);
    check_owned(create_own_image);
    check_not_owned(VK_API_VERSION_1_0, create_own_buffer);
    check_not_owned(VK_API_VERSION_1_1, allocate_for_none);
}

/* ---- Requests that are served alone, since memory is free and no chunk is granted. ---- */

enum { MIB = 1 << 20, KIB = 1 << 10, LARGE_HEAP = 2048 /* MiB */, MOST_ASKED = 16 };
enum { LARGE_TYPES = 1 << STUB_LOCAL | 1 << STUB_COHERENT | 1 << STUB_CACHED }; /* the memory types of large heaps */

/* A driver with large heaps, so that chunks have 2 MiB: what it is asked for, and what it refuses, shared or alone. */
static struct {
    struct asked {
        uint32_t type;
        VkDeviceSize size;
    } asked[MOST_ASKED];
    size_t asked_len;
    VkDeviceSize largest; /* the object that it grants */
    VkResult refusal, alone_refusal; /* of objects of at least MIB, and of smaller ones */
} roomy;

static VKAPI_ATTR VkResult VKAPI_CALL allocate_roomily(VkDevice device, const VkMemoryAllocateInfo *info,
                                                       const VkAllocationCallbacks *callbacks, VkDeviceMemory *memory)
{
    expect(roomy.asked_len < MOST_ASKED, "the driver is asked for ever");
    roomy.asked[roomy.asked_len++] = (struct asked){info->memoryTypeIndex, info->allocationSize};
    if (info->allocationSize > roomy.largest)
        return info->allocationSize >= MIB ? roomy.refusal : roomy.alone_refusal;
    return stub_table.allocate_memory(device, info, callbacks, memory);
}

/* Of its heaps the one that is device-local and visible stays as small as the stub's. */
static world begun_roomily(const char *name, VkDeviceSize largest)
{
    static const wtv_functions functions = {.allocate_memory = allocate_roomily};
    static VkMemoryHeap heaps[STUB_HEAPS];
    stub_plan plan = stub_usual_plan();
    memcpy(heaps, stub_heaps, sizeof heaps);
    heaps[STUB_LOCAL_HEAP].size = heaps[STUB_HOST_HEAP].size = (VkDeviceSize)LARGE_HEAP * MIB;
    plan.heaps = heaps;
    world w = {.driver = stub_open(&plan)};
    current = name;
    roomy.asked_len = 0;
    roomy.largest = largest;
    roomy.refusal = roomy.alone_refusal = VK_ERROR_OUT_OF_DEVICE_MEMORY;
    w.allocator = created(w.driver, &functions, NULL);
    return w;
}

static void limit_heaps(world *w, VkDeviceSize limit)
{
    for (uint32_t i = 0; i < STUB_HEAPS; i++)
        expect(wtv_set_heap_limit(w->allocator, i, limit) == VK_SUCCESS, "no limit is set");
}

/* The driver was asked for these, in this order. */
static void expect_asked(const struct asked *wanted, size_t wanted_len)
{
    for (size_t i = 0; i < roomy.asked_len && roomy.asked_len != wanted_len; i++)
        fprintf(stderr, "asked for %llu bytes of %u\n", (unsigned long long)roomy.asked[i].size, roomy.asked[i].type);
    expect(roomy.asked_len == wanted_len, "the driver is asked more often or less often");
    for (size_t i = 0; i < wanted_len; i++)
        expect(roomy.asked[i].type == wanted[i].type && roomy.asked[i].size == wanted[i].size,
               "the driver is asked for something else");
}

/* A request of that many bytes of any memory, and how it ends. The lock is held once. */
static wtv_block asked_for(world *w, VkDeviceSize size, const wtv_request *request, VkResult wanted)
{
    const VkMemoryRequirements needs = {size, 16, STUB_ALL_TYPES};
    wtv_block block = {.allocation = 7};
    roomy.asked_len = 0;
    seen_of_lock.holds = 0;
    VkResult result = wtv_allocate(w->allocator, &needs, request, &w->made, &block);
    if (result != wanted)
        fprintf(stderr, "the result is %d, and not %d\n", result, wanted);
    expect(result == wanted, "a request is refused while memory is free, or the first result is not returned");
    expect(seen_of_lock.holds == 1, "a request holds the lock more than once");
    return block;
}

/* A limit of 1 MiB, and chunks of 2 MiB: no question is asked for one, and the first memory type serves alone. */
static void check_limited(uint32_t usage)
{
    static const struct asked alone[] = {{STUB_LOCAL, 4 * KIB}};
    const wtv_request request = {.usage = usage, .memory_types = LARGE_TYPES};
    const VkBufferCreateInfo info = stub_buffer_info(4 * KIB);
    world w = begun_roomily("a limit of 1 MiB", UINT64_MAX);
    wtv_block block;
    VkBuffer buffer;
    limit_heaps(&w, MIB);
    block = asked_for(&w, 4 * KIB, &request, VK_SUCCESS);
    expect(block.dedicated == 1 && block.size == 4 * KIB && block.offset == 0, "a request is not served alone");
    expect_asked(alone, LENGTH(alone));
    free_made(&w);
    expect(wtv_create_buffer(w.allocator, &info, &request, &buffer, &w.made, NULL) == VK_SUCCESS, "no buffer");
    expect(wtv_destroy_buffer(w.allocator, buffer, w.made) == VK_SUCCESS, "a buffer is not destroyed");
    closed(w.driver, w.allocator);
}

/* A driver that refuses objects over 1 MiB: each memory type is tried shared before any is tried alone. The small heap
   has chunks of 1/32 of it. */
static void check_large_refused(void)
{
    static const struct asked all[] = {
        {STUB_LOCAL, 2 * MIB}, {STUB_COHERENT, 2 * MIB}, {STUB_CACHED, 2 * MIB}, {STUB_LOCAL, 4 * KIB}};
    const wtv_request request = {.memory_types = LARGE_TYPES};
    world w = begun_roomily("a driver that refuses objects over 1 MiB", MIB);
    expect(asked_for(&w, 4 * KIB, &request, VK_SUCCESS).dedicated == 1, "a request is not served alone");
    expect_asked(all, LENGTH(all));
    free_made(&w);
    expect(asked_for(&w, 4 * KIB, NULL, VK_SUCCESS).dedicated == 0, "a memory type is tried alone before another one");
    free_made(&w);
    closed(w.driver, w.allocator);
}

/* A heap with 3 MiB left, and a next chunk of 4 MiB. */
static void check_nearly_full(void)
{
    static const struct asked alone[] = {{STUB_LOCAL, 3 * MIB / 2}};
    const VkDeviceSize held = (VkDeviceSize)(LARGE_HEAP - 5) * MIB;
    const wtv_request request = {.memory_types = 1u << STUB_LOCAL};
    world w = begun_roomily("a heap with 3 MiB left", UINT64_MAX);
    VkDeviceMemory memory = stub_make_object(w.driver, STUB_LOCAL, SMALL);
    wtv_allocation import, shared;
    wt_heap_counts heap;
    expect(wtv_import(w.allocator, memory, STUB_LOCAL, held, 0, held, &import, NULL) == VK_SUCCESS, "no import");
    expect(asked_for(&w, 3 * MIB / 2, &request, VK_SUCCESS).dedicated == 0, "the first chunk is not granted");
    shared = w.made;
    expect(wtv_heap(w.allocator, STUB_LOCAL_HEAP, &heap) == VK_SUCCESS && heap.budget == 3 * MIB, "not 3 MiB are left");
    expect(asked_for(&w, 3 * MIB / 2, &request, VK_SUCCESS).dedicated == 1, "a request is not served alone");
    expect_asked(alone, LENGTH(alone));
    free_made(&w);
    expect(wtv_free(w.allocator, shared) == VK_SUCCESS && wtv_free(w.allocator, import) == VK_SUCCESS, "not freed");
    closed(w.driver, w.allocator);
}

/* A memory type that was refused alone is not asked for again: the small heap's, of which 100 KiB are 1/32 and more.
   The first result is the one that is returned. */
static void check_all_refused(VkResult refusal, VkResult alone_refusal)
{
    static const struct asked all[] = {
        {STUB_LOCAL, 2 * MIB},           {STUB_LOCAL_VISIBLE, 100 * KIB}, {STUB_COHERENT, 2 * MIB},
        {STUB_CACHED, 2 * MIB},          {STUB_LOCAL, 100 * KIB},         {STUB_COHERENT, 100 * KIB},
        {STUB_CACHED, 100 * KIB},
    };
    const bool goes_on = alone_refusal == VK_ERROR_OUT_OF_DEVICE_MEMORY;
    const wtv_request large = {.memory_types = LARGE_TYPES};
    world w = begun_roomily("a driver that refuses all", 0);
    picture before = taken(&w);
    roomy.refusal = refusal;
    roomy.alone_refusal = alone_refusal;
    asked_for(&w, 100 * KIB, goes_on ? NULL : &large, refusal);
    if (goes_on)
        expect_asked(all, LENGTH(all));
    else
        expect(roomy.asked_len == 4 && roomy.asked[3].size == 100 * KIB, "an error does not end the second try");
    compare(before, taken(&w));
    closed(w.driver, w.allocator);
}

/* What is not asked a second time: an object of its own, with one question for each memory type, and nothing at all
   where only what is held may serve, or where the size is over the device's limit. */
static void check_asked_once(void)
{
    const wtv_request own = {.dedicated = WT_REQUIRED}, held_only = {.flags = WT_HELD_ONLY};
    world w = begun_roomily("asked once", 0);
    picture before = taken(&w);
    asked_for(&w, 4 * KIB, &own, LACKING);
    expect(roomy.asked_len == 4, "an object of its own is asked for twice");
    asked_for(&w, 3 * MIB, NULL, LACKING);
    expect(roomy.asked_len == 3, "a request that is large enough for an object of its own is asked for twice");
    asked_for(&w, 4 * KIB, &held_only, LACKING);
    expect(roomy.asked_len == 0, "a request that may ask for nothing asks");
    asked_for(&w, 5 * MIB, NULL, LACKING);
    expect(roomy.asked_len == 0, "a request over the device's limit asks");
    compare(before, taken(&w));
    closed(w.driver, w.allocator);
}

static void run_alone(void)
{
    check_limited(WT_USAGE_FAST_DEVICE_ACCESS);
    check_limited(WT_USAGE_FAST_DEVICE_ACCESS | WT_USAGE_TRANSIENT);
    check_large_refused();
    check_nearly_full();
    check_all_refused(VK_ERROR_OUT_OF_DEVICE_MEMORY, VK_ERROR_OUT_OF_DEVICE_MEMORY);
    check_all_refused(VK_ERROR_TOO_MANY_OBJECTS, VK_ERROR_OUT_OF_DEVICE_MEMORY);
    check_all_refused(VK_ERROR_TOO_MANY_OBJECTS, VK_ERROR_OUT_OF_HOST_MEMORY);
    check_asked_once();
}

/* ---- Texts. ---- */

/* The text that wtv_statistics_text should write, by the numbers of the other calls. */
typedef struct expected_text {
    char text[8192];
    size_t length;
} expected_text;

static void put(expected_text *e, const char *format, ...)
{
    va_list values;
    va_start(values, format);
    e->length += (size_t)vsnprintf(e->text + e->length, sizeof e->text - e->length, format, values);
    va_end(values);
    expect(e->length < sizeof e->text, "a text is longer than it should be");
}

/* A sum below 2^64, or a little over it: 2^64 is 18446744073709551616. */
static void put_sum(expected_text *e, const char *name, uint64_t high, uint64_t low)
{
    expect(high == 0 || (high == 1 && low < 200000000), "a sum is another one");
    if (high == 0)
        put(e, "\"%s\":%llu", name, (unsigned long long)low);
    else
        put(e, "\"%s\":18446744073%09llu", name, (unsigned long long)(low + 709551616));
}

static const char *row_begin(bool *is_first)
{
    bool was_first = *is_first;
    *is_first = false;
    return was_first ? "\n" : ",\n";
}

/* What is held of one kind has a row, in the report's words. */
static void put_kind(expected_text *e, bool *is_first, uint32_t type, const char *name, const wt_kind_statistics *kind)
{
    if (kind->objects == 0)
        return;
    put(e, "%s{\"memory_type\":%u,\"kind\":\"%s\",\"objects\":%llu,\"live_blocks\":%llu,", row_begin(is_first), type,
        name, (unsigned long long)kind->objects, (unsigned long long)kind->blocks);
    put_sum(e, "live_bytes", kind->live_bytes_high, kind->live_bytes);
    put(e, ",");
    put_sum(e, "asked_bytes", kind->asked_bytes_high, kind->asked_bytes);
    put(e, ",");
    put_sum(e, "free_bytes", kind->free_bytes_high, kind->free_bytes);
    put(e, ",\"largest_free\":%llu,\"scattered\":%llu}", (unsigned long long)kind->largest_free,
        (unsigned long long)kind->scattered);
}

static void put_kinds(expected_text *e, wtv_allocator *a)
{
    bool is_first = true;
    for (uint32_t i = 0; i < STUB_TYPES; i++) {
        wt_type_statistics type;
        expect(wtv_statistics(a, i, &type) == VK_SUCCESS, "no statistics");
        put_kind(e, &is_first, i, "Dedicated", &type.dedicated);
        put_kind(e, &is_first, i, "Imported", &type.imported);
        put_kind(e, &is_first, i, "BuddyChunk", &type.buddy);
        put_kind(e, &is_first, i, "FreeListChunk", &type.free_list);
        put_kind(e, &is_first, i, "FitChunk", &type.fit);
    }
}

/* The properties that have a name in the library. */
static unsigned known_properties(uint32_t type)
{
    return stub_types[type].propertyFlags & ~(VkMemoryPropertyFlags)VK_MEMORY_PROPERTY_DEVICE_COHERENT_BIT_AMD;
}

static void put_statistics(expected_text *e, wtv_allocator *a)
{
    bool is_first = true;
    put(e, "{\"heaps\":[");
    for (uint32_t i = 0; i < STUB_HEAPS; i++) {
        wt_heap_counts heap;
        expect(wtv_heap(a, i, &heap) == VK_SUCCESS, "a heap is not counted");
        put(e, "%s{\"size\":%llu,\"limit\":%llu,", row_begin(&is_first), (unsigned long long)stub_heaps[i].size,
            (unsigned long long)heap.limit);
        put_sum(e, "used", heap.used_high, heap.used);
        put(e, ",\"budget\":%llu}", (unsigned long long)heap.budget);
    }
    put(e, "\n],\"types\":[");
    is_first = true;
    for (uint32_t i = 0; i < STUB_TYPES; i++)
        put(e, "%s{\"heap\":%u,\"properties\":%u}", row_begin(&is_first), (unsigned)stub_types[i].heapIndex,
            known_properties(i));
    put(e, "\n],\"kinds\":[");
    put_kinds(e, a);
    put(e, "\n]}\n");
}

static void check_statistics(world *w)
{
    static expected_text wanted;
    char *text;
    wanted.length = 0;
    put_statistics(&wanted, w->allocator);
    expect(wtv_statistics_text(w->allocator, &text) == VK_SUCCESS, "no text");
    expect(strcmp(text, wanted.text) == 0, "a text is another one");
    wtv_free_text(text);
}

/* Two imports that are said to have 2^63 bytes each, of which nothing is used: sums of 2^64 bytes. */
static void run_texts(void)
{
    const VkDeviceSize half = (VkDeviceSize)1 << 63;
    world w = begun("texts");
    wtv_allocation large[2];
    wt_heap_counts heap;
    expect(create_shared_buffer(&w) == VK_SUCCESS, "no transient buffer");
    check_statistics(&w);
    for (int i = 0; i < 2; i++) {
        VkDeviceMemory memory = stub_make_object(w.driver, STUB_LOCAL, SMALL);
        expect(wtv_import(w.allocator, memory, STUB_LOCAL, half, 0, half, &large[i], NULL) == VK_SUCCESS, "no import");
    }
    expect(wtv_heap(w.allocator, STUB_LOCAL_HEAP, &heap) == VK_SUCCESS && heap.used_high == 1, "a sum is below 2^64");
    check_statistics(&w);
    for (int i = 0; i < 2; i++)
        expect(wtv_free(w.allocator, large[i]) == VK_SUCCESS, "a block is not taken back");
    destroy_made(&w);
    ended(&w);
}

static void run_addresses(void)
{
    current = "addresses";
    for (int is_chained = 0; is_chained < 2; is_chained++) {
        check_addresses(is_chained, 0, INVALID, 0, 0);
        check_addresses(is_chained, 0, INVALID, WT_USAGE_UPLOAD, 0);
        check_addresses(is_chained, 0, INVALID, WTV_USAGE_AUTO, 0);
        check_addresses(is_chained, WTV_CREATE_DEVICE_ADDRESS, VK_SUCCESS, 0, STUB_LOCAL);
        check_addresses(is_chained, WTV_CREATE_DEVICE_ADDRESS, VK_SUCCESS, WT_USAGE_UPLOAD, STUB_COHERENT);
        check_addresses(is_chained, WTV_CREATE_DEVICE_ADDRESS, VK_SUCCESS, WTV_USAGE_AUTO, STUB_LOCAL);
    }
}

static void run_zeros(void)
{
    world w = begun("zeros");
    wtv_block block, blocks[BLOCKS + 1];
    size_t count = 7;
    picture before = taken(&w);
    expect(wtv_free(w.allocator, 0) == VK_SUCCESS, "no block is not freed");
    expect(wtv_destroy_buffer(w.allocator, VK_NULL_HANDLE, 0) == VK_SUCCESS, "no buffer is not destroyed");
    expect(wtv_destroy_image(w.allocator, VK_NULL_HANDLE, 0) == VK_SUCCESS, "no image is not destroyed");
    expect(wtv_destroy(NULL, NULL, 0, NULL) == VK_SUCCESS, "no allocator is not destroyed");
    expect(wtv_flush(w.allocator, NULL, 0) == VK_SUCCESS, "no range is not flushed");
    expect(wtv_invalidate(w.allocator, NULL, 0) == VK_SUCCESS, "no range is not invalidated");
    expect(wtv_blocks(w.allocator, 0, NULL, 0, &count) == VK_SUCCESS && count == 0, "no room for blocks");
    for (size_t room = 1; room <= LENGTH(blocks); room++)
        expect(wtv_blocks(w.allocator, 0, blocks, room, &count) == VK_SUCCESS
                   && count == (room < BLOCKS ? room : BLOCKS), "a walk counts other blocks than it writes");
    expect(wtv_write(w.allocator, w.at[OWN], BLOCK_SIZE, NULL, 0) == VK_SUCCESS, "nothing is not written");
    expect(wtv_read(w.allocator, w.at[OWN], BLOCK_SIZE, NULL, 0) == VK_SUCCESS, "nothing is not read");
    wtv_free_text(NULL);
    compare(before, taken(&w));
    const VkMemoryRequirements needs = {SMALL, 1, STUB_ALL_TYPES};
    expect(wtv_allocate(w.allocator, &needs, NULL, &w.made, &block) == VK_SUCCESS, "no request is no default");
    expect(block.user == 0 && block.flags == 0 && block.memory_type == STUB_LOCAL, "a default is another one");
    free_made(&w);
    ended(&w);
}

/* The limit of a heap, its size being a stub's, after a budget was read with that much held of it. */
static void check_budget(VkDeviceSize budget, VkDeviceSize beside, VkDeviceSize wanted)
{
    stub_plan plan = stub_usual_plan();
    const VkMemoryRequirements needs = {100000, 1, 1u << STUB_LOCAL};
    const wtv_request own = {.dedicated = WT_REQUIRED};
    wtv_allocation held, more;
    wt_heap_counts counts;
    plan.flags = WTV_CREATE_MEMORY_BUDGET;
    stub *s = stub_open(&plan);
    wtv_allocator *a = created(s, NULL, NULL);
    expect(wtv_allocate(a, &needs, &own, &held, NULL) == VK_SUCCESS, "no block is allocated");
    stub_set_budget(s, STUB_LOCAL_HEAP, budget, beside);
    expect(wtv_update_budget(a) == VK_SUCCESS, "a budget is not followed");
    expect(wtv_heap(a, STUB_LOCAL_HEAP, &counts) == VK_SUCCESS && counts.limit == wanted, "a limit is another one");
    VkResult result = wtv_allocate(a, &needs, &own, &more, NULL);
    expect(result == (wanted >= 200000 ? VK_SUCCESS : VK_ERROR_OUT_OF_DEVICE_MEMORY), "a limit does not count");
    if (result == VK_SUCCESS)
        expect(wtv_free(a, more) == VK_SUCCESS, "a block is not taken back");
    expect(wtv_free(a, held) == VK_SUCCESS, "a block is not taken back");
    closed(s, a);
}

static void run_budgets(void)
{
    current = "budgets";
    check_budget(6 << 20, 0, 6 << 20);
    check_budget(64 << 20, 0, 6 << 20);
    check_budget(1000000, 0, 1000000);
    check_budget(1000000, 300000, 700000);
    check_budget(1000000, 800001, 199999);
    check_budget(1000000, 800000, 200000);
    check_budget(1000000, 1000000, 0);
    check_budget(1000000, 2000000, 0);
    check_budget(50000, 0, 50000);
    check_budget(1, 0, 1);
}

/* Each result of these calls has a text of its own. */
static void run_results(void)
{
    static const VkResult results[] = {
        VK_SUCCESS, VK_ERROR_OUT_OF_HOST_MEMORY, VK_ERROR_OUT_OF_DEVICE_MEMORY, VK_ERROR_INITIALIZATION_FAILED,
        VK_ERROR_DEVICE_LOST, VK_ERROR_MEMORY_MAP_FAILED, VK_ERROR_EXTENSION_NOT_PRESENT, VK_ERROR_FEATURE_NOT_PRESENT,
        VK_ERROR_TOO_MANY_OBJECTS, VK_ERROR_VALIDATION_FAILED_EXT, VK_ERROR_INVALID_EXTERNAL_HANDLE,
    };
    const size_t count = sizeof results / sizeof *results;
    current = "texts of results";
    for (size_t i = 0; i < count; i++)
        for (size_t other = 0; other < i; other++)
            expect(strcmp(wtv_text(results[i]), wtv_text(results[other])) != 0, "two results have one text");
}

/* A driver without the extension leaves what is chained as it is: no limit is set then. */
static void run_no_budget(void)
{
    stub_plan plan = stub_usual_plan();
    wt_heap_counts counts;
    current = "no budget";
    plan.flags = WTV_CREATE_MEMORY_BUDGET;
    stub *s = stub_open(&plan);
    wtv_allocator *a = created(s, NULL, NULL);
    expect(wtv_set_heap_limit(a, STUB_LOCAL_HEAP, 12345) == VK_SUCCESS, "a limit is not set");
    stub_set_budget(s, STUB_LOCAL_HEAP, 0, 0);
    expect(wtv_update_budget(a) == VK_ERROR_EXTENSION_NOT_PRESENT, "an empty budget is followed");
    expect(wtv_heap(a, STUB_LOCAL_HEAP, &counts) == VK_SUCCESS && counts.limit == 12345, "a limit is another one");
    closed(s, a);
}

/* The unit that the usual configuration is counted in, over a heap that is device-local, and another one. */
static void check_config(VkDeviceSize local, VkDeviceSize other, uint64_t unit)
{
    const wt_config wanted = {4 * unit, unit / 8, 16 * unit, unit, 16 * unit, 1024, unit, WT_FIT};
    for (uint32_t place = 0; place < 2; place++) {
        VkPhysicalDeviceMemoryProperties memory = {.memoryHeapCount = 2};
        wt_config config;
        memory.memoryHeaps[place] = (VkMemoryHeap){local, VK_MEMORY_HEAP_DEVICE_LOCAL_BIT};
        memory.memoryHeaps[1 - place].size = other;
        wtv_default_config(&memory, &config);
        expect(memcmp(&config, &wanted, sizeof config) == 0, "a configuration is another one");
    }
}

/* The size of the first object that small blocks share, and how it is shared, which the configuration decides. */
static VkDeviceSize first_chunk(const wt_config *config, uint64_t sharing)
{
    const VkMemoryRequirements needs = {SMALL, 1, 1u << STUB_LOCAL};
    stub_plan plan = stub_usual_plan();
    stub *s = stub_open(&plan);
    wtv_allocator *a = created(s, NULL, config);
    wtv_allocation allocation;
    wt_type_statistics sums;
    expect(wtv_allocate(a, &needs, NULL, &allocation, NULL) == VK_SUCCESS, "no block is allocated");
    VkDeviceSize size = stub_held_now(s).bytes[STUB_LOCAL_HEAP];
    expect(wtv_statistics(a, STUB_LOCAL, &sums) == VK_SUCCESS, "no statistics");
    expect(sums.buddy.objects == (sharing == WT_BUDDY) && sums.fit.objects == (sharing == WT_FIT),
           "an object is shared in another way");
    expect(wtv_free(a, allocation) == VK_SUCCESS, "a block is not taken back");
    closed(s, a);
    return size;
}

static void run_configs(void)
{
    const VkDeviceSize mebibyte = 1 << 20, gibibyte = 1 << 30;
    const wt_config prototyping = WT_CONFIG_PROTOTYPING;
    wt_config small_fit = small_config;
    VkPhysicalDeviceMemoryProperties memory = {.memoryHeapCount = 1, .memoryHeaps[0].size = 8 * gibibyte};
    wt_config config;
    current = "configurations";
    check_config(mebibyte, 64 * gibibyte, 64 << 10);
    check_config(128 * mebibyte - 1, 64 * gibibyte, 64 << 10);
    check_config(128 * mebibyte, 0, 128 << 10);
    check_config(gibibyte, 64 * gibibyte, mebibyte);
    check_config(8 * gibibyte - 1, 0, 4 * mebibyte);
    check_config(8 * gibibyte, 0, 8 * mebibyte);
    check_config(80 * gibibyte, 0, 8 * mebibyte);
    check_config(0, 2 * gibibyte, 2 * mebibyte);
    expect(first_chunk(NULL, WT_FIT) == 64 << 10, "an allocator without a configuration does not take the usual one");
    expect(first_chunk(&small_config, WT_BUDDY) == 8 << 10, "an allocator does not take the program's configuration");
    small_fit.sharing = WT_FIT;
    expect(first_chunk(&small_fit, WT_FIT) == 8 << 10, "an allocator does not take the program's configuration");
    wtv_default_config(&memory, &config);
    config.sharing = WT_BUDDY;
    expect(memcmp(&config, &prototyping, sizeof config) == 0, "8 GiB do not get WT_CONFIG_PROTOTYPING");
}

int main(void)
{
    live_memory = 0; /* what started the program may hold some */
    for (size_t i = 0; i < LENGTH(rows); i++)
        run_row(&rows[i]);
    run_unknown();
    run_creations();
    printf("misuse: %zu rows, the unknown allocations, %zu creations and the missing functions\n", LENGTH(rows),
           LENGTH(creations));
    run_wishes();
    run_addresses();
    run_copies();
    run_unmapped_copies();
    run_holds();
    run_binds();
    run_owners();
    run_alone();
    run_texts();
    run_zeros();
    run_budgets();
    run_no_budget();
    run_results();
    run_configs();
    run_refusals();
    run_scarcity();
    expect(live_memory == 0, "memory is not given back");
    return 0;
}
