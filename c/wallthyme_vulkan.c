/* The calls are here, and not in a DLL, whatever WT_DLL says. */
#ifndef WTV_API
#define WTV_API
#endif
#include "wallthyme_vulkan.h"

#include <inttypes.h>
#include <stdarg.h>
#include <stdbool.h>
#include <stdio.h>
#include <stdlib.h>
#include <string.h>
#ifdef _WIN32
#ifndef WIN32_LEAN_AND_MEAN
#define WIN32_LEAN_AND_MEAN
#endif
#include <windows.h>
#else
#include <pthread.h>
#endif

/* A function that a call seldom comes to stands apart: the call itself then saves fewer registers. */
#if defined(__GNUC__)
#define SELDOM __attribute__((noinline))
#elif defined(_MSC_VER)
#define SELDOM __declspec(noinline)
#else
#define SELDOM
#endif

enum {
    KNOWN_PROPERTIES = 0x3f, /* the bits of a memory type that wallthyme knows */
    KNOWN_FLAGS = 0x1f,      /* of wtv_create_info */
    NEVER_CHOSEN = VK_MEMORY_PROPERTY_LAZILY_ALLOCATED_BIT | VK_MEMORY_PROPERTY_PROTECTED_BIT,
    INTENTS = WTV_USAGE_AUTO | WTV_USAGE_AUTO_PREFER_DEVICE | WTV_USAGE_AUTO_PREFER_HOST,
    BESIDE_INTENTS = WT_USAGE_TRANSIENT | WT_USAGE_DEVICE_ADDRESS,
    OF_CORE = WT_OPTIMAL | WT_HELD_ONLY, /* flags that the core knows */
    HOST_ACCESS = WTV_HOST_ACCESS_SEQUENTIAL_WRITE | WTV_HOST_ACCESS_RANDOM,
    OF_REQUEST = WT_HELD_ONLY | WTV_MAPPED | WTV_DONT_BIND | HOST_ACCESS | WTV_HOST_ACCESS_ALLOW_TRANSFER_INSTEAD,
    NAMES_READ = 16,         /* by one wt_gone */
    BLOCKS_READ = 16,        /* by one wt_blocks */
    FOR_LIFE = 1,            /* how a block is mapped: see wtv_allocator */
    ONCE = 2,
    RANGES_AT_HAND = 32,     /* of a flush, before memory is taken for them */
    LEAST_SLOTS = 16,
};

/* ---- Tables from numbers other than 0 to values, by open addressing. At most half of the slots are taken. ---- */

typedef struct slot {
    uint64_t key; /* 0: empty */
    uintptr_t value;
} slot;

typedef struct table {
    slot *slots;
    size_t capacity; /* 0, or a power of two */
    size_t count;
} table;

/* Where a search for a key begins. */
static size_t home_of(const table *t, uint64_t key)
{
    return (size_t)((key * UINT64_C(0x9e3779b97f4a7c15)) >> 32) & (t->capacity - 1);
}

/* The slot of a key, or the empty one where it belongs. The table has slots. */
static slot *slot_of(const table *t, uint64_t key)
{
    size_t i = home_of(t, key);
    while (t->slots[i].key != 0 && t->slots[i].key != key)
        i = (i + 1) & (t->capacity - 1);
    return &t->slots[i];
}

/* The value of a key, or null where it has none. 0 never has one. */
static uintptr_t *value_of(const table *t, uint64_t key)
{
    slot *found = t->count == 0 || key == 0 ? NULL : slot_of(t, key);
    return found != NULL && found->key == key ? &found->value : NULL;
}

/* Sees to it that one more key can be put in. */
static bool has_room(table *t)
{
    table larger = {NULL, t->capacity == 0 ? LEAST_SLOTS : 2 * t->capacity, t->count};
    if (2 * (t->count + 1) <= t->capacity)
        return true;
    larger.slots = calloc(larger.capacity, sizeof *larger.slots);
    if (larger.slots == NULL)
        return false;
    for (size_t i = 0; i < t->capacity; i++)
        if (t->slots[i].key != 0)
            *slot_of(&larger, t->slots[i].key) = t->slots[i];
    free(t->slots);
    *t = larger;
    return true;
}

/* Puts a new key in, for which there is room. */
static void put(table *t, uint64_t key, uintptr_t value)
{
    *slot_of(t, key) = (slot){key, value};
    t->count++;
}

/* Takes a key out. Later ones move up to where their search passes. */
static void take_out(table *t, uint64_t key)
{
    size_t mask = t->capacity - 1, hole = (size_t)(slot_of(t, key) - t->slots);
    for (size_t i = (hole + 1) & mask; t->slots[i].key != 0; i = (i + 1) & mask) {
        size_t way = (i - home_of(t, t->slots[i].key)) & mask;
        if (way >= ((i - hole) & mask)) {
            t->slots[hole] = t->slots[i];
            hole = i;
        }
    }
    t->slots[hole] = (slot){0, 0};
    t->count--;
}

/* ---- The lock: on Windows its slim one, which is never refused and has no end, and elsewhere that of POSIX. ---- */

#ifdef _WIN32
typedef SRWLOCK mutex;

static inline bool mutex_begin(mutex *m)
{
    InitializeSRWLock(m);
    return true;
}

static inline void mutex_end(mutex *m)
{
    (void)m;
}

static inline void mutex_enter(mutex *m)
{
    AcquireSRWLockExclusive(m);
}

static inline void mutex_leave(mutex *m)
{
    ReleaseSRWLockExclusive(m);
}
#else
typedef pthread_mutex_t mutex;

static inline bool mutex_begin(mutex *m)
{
    return pthread_mutex_init(m, NULL) == 0;
}

static inline void mutex_end(mutex *m)
{
    pthread_mutex_destroy(m);
}

static inline void mutex_enter(mutex *m)
{
    pthread_mutex_lock(m);
}

static inline void mutex_leave(mutex *m)
{
    pthread_mutex_unlock(m);
}
#endif

/* ---- The allocator. ---- */

/* A memory object. */
typedef struct object {
    VkDeviceMemory memory;
    unsigned char *host;      /* what vkMapMemory returned while it is mapped, else null */
    VkDeviceSize host_offset; /* of that byte in the object */
    bool is_dedicated;
    VkBuffer buffer; /* the one resource that the driver was told it is for, or none: nothing else may be bound to it */
    VkImage image;
} object;

struct wtv_allocator {
    wt_allocator core;
    wtv_functions call;
    VkPhysicalDevice physical_device;
    VkDevice device;
    VkPhysicalDeviceMemoryProperties memory;
    const VkAllocationCallbacks *callbacks; /* null, or the copy below */
    VkAllocationCallbacks copied_callbacks;
    uint32_t known_types; /* bit i: memory type i has no property that wallthyme does not know */
    bool has_lock, has_budget, has_dedicated, is_integrated;
    mutex lock;
    table objects;  /* by their names, as pointers */
    table mappings; /* how a block is mapped, by its key: ONCE for each wtv_map, and FOR_LIFE for WTV_MAPPED */
    table names;    /* of blocks, by their keys, as pointers to texts of malloc */
};

static inline void enter(wtv_allocator *a)
{
    if (a->has_lock)
        mutex_enter(&a->lock);
}

static inline void leave(wtv_allocator *a)
{
    if (a->has_lock)
        mutex_leave(&a->lock);
}

static SELDOM VkResult error_of(uint32_t status)
{
    switch (status) {
    case WT_OUT_OF_DEVICE_MEMORY:
    case WT_WOULD_ASK: return VK_ERROR_OUT_OF_DEVICE_MEMORY;
    case WT_OUT_OF_HOST_MEMORY: return VK_ERROR_OUT_OF_HOST_MEMORY;
    case WT_NO_COMPATIBLE_MEMORY_TYPES: return VK_ERROR_FEATURE_NOT_PRESENT;
    case WT_TOO_MANY_OBJECTS:
    case WT_NO_REMAINING: return VK_ERROR_TOO_MANY_OBJECTS;
    case WT_NON_HOST_VISIBLE:
    case WT_MAP_FAILED: return VK_ERROR_MEMORY_MAP_FAILED;
    default: return VK_ERROR_VALIDATION_FAILED_EXT; /* a misuse */
    }
}

static inline VkResult result_of(uint32_t status)
{
    return status == WT_OK ? VK_SUCCESS : error_of(status);
}

/* The object of a name that the core knows. */
static object *object_of(const wtv_allocator *a, uint64_t name)
{
    return (object *)slot_of(&a->objects, name)->value;
}

static void free_object(wtv_allocator *a, object *held)
{
    a->call.free_memory(a->device, held->memory, a->callbacks);
    free(held);
}

/* Frees the objects of the names that were read, and then of those that wait. */
static SELDOM void free_named(wtv_allocator *a, uint64_t names[NAMES_READ], size_t count)
{
    while (count > 0) {
        for (size_t i = 0; i < count; i++) {
            free_object(a, object_of(a, names[i]));
            take_out(&a->objects, names[i]);
        }
        wt_gone(&a->core, names, NAMES_READ, &count);
    }
}

/* Frees the memory objects that the core has let go. */
static inline void free_gone(wtv_allocator *a)
{
    uint64_t names[NAMES_READ];
    size_t count = 0;
    wt_gone(&a->core, names, NAMES_READ, &count);
    if (count > 0)
        free_named(a, names, count);
}

/* The name of a block, or null. */
static inline const char *name_of(const wtv_allocator *a, wtv_allocation allocation)
{
    const uintptr_t *name = value_of(&a->names, allocation);
    return name != NULL ? (const char *)*name : NULL;
}

static inline void tell_block(const wtv_allocator *a, const wt_block *block, wtv_block *told)
{
    const object *held = object_of(a, block->object);
    *told = (wtv_block){
        .allocation = block->key,
        .memory = held->memory,
        .offset = block->offset,
        .size = block->size,
        .asked = block->asked,
        .mapped = held->host == NULL ? NULL : held->host + (block->offset - held->host_offset),
        .name = name_of(a, block->key),
        .user = block->user,
        .memory_type = block->memory_type,
        .properties = a->memory.memoryTypes[block->memory_type].propertyFlags,
        .flags = block->flags,
        .dedicated = held->is_dedicated,
    };
}

/* ---- Requests. ---- */

/* What is asked of the properties of memory types. */
typedef struct wants {
    VkMemoryPropertyFlags required, preferred, unwanted;
} wants;

/* A request at work: whom an object of its own is for, and what was made for it so far. */
typedef struct work {
    VkBuffer buffer; /* one of the two, or none */
    VkImage image;
    const void *next; /* of wtv_request */
    object *made;     /* or null */
    VkResult result;  /* of the last call of the driver */
    uint32_t refused; /* bit i: an object of memory type i for this request alone, for want of device memory */
    bool is_plain;    /* it has nothing beyond what the core knows, and nothing below is used */
    bool has_intent, is_mapped; /* the second: as long as the block lives */
    wants wants;
} work;

static uint32_t answer_of(VkResult result)
{
    switch (result) {
    case VK_SUCCESS: return WT_GRANTED;
    case VK_ERROR_OUT_OF_DEVICE_MEMORY:
    case VK_ERROR_TOO_MANY_OBJECTS: return WT_NO_DEVICE_MEMORY; /* another memory type may do */
    case VK_ERROR_MEMORY_MAP_FAILED: return WT_DEVICE_MAP_FAILED;
    default: return WT_NO_HOST_MEMORY; /* ends the request */
    }
}

static void free_made(wtv_allocator *a, work *w)
{
    if (w->made != NULL)
        free_object(a, w->made);
    w->made = NULL;
}

/* What belongs to one resource is chained where the object will hold the request's block alone. */
static VkResult make_object(wtv_allocator *a, work *w, const wt_question *question)
{
    bool is_dedicated = (question->flags & WT_ALLOCATE_OWN) != 0;
    bool has_resource = w->buffer != VK_NULL_HANDLE || w->image != VK_NULL_HANDLE;
    bool has_owner = is_dedicated && has_resource && a->has_dedicated;
    VkMemoryDedicatedAllocateInfo owner = {
        .sType = VK_STRUCTURE_TYPE_MEMORY_DEDICATED_ALLOCATE_INFO,
        .pNext = w->next,
        .image = w->image,
        .buffer = w->buffer,
    };
    VkMemoryAllocateFlagsInfo address = {
        .sType = VK_STRUCTURE_TYPE_MEMORY_ALLOCATE_FLAGS_INFO,
        .flags = VK_MEMORY_ALLOCATE_DEVICE_ADDRESS_BIT,
    };
    VkMemoryAllocateInfo info = {
        .sType = VK_STRUCTURE_TYPE_MEMORY_ALLOCATE_INFO,
        .allocationSize = question->size,
        .memoryTypeIndex = question->memory_type,
    };
    if (is_dedicated)
        info.pNext = has_owner ? &owner : w->next;
    if (question->flags & WT_ALLOCATE_DEVICE_ADDRESS) {
        address.pNext = info.pNext;
        info.pNext = &address;
    }
    object *made = malloc(sizeof *made); /* (calloc of glibc has no fast path) */
    if (made == NULL || !has_room(&a->objects)) {
        free(made);
        return VK_ERROR_OUT_OF_HOST_MEMORY;
    }
    *made = (object){.is_dedicated = is_dedicated};
    VkResult result = a->call.allocate_memory(a->device, &info, a->callbacks, &made->memory);
    if (has_owner) {
        made->buffer = w->buffer;
        made->image = w->image;
    }
    if (result == VK_SUCCESS)
        w->made = made;
    else
        free(made);
    return result;
}

static VkResult map_object(wtv_allocator *a, object *held, const wt_question *question)
{
    void *host = NULL;
    VkResult result = a->call.map_memory(a->device, held->memory, question->offset, question->size, 0, &host);
    if (result == VK_SUCCESS) {
        held->host = host;
        held->host_offset = question->offset;
    }
    return result;
}

/* Maps the whole of a block that is not mapped: once, or for its life. */
static VkResult map_first(wtv_allocator *a, const wt_block *block, object *held, uintptr_t how)
{
    wt_question asked[2];
    wt_range mapped;
    uint32_t status;
    VkResult result = VK_SUCCESS;
    size_t n = 0;
    if (!has_room(&a->mappings))
        return VK_ERROR_OUT_OF_HOST_MEMORY;
    while ((status = wt_map(&a->core, block->key, 0, block->size, asked, n, &mapped, &asked[n])) == WT_ASK) {
        result = map_object(a, held, &asked[n]);
        asked[n++].answer = answer_of(result);
    }
    if (status == WT_OK) {
        put(&a->mappings, block->key, how);
        return VK_SUCCESS;
    }
    if (n > 0 && result == VK_SUCCESS) { /* it was mapped in vain */
        a->call.unmap_memory(a->device, held->memory);
        held->host = NULL;
    }
    return result != VK_SUCCESS ? result : result_of(status);
}

/* Puts a question of an allocation to the driver. An object that was made for an earlier one is not needed any more. */
static uint32_t answer(wtv_allocator *a, work *w, const wt_question *question)
{
    if (question->kind == WT_ALLOCATE) {
        free_made(a, w);
        w->result = make_object(a, w, question);
    } else {
        w->result = map_object(a, w->made, question);
    }
    uint32_t answered = answer_of(w->result);
    if (answered == WT_NO_DEVICE_MEMORY && (question->flags & WT_ALLOCATE_OWN) != 0)
        w->refused |= (uint32_t)1 << question->memory_type;
    return answered;
}

/* A refusal that the driver caused is the driver's. Where it lacked device memory, the core may still end the request
   for another reason. */
static VkResult ended(const work *w, uint32_t status)
{
    uint32_t answered = answer_of(w->result);
    bool lacked_device_memory = answered == WT_NO_DEVICE_MEMORY && status == WT_OUT_OF_DEVICE_MEMORY;
    bool was_ended = (answered == WT_NO_HOST_MEMORY || answered == WT_DEVICE_MAP_FAILED)
                     && status == WT_OUT_OF_HOST_MEMORY;
    return lacked_device_memory || was_ended ? w->result : result_of(status);
}

/* Puts the questions of a request to the driver, of which this is the first. It returns the core's last status. */
static uint32_t ask_driver(wtv_allocator *a, const wt_request *request, const wt_question *first, work *w,
                           wt_block *block)
{
    wt_question asked[WT_MAX_QUESTIONS + 1];
    uint32_t status = WT_ASK;
    asked[0] = *first;
    for (size_t n = 0; status == WT_ASK; status = wt_alloc(&a->core, request, asked, n, block, &asked[n])) {
        asked[n].answer = answer(a, w, &asked[n]);
        n++;
    }
    if (status == WT_OK && block->fresh) {
        put(&a->objects, block->object, (uintptr_t)w->made);
        w->made = NULL;
    }
    free_made(a, w);
    return status;
}

/* Asks once more for a request that ended for want of device memory, now for an object of its own: a shared one is
   mostly larger than the request. Memory types that were refused so already are left out. */
static bool is_served_alone(wtv_allocator *a, const wt_request *request, work *w, wt_block *block)
{
    wt_request alone = *request;
    wt_question first;
    if (request->dedicated == WT_REQUIRED || (request->flags & WT_HELD_ONLY) != 0)
        return false;
    alone.dedicated = WT_REQUIRED;
    alone.memory_types &= ~w->refused;
    if (alone.memory_types == 0)
        return false;
    uint32_t status = wt_alloc(&a->core, &alone, NULL, 0, block, &first);
    return status == WT_ASK && ask_driver(a, &alone, &first, w, block) == WT_OK;
}

/* Serves a request that asks a first question, or ends without one. */
static SELDOM VkResult serve_otherwise(wtv_allocator *a, const wt_request *request, uint32_t status,
                                       const wt_question *first, work *w, wt_block *block)
{
    work begun;
    if (w == NULL) {
        begun = (work){.result = VK_SUCCESS};
        w = &begun;
    }
    if (status == WT_ASK)
        status = ask_driver(a, request, first, w, block);
    VkResult result = ended(w, status);
    bool is_served = status == WT_OUT_OF_DEVICE_MEMORY && is_served_alone(a, request, w, block);
    return is_served ? VK_SUCCESS : result;
}

/* Serves a request, under the lock. Most ask nothing. One that is for no resource may come without work. */
static inline VkResult serve(wtv_allocator *a, const wt_request *request, work *w, wt_block *block)
{
    wt_question first;
    uint32_t status = wt_alloc(&a->core, request, NULL, 0, block, &first);
    return status == WT_OK ? VK_SUCCESS : serve_otherwise(a, request, status, &first, w, block);
}

static uint32_t greater(uint32_t one, uint32_t other)
{
    return one > other ? one : other;
}

/* What is asked of the core. */
static inline wt_request request_of(const wtv_allocator *a, const VkMemoryRequirements *needs, const wtv_request *wish)
{
    return (wt_request){
        .size = needs->size,
        .align_mask = needs->alignment - 1,
        .usage = wish->usage,
        .memory_types = needs->memoryTypeBits & a->known_types & (wish->memory_types != 0 ? wish->memory_types : ~0u),
        .dedicated = wish->dedicated,
        .flags = wish->flags,
        .user = wish->user,
    };
}

/* ---- Requests that this side orders or maps. ---- */

/* Of a chain the structure of a type, or null. */
static const void *found_in(const void *chain, VkStructureType type)
{
    const VkBaseInStructure *structure = chain;
    while (structure != NULL && structure->sType != type)
        structure = structure->pNext;
    return structure;
}

static bool is_power_of_two_or_0(VkDeviceSize number)
{
    return (number & (number - 1)) == 0;
}

/* Whether the fields of a request go together. An intent wants a create-info to be seen. */
static SELDOM VkResult check(const wtv_request *wish, uint32_t flags, bool sees_info)
{
    uint32_t intent = wish->usage & INTENTS, host = wish->flags & HOST_ACCESS;
    bool is_intent = intent == 0
                     || (sees_info && is_power_of_two_or_0(intent)
                         && (wish->usage & ~(uint32_t)(INTENTS | BESIDE_INTENTS)) == 0);
    bool is_access = host == 0 || (intent != 0 && host != HOST_ACCESS);
    bool may_allow = host != 0 || (wish->flags & WTV_HOST_ACCESS_ALLOW_TRANSFER_INSTEAD) == 0;
    /* What this side chains itself may not come from the program. */
    bool is_chain = found_in(wish->next, VK_STRUCTURE_TYPE_MEMORY_DEDICATED_ALLOCATE_INFO) == NULL
                    && found_in(wish->next, VK_STRUCTURE_TYPE_MEMORY_ALLOCATE_FLAGS_INFO) == NULL;
    if (!is_intent || !is_access || !may_allow || !is_chain || !is_power_of_two_or_0(wish->min_alignment)
        || (wish->flags & ~flags) != 0)
        return VK_ERROR_VALIDATION_FAILED_EXT;
    bool is_never_chosen = ((wish->required | wish->preferred) & NEVER_CHOSEN) != 0;
    return is_never_chosen ? VK_ERROR_FEATURE_NOT_PRESENT : VK_SUCCESS;
}

/* Whether a request has nothing to check and nothing beyond what the core knows, which holds for most. */
static inline bool is_plain(const wtv_request *wish, uint32_t flags)
{
    uint64_t more = (wish->usage & INTENTS) | (wish->flags & ~flags) | wish->required | wish->preferred;
    return (more | wish->min_alignment | (uintptr_t)wish->next) == 0;
}

/* Begins to work at a request. */
static inline VkResult begin(work *w, const wtv_request *wish, uint32_t flags, bool sees_info)
{
    w->is_plain = is_plain(wish, flags & OF_CORE);
    w->wants = (wants){wish->required, wish->preferred, 0};
    return w->is_plain ? VK_SUCCESS : check(wish, flags, sees_info);
}

/* What a request with an intent asks of memory types. A resource that the device uses for transfers alone has no device
   access. */
static wants wants_of(const wtv_allocator *a, const wtv_request *wish, bool has_device_access)
{
    bool prefers_device = (wish->usage & WTV_USAGE_AUTO_PREFER_DEVICE) != 0;
    bool prefers_host = (wish->usage & WTV_USAGE_AUTO_PREFER_HOST) != 0;
    bool is_random = (wish->flags & WTV_HOST_ACCESS_RANDOM) != 0;
    bool is_sequential = (wish->flags & WTV_HOST_ACCESS_SEQUENTIAL_WRITE) != 0;
    bool may_copy = (wish->flags & WTV_HOST_ACCESS_ALLOW_TRANSFER_INSTEAD) != 0 && has_device_access
                    && !a->is_integrated && !prefers_host;
    bool prefers_local = is_sequential && !has_device_access ? prefers_device : !prefers_host;
    wants w = {wish->required, wish->preferred, 0};
    if (is_random)
        w.preferred |= VK_MEMORY_PROPERTY_HOST_CACHED_BIT;
    if (is_sequential)
        w.unwanted |= VK_MEMORY_PROPERTY_HOST_CACHED_BIT;
    if (may_copy && is_sequential)
        w.preferred |= VK_MEMORY_PROPERTY_HOST_VISIBLE_BIT;
    if ((is_random || is_sequential) && !may_copy)
        w.required |= VK_MEMORY_PROPERTY_HOST_VISIBLE_BIT;
    if (may_copy || (!is_random && prefers_local))
        w.preferred |= VK_MEMORY_PROPERTY_DEVICE_LOCAL_BIT;
    else if (!is_random)
        w.unwanted |= VK_MEMORY_PROPERTY_DEVICE_LOCAL_BIT;
    return w;
}

static uint32_t count_bits(uint32_t bits)
{
    uint32_t count = 0;
    for (; bits != 0; bits &= bits - 1)
        count++;
    return count;
}

/* Sorts memory types by what they lack of the preferred properties and have of the unwanted ones. */
static void sort_by_cost(const wtv_allocator *a, const wants *w, uint32_t *types, size_t count)
{
    uint32_t costs[VK_MAX_MEMORY_TYPES];
    for (size_t i = 0; i < count; i++) {
        uint32_t type = types[i], properties = a->memory.memoryTypes[type].propertyFlags;
        uint32_t cost = count_bits(w->preferred & ~properties) + count_bits(w->unwanted & properties);
        size_t at = i;
        for (; at > 0 && costs[at - 1] > cost; at--) {
            costs[at] = costs[at - 1];
            types[at] = types[at - 1];
        }
        costs[at] = cost;
        types[at] = type;
    }
}

/* The memory types that serve a request, in the order in which they are asked: by cost, and of equal ones by index with
   an intent, and in the core's order without. */
static uint32_t order_of(wtv_allocator *a, const wt_request *request, const work *w,
                         uint32_t types[VK_MAX_MEMORY_TYPES], size_t *count)
{
    uint32_t status = WT_OK;
    *count = 0;
    if (w->has_intent) {
        for (uint32_t i = 0; i < a->memory.memoryTypeCount; i++)
            if ((request->memory_types >> i & 1) != 0 && (a->memory.memoryTypes[i].propertyFlags & NEVER_CHOSEN) == 0)
                types[(*count)++] = i;
    } else {
        status = wt_candidates(&a->core, request->usage, request->memory_types, types, VK_MAX_MEMORY_TYPES, count);
    }
    if (status == WT_OK)
        sort_by_cost(a, &w->wants, types, *count);
    return status;
}

/* Maps a dedicated block for as long as it lives. What is shared is mapped so, and what the host does not see never. */
static VkResult keep_mapped(wtv_allocator *a, const wt_block *block)
{
    object *held = object_of(a, block->object);
    VkMemoryPropertyFlags properties = a->memory.memoryTypes[block->memory_type].propertyFlags;
    if (!held->is_dedicated || (properties & VK_MEMORY_PROPERTY_HOST_VISIBLE_BIT) == 0)
        return VK_SUCCESS;
    return map_first(a, block, held, FOR_LIFE);
}

/* Serves a request as if nothing had been tried for it. */
static VkResult serve_afresh(wtv_allocator *a, const wt_request *request, work *w, wt_block *block)
{
    w->result = VK_SUCCESS;
    w->refused = 0;
    return serve(a, request, w, block);
}

/* Serves a request whose block stays mapped. A memory type whose block is not mapped for want of device memory is left
   out. */
static VkResult serve_mapped(wtv_allocator *a, const wt_request *request, work *w, wt_block *block)
{
    wt_request left = *request;
    VkResult first = VK_SUCCESS, result = serve_afresh(a, &left, w, block);
    while (result == VK_SUCCESS) {
        result = keep_mapped(a, block);
        if (result == VK_SUCCESS)
            return VK_SUCCESS;
        wt_free(&a->core, block->key);
        free_gone(a);
        left.memory_types &= ~((uint32_t)1 << block->memory_type);
        if (answer_of(result) != WT_NO_DEVICE_MEMORY)
            return result;
        first = first != VK_SUCCESS ? first : result;
        result = serve_afresh(a, &left, w, block);
    }
    bool has_no_other = result == VK_ERROR_FEATURE_NOT_PRESENT || answer_of(result) == WT_NO_DEVICE_MEMORY;
    return first != VK_SUCCESS && has_no_other ? first : result;
}

/* Serves a request from one memory type after the other. */
static VkResult serve_in_order(wtv_allocator *a, const wt_request *request, work *w, wt_block *block)
{
    uint32_t types[VK_MAX_MEMORY_TYPES];
    size_t count;
    uint32_t status = order_of(a, request, w, types, &count);
    if (status != WT_OK || count == 0)
        return result_of(status != WT_OK ? status : WT_NO_COMPATIBLE_MEMORY_TYPES);
    VkResult first = VK_SUCCESS, result = VK_SUCCESS;
    for (size_t i = 0; i < count; i++) {
        wt_request one = *request;
        one.memory_types = (uint32_t)1 << types[i];
        result = w->is_mapped ? serve_mapped(a, &one, w, block) : serve_afresh(a, &one, w, block);
        if (answer_of(result) != WT_NO_DEVICE_MEMORY)
            return result;
        first = first != VK_SUCCESS ? first : result;
    }
    return first;
}

/* Of these memory types those that have all of some properties. */
static uint32_t types_with(const wtv_allocator *a, uint32_t types, VkMemoryPropertyFlags required)
{
    for (uint32_t i = 0; i < a->memory.memoryTypeCount; i++)
        if ((required & ~a->memory.memoryTypes[i].propertyFlags) != 0)
            types &= ~((uint32_t)1 << i);
    return types;
}

/* Serves a request that has more than the core knows. */
static SELDOM VkResult serve_more(wtv_allocator *a, wt_request request, const wtv_request *wish, work *w,
                                  wt_block *block)
{
    bool is_aligned = is_power_of_two_or_0(request.align_mask + 1); /* else the core refuses the request */
    if (is_aligned && request.align_mask < wish->min_alignment)
        request.align_mask = wish->min_alignment - 1;
    request.memory_types = types_with(a, request.memory_types, w->wants.required);
    request.flags &= OF_CORE;
    w->next = wish->next;
    w->is_mapped = (wish->flags & WTV_MAPPED) != 0;
    if (w->has_intent || w->wants.preferred != 0)
        return serve_in_order(a, &request, w, block);
    return w->is_mapped ? serve_mapped(a, &request, w, block) : serve(a, &request, w, block);
}

/* ---- Allocations. ---- */

/* A plain request that is for no resource may come without work. */
static inline VkResult allocate(wtv_allocator *a, const VkMemoryRequirements *needs, const wtv_request *wish, work *w,
                                bool is_plain, wtv_allocation *allocation, wtv_block *told)
{
    wt_request request = request_of(a, needs, wish);
    wt_block block;
    enter(a);
    VkResult result = is_plain ? serve(a, &request, w, &block) : serve_more(a, request, wish, w, &block);
    if (result == VK_SUCCESS) {
        *allocation = block.key;
        if (told != NULL)
            tell_block(a, &block, told);
    }
    leave(a);
    return result;
}

static const wtv_request NO_WISH;

static SELDOM VkResult allocate_more(wtv_allocator *a, const VkMemoryRequirements *needs, const wtv_request *wish,
                                     wtv_allocation *allocation, wtv_block *told)
{
    work w = {.result = VK_SUCCESS};
    VkResult result = begin(&w, wish, OF_REQUEST | WT_OPTIMAL, false);
    return result == VK_SUCCESS ? allocate(a, needs, wish, &w, w.is_plain, allocation, told) : result;
}

VkResult wtv_allocate(wtv_allocator *a, const VkMemoryRequirements *requirements, const wtv_request *request,
                      wtv_allocation *allocation, wtv_block *block)
{
    const wtv_request *wish = request != NULL ? request : &NO_WISH;
    if (!is_plain(wish, OF_CORE))
        return allocate_more(a, requirements, wish, allocation, block);
    return allocate(a, requirements, wish, NULL, true, allocation, block);
}

/* The requirements of the resource that a request is for, and the wish, raised to what the driver asks for. */
static VkMemoryRequirements requirements_of(const wtv_allocator *a, const work *w, wtv_request *wish)
{
    VkMemoryDedicatedRequirements own = {.sType = VK_STRUCTURE_TYPE_MEMORY_DEDICATED_REQUIREMENTS};
    VkMemoryRequirements2 needs = {.sType = VK_STRUCTURE_TYPE_MEMORY_REQUIREMENTS_2, .pNext = &own};
    VkBufferMemoryRequirementsInfo2 buffer = {VK_STRUCTURE_TYPE_BUFFER_MEMORY_REQUIREMENTS_INFO_2, NULL, w->buffer};
    VkImageMemoryRequirementsInfo2 image = {VK_STRUCTURE_TYPE_IMAGE_MEMORY_REQUIREMENTS_INFO_2, NULL, w->image};
    bool is_buffer = w->buffer != VK_NULL_HANDLE;
    if (a->has_dedicated && is_buffer)
        a->call.get_buffer_memory_requirements2(a->device, &buffer, &needs);
    else if (a->has_dedicated)
        a->call.get_image_memory_requirements2(a->device, &image, &needs);
    else if (is_buffer)
        a->call.get_buffer_memory_requirements(a->device, w->buffer, &needs.memoryRequirements);
    else
        a->call.get_image_memory_requirements(a->device, w->image, &needs.memoryRequirements);
    if (own.requiresDedicatedAllocation)
        wish->dedicated = greater(wish->dedicated, WT_REQUIRED);
    else if (own.prefersDedicatedAllocation)
        wish->dedicated = greater(wish->dedicated, WT_PREFERRED);
    return needs.memoryRequirements;
}

/* (bind is a name of windows.h.) */
static VkResult bind_to(const wtv_allocator *a, const work *w, VkDeviceMemory memory, VkDeviceSize offset)
{
    return w->buffer != VK_NULL_HANDLE ? a->call.bind_buffer_memory(a->device, w->buffer, memory, offset)
                                       : a->call.bind_image_memory(a->device, w->image, memory, offset);
}

/* Allocates for a resource, and binds it unless the program will. */
static VkResult allocate_and_bind(wtv_allocator *a, work *w, wtv_request wish, wtv_allocation *allocation,
                                  wtv_block *told)
{
    wtv_block block;
    wtv_allocation key;
    VkMemoryRequirements needs = requirements_of(a, w, &wish);
    VkResult result = allocate(a, &needs, &wish, w, w->is_plain, &key, &block);
    if (result != VK_SUCCESS)
        return result;
    if ((wish.flags & WTV_DONT_BIND) == 0)
        result = bind_to(a, w, block.memory, block.offset);
    if (result != VK_SUCCESS) {
        wtv_free(a, key);
        return result;
    }
    *allocation = key;
    if (told != NULL)
        *told = block;
    return VK_SUCCESS;
}

VkResult wtv_allocate_for_buffer(wtv_allocator *a, VkBuffer buffer, const wtv_request *request,
                                 wtv_allocation *allocation, wtv_block *block)
{
    const wtv_request *wish = request != NULL ? request : &NO_WISH;
    work w = {.buffer = buffer};
    VkResult result = buffer != VK_NULL_HANDLE ? begin(&w, wish, OF_REQUEST, false) : VK_ERROR_VALIDATION_FAILED_EXT;
    return result == VK_SUCCESS ? allocate_and_bind(a, &w, *wish, allocation, block) : result;
}

VkResult wtv_allocate_for_image(wtv_allocator *a, VkImage image, const wtv_request *request, wtv_allocation *allocation,
                                wtv_block *block)
{
    const wtv_request *wish = request != NULL ? request : &NO_WISH;
    work w = {.image = image};
    VkResult result =
        image != VK_NULL_HANDLE ? begin(&w, wish, OF_REQUEST | WT_OPTIMAL, false) : VK_ERROR_VALIDATION_FAILED_EXT;
    return result == VK_SUCCESS ? allocate_and_bind(a, &w, *wish, allocation, block) : result;
}

/* Turns an intent into what it asks of memory types, and into a usage that any of them serves. */
static SELDOM void settle(const wtv_allocator *a, work *w, wtv_request *wish, uint64_t usage)
{
    const uint64_t transfers = VK_BUFFER_USAGE_TRANSFER_SRC_BIT | VK_BUFFER_USAGE_TRANSFER_DST_BIT; /* and an image's */
    w->has_intent = true;
    w->wants = wants_of(a, wish, (usage & ~transfers) != 0);
    wish->usage = (wish->usage & BESIDE_INTENTS) | WT_USAGE_FAST_DEVICE_ACCESS;
}

/* VkBufferUsageFlags2CreateInfo of Vulkan 1.4 and VK_KHR_maintenance5, which older headers lack. */
typedef struct usage_flags2 {
    VkStructureType type;
    const void *next;
    uint64_t usage;
} usage_flags2;

static uint64_t usage_of(const VkBufferCreateInfo *info)
{
    const usage_flags2 *chained = found_in(info->pNext, (VkStructureType)1000470006);
    return chained != NULL ? chained->usage : info->usage;
}

VkResult wtv_create_buffer(wtv_allocator *a, const VkBufferCreateInfo *info, const wtv_request *request,
                           VkBuffer *buffer, wtv_allocation *allocation, wtv_block *block)
{
    const VkBufferCreateFlags sparse = VK_BUFFER_CREATE_SPARSE_BINDING_BIT | VK_BUFFER_CREATE_SPARSE_RESIDENCY_BIT
                                       | VK_BUFFER_CREATE_SPARSE_ALIASED_BIT;
    wtv_request wish = request != NULL ? *request : NO_WISH;
    work w = {.result = VK_SUCCESS};
    uint64_t usage = usage_of(info);
    VkResult result = (info->flags & sparse) == 0 ? begin(&w, &wish, OF_REQUEST, true) : VK_ERROR_FEATURE_NOT_PRESENT;
    if (result != VK_SUCCESS)
        return result;
    if ((wish.usage & INTENTS) != 0)
        settle(a, &w, &wish, usage);
    if ((usage & VK_BUFFER_USAGE_SHADER_DEVICE_ADDRESS_BIT) != 0)
        wish.usage = (wish.usage != 0 ? wish.usage : WT_USAGE_FAST_DEVICE_ACCESS) | WT_USAGE_DEVICE_ADDRESS;
    result = a->call.create_buffer(a->device, info, a->callbacks, &w.buffer);
    if (result != VK_SUCCESS)
        return result;
    result = allocate_and_bind(a, &w, wish, allocation, block);
    if (result == VK_SUCCESS)
        *buffer = w.buffer;
    else
        a->call.destroy_buffer(a->device, w.buffer, a->callbacks);
    return result;
}

VkResult wtv_create_image(wtv_allocator *a, const VkImageCreateInfo *info, const wtv_request *request, VkImage *image,
                          wtv_allocation *allocation, wtv_block *block)
{
    const VkImageCreateFlags refused = VK_IMAGE_CREATE_SPARSE_BINDING_BIT | VK_IMAGE_CREATE_SPARSE_RESIDENCY_BIT
                                       | VK_IMAGE_CREATE_SPARSE_ALIASED_BIT | VK_IMAGE_CREATE_DISJOINT_BIT;
    wtv_request wish = request != NULL ? *request : NO_WISH;
    work w = {.result = VK_SUCCESS};
    VkResult result = (info->flags & refused) == 0 ? begin(&w, &wish, OF_REQUEST, true) : VK_ERROR_FEATURE_NOT_PRESENT;
    if (result != VK_SUCCESS)
        return result;
    if ((wish.usage & INTENTS) != 0)
        settle(a, &w, &wish, info->usage);
    if (info->tiling != VK_IMAGE_TILING_LINEAR)
        wish.flags |= WT_OPTIMAL;
    result = a->call.create_image(a->device, info, a->callbacks, &w.image);
    if (result != VK_SUCCESS)
        return result;
    result = allocate_and_bind(a, &w, wish, allocation, block);
    if (result == VK_SUCCESS)
        *image = w.image;
    else
        a->call.destroy_image(a->device, w.image, a->callbacks);
    return result;
}

/* ---- Returns. ---- */

static SELDOM void take_name(wtv_allocator *a, wtv_allocation allocation)
{
    uintptr_t *name = value_of(&a->names, allocation);
    if (name == NULL)
        return;
    free((char *)*name);
    take_out(&a->names, allocation);
}

/* Takes a block back, mapped or not. */
static inline uint32_t take_back(wtv_allocator *a, wtv_allocation allocation)
{
    uint32_t status = wt_free(&a->core, allocation);
    if (status == WT_OK && a->mappings.count > 0 && value_of(&a->mappings, allocation) != NULL)
        take_out(&a->mappings, allocation);
    if (status == WT_OK && a->names.count > 0)
        take_name(a, allocation);
    return status;
}

VkResult wtv_free(wtv_allocator *a, wtv_allocation allocation)
{
    if (allocation == 0)
        return VK_SUCCESS;
    enter(a);
    uint32_t status = take_back(a, allocation);
    if (status == WT_OK)
        free_gone(a);
    leave(a);
    return result_of(status);
}

/* What is bound to the block is destroyed before its place can be granted again, and before its object is freed. */
static VkResult take_back_with(wtv_allocator *a, wtv_allocation allocation, VkBuffer buffer, VkImage image)
{
    enter(a);
    uint32_t status = take_back(a, allocation);
    if (status == WT_OK) {
        if (buffer != VK_NULL_HANDLE)
            a->call.destroy_buffer(a->device, buffer, a->callbacks);
        if (image != VK_NULL_HANDLE)
            a->call.destroy_image(a->device, image, a->callbacks);
        free_gone(a);
    }
    leave(a);
    return result_of(status);
}

VkResult wtv_destroy_buffer(wtv_allocator *a, VkBuffer buffer, wtv_allocation allocation)
{
    if (buffer == VK_NULL_HANDLE && allocation == 0)
        return VK_SUCCESS;
    return take_back_with(a, allocation, buffer, VK_NULL_HANDLE);
}

VkResult wtv_destroy_image(wtv_allocator *a, VkImage image, wtv_allocation allocation)
{
    if (image == VK_NULL_HANDLE && allocation == 0)
        return VK_SUCCESS;
    return take_back_with(a, allocation, VK_NULL_HANDLE, image);
}

VkResult wtv_cleanup(wtv_allocator *a)
{
    enter(a);
    uint32_t status = wt_cleanup(&a->core);
    free_gone(a);
    leave(a);
    return result_of(status);
}

/* ---- Blocks. ---- */

/* A live block and the object that holds it, under the lock. */
static VkResult find(wtv_allocator *a, wtv_allocation allocation, wt_block *block, object **held)
{
    uint32_t status = wt_block_of(&a->core, allocation, block);
    *held = status == WT_OK ? object_of(a, block->object) : NULL;
    return result_of(status);
}

VkResult wtv_block_of(wtv_allocator *a, wtv_allocation allocation, wtv_block *told)
{
    wt_block block;
    object *held;
    enter(a);
    VkResult result = find(a, allocation, &block, &held);
    if (result == VK_SUCCESS)
        tell_block(a, &block, told);
    leave(a);
    return result;
}

/* Whether an object may have this resource from that byte of its block on. One that the driver was told to be for one
   resource keeps it (VUID-vkBindBufferMemory-memory-01508, VUID-vkBindImageMemory-memory-02628). */
static bool is_place_for(const object *held, const work *w, VkDeviceSize offset)
{
    bool has_owner = held->buffer != VK_NULL_HANDLE || held->image != VK_NULL_HANDLE;
    return !has_owner || (held->buffer == w->buffer && held->image == w->image && offset == 0);
}

/* Binds a resource within a block. */
static VkResult bind_within(wtv_allocator *a, const work *w, wtv_allocation allocation, VkDeviceSize offset)
{
    wt_block block;
    object *held;
    VkDeviceMemory memory = VK_NULL_HANDLE;
    enter(a);
    VkResult result = find(a, allocation, &block, &held);
    if (result == VK_SUCCESS && (offset >= block.asked || !is_place_for(held, w, offset)))
        result = VK_ERROR_VALIDATION_FAILED_EXT;
    if (result == VK_SUCCESS)
        memory = held->memory;
    leave(a);
    return result == VK_SUCCESS ? bind_to(a, w, memory, block.offset + offset) : result;
}

VkResult wtv_bind_buffer(wtv_allocator *a, wtv_allocation allocation, VkDeviceSize offset, VkBuffer buffer)
{
    const work w = {.buffer = buffer};
    return buffer == VK_NULL_HANDLE ? VK_ERROR_VALIDATION_FAILED_EXT : bind_within(a, &w, allocation, offset);
}

VkResult wtv_bind_image(wtv_allocator *a, wtv_allocation allocation, VkDeviceSize offset, VkImage image)
{
    const work w = {.image = image};
    return image == VK_NULL_HANDLE ? VK_ERROR_VALIDATION_FAILED_EXT : bind_within(a, &w, allocation, offset);
}

/* The live blocks, under the lock. */
static uint32_t walk(wtv_allocator *a, uint64_t after, wtv_block *blocks, size_t room, size_t *count)
{
    wt_block read[BLOCKS_READ];
    size_t written = 0, some = 0;
    uint32_t status = WT_OK;
    do {
        size_t wanted = room - written < BLOCKS_READ ? room - written : BLOCKS_READ;
        status = wt_blocks(&a->core, after, read, wanted, &some);
        for (size_t i = 0; i < some; i++)
            tell_block(a, &read[i], &blocks[written++]);
        if (some > 0)
            after = read[some - 1].key;
    } while (some == BLOCKS_READ && written < room);
    *count = written;
    return status;
}

VkResult wtv_blocks(wtv_allocator *a, wtv_allocation after, wtv_block *blocks, size_t room, size_t *count)
{
    enter(a);
    uint32_t status = walk(a, after, blocks, room, count);
    leave(a);
    return result_of(status);
}

VkResult wtv_set_user(wtv_allocator *a, wtv_allocation allocation, uint64_t user)
{
    enter(a);
    uint32_t status = wt_set_user(&a->core, allocation, user);
    leave(a);
    return result_of(status);
}

/* How many bytes the character has that begins here, 0 where it is not UTF-8 (RFC 3629). A 0 ends the text. */
static size_t length_of_character(const unsigned char *text)
{
    unsigned char lead = text[0], second;
    size_t length = lead < 0x80 ? 1 : lead < 0xc2 ? 0 : lead < 0xe0 ? 2 : lead < 0xf0 ? 3 : lead < 0xf5 ? 4 : 0;
    for (size_t i = 1; i < length; i++)
        if ((text[i] & 0xc0) != 0x80)
            return 0;
    second = length > 2 ? text[1] : 0;
    bool is_overlong = (lead == 0xe0 && second < 0xa0) || (lead == 0xf0 && second < 0x90);
    bool is_no_character = (lead == 0xed && second > 0x9f) || (lead == 0xf4 && second > 0x8f);
    return is_overlong || is_no_character ? 0 : length;
}

static bool is_utf8(const char *text)
{
    const unsigned char *at = (const unsigned char *)text;
    size_t length = 1;
    while (*at != 0 && length != 0) {
        length = length_of_character(at);
        at += length;
    }
    return length != 0;
}

/* Names a live block, under the lock. The name is this side's from then on. */
static bool put_name(wtv_allocator *a, wtv_allocation allocation, char *name)
{
    if (!has_room(&a->names))
        return false;
    take_name(a, allocation);
    put(&a->names, allocation, (uintptr_t)name);
    return true;
}

VkResult wtv_set_name(wtv_allocator *a, wtv_allocation allocation, const char *name)
{
    size_t size = name != NULL ? strlen(name) + 1 : 1;
    char *copied = NULL;
    wt_block block;
    if (name != NULL && !is_utf8(name))
        return VK_ERROR_VALIDATION_FAILED_EXT;
    if (size > 1 && (copied = malloc(size)) == NULL)
        return VK_ERROR_OUT_OF_HOST_MEMORY;
    if (copied != NULL)
        memcpy(copied, name, size);
    enter(a);
    VkResult result = result_of(wt_block_of(&a->core, allocation, &block));
    if (result == VK_SUCCESS && copied == NULL)
        take_name(a, allocation);
    else if (result == VK_SUCCESS && !put_name(a, allocation, copied))
        result = VK_ERROR_OUT_OF_HOST_MEMORY;
    leave(a);
    if (result != VK_SUCCESS)
        free(copied);
    return result;
}

VkResult wtv_import(wtv_allocator *a, VkDeviceMemory memory, uint32_t memory_type, VkDeviceSize object_size,
                    VkDeviceSize offset, VkDeviceSize size, wtv_allocation *allocation, wtv_block *told)
{
    wt_block block;
    object *held = calloc(1, sizeof *held);
    if (held == NULL)
        return VK_ERROR_OUT_OF_HOST_MEMORY;
    *held = (object){.memory = memory, .is_dedicated = true};
    enter(a);
    uint32_t status = WT_OUT_OF_HOST_MEMORY;
    if (has_room(&a->objects))
        status = wt_import(&a->core, memory_type, object_size, offset, size, &block);
    if (status == WT_OK) {
        put(&a->objects, block.object, (uintptr_t)held);
        *allocation = block.key;
        if (told != NULL)
            tell_block(a, &block, told);
    }
    leave(a);
    if (status != WT_OK)
        free(held);
    return result_of(status);
}

VkResult wtv_candidates(wtv_allocator *a, uint32_t usage, uint32_t memory_type_bits, uint32_t types[32],
                        uint32_t *count)
{
    size_t found = 0;
    enter(a);
    uint32_t status = wt_candidates(&a->core, usage, memory_type_bits & a->known_types, types, 32, &found);
    leave(a);
    if (status == WT_OK)
        *count = (uint32_t)found;
    return result_of(status);
}

/* ---- The host's side. ---- */

/* Maps a block, under the lock. */
static VkResult map(wtv_allocator *a, const wt_block *block, object *held)
{
    uintptr_t *how = value_of(&a->mappings, block->key);
    if (how == NULL)
        return map_first(a, block, held, ONCE);
    *how += ONCE;
    return VK_SUCCESS;
}

/* The first byte of a block that is mapped. */
static unsigned char *bytes_of(const wt_block *block, const object *held)
{
    return held->host + (block->offset - held->host_offset);
}

/* Ends one mapping of a block, under the lock. */
static VkResult unmap(wtv_allocator *a, wtv_allocation allocation)
{
    uint64_t name = 0;
    uintptr_t *how = value_of(&a->mappings, allocation);
    if (how == NULL || *how < ONCE)
        return VK_ERROR_VALIDATION_FAILED_EXT;
    *how -= ONCE;
    if (*how > 0)
        return VK_SUCCESS;
    take_out(&a->mappings, allocation);
    uint32_t status = wt_unmap(&a->core, allocation, &name);
    if (status == WT_OK && name != 0) {
        object *held = object_of(a, name);
        a->call.unmap_memory(a->device, held->memory);
        held->host = NULL;
    }
    return result_of(status);
}

VkResult wtv_map(wtv_allocator *a, wtv_allocation allocation, void **bytes)
{
    wt_block block;
    object *held;
    enter(a);
    VkResult result = find(a, allocation, &block, &held);
    if (result == VK_SUCCESS)
        result = map(a, &block, held);
    if (result == VK_SUCCESS)
        *bytes = bytes_of(&block, held);
    leave(a);
    return result;
}

VkResult wtv_unmap(wtv_allocator *a, wtv_allocation allocation)
{
    enter(a);
    VkResult result = unmap(a, allocation);
    leave(a);
    return result;
}

typedef VkResult(VKAPI_PTR *over_ranges)(VkDevice, uint32_t, const VkMappedMemoryRange *);

/* The range of the driver's that covers these bytes of a block, if there is one: *count rises. */
static VkResult cover(wtv_allocator *a, const wt_block *block, const object *held, VkDeviceSize offset,
                      VkDeviceSize size, VkMappedMemoryRange *ranges, uint32_t *count)
{
    wt_range whole;
    VkResult result = result_of(wt_range_of(&a->core, block->key, offset, size, &whole));
    if (result == VK_SUCCESS && whole.size > 0)
        ranges[(*count)++] = (VkMappedMemoryRange){
            .sType = VK_STRUCTURE_TYPE_MAPPED_MEMORY_RANGE,
            .memory = held->memory,
            .offset = whole.offset,
            .size = whole.size,
        };
    return result;
}

/* The same for a range of the program's, of a block that has to be mapped. */
static VkResult add_range(wtv_allocator *a, const wtv_range *range, VkMappedMemoryRange *ranges, uint32_t *count)
{
    wt_block block;
    object *held;
    VkResult result = find(a, range->allocation, &block, &held);
    if (result != VK_SUCCESS)
        return result;
    VkDeviceSize size = range->size;
    if (size == VK_WHOLE_SIZE && range->offset <= block.size)
        size = block.size - range->offset;
    if (held->host == NULL)
        return VK_ERROR_VALIDATION_FAILED_EXT;
    return cover(a, &block, held, range->offset, size, ranges, count);
}

/* Puts ranges to a call of the driver, with room for as many of its own. */
static VkResult pass_ranges(wtv_allocator *a, const wtv_range *ranges, size_t count, VkMappedMemoryRange *room,
                            over_ranges call)
{
    VkResult result = VK_SUCCESS;
    uint32_t covered = 0;
    enter(a);
    for (size_t i = 0; i < count && result == VK_SUCCESS; i++)
        result = add_range(a, &ranges[i], room, &covered);
    if (result == VK_SUCCESS && covered > 0)
        result = call(a->device, covered, room);
    leave(a);
    return result;
}

static VkResult over_many(wtv_allocator *a, const wtv_range *ranges, size_t count, over_ranges call)
{
    VkMappedMemoryRange at_hand[RANGES_AT_HAND];
    if (count <= RANGES_AT_HAND)
        return pass_ranges(a, ranges, count, at_hand, call);
    if (count > UINT32_MAX)
        return VK_ERROR_VALIDATION_FAILED_EXT;
    VkMappedMemoryRange *room = calloc(count, sizeof *room);
    if (room == NULL)
        return VK_ERROR_OUT_OF_HOST_MEMORY;
    VkResult result = pass_ranges(a, ranges, count, room, call);
    free(room);
    return result;
}

VkResult wtv_flush(wtv_allocator *a, const wtv_range *ranges, size_t count)
{
    return over_many(a, ranges, count, a->call.flush_mapped_memory_ranges);
}

VkResult wtv_invalidate(wtv_allocator *a, const wtv_range *ranges, size_t count)
{
    return over_many(a, ranges, count, a->call.invalidate_mapped_memory_ranges);
}

/* A copy of some of a block's bytes. */
typedef struct copy {
    unsigned char *bytes;      /* the first of them */
    VkMappedMemoryRange range; /* which covers them */
    uint32_t ranges;           /* 1, or 0 where no flush is needed */
    bool is_mapped;            /* for the copy, so that it is to be unmapped */
} copy;

/* Begins a copy, under the lock. A shared object that the host sees is mapped as long as it lives. Any other one stays
   mapped while it is counted, whatever other threads unmap. */
static VkResult begin_copy(wtv_allocator *a, wtv_allocation allocation, VkDeviceSize offset, size_t size, copy *c)
{
    wt_block block;
    object *held;
    VkResult result = find(a, allocation, &block, &held);
    if (result == VK_SUCCESS)
        result = cover(a, &block, held, offset, size, &c->range, &c->ranges);
    if (result == VK_SUCCESS && held->is_dedicated)
        result = map(a, &block, held);
    if (result == VK_SUCCESS) {
        c->is_mapped = held->is_dedicated;
        c->bytes = bytes_of(&block, held) + offset;
    }
    return result;
}

/* No byte is copied under the lock. */
VkResult wtv_write(wtv_allocator *a, wtv_allocation allocation, VkDeviceSize offset, const void *bytes, size_t size)
{
    copy c = {.ranges = 0};
    enter(a);
    VkResult result = begin_copy(a, allocation, offset, size, &c);
    leave(a);
    if (result != VK_SUCCESS)
        return result;
    if (size > 0)
        memcpy(c.bytes, bytes, size);
    if (c.ranges == 0 && !c.is_mapped)
        return VK_SUCCESS;
    enter(a);
    if (c.ranges > 0)
        result = a->call.flush_mapped_memory_ranges(a->device, c.ranges, &c.range);
    if (c.is_mapped)
        unmap(a, allocation);
    leave(a);
    return result;
}

VkResult wtv_read(wtv_allocator *a, wtv_allocation allocation, VkDeviceSize offset, void *bytes, size_t size)
{
    copy c = {.ranges = 0};
    enter(a);
    VkResult result = begin_copy(a, allocation, offset, size, &c);
    if (result == VK_SUCCESS && c.ranges > 0)
        result = a->call.invalidate_mapped_memory_ranges(a->device, c.ranges, &c.range);
    if (result != VK_SUCCESS && c.is_mapped)
        unmap(a, allocation);
    leave(a);
    if (result != VK_SUCCESS)
        return result;
    if (size > 0)
        memcpy(bytes, c.bytes, size);
    if (c.is_mapped)
        wtv_unmap(a, allocation);
    return VK_SUCCESS;
}

/* ---- How much is held. ---- */

static uint64_t less(uint64_t one, uint64_t other)
{
    return one > other ? one - other : 0;
}

/* Limits each heap to what its budget leaves beside what others hold, under the lock. */
static uint32_t follow(wtv_allocator *a, const VkPhysicalDeviceMemoryBudgetPropertiesEXT *budget)
{
    uint32_t status = WT_OK;
    for (uint32_t i = 0; i < a->memory.memoryHeapCount && status == WT_OK; i++) {
        wt_heap_counts counts;
        status = wt_heap(&a->core, i, &counts);
        if (status != WT_OK)
            break;
        uint64_t held = counts.used_high != 0 ? UINT64_MAX : counts.used;
        uint64_t others = less(budget->heapUsage[i], held);
        status = wt_set_heap_limit(&a->core, i, less(budget->heapBudget[i], others));
    }
    return status;
}

/* The lock is taken before the driver is asked, so that what is held is what the driver counts. */
VkResult wtv_update_budget(wtv_allocator *a)
{
    VkPhysicalDeviceMemoryBudgetPropertiesEXT budget = {
        .sType = VK_STRUCTURE_TYPE_PHYSICAL_DEVICE_MEMORY_BUDGET_PROPERTIES_EXT,
    };
    VkPhysicalDeviceMemoryProperties2 properties = {
        .sType = VK_STRUCTURE_TYPE_PHYSICAL_DEVICE_MEMORY_PROPERTIES_2,
        .pNext = &budget,
    };
    if (!a->has_budget)
        return VK_ERROR_EXTENSION_NOT_PRESENT;
    enter(a);
    a->call.get_physical_device_memory_properties2(a->physical_device, &properties);
    bool is_filled = budget.heapBudget[0] != 0; /* which it always is where the extension is there */
    uint32_t status = is_filled ? follow(a, &budget) : WT_OK;
    leave(a);
    return is_filled ? result_of(status) : VK_ERROR_EXTENSION_NOT_PRESENT;
}

VkResult wtv_set_heap_limit(wtv_allocator *a, uint32_t heap, VkDeviceSize limit)
{
    enter(a);
    uint32_t status = wt_set_heap_limit(&a->core, heap, limit);
    leave(a);
    return result_of(status);
}

VkResult wtv_heap(wtv_allocator *a, uint32_t heap, wt_heap_counts *counts)
{
    enter(a);
    uint32_t status = wt_heap(&a->core, heap, counts);
    leave(a);
    return result_of(status);
}

VkResult wtv_count(wtv_allocator *a, wt_counts *counts)
{
    enter(a);
    uint32_t status = wt_count(&a->core, counts);
    leave(a);
    return result_of(status);
}

VkResult wtv_statistics(wtv_allocator *a, uint32_t memory_type, wt_type_statistics *statistics)
{
    enter(a);
    uint32_t status = wt_statistics(&a->core, memory_type, statistics);
    leave(a);
    return result_of(status);
}

/* A text that grows, and ends in a 0. Once memory lacked it stays as it is. */
typedef struct writer {
    char *text;
    size_t length, room;
    bool lacks;
} writer;

/* Sees to it that so many more bytes can be added. */
static bool has_place(writer *w, size_t more)
{
    if (w->room - w->length > more || w->lacks)
        return !w->lacks;
    size_t room = 2 * w->room + more + 1;
    char *larger = realloc(w->text, room);
    w->lacks = larger == NULL;
    if (larger != NULL) {
        w->text = larger;
        w->room = room;
    }
    return !w->lacks;
}

static void add_bytes(writer *w, const char *bytes, size_t count)
{
    if (!has_place(w, count))
        return;
    memcpy(w->text + w->length, bytes, count);
    w->length += count;
    w->text[w->length] = '\0';
}

static void add(writer *w, const char *format, ...)
{
    enum { LONGEST = 512 }; /* of what is added at once */
    va_list values;
    if (!has_place(w, LONGEST))
        return;
    va_start(values, format);
    w->length += (size_t)vsnprintf(w->text + w->length, LONGEST, format, values);
    va_end(values);
}

/* A text in JSON's quotes. */
static void add_quoted(writer *w, const char *text)
{
    add(w, "\"");
    for (; *text != '\0'; text++) {
        unsigned char byte = (unsigned char)*text;
        if (byte < 0x20)
            add(w, "\\u%04x", byte);
        else if (byte == '"' || byte == '\\')
            add(w, "\\%c", byte);
        else
            add_bytes(w, text, 1);
    }
    add(w, "\"");
}

/* A number of 128 bits, of which the upper ones are mostly 0. */
static void add_sum(writer *w, const char *name, uint64_t high, uint64_t low)
{
    const uint64_t parts[] = {high >> 32, high & UINT32_MAX, low >> 32, low & UINT32_MAX};
    char digits[40], *first = digits + sizeof digits;
    uint64_t rest[4];
    memcpy(rest, parts, sizeof rest);
    *--first = '\0';
    do {
        uint64_t left = 0;
        for (int i = 0; i < 4; i++) {
            left = left << 32 | rest[i];
            rest[i] = left / 10;
            left %= 10;
        }
        *--first = (char)('0' + left);
    } while ((rest[0] | rest[1] | rest[2] | rest[3]) != 0);
    add(w, ",\"%s\":%s", name, first);
}

/* What begins a row: the first stands after no other. */
static const char *lead(bool *is_first)
{
    const char *words = *is_first ? "\n" : ",\n";
    *is_first = false;
    return words;
}

static uint32_t add_heaps(wtv_allocator *a, writer *w)
{
    uint32_t status = WT_OK;
    bool is_first = true;
    for (uint32_t i = 0; i < a->memory.memoryHeapCount && status == WT_OK; i++) {
        wt_heap_counts counts;
        status = wt_heap(&a->core, i, &counts);
        if (status != WT_OK)
            break;
        add(w, "%s{\"size\":%" PRIu64 ",\"limit\":%" PRIu64, lead(&is_first), (uint64_t)a->memory.memoryHeaps[i].size,
            counts.limit);
        add_sum(w, "used", counts.used_high, counts.used);
        add(w, ",\"budget\":%" PRIu64 "}", counts.budget);
    }
    return status;
}

static void add_types(const wtv_allocator *a, writer *w)
{
    bool is_first = true;
    for (uint32_t i = 0; i < a->memory.memoryTypeCount; i++)
        add(w, "%s{\"heap\":%" PRIu32 ",\"properties\":%" PRIu32 "}", lead(&is_first),
            a->memory.memoryTypes[i].heapIndex, (uint32_t)a->memory.memoryTypes[i].propertyFlags & KNOWN_PROPERTIES);
}

/* The sums of what is held of a memory type for one purpose, if anything is. */
static void add_kind(writer *w, bool *is_first, uint32_t type, const char *kind, const wt_kind_statistics *sums)
{
    if (sums->objects == 0)
        return;
    add(w, "%s{\"memory_type\":%" PRIu32 ",\"kind\":\"%s\",\"objects\":%" PRIu64 ",\"live_blocks\":%" PRIu64,
        lead(is_first), type, kind, sums->objects, sums->blocks);
    add_sum(w, "live_bytes", sums->live_bytes_high, sums->live_bytes);
    add_sum(w, "asked_bytes", sums->asked_bytes_high, sums->asked_bytes);
    add_sum(w, "free_bytes", sums->free_bytes_high, sums->free_bytes);
    add(w, ",\"largest_free\":%" PRIu64 ",\"scattered\":%" PRIu64 "}", sums->largest_free, sums->scattered);
}

static uint32_t add_kinds(wtv_allocator *a, writer *w)
{
    uint32_t status = WT_OK;
    bool is_first = true;
    for (uint32_t i = 0; i < a->memory.memoryTypeCount && status == WT_OK; i++) {
        wt_type_statistics sums;
        status = wt_statistics(&a->core, i, &sums);
        if (status != WT_OK)
            break;
        add_kind(w, &is_first, i, "Dedicated", &sums.dedicated);
        add_kind(w, &is_first, i, "Imported", &sums.imported);
        add_kind(w, &is_first, i, "BuddyChunk", &sums.buddy);
        add_kind(w, &is_first, i, "FreeListChunk", &sums.free_list);
        add_kind(w, &is_first, i, "FitChunk", &sums.fit);
    }
    return status;
}

/* Hands a text out, or frees what there is of it. */
static VkResult hand_out(writer *w, uint32_t status, char **text)
{
    if (w->lacks)
        status = WT_OUT_OF_HOST_MEMORY;
    if (status == WT_OK)
        *text = w->text;
    else
        free(w->text);
    return result_of(status);
}

VkResult wtv_statistics_text(wtv_allocator *a, char **text)
{
    writer w = {NULL, 0, 0, false};
    enter(a);
    add(&w, "{\"heaps\":[");
    uint32_t status = add_heaps(a, &w);
    add(&w, "\n],\"types\":[");
    add_types(a, &w);
    add(&w, "\n],\"kinds\":[");
    if (status == WT_OK)
        status = add_kinds(a, &w);
    add(&w, "\n]}\n");
    leave(a);
    return hand_out(&w, status, text);
}

/* The core's report, as a text of malloc. */
static uint32_t report_of(wtv_allocator *a, writer *w)
{
    size_t length;
    uint32_t status = wt_report(&a->core, NULL, 0, &length);
    if (status != WT_OK || !has_place(w, length))
        return status;
    status = wt_report(&a->core, w->text, length, &w->length);
    w->text[length] = '\0';
    return status;
}

/* Copies the core's report with the names of blocks, each after the value of its user. The core writes no name. */
static void add_names(const wtv_allocator *a, const char *report, writer *w)
{
    static const char key[] = "{\"key\":", user[] = ",\"user\":";
    const char *from = report, *place;
    while ((place = strstr(from, key)) != NULL) {
        char *end;
        const char *name = name_of(a, strtoull(place + sizeof key - 1, &end, 10));
        if (name != NULL)
            strtoull(end + sizeof user - 1, &end, 10);
        add_bytes(w, from, (size_t)(end - from));
        if (name != NULL) {
            add(w, ",\"name\":");
            add_quoted(w, name);
        }
        from = end;
    }
    add_bytes(w, from, strlen(from));
}

VkResult wtv_report_text(wtv_allocator *a, char **text)
{
    writer report = {NULL, 0, 0, false}, named = {NULL, 0, 0, false};
    enter(a);
    uint32_t status = report_of(a, &report);
    bool has_names = status == WT_OK && !report.lacks && a->names.count > 0;
    if (has_names)
        add_names(a, report.text, &named);
    leave(a);
    if (!has_names)
        return hand_out(&report, status, text);
    free(report.text);
    return hand_out(&named, status, text);
}

void wtv_free_text(char *text)
{
    free(text);
}

/* ---- Created and destroyed. ---- */

void wtv_default_config(const VkPhysicalDeviceMemoryProperties *memory, wt_config *config)
{
    uint64_t largest = 0, largest_local = 0, unit = 64 << 10;
    for (uint32_t i = 0; i < memory->memoryHeapCount; i++) {
        const VkMemoryHeap *heap = &memory->memoryHeaps[i];
        if (heap->size > largest)
            largest = heap->size;
        if ((heap->flags & VK_MEMORY_HEAP_DEVICE_LOCAL_BIT) != 0 && heap->size > largest_local)
            largest_local = heap->size;
    }
    if (largest_local > 0)
        largest = largest_local;
    while (unit < 8 << 20 && 2 * unit <= largest / 1024)
        unit *= 2;
    *config = (wt_config){
        .dedicated_threshold = 4 * unit,
        .preferred_dedicated_threshold = unit / 8,
        .transient_dedicated_threshold = 16 * unit,
        .starting_free_list_chunk = unit,
        .final_free_list_chunk = 16 * unit,
        .minimal_buddy_size = 1024,
        .initial_buddy_dedicated_size = unit,
        .sharing = WT_FIT,
    };
}

/* Loads one function where the table has none. */
static PFN_vkVoidFunction loaded(const wtv_create_info *info, PFN_vkGetDeviceProcAddr of_device, const char *name)
{
    if (info->get_instance_proc_addr == NULL)
        return NULL;
    return of_device == NULL ? info->get_instance_proc_addr(info->instance, name) : of_device(info->device, name);
}

/* Fills a field of the table under these names: of an instance's function, of a device's, and of an extension's. */
#define LOAD(type, field, of, name) \
    do { \
        if (call->field == NULL) \
            call->field = (type)loaded(info, of, name); \
    } while (0)

/* Whether the program enabled what a flag names. Vulkan 1.1 has it. */
static bool is_enabled(const wtv_create_info *info, uint32_t flag)
{
    return info->api_version >= VK_API_VERSION_1_1 || (info->flags & flag) != 0;
}

static void load_extended(const wtv_create_info *info, wtv_functions *call, PFN_vkGetDeviceProcAddr device)
{
    bool is_core = info->api_version >= VK_API_VERSION_1_1;
    if (is_enabled(info, WTV_CREATE_PROPERTIES2)) {
        LOAD(PFN_vkGetPhysicalDeviceProperties2, get_physical_device_properties2, NULL,
             is_core ? "vkGetPhysicalDeviceProperties2" : "vkGetPhysicalDeviceProperties2KHR");
        LOAD(PFN_vkGetPhysicalDeviceMemoryProperties2, get_physical_device_memory_properties2, NULL,
             is_core ? "vkGetPhysicalDeviceMemoryProperties2" : "vkGetPhysicalDeviceMemoryProperties2KHR");
    }
    if (is_enabled(info, WTV_CREATE_DEDICATED_ALLOCATION)) {
        LOAD(PFN_vkGetBufferMemoryRequirements2, get_buffer_memory_requirements2, device,
             is_core ? "vkGetBufferMemoryRequirements2" : "vkGetBufferMemoryRequirements2KHR");
        LOAD(PFN_vkGetImageMemoryRequirements2, get_image_memory_requirements2, device,
             is_core ? "vkGetImageMemoryRequirements2" : "vkGetImageMemoryRequirements2KHR");
    }
}

static void load(const wtv_create_info *info, wtv_functions *call)
{
    PFN_vkGetDeviceProcAddr device = (PFN_vkGetDeviceProcAddr)loaded(info, NULL, "vkGetDeviceProcAddr");
    LOAD(PFN_vkGetPhysicalDeviceProperties, get_physical_device_properties, NULL, "vkGetPhysicalDeviceProperties");
    LOAD(PFN_vkGetPhysicalDeviceMemoryProperties, get_physical_device_memory_properties, NULL,
         "vkGetPhysicalDeviceMemoryProperties");
    LOAD(PFN_vkAllocateMemory, allocate_memory, device, "vkAllocateMemory");
    LOAD(PFN_vkFreeMemory, free_memory, device, "vkFreeMemory");
    LOAD(PFN_vkMapMemory, map_memory, device, "vkMapMemory");
    LOAD(PFN_vkUnmapMemory, unmap_memory, device, "vkUnmapMemory");
    LOAD(PFN_vkFlushMappedMemoryRanges, flush_mapped_memory_ranges, device, "vkFlushMappedMemoryRanges");
    LOAD(PFN_vkInvalidateMappedMemoryRanges, invalidate_mapped_memory_ranges, device,
         "vkInvalidateMappedMemoryRanges");
    LOAD(PFN_vkCreateBuffer, create_buffer, device, "vkCreateBuffer");
    LOAD(PFN_vkDestroyBuffer, destroy_buffer, device, "vkDestroyBuffer");
    LOAD(PFN_vkCreateImage, create_image, device, "vkCreateImage");
    LOAD(PFN_vkDestroyImage, destroy_image, device, "vkDestroyImage");
    LOAD(PFN_vkGetBufferMemoryRequirements, get_buffer_memory_requirements, device, "vkGetBufferMemoryRequirements");
    LOAD(PFN_vkGetImageMemoryRequirements, get_image_memory_requirements, device, "vkGetImageMemoryRequirements");
    LOAD(PFN_vkBindBufferMemory, bind_buffer_memory, device, "vkBindBufferMemory");
    LOAD(PFN_vkBindImageMemory, bind_image_memory, device, "vkBindImageMemory");
    load_extended(info, call, device);
}

static bool has_extended(const wtv_create_info *info, const wtv_functions *call)
{
    bool has_properties2 =
        call->get_physical_device_properties2 != NULL && call->get_physical_device_memory_properties2 != NULL;
    bool has_requirements2 =
        call->get_buffer_memory_requirements2 != NULL && call->get_image_memory_requirements2 != NULL;
    return (has_properties2 || !is_enabled(info, WTV_CREATE_PROPERTIES2))
           && (has_requirements2 || !is_enabled(info, WTV_CREATE_DEDICATED_ALLOCATION));
}

static bool has_all(const wtv_functions *call)
{
    return call->get_physical_device_properties != NULL && call->get_physical_device_memory_properties != NULL
           && call->allocate_memory != NULL && call->free_memory != NULL && call->map_memory != NULL
           && call->unmap_memory != NULL && call->flush_mapped_memory_ranges != NULL
           && call->invalidate_mapped_memory_ranges != NULL && call->create_buffer != NULL
           && call->destroy_buffer != NULL && call->create_image != NULL && call->destroy_image != NULL
           && call->get_buffer_memory_requirements != NULL && call->get_image_memory_requirements != NULL
           && call->bind_buffer_memory != NULL && call->bind_image_memory != NULL;
}

/* Opens the core for the device. */
static VkResult open_core(wtv_allocator *a, const wtv_create_info *info)
{
    VkPhysicalDeviceMaintenance3Properties sizes = {
        .sType = VK_STRUCTURE_TYPE_PHYSICAL_DEVICE_MAINTENANCE_3_PROPERTIES,
        .maxMemoryAllocationSize = UINT64_MAX,
    };
    VkPhysicalDeviceProperties2 properties = {.sType = VK_STRUCTURE_TYPE_PHYSICAL_DEVICE_PROPERTIES_2, .pNext = &sizes};
    const VkPhysicalDeviceLimits *offered = &properties.properties.limits;
    wt_memory_type types[VK_MAX_MEMORY_TYPES];
    uint64_t heaps[VK_MAX_MEMORY_HEAPS];
    wt_config config;
    if (is_enabled(info, WTV_CREATE_PROPERTIES2))
        a->call.get_physical_device_properties2(a->physical_device, &properties);
    else
        a->call.get_physical_device_properties(a->physical_device, &properties.properties);
    a->is_integrated = properties.properties.deviceType == VK_PHYSICAL_DEVICE_TYPE_INTEGRATED_GPU;
    a->call.get_physical_device_memory_properties(a->physical_device, &a->memory);
    for (uint32_t i = 0; i < a->memory.memoryTypeCount; i++) {
        VkMemoryPropertyFlags told = a->memory.memoryTypes[i].propertyFlags;
        types[i] = (wt_memory_type){a->memory.memoryTypes[i].heapIndex, told & KNOWN_PROPERTIES};
        if ((told & ~(VkMemoryPropertyFlags)KNOWN_PROPERTIES) == 0)
            a->known_types |= (uint32_t)1 << i;
    }
    for (uint32_t i = 0; i < a->memory.memoryHeapCount; i++)
        heaps[i] = a->memory.memoryHeaps[i].size;
    const wt_limits limits = {
        .max_memory_allocation_size = sizes.maxMemoryAllocationSize,
        .non_coherent_atom_size = offered->nonCoherentAtomSize,
        .max_memory_allocation_count = (uint32_t)less(offered->maxMemoryAllocationCount, info->other_objects),
        .buffer_device_address = (info->flags & WTV_CREATE_DEVICE_ADDRESS) != 0,
        .buffer_image_granularity = offered->bufferImageGranularity,
    };
    wtv_default_config(&a->memory, &config);
    uint32_t status = wt_open(&a->core, types, a->memory.memoryTypeCount, heaps, a->memory.memoryHeapCount, &limits,
                              info->config != NULL ? info->config : &config);
    return status == WT_BAD_PROPERTIES ? VK_ERROR_INITIALIZATION_FAILED : result_of(status);
}

/* While the first number of a version is 0, the second tells what fits what. */
static bool is_version_of_library(void)
{
    return wt_version() >> 8 == WT_VERSION >> 8;
}

static VkResult open_all(wtv_allocator *a, const wtv_create_info *info)
{
    a->has_budget = (info->flags & WTV_CREATE_MEMORY_BUDGET) != 0;
    a->has_dedicated = is_enabled(info, WTV_CREATE_DEDICATED_ALLOCATION);
    if (!has_all(&a->call) || !has_extended(info, &a->call) || !is_version_of_library())
        return VK_ERROR_INITIALIZATION_FAILED;
    if (a->has_budget && !is_enabled(info, WTV_CREATE_PROPERTIES2))
        return VK_ERROR_INITIALIZATION_FAILED;
    a->has_lock = (info->flags & WTV_CREATE_NO_LOCK) == 0;
    if (a->has_lock && !mutex_begin(&a->lock))
        return VK_ERROR_OUT_OF_HOST_MEMORY;
    VkResult result = open_core(a, info);
    if (result != VK_SUCCESS && a->has_lock)
        mutex_end(&a->lock);
    return result;
}

/* Whether the fields may stand so. The upper three bits of a version are its variant, which Vulkan has as 0. */
static bool is_info(const wtv_create_info *info)
{
    uint32_t version = info->api_version;
    bool has_handles =
        info->instance != VK_NULL_HANDLE && info->physical_device != VK_NULL_HANDLE && info->device != VK_NULL_HANDLE;
    bool is_version = version == 0 || (version >= VK_API_VERSION_1_0 && version >> 29 == 0);
    return has_handles && is_version && (info->flags & ~(uint32_t)KNOWN_FLAGS) == 0;
}

VkResult wtv_create(const wtv_create_info *info, wtv_allocator **allocator)
{
    if (!is_info(info))
        return VK_ERROR_INITIALIZATION_FAILED;
    wtv_allocator *a = calloc(1, sizeof *a);
    if (a == NULL)
        return VK_ERROR_OUT_OF_HOST_MEMORY;
    a->physical_device = info->physical_device;
    a->device = info->device;
    if (info->functions != NULL)
        a->call = *info->functions;
    if (info->callbacks != NULL) {
        a->copied_callbacks = *info->callbacks;
        a->callbacks = &a->copied_callbacks;
    }
    load(info, &a->call);
    VkResult result = open_all(a, info);
    if (result == VK_SUCCESS)
        *allocator = a;
    else
        free(a);
    return result;
}

VkResult wtv_destroy(wtv_allocator *a, wtv_block *live, size_t room, size_t *count)
{
    wt_counts counts;
    size_t written = 0;
    if (a == NULL)
        return VK_SUCCESS;
    enter(a);
    uint32_t status = wt_count(&a->core, &counts);
    if (status == WT_OK && counts.blocks > 0) {
        walk(a, 0, live, room, &written);
        if (count != NULL)
            *count = (size_t)counts.blocks;
        leave(a);
        return VK_ERROR_VALIDATION_FAILED_EXT;
    }
    wt_cleanup(&a->core);
    free_gone(a);
    wt_close(&a->core);
    leave(a);
    if (a->has_lock)
        mutex_end(&a->lock);
    free(a->objects.slots);
    free(a->mappings.slots);
    free(a->names.slots);
    free(a);
    return VK_SUCCESS;
}
