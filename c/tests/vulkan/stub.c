#include "stub.h"

#include <pthread.h>
#include <string.h>

enum {
    MOST_HANDLES = 1 << 12, /* of one kind at once */
    MOST_PRINTED = 20,      /* failures */
    NEVER_WRITTEN = 0xcd,   /* what the host sees where it neither wrote nor invalidated */
};

#define LOCAL VK_MEMORY_PROPERTY_DEVICE_LOCAL_BIT
#define VISIBLE VK_MEMORY_PROPERTY_HOST_VISIBLE_BIT
#define COHERENT VK_MEMORY_PROPERTY_HOST_COHERENT_BIT
#define CACHED VK_MEMORY_PROPERTY_HOST_CACHED_BIT

const VkMemoryType stub_types[STUB_TYPES] = {
    [STUB_LOCAL] = {LOCAL, STUB_LOCAL_HEAP},
    [STUB_CACHED] = {VISIBLE | CACHED, STUB_HOST_HEAP},
    [STUB_COHERENT] = {VISIBLE | COHERENT, STUB_HOST_HEAP},
    [STUB_LOCAL_VISIBLE] = {LOCAL | VISIBLE, STUB_VISIBLE_HEAP},
    [STUB_UNKNOWN] = {LOCAL | VISIBLE | COHERENT | VK_MEMORY_PROPERTY_DEVICE_COHERENT_BIT_AMD, STUB_VISIBLE_HEAP},
    [STUB_LAZY] = {LOCAL | VK_MEMORY_PROPERTY_LAZILY_ALLOCATED_BIT, STUB_LOCAL_HEAP},
    [STUB_PROTECTED] = {LOCAL | VK_MEMORY_PROPERTY_PROTECTED_BIT, STUB_LOCAL_HEAP},
};
const size_t stub_sizes[] = {sizeof(stub_plan), sizeof(wtv_create_info), sizeof(stub_held), sizeof(stub_object)};

const VkMemoryHeap stub_heaps[STUB_HEAPS] = {
    [STUB_LOCAL_HEAP] = {6 << 20, VK_MEMORY_HEAP_DEVICE_LOCAL_BIT},
    [STUB_HOST_HEAP] = {8 << 20, 0},
    [STUB_VISIBLE_HEAP] = {2 << 20, VK_MEMORY_HEAP_DEVICE_LOCAL_BIT},
};

const char *const stub_names[STUB_FUNCTIONS] = {
    "vkGetPhysicalDeviceProperties",
    "vkGetPhysicalDeviceMemoryProperties",
    "vkGetPhysicalDeviceProperties2",
    "vkGetPhysicalDeviceMemoryProperties2",
    "vkAllocateMemory",
    "vkFreeMemory",
    "vkMapMemory",
    "vkUnmapMemory",
    "vkFlushMappedMemoryRanges",
    "vkInvalidateMappedMemoryRanges",
    "vkCreateBuffer",
    "vkDestroyBuffer",
    "vkCreateImage",
    "vkDestroyImage",
    "vkGetBufferMemoryRequirements",
    "vkGetImageMemoryRequirements",
    "vkGetBufferMemoryRequirements2",
    "vkGetImageMemoryRequirements2",
    "vkBindBufferMemory",
    "vkBindImageMemory",
};

enum { MOST_ERRORS = 8 }; /* of one function, with the VK_SUCCESS behind them */

static const VkResult errors[STUB_FUNCTIONS][MOST_ERRORS] = {
    [STUB_ALLOCATE] = {VK_ERROR_OUT_OF_HOST_MEMORY, VK_ERROR_OUT_OF_DEVICE_MEMORY, VK_ERROR_TOO_MANY_OBJECTS,
                       VK_ERROR_INVALID_EXTERNAL_HANDLE, VK_ERROR_INVALID_OPAQUE_CAPTURE_ADDRESS, VK_ERROR_DEVICE_LOST,
                       VK_ERROR_UNKNOWN},
    [STUB_MAP] = {VK_ERROR_OUT_OF_HOST_MEMORY, VK_ERROR_OUT_OF_DEVICE_MEMORY, VK_ERROR_MEMORY_MAP_FAILED,
                  VK_ERROR_DEVICE_LOST, VK_ERROR_UNKNOWN},
    [STUB_FLUSH] = {VK_ERROR_OUT_OF_HOST_MEMORY, VK_ERROR_OUT_OF_DEVICE_MEMORY, VK_ERROR_DEVICE_LOST, VK_ERROR_UNKNOWN},
    [STUB_INVALIDATE] = {VK_ERROR_OUT_OF_HOST_MEMORY, VK_ERROR_OUT_OF_DEVICE_MEMORY, VK_ERROR_DEVICE_LOST,
                         VK_ERROR_UNKNOWN},
    [STUB_CREATE_BUFFER] = {VK_ERROR_OUT_OF_HOST_MEMORY, VK_ERROR_OUT_OF_DEVICE_MEMORY,
                            VK_ERROR_INVALID_OPAQUE_CAPTURE_ADDRESS, VK_ERROR_DEVICE_LOST, VK_ERROR_UNKNOWN},
    [STUB_CREATE_IMAGE] = {VK_ERROR_OUT_OF_HOST_MEMORY, VK_ERROR_OUT_OF_DEVICE_MEMORY, VK_ERROR_DEVICE_LOST,
                           VK_ERROR_UNKNOWN},
    [STUB_BIND_BUFFER] = {VK_ERROR_OUT_OF_HOST_MEMORY, VK_ERROR_OUT_OF_DEVICE_MEMORY,
                          VK_ERROR_INVALID_OPAQUE_CAPTURE_ADDRESS, VK_ERROR_DEVICE_LOST, VK_ERROR_UNKNOWN},
    [STUB_BIND_IMAGE] = {VK_ERROR_OUT_OF_HOST_MEMORY, VK_ERROR_OUT_OF_DEVICE_MEMORY, VK_ERROR_DEVICE_LOST,
                         VK_ERROR_UNKNOWN},
};

/* ---- What the driver holds. ---- */

typedef enum kind { OBJECT = 1, BUFFER, IMAGE } kind;

typedef struct resource {
    kind kind;
    bool is_optimal, requires_own, prefers_own;
    uint64_t handle;
    VkDeviceSize size; /* the bytes that the device uses */
    VkMemoryRequirements needs;
    struct object *memory; /* what it is bound to, or null */
    VkDeviceSize offset;
    struct resource *next; /* of those that are bound to the same object */
} resource;

typedef struct object {
    VkDeviceSize size;
    uint32_t type;
    bool is_programs;  /* the program made it itself */
    bool has_address;
    uint64_t owner;    /* the one resource that it is for, or 0 */
    float priority;    /* or -1 */
    unsigned char *bytes;        /* as the device sees them */
    unsigned char *cache;        /* as the host sees them where they are not coherent, once it mapped them */
    bool is_mapped;
    VkDeviceSize first, length;  /* of the mapped range */
    resource *bound;
} object;

/* Records by their handles. The handle of a record that is gone never comes again. */
typedef struct table {
    void *records[MOST_HANDLES];
    uint32_t generations[MOST_HANDLES], vacant[MOST_HANDLES];
    uint32_t length, vacant_count, live;
} table;

/* Handles that the loader dispatches by are pointers to one of these. */
typedef struct dispatched {
    stub *of;
} dispatched;

struct stub {
    dispatched instance, physical, device;
    stub_plan plan;
    pthread_mutex_t lock; /* over the tables, what is bound, what is held, and limits */
    table objects, buffers, images;
    VkDeviceSize used[STUB_HEAPS], used_by_program[STUB_HEAPS]; /* by the allocator's objects, and the program's own */
    VkDeviceSize limits[STUB_HEAPS], budgets[STUB_HEAPS], beside[STUB_HEAPS];
    bool is_budget_read;
    uint64_t budgets_below;

    /* Written before threads run. */
    stub_function hidden, refused; /* STUB_ANY: none is hidden; STUB_FUNCTIONS: none is refused */
    VkResult result;
    bool is_each;

    /* Atomic. */
    uint64_t skip, draws, failures;
    const char *first_failure;
    uint64_t calls[STUB_FUNCTIONS], refusals[STUB_FUNCTIONS][MOST_ERRORS];
};

static __thread uint64_t calls_of_thread[STUB_FUNCTIONS];

static uint64_t counted(uint64_t *counter, uint64_t more)
{
    return __atomic_fetch_add(counter, more, __ATOMIC_RELAXED);
}

static uint64_t read_count(const uint64_t *counter)
{
    return __atomic_load_n(counter, __ATOMIC_RELAXED);
}

static void enter(stub *s)
{
    pthread_mutex_lock(&s->lock);
}

static void leave(stub *s)
{
    pthread_mutex_unlock(&s->lock);
}

/* Counts and prints a failure where something does not hold. */
static bool holds(stub *s, bool is_so, const char *name, const char *what)
{
    if (is_so)
        return true;
    uint64_t before = counted(&s->failures, 1);
    if (before == 0)
        __atomic_store_n(&s->first_failure, what, __ATOMIC_RELAXED);
    if (before < MOST_PRINTED && !s->plan.is_quiet)
        fprintf(stderr, "stub: FAILED: %s: %s\n", name, what);
    return false;
}

static uint64_t drawn(stub *s, uint64_t bound)
{
    return (mixed(s->plan.seed ^ mixed(counted(&s->draws, 1))) >> 16) % bound;
}

/* Zeroed memory of the driver's own, which never lacks. */
static void *taken(size_t size)
{
    void *memory = calloc(1, size);
    must(memory != NULL, "the stub lacks memory");
    return memory;
}

/* The record of a handle comes from the program's callbacks, as the driver's own memory does. */
static void *record_taken(size_t size, const VkAllocationCallbacks *callbacks)
{
    if (callbacks == NULL)
        return taken(size);
    void *record =
        callbacks->pfnAllocation(callbacks->pUserData, size, sizeof(uint64_t), VK_SYSTEM_ALLOCATION_SCOPE_OBJECT);
    must(record != NULL, "a callback lacks memory");
    return memset(record, 0, size);
}

static void free_record(void *record, const VkAllocationCallbacks *callbacks)
{
    if (callbacks == NULL)
        free(record);
    else
        callbacks->pfnFree(callbacks->pUserData, record);
}

static void check_callbacks(stub *s, const VkAllocationCallbacks *given, stub_function called)
{
    const VkAllocationCallbacks *wanted = s->plan.callbacks;
    bool is_same = (given == NULL) == (wanted == NULL);
    if (given != NULL && wanted != NULL)
        is_same = given->pUserData == wanted->pUserData && given->pfnAllocation == wanted->pfnAllocation
                  && given->pfnReallocation == wanted->pfnReallocation && given->pfnFree == wanted->pfnFree;
    holds(s, is_same, stub_names[called], "other callbacks than the program's");
}

static table *table_of(stub *s, kind of)
{
    return of == OBJECT ? &s->objects : of == BUFFER ? &s->buffers : &s->images;
}

/* A handle is its kind, a generation, and a place counted from 1 on. */
static uint64_t add_record(stub *s, kind of, void *record)
{
    enter(s);
    table *t = table_of(s, of);
    must(t->vacant_count > 0 || t->length < MOST_HANDLES, "the stub lacks handles");
    uint32_t place = t->vacant_count > 0 ? t->vacant[--t->vacant_count] : t->length++;
    t->records[place] = record;
    t->live++;
    uint64_t handle = (uint64_t)of << 56 | (uint64_t)t->generations[place] << 24 | (place + 1);
    leave(s);
    return handle;
}

/* The place of a live handle, or MOST_HANDLES. Under the lock. */
static uint32_t place_of(stub *s, kind of, uint64_t handle)
{
    const table *t = table_of(s, of);
    uint32_t place = (uint32_t)(handle & 0xffffff) - 1;
    bool is_known = handle >> 56 == (uint64_t)of && place < t->length && t->records[place] != NULL
                    && (uint32_t)(handle >> 24) == t->generations[place];
    return is_known ? place : MOST_HANDLES;
}

static void *record_of(stub *s, kind of, uint64_t handle, const char *name)
{
    enter(s);
    uint32_t place = place_of(s, of, handle);
    void *record = place < MOST_HANDLES ? table_of(s, of)->records[place] : NULL;
    leave(s);
    holds(s, record != NULL, name, "an unknown handle");
    return record;
}

/* Ends a handle. Null where it is unknown. */
static void *record_removed(stub *s, kind of, uint64_t handle, const char *name)
{
    void *record = NULL;
    enter(s);
    uint32_t place = place_of(s, of, handle);
    if (place < MOST_HANDLES) {
        table *t = table_of(s, of);
        record = t->records[place];
        t->records[place] = NULL;
        t->generations[place]++;
        t->vacant[t->vacant_count++] = place;
        t->live--;
    }
    leave(s);
    holds(s, record != NULL, name, "an unknown handle");
    return record;
}

/* ---- Calls and refusals. ---- */

static stub *begun(const dispatched *handle, size_t place, stub_function called)
{
    stub *s = handle->of;
    holds(s, (const char *)handle == (const char *)s + place, stub_names[called], "a handle of another kind");
    counted(&s->calls[called], 1);
    calls_of_thread[called]++;
    if (s->plan.called != NULL)
        s->plan.called(s->plan.user, stub_names[called]);
    return s;
}

static stub *begun_of_device(VkDevice device, stub_function called)
{
    return begun((const dispatched *)device, offsetof(stub, device), called);
}

static stub *begun_of_physical(VkPhysicalDevice physical, stub_function called)
{
    return begun((const dispatched *)physical, offsetof(stub, physical), called);
}

/* The place of an error of a function's, or of the VK_SUCCESS behind them. */
static size_t place_of_error(stub_function called, VkResult error)
{
    size_t place = 0;
    while (errors[called][place] != error && errors[called][place] != VK_SUCCESS)
        place++;
    return place;
}

static VkResult refused_with(stub *s, stub_function called, VkResult result)
{
    counted(&s->refusals[called][place_of_error(called, result)], 1);
    return result;
}

/* What a call that can fail has to return at once, or VK_SUCCESS. */
static VkResult refusal(stub *s, stub_function called)
{
    if (called == s->refused || s->refused == STUB_ANY) {
        bool is_now = read_count(&s->skip) == 0;
        if (!is_now)
            counted(&s->skip, (uint64_t)-1);
        else if (!s->is_each)
            s->refused = STUB_FUNCTIONS;
        if (is_now)
            return refused_with(s, called, s->result);
    }
    if (s->plan.percent > 0 && drawn(s, 100) < s->plan.percent)
        return refused_with(s, called, errors[called][drawn(s, place_of_error(called, VK_SUCCESS))]);
    return VK_SUCCESS;
}

void stub_refuse(stub *s, stub_function refused, VkResult result, uint64_t skip, bool is_each)
{
    must(refused >= STUB_FUNCTIONS || errors[refused][place_of_error(refused, result)] == result,
         "a function is to be refused with an error that it does not have");
    s->refused = refused;
    s->result = result;
    s->skip = skip;
    s->is_each = is_each;
}

const VkResult *stub_errors_of(stub_function called)
{
    return errors[called];
}

uint64_t stub_calls(const stub *s, stub_function called)
{
    return read_count(&s->calls[called]);
}

uint64_t stub_calls_of_thread(stub_function called)
{
    return calls_of_thread[called];
}

uint64_t stub_refusals_with(const stub *s, stub_function called, size_t error)
{
    return read_count(&s->refusals[called][error]);
}

uint64_t stub_refusals(const stub *s, stub_function called)
{
    uint64_t sum = 0;
    for (size_t i = 0; i < MOST_ERRORS; i++)
        sum += stub_refusals_with(s, called, i);
    return sum;
}

uint64_t stub_failures(const stub *s)
{
    return read_count(&s->failures);
}

const char *stub_first_failure(const stub *s)
{
    return __atomic_load_n(&s->first_failure, __ATOMIC_RELAXED);
}

/* ---- Chains. ---- */

static const void *chained(const void *chain, VkStructureType type)
{
    const VkBaseInStructure *structure = chain;
    while (structure != NULL && structure->sType != type)
        structure = structure->pNext;
    return structure;
}

/* Whether a chain has nothing but these types, each at most once. */
static bool is_chain_of(const void *chain, const VkStructureType *types, size_t types_len)
{
    for (const VkBaseInStructure *structure = chain; structure != NULL; structure = structure->pNext) {
        bool is_known = false;
        for (size_t i = 0; i < types_len; i++)
            is_known = is_known || structure->sType == types[i];
        if (!is_known || chained(structure->pNext, structure->sType) != NULL)
            return false;
    }
    return true;
}

static bool is_version(const stub *s, uint32_t version)
{
    return s->plan.api_version >= version;
}

/* Whether an extension is enabled that these flags say, or is in the core. */
static bool is_enabled(const stub *s, uint32_t flag)
{
    bool is_core = flag == WTV_CREATE_PROPERTIES2 || flag == WTV_CREATE_DEDICATED_ALLOCATION;
    return (s->plan.flags & flag) != 0 || (is_core && is_version(s, VK_API_VERSION_1_1));
}

/* ---- What the device offers. ---- */

static void fill_properties(const stub *s, VkPhysicalDeviceProperties *properties)
{
    *properties = (VkPhysicalDeviceProperties){
        .apiVersion = s->plan.api_version,
        .deviceType = s->plan.device_type,
        .deviceName = "stub",
    };
    properties->limits.maxMemoryAllocationCount = s->plan.max_objects;
    properties->limits.nonCoherentAtomSize = s->plan.atom;
    properties->limits.bufferImageGranularity = s->plan.page;
}

static void fill_memory(const stub *s, VkPhysicalDeviceMemoryProperties *properties)
{
    *properties = (VkPhysicalDeviceMemoryProperties){
        .memoryTypeCount = s->plan.types_count,
        .memoryHeapCount = s->plan.heaps_count,
    };
    memcpy(properties->memoryTypes, s->plan.types, s->plan.types_count * sizeof *s->plan.types);
    memcpy(properties->memoryHeaps, s->plan.heaps, s->plan.heaps_count * sizeof *s->plan.heaps);
}

static VKAPI_ATTR void VKAPI_CALL get_properties(VkPhysicalDevice physical, VkPhysicalDeviceProperties *properties)
{
    fill_properties(begun_of_physical(physical, STUB_PROPERTIES), properties);
}

static VKAPI_ATTR void VKAPI_CALL get_memory_properties(VkPhysicalDevice physical,
                                                        VkPhysicalDeviceMemoryProperties *properties)
{
    fill_memory(begun_of_physical(physical, STUB_MEMORY_PROPERTIES), properties);
}

static VKAPI_ATTR void VKAPI_CALL get_properties2(VkPhysicalDevice physical, VkPhysicalDeviceProperties2 *properties)
{
    static const VkStructureType types[] = {VK_STRUCTURE_TYPE_PHYSICAL_DEVICE_MAINTENANCE_3_PROPERTIES};
    stub *s = begun_of_physical(physical, STUB_PROPERTIES2);
    const char *name = stub_names[STUB_PROPERTIES2];
    holds(s, is_enabled(s, WTV_CREATE_PROPERTIES2), name, "a function that is not enabled");
    holds(s, properties->sType == VK_STRUCTURE_TYPE_PHYSICAL_DEVICE_PROPERTIES_2, name, "a wrong sType");
    holds(s, is_chain_of(properties->pNext, types, LENGTH(types)), name, "a wrong chain");
    VkPhysicalDeviceMaintenance3Properties *sizes = (void *)(uintptr_t)chained(properties->pNext, types[0]);
    if (sizes != NULL)
        sizes->maxMemoryAllocationSize = s->plan.largest;
    fill_properties(s, &properties->properties);
}

/* In a half of the times the whole heap with nothing beside; in a quarter at most what is held. Under the lock. */
static void draw_budget(stub *s, uint32_t heap)
{
    uint64_t half = drawn(s, 4);
    VkDeviceSize size = s->plan.heaps[heap].size, most = half == 2 ? s->used[heap] + 1 : size;
    s->beside[heap] = half < 2 ? 0 : drawn(s, size / 8);
    s->budgets[heap] = half < 2 ? size : 1 + s->beside[heap] + drawn(s, most);
}

static void fill_budget(stub *s, VkPhysicalDeviceMemoryBudgetPropertiesEXT *budget)
{
    enter(s);
    s->is_budget_read = true;
    for (uint32_t i = 0; i < s->plan.heaps_count; i++) {
        if (s->plan.draws_budgets)
            draw_budget(s, i);
        budget->heapBudget[i] = s->budgets[i];
        budget->heapUsage[i] = s->used[i] + s->used_by_program[i] + s->beside[i];
        s->budgets_below += budget->heapBudget[i] < budget->heapUsage[i];
    }
    leave(s);
}

static VKAPI_ATTR void VKAPI_CALL get_memory_properties2(VkPhysicalDevice physical,
                                                         VkPhysicalDeviceMemoryProperties2 *properties)
{
    static const VkStructureType types[] = {VK_STRUCTURE_TYPE_PHYSICAL_DEVICE_MEMORY_BUDGET_PROPERTIES_EXT};
    stub *s = begun_of_physical(physical, STUB_MEMORY_PROPERTIES2);
    const char *name = stub_names[STUB_MEMORY_PROPERTIES2];
    holds(s, is_enabled(s, WTV_CREATE_PROPERTIES2), name, "a function that is not enabled");
    holds(s, properties->sType == VK_STRUCTURE_TYPE_PHYSICAL_DEVICE_MEMORY_PROPERTIES_2, name, "a wrong sType");
    holds(s, is_chain_of(properties->pNext, types, LENGTH(types)), name, "a wrong chain");
    VkPhysicalDeviceMemoryBudgetPropertiesEXT *budget = (void *)(uintptr_t)chained(properties->pNext, types[0]);
    fill_memory(s, &properties->memoryProperties);
    if (budget != NULL) {
        holds(s, is_enabled(s, WTV_CREATE_MEMORY_BUDGET), name, "budgets are not enabled");
        fill_budget(s, budget);
    }
}

/* ---- Memory objects. ---- */

static bool has_property(const stub *s, uint32_t type, VkMemoryPropertyFlags property)
{
    return (s->plan.types[type].propertyFlags & property) != 0;
}

static bool is_coherent(const stub *s, const object *held)
{
    return has_property(s, held->type, COHERENT);
}

/* The heap of a memory type. */
static uint32_t heap_of(const stub *s, uint32_t type)
{
    return s->plan.types[type].heapIndex;
}

/* The resource that an object is to be for alone, or 0. */
static uint64_t owner_of(stub *s, const VkMemoryAllocateInfo *info)
{
    const char *name = stub_names[STUB_ALLOCATE];
    const VkMemoryDedicatedAllocateInfo *own =
        chained(info->pNext, VK_STRUCTURE_TYPE_MEMORY_DEDICATED_ALLOCATE_INFO);
    if (own == NULL || (own->buffer == VK_NULL_HANDLE && own->image == VK_NULL_HANDLE))
        return 0;
    bool is_buffer = own->buffer != VK_NULL_HANDLE;
    holds(s, is_enabled(s, WTV_CREATE_DEDICATED_ALLOCATION), name, "objects for one resource are not enabled");
    holds(s, !is_buffer || own->image == VK_NULL_HANDLE, name, "an object is for a buffer and for an image");
    uint64_t handle = is_buffer ? (uint64_t)own->buffer : (uint64_t)own->image;
    const resource *owner = record_of(s, is_buffer ? BUFFER : IMAGE, handle, name);
    if (owner != NULL) {
        holds(s, info->allocationSize == owner->needs.size, name, "an object for one resource has another size");
        holds(s, owner->memory == NULL, name, "an object is for a resource that is bound");
    }
    return handle;
}

static void check_chain(stub *s, const VkMemoryAllocateInfo *info)
{
    static const VkStructureType types[] = {
        VK_STRUCTURE_TYPE_MEMORY_DEDICATED_ALLOCATE_INFO,
        VK_STRUCTURE_TYPE_MEMORY_ALLOCATE_FLAGS_INFO,
        VK_STRUCTURE_TYPE_MEMORY_PRIORITY_ALLOCATE_INFO_EXT,
        VK_STRUCTURE_TYPE_EXPORT_MEMORY_ALLOCATE_INFO,
    };
    const VkMemoryAllocateFlagsInfo *address =
        chained(info->pNext, VK_STRUCTURE_TYPE_MEMORY_ALLOCATE_FLAGS_INFO);
    const char *name = stub_names[STUB_ALLOCATE];
    holds(s, info->sType == VK_STRUCTURE_TYPE_MEMORY_ALLOCATE_INFO, name, "a wrong sType");
    holds(s, is_chain_of(info->pNext, types, LENGTH(types)), name, "a wrong chain");
    holds(s, address != NULL || !is_enabled(s, WTV_CREATE_DEVICE_ADDRESS), name, "an object without addresses");
    if (address != NULL) {
        holds(s, address->flags == VK_MEMORY_ALLOCATE_DEVICE_ADDRESS_BIT && address->deviceMask == 0, name,
              "wrong flags");
        holds(s, is_enabled(s, WTV_CREATE_DEVICE_ADDRESS), name, "device addresses are not enabled");
    }
}

/* Whether the allocator may ask for one object more, of this size. Under the lock. */
static void check_room(stub *s, uint32_t type, VkDeviceSize size)
{
    const char *name = stub_names[STUB_ALLOCATE];
    uint32_t heap = heap_of(s, type);
    VkDeviceSize used = s->used[heap] + size;
    holds(s, !has_property(s, type, ~(VkMemoryPropertyFlags)(LOCAL | VISIBLE | COHERENT | CACHED)), name,
          "a memory type that must never be asked for");
    holds(s, size > 0 && size <= s->plan.largest, name, "a size that the device does not allow");
    holds(s, used <= s->plan.heaps[heap].size, name, "an object passes its heap");
    holds(s, used <= s->limits[heap], name, "an object passes its heap's limit");
    holds(s, !s->is_budget_read || used + s->beside[heap] <= s->budgets[heap], name, "an object passes its budget");
    holds(s, s->objects.live < s->plan.max_objects, name, "an object too many");
}

static object *object_made(stub *s, uint32_t type, VkDeviceSize size)
{
    object *made = record_taken(sizeof *made, s->plan.callbacks);
    made->size = size;
    made->type = type;
    made->bytes = taken(size);
    made->priority = -1;
    return made;
}

static VKAPI_ATTR VkResult VKAPI_CALL allocate_memory(VkDevice device, const VkMemoryAllocateInfo *info,
                                                      const VkAllocationCallbacks *callbacks, VkDeviceMemory *memory)
{
    stub *s = begun_of_device(device, STUB_ALLOCATE);
    const char *name = stub_names[STUB_ALLOCATE];
    uint32_t type = info->memoryTypeIndex;
    check_callbacks(s, callbacks, STUB_ALLOCATE);
    check_chain(s, info);
    uint64_t owner = owner_of(s, info);
    if (s->plan.asked != NULL)
        s->plan.asked(s->plan.user, type, info->allocationSize);
    if (!holds(s, type < s->plan.types_count, name, "no such memory type"))
        return VK_ERROR_UNKNOWN;
    VkResult refused = refusal(s, STUB_ALLOCATE);
    if (refused == VK_SUCCESS && info->allocationSize > s->plan.granted)
        refused = refused_with(s, STUB_ALLOCATE, VK_ERROR_OUT_OF_DEVICE_MEMORY);
    enter(s);
    check_room(s, type, info->allocationSize);
    if (refused == VK_SUCCESS)
        s->used[heap_of(s, type)] += info->allocationSize;
    leave(s);
    if (refused != VK_SUCCESS)
        return refused;
    const VkMemoryPriorityAllocateInfoEXT *priority =
        chained(info->pNext, VK_STRUCTURE_TYPE_MEMORY_PRIORITY_ALLOCATE_INFO_EXT);
    object *made = object_made(s, type, info->allocationSize);
    made->owner = owner;
    made->has_address = chained(info->pNext, VK_STRUCTURE_TYPE_MEMORY_ALLOCATE_FLAGS_INFO) != NULL;
    if (priority != NULL)
        made->priority = priority->priority;
    *memory = (VkDeviceMemory)add_record(s, OBJECT, made);
    return VK_SUCCESS;
}

static VKAPI_ATTR void VKAPI_CALL free_memory(VkDevice device, VkDeviceMemory memory,
                                              const VkAllocationCallbacks *callbacks)
{
    stub *s = begun_of_device(device, STUB_FREE);
    const char *name = stub_names[STUB_FREE];
    check_callbacks(s, callbacks, STUB_FREE);
    if (memory == VK_NULL_HANDLE)
        return;
    object *freed = record_removed(s, OBJECT, (uint64_t)memory, name);
    if (freed == NULL)
        return;
    enter(s);
    holds(s, freed->bound == NULL, name, "a resource is bound to the object");
    for (resource *bound = freed->bound; bound != NULL; bound = bound->next)
        bound->memory = NULL;
    VkDeviceSize *used = freed->is_programs ? s->used_by_program : s->used;
    used[heap_of(s, freed->type)] -= freed->size;
    leave(s);
    freed->is_mapped = false;
    free(freed->bytes);
    free(freed->cache);
    free_record(freed, callbacks);
}

static VKAPI_ATTR VkResult VKAPI_CALL map_memory(VkDevice device, VkDeviceMemory memory, VkDeviceSize offset,
                                                 VkDeviceSize size, VkMemoryMapFlags flags, void **bytes)
{
    stub *s = begun_of_device(device, STUB_MAP);
    const char *name = stub_names[STUB_MAP];
    object *mapped = record_of(s, OBJECT, (uint64_t)memory, name);
    if (mapped == NULL || !holds(s, has_property(s, mapped->type, VISIBLE), name, "memory that the host does not see"))
        return VK_ERROR_MEMORY_MAP_FAILED;
    holds(s, flags == 0, name, "wrong flags");
    holds(s, !mapped->is_mapped, name, "an object that is mapped");
    if (!holds(s, size > 0 && offset < mapped->size && size <= mapped->size - offset, name, "a range past the end"))
        return VK_ERROR_MEMORY_MAP_FAILED;
    VkResult refused = refusal(s, STUB_MAP);
    if (refused != VK_SUCCESS)
        return refused;
    if (!is_coherent(s, mapped) && mapped->cache == NULL)
        mapped->cache = memset(taken(mapped->size), NEVER_WRITTEN, mapped->size);
    mapped->is_mapped = true;
    mapped->first = offset;
    mapped->length = size;
    *bytes = (is_coherent(s, mapped) ? mapped->bytes : mapped->cache) + offset;
    return VK_SUCCESS;
}

static VKAPI_ATTR void VKAPI_CALL unmap_memory(VkDevice device, VkDeviceMemory memory)
{
    stub *s = begun_of_device(device, STUB_UNMAP);
    object *mapped = record_of(s, OBJECT, (uint64_t)memory, stub_names[STUB_UNMAP]);
    if (mapped == NULL)
        return;
    holds(s, mapped->is_mapped, stub_names[STUB_UNMAP], "an object that is not mapped");
    mapped->is_mapped = false;
}

/* The object of a range that may be flushed or invalidated, or null. */
static object *object_of_range(stub *s, const VkMappedMemoryRange *range, const char *name)
{
    object *mapped = record_of(s, OBJECT, (uint64_t)range->memory, name);
    VkDeviceSize end = range->offset + range->size;
    if (mapped == NULL || !holds(s, mapped->is_mapped, name, "an object that is not mapped"))
        return NULL;
    holds(s, range->sType == VK_STRUCTURE_TYPE_MAPPED_MEMORY_RANGE && range->pNext == NULL, name, "a wrong sType");
    holds(s, range->offset % s->plan.atom == 0, name, "a range does not begin on an atom");
    holds(s, end % s->plan.atom == 0 || end == mapped->size, name, "a range ends neither on an atom nor at the end");
    bool is_within = range->size > 0 && range->offset >= mapped->first && end > range->offset
                     && end <= mapped->first + mapped->length;
    if (!holds(s, is_within, name, "a range that is not mapped")
        || !holds(s, !is_coherent(s, mapped), name, "a range of coherent memory"))
        return NULL;
    return mapped;
}

/* Passes bytes between the host and the device. A call that is refused passes the first ranges, or none. */
static VkResult pass_ranges(VkDevice device, uint32_t count, const VkMappedMemoryRange *ranges, stub_function called)
{
    stub *s = begun_of_device(device, called);
    if (s->plan.passed != NULL)
        s->plan.passed(s->plan.user, count, ranges);
    VkResult refused = refusal(s, called);
    uint32_t passed = refused == VK_SUCCESS ? count : (uint32_t)drawn(s, (uint64_t)count + 1);
    holds(s, count > 0, stub_names[called], "no range");
    for (uint32_t i = 0; i < count; i++) {
        object *mapped = object_of_range(s, &ranges[i], stub_names[called]);
        if (mapped == NULL || i >= passed)
            continue;
        unsigned char *device_side = mapped->bytes + ranges[i].offset, *host_side = mapped->cache + ranges[i].offset;
        if (called == STUB_FLUSH)
            memcpy(device_side, host_side, (size_t)ranges[i].size);
        else
            memcpy(host_side, device_side, (size_t)ranges[i].size);
    }
    return refused;
}

static VKAPI_ATTR VkResult VKAPI_CALL flush_ranges(VkDevice device, uint32_t count, const VkMappedMemoryRange *ranges)
{
    return pass_ranges(device, count, ranges, STUB_FLUSH);
}

static VKAPI_ATTR VkResult VKAPI_CALL invalidate_ranges(VkDevice device, uint32_t count,
                                                        const VkMappedMemoryRange *ranges)
{
    return pass_ranges(device, count, ranges, STUB_INVALIDATE);
}

/* ---- Buffers and images. ---- */

/* What a resource of that many bytes needs, the same for the same size. Each one may lie in types that never serve. */
static VkMemoryRequirements needs_of(const resource *r)
{
    uint64_t some = mixed(4 * r->size + (uint64_t)r->kind + r->is_optimal);
    VkDeviceSize alignment = (VkDeviceSize)(r->is_optimal ? 256 : 16) << some % 5;
    VkDeviceSize size = (r->size + alignment - 1) / alignment * alignment;
    uint32_t types = STUB_ALL_TYPES;
    if (r->is_optimal && (some >> 8) % 4 == 0)
        types &= ~(1u << STUB_CACHED | 1u << STUB_COHERENT);
    else if ((some >> 8) % 4 == 1)
        types &= ~(1u << STUB_LOCAL_VISIBLE);
    return (VkMemoryRequirements){(some >> 16) % 2 == 0 ? size : r->size, alignment, types};
}

/* Some images have to have an object of their own; larger ones, and a few buffers, would like one. */
static void draw_own(resource *r)
{
    uint64_t some = mixed(r->size ^ 0x5eed);
    r->requires_own = r->kind == IMAGE && some % 16 == 0;
    r->prefers_own = r->requires_own || (r->kind == IMAGE && r->size >= 8 << 10) || some % 32 == 1;
}

static uint64_t resource_made(stub *s, const resource *filled, const VkAllocationCallbacks *callbacks)
{
    const stub_plan *plan = &s->plan;
    resource *made = record_taken(sizeof *made, callbacks);
    *made = *filled;
    if (plan->alignment == 0) {
        made->needs = needs_of(made);
        draw_own(made);
    } else {
        made->needs = (VkMemoryRequirements){made->size, plan->alignment, plan->permitted};
        made->requires_own = plan->requires_own;
        made->prefers_own = plan->prefers_own;
    }
    uint64_t handle = add_record(s, made->kind, made);
    made->handle = handle;
    return handle;
}

static void destroy_resource(stub *s, kind of, uint64_t handle, const VkAllocationCallbacks *callbacks)
{
    stub_function called = of == BUFFER ? STUB_DESTROY_BUFFER : STUB_DESTROY_IMAGE;
    check_callbacks(s, callbacks, called);
    if (handle == 0)
        return;
    resource *destroyed = record_removed(s, of, handle, stub_names[called]);
    if (destroyed == NULL)
        return;
    enter(s);
    if (destroyed->memory != NULL) {
        resource **bound = &destroyed->memory->bound;
        while (*bound != destroyed)
            bound = &(*bound)->next;
        *bound = destroyed->next;
    }
    leave(s);
    free_record(destroyed, callbacks);
}

/* A usage that is chained counts in place of the info's own. */
static uint64_t usage_of(const VkBufferCreateInfo *info)
{
    const stub_usage_flags2 *usage = chained(info->pNext, STUB_USAGE_FLAGS2);
    return usage != NULL ? usage->usage : info->usage;
}

static VKAPI_ATTR VkResult VKAPI_CALL create_buffer(VkDevice device, const VkBufferCreateInfo *info,
                                                    const VkAllocationCallbacks *callbacks, VkBuffer *buffer)
{
    static const VkStructureType types[] = {
        STUB_USAGE_FLAGS2,
        VK_STRUCTURE_TYPE_EXTERNAL_MEMORY_BUFFER_CREATE_INFO,
    };
    stub *s = begun_of_device(device, STUB_CREATE_BUFFER);
    const char *name = stub_names[STUB_CREATE_BUFFER];
    uint64_t usage = usage_of(info);
    bool has_address = (usage & VK_BUFFER_USAGE_SHADER_DEVICE_ADDRESS_BIT) != 0;
    check_callbacks(s, callbacks, STUB_CREATE_BUFFER);
    holds(s, info->sType == VK_STRUCTURE_TYPE_BUFFER_CREATE_INFO, name, "a wrong sType");
    holds(s, is_chain_of(info->pNext, types, LENGTH(types)), name, "a wrong chain");
    holds(s, info->size > 0 && usage != 0 && info->flags == 0, name, "a wrong field");
    holds(s, !has_address || is_enabled(s, WTV_CREATE_DEVICE_ADDRESS), name, "device addresses are not enabled");
    VkResult refused = refusal(s, STUB_CREATE_BUFFER);
    if (refused != VK_SUCCESS)
        return refused;
    const resource filled = {.kind = BUFFER, .size = info->size};
    *buffer = (VkBuffer)resource_made(s, &filled, callbacks);
    return VK_SUCCESS;
}

static VKAPI_ATTR VkResult VKAPI_CALL create_image(VkDevice device, const VkImageCreateInfo *info,
                                                   const VkAllocationCallbacks *callbacks, VkImage *image)
{
    stub *s = begun_of_device(device, STUB_CREATE_IMAGE);
    const char *name = stub_names[STUB_CREATE_IMAGE];
    check_callbacks(s, callbacks, STUB_CREATE_IMAGE);
    holds(s, info->sType == VK_STRUCTURE_TYPE_IMAGE_CREATE_INFO && info->pNext == NULL, name, "a wrong sType");
    holds(s, info->imageType == VK_IMAGE_TYPE_2D && info->flags == 0 && info->usage != 0, name, "a wrong field");
    holds(s, info->extent.width > 0 && info->extent.height > 0 && info->extent.depth == 1, name, "a wrong extent");
    VkResult refused = refusal(s, STUB_CREATE_IMAGE);
    if (refused != VK_SUCCESS)
        return refused;
    const resource filled = {
        .kind = IMAGE,
        .is_optimal = info->tiling != VK_IMAGE_TILING_LINEAR,
        .size = (VkDeviceSize)4 * info->extent.width * info->extent.height,
    };
    *image = (VkImage)resource_made(s, &filled, callbacks);
    return VK_SUCCESS;
}

static VKAPI_ATTR void VKAPI_CALL destroy_buffer(VkDevice device, VkBuffer buffer,
                                                 const VkAllocationCallbacks *callbacks)
{
    destroy_resource(begun_of_device(device, STUB_DESTROY_BUFFER), BUFFER, (uint64_t)buffer, callbacks);
}

static VKAPI_ATTR void VKAPI_CALL destroy_image(VkDevice device, VkImage image, const VkAllocationCallbacks *callbacks)
{
    destroy_resource(begun_of_device(device, STUB_DESTROY_IMAGE), IMAGE, (uint64_t)image, callbacks);
}

static void fill_needs(stub *s, kind of, uint64_t handle, VkMemoryRequirements *needs, const char *name)
{
    const resource *r = record_of(s, of, handle, name);
    *needs = r != NULL ? r->needs : (VkMemoryRequirements){0};
}

static VKAPI_ATTR void VKAPI_CALL get_buffer_needs(VkDevice device, VkBuffer buffer, VkMemoryRequirements *needs)
{
    stub *s = begun_of_device(device, STUB_BUFFER_NEEDS);
    fill_needs(s, BUFFER, (uint64_t)buffer, needs, stub_names[STUB_BUFFER_NEEDS]);
}

static VKAPI_ATTR void VKAPI_CALL get_image_needs(VkDevice device, VkImage image, VkMemoryRequirements *needs)
{
    fill_needs(begun_of_device(device, STUB_IMAGE_NEEDS), IMAGE, (uint64_t)image, needs, stub_names[STUB_IMAGE_NEEDS]);
}

static void fill_needs2(stub *s, kind of, uint64_t handle, VkMemoryRequirements2 *needs, stub_function called)
{
    static const VkStructureType types[] = {VK_STRUCTURE_TYPE_MEMORY_DEDICATED_REQUIREMENTS};
    const char *name = stub_names[called];
    const resource *r = record_of(s, of, handle, name);
    holds(s, is_enabled(s, WTV_CREATE_DEDICATED_ALLOCATION), name, "a function that is not enabled");
    holds(s, needs->sType == VK_STRUCTURE_TYPE_MEMORY_REQUIREMENTS_2, name, "a wrong sType");
    holds(s, is_chain_of(needs->pNext, types, LENGTH(types)), name, "a wrong chain");
    VkMemoryDedicatedRequirements *own = (void *)(uintptr_t)chained(needs->pNext, types[0]);
    needs->memoryRequirements = r != NULL ? r->needs : (VkMemoryRequirements){0};
    if (own != NULL && r != NULL) {
        own->requiresDedicatedAllocation = r->requires_own;
        own->prefersDedicatedAllocation = r->prefers_own;
    }
}

static VKAPI_ATTR void VKAPI_CALL get_buffer_needs2(VkDevice device, const VkBufferMemoryRequirementsInfo2 *info,
                                                    VkMemoryRequirements2 *needs)
{
    stub *s = begun_of_device(device, STUB_BUFFER_NEEDS2);
    holds(s, info->sType == VK_STRUCTURE_TYPE_BUFFER_MEMORY_REQUIREMENTS_INFO_2 && info->pNext == NULL,
          stub_names[STUB_BUFFER_NEEDS2], "a wrong sType");
    fill_needs2(s, BUFFER, (uint64_t)info->buffer, needs, STUB_BUFFER_NEEDS2);
}

static VKAPI_ATTR void VKAPI_CALL get_image_needs2(VkDevice device, const VkImageMemoryRequirementsInfo2 *info,
                                                   VkMemoryRequirements2 *needs)
{
    stub *s = begun_of_device(device, STUB_IMAGE_NEEDS2);
    holds(s, info->sType == VK_STRUCTURE_TYPE_IMAGE_MEMORY_REQUIREMENTS_INFO_2 && info->pNext == NULL,
          stub_names[STUB_IMAGE_NEEDS2], "a wrong sType");
    fill_needs2(s, IMAGE, (uint64_t)info->image, needs, STUB_IMAGE_NEEDS2);
}

static bool do_meet(VkDeviceSize first, VkDeviceSize last, VkDeviceSize other_first, VkDeviceSize other_last)
{
    return first <= other_last && other_first <= last;
}

/* Two resources of one object share no byte, and no page where one is optimal and the other linear. */
static void check_neighbours(stub *s, const resource *one, VkDeviceSize first, const resource *other, const char *name)
{
    VkDeviceSize page = s->plan.page > 0 ? s->plan.page : 1;
    VkDeviceSize last = first + one->needs.size - 1;
    VkDeviceSize other_first = other->offset, other_last = other_first + other->needs.size - 1;
    holds(s, !do_meet(first, last, other_first, other_last), name, "two resources share a byte");
    holds(s,
          one->is_optimal == other->is_optimal
              || !do_meet(first / page, last / page, other_first / page, other_last / page),
          name, "a linear and an optimal resource share a page");
}

static bool is_place_for(stub *s, const resource *r, const object *memory, VkDeviceSize offset, const char *name)
{
    bool is_enabled_own = is_enabled(s, WTV_CREATE_DEDICATED_ALLOCATION);
    holds(s, (r->needs.memoryTypeBits >> memory->type & 1) != 0, name, "a memory type that does not serve");
    holds(s, offset % r->needs.alignment == 0, name, "an offset that is not aligned");
    holds(s, memory->owner == 0 || (memory->owner == r->handle && offset == 0), name, "an object for another resource");
    holds(s, !r->requires_own || !is_enabled_own || memory->owner == r->handle, name,
          "a resource has to have an object of its own");
    return holds(s, offset < memory->size && r->needs.size <= memory->size - offset, name, "a resource passes the end");
}

static VkResult bind(stub *s, kind of, uint64_t handle, VkDeviceMemory memory, VkDeviceSize offset)
{
    stub_function called = of == BUFFER ? STUB_BIND_BUFFER : STUB_BIND_IMAGE;
    const char *name = stub_names[called];
    resource *r = record_of(s, of, handle, name);
    object *to = record_of(s, OBJECT, (uint64_t)memory, name);
    if (r == NULL || to == NULL || !holds(s, r->memory == NULL, name, "a resource is bound twice"))
        return VK_ERROR_UNKNOWN;
    if (!is_place_for(s, r, to, offset, name))
        return VK_ERROR_UNKNOWN;
    VkResult refused = refusal(s, called);
    if (refused != VK_SUCCESS)
        return refused;
    r->memory = to;
    r->offset = offset;
    enter(s);
    for (const resource *other = to->bound; other != NULL; other = other->next)
        check_neighbours(s, r, offset, other, name);
    r->next = to->bound;
    to->bound = r;
    leave(s);
    return VK_SUCCESS;
}

static VKAPI_ATTR VkResult VKAPI_CALL bind_buffer(VkDevice device, VkBuffer buffer, VkDeviceMemory memory,
                                                  VkDeviceSize offset)
{
    return bind(begun_of_device(device, STUB_BIND_BUFFER), BUFFER, (uint64_t)buffer, memory, offset);
}

static VKAPI_ATTR VkResult VKAPI_CALL bind_image(VkDevice device, VkImage image, VkDeviceMemory memory,
                                                 VkDeviceSize offset)
{
    return bind(begun_of_device(device, STUB_BIND_IMAGE), IMAGE, (uint64_t)image, memory, offset);
}

/* ---- The functions by their names. ---- */

const wtv_functions stub_table = {
    .get_physical_device_properties = get_properties,
    .get_physical_device_memory_properties = get_memory_properties,
    .get_physical_device_properties2 = get_properties2,
    .get_physical_device_memory_properties2 = get_memory_properties2,
    .allocate_memory = allocate_memory,
    .free_memory = free_memory,
    .map_memory = map_memory,
    .unmap_memory = unmap_memory,
    .flush_mapped_memory_ranges = flush_ranges,
    .invalidate_mapped_memory_ranges = invalidate_ranges,
    .create_buffer = create_buffer,
    .destroy_buffer = destroy_buffer,
    .create_image = create_image,
    .destroy_image = destroy_image,
    .get_buffer_memory_requirements = get_buffer_needs,
    .get_image_memory_requirements = get_image_needs,
    .get_buffer_memory_requirements2 = get_buffer_needs2,
    .get_image_memory_requirements2 = get_image_needs2,
    .bind_buffer_memory = bind_buffer,
    .bind_image_memory = bind_image,
};

static PFN_vkVoidFunction function_at(stub_function called)
{
    PFN_vkVoidFunction found;
    memcpy(&found, (const char *)&stub_table + (size_t)called * sizeof found, sizeof found);
    return found;
}

/* The flag of the extension that a function came with, or 0. It is in the core from 1.1 on. */
static uint32_t extension_of(stub_function called)
{
    if (called == STUB_PROPERTIES2 || called == STUB_MEMORY_PROPERTIES2)
        return WTV_CREATE_PROPERTIES2;
    return called == STUB_BUFFER_NEEDS2 || called == STUB_IMAGE_NEEDS2 ? WTV_CREATE_DEDICATED_ALLOCATION : 0;
}

/* Whether a function has this name in the version and with the extensions that are enabled. */
static bool is_name(const stub *s, stub_function called, const char *name)
{
    uint32_t extension = extension_of(called);
    size_t length = strlen(stub_names[called]);
    if (strncmp(stub_names[called], name, length) != 0 || s->hidden == called)
        return false;
    if (strcmp(name + length, "KHR") == 0)
        return (s->plan.flags & extension) != 0;
    return name[length] == '\0' && (extension == 0 || is_version(s, VK_API_VERSION_1_1));
}

static PFN_vkVoidFunction function_of(const stub *s, const char *name, int first)
{
    for (int i = first; i < STUB_FUNCTIONS; i++)
        if (is_name(s, (stub_function)i, name))
            return function_at((stub_function)i);
    return NULL;
}

/* It has no functions of the instance, which are those before STUB_ALLOCATE. */
static VKAPI_ATTR PFN_vkVoidFunction VKAPI_CALL get_device_proc_addr(VkDevice device, const char *name)
{
    stub *s = ((const dispatched *)device)->of;
    holds(s, (const dispatched *)device == &s->device, "vkGetDeviceProcAddr", "a handle of another kind");
    return function_of(s, name, STUB_ALLOCATE);
}

/* Without an instance it has global functions alone, and none of them is here. */
PFN_vkVoidFunction VKAPI_CALL stub_get_instance_proc_addr(VkInstance instance, const char *name)
{
    if (instance == VK_NULL_HANDLE)
        return NULL;
    stub *s = ((const dispatched *)instance)->of;
    holds(s, (const dispatched *)instance == &s->instance, "vkGetInstanceProcAddr", "a handle of another kind");
    if (strcmp(name, "vkGetDeviceProcAddr") == 0 && s->hidden != STUB_FUNCTIONS)
        return (PFN_vkVoidFunction)get_device_proc_addr;
    return function_of(s, name, STUB_PROPERTIES);
}

void stub_hide(stub *s, stub_function hidden)
{
    s->hidden = hidden;
}

/* ---- For the tests. ---- */

stub_plan stub_usual_plan(void)
{
    return (stub_plan){
        .seed = 1,
        .api_version = VK_API_VERSION_1_1,
        .max_objects = 256,
        .atom = 256,
        .page = 4096,
        .largest = 4 << 20,
        .granted = UINT64_MAX,
        .types = stub_types,
        .heaps = stub_heaps,
        .types_count = STUB_TYPES,
        .heaps_count = STUB_HEAPS,
    };
}

stub *stub_open(const stub_plan *plan)
{
    stub *s = taken(sizeof *s);
    s->plan = *plan;
    s->instance.of = s->physical.of = s->device.of = s;
    s->refused = STUB_FUNCTIONS;
    s->hidden = STUB_ANY;
    must(plan->types_count <= VK_MAX_MEMORY_TYPES && plan->heaps_count <= STUB_HEAPS, "the stub lacks room");
    must(pthread_mutex_init(&s->lock, NULL) == 0, "the stub has no lock");
    for (uint32_t i = 0; i < plan->heaps_count; i++)
        s->budgets[i] = s->limits[i] = plan->heaps[i].size;
    return s;
}

stub_plan *stub_plan_of(stub *s)
{
    return &s->plan;
}

/* Frees what the program left. */
static void free_rest(stub *s)
{
    const VkAllocationCallbacks *callbacks = s->plan.callbacks;
    for (uint32_t i = 0; i < s->objects.length; i++) {
        object *left = s->objects.records[i];
        if (left == NULL)
            continue;
        free(left->bytes);
        free(left->cache);
        free_record(left, callbacks);
    }
    for (uint32_t i = 0; i < s->buffers.length; i++)
        if (s->buffers.records[i] != NULL)
            free_record(s->buffers.records[i], callbacks);
    for (uint32_t i = 0; i < s->images.length; i++)
        if (s->images.records[i] != NULL)
            free_record(s->images.records[i], callbacks);
}

uint64_t stub_close(stub *s)
{
    holds(s, s->objects.live == 0, "the end", "memory objects are not freed");
    holds(s, s->buffers.live == 0, "the end", "buffers are not destroyed");
    holds(s, s->images.live == 0, "the end", "images are not destroyed");
    uint64_t failures = stub_failures(s);
    free_rest(s);
    pthread_mutex_destroy(&s->lock);
    free(s);
    return failures;
}

wtv_create_info stub_info(stub *s)
{
    return (wtv_create_info){
        .instance = (VkInstance)&s->instance,
        .physical_device = (VkPhysicalDevice)&s->physical,
        .device = (VkDevice)&s->device,
        .flags = s->plan.flags,
        .api_version = s->plan.api_version,
        .get_instance_proc_addr = stub_get_instance_proc_addr,
        .callbacks = s->plan.callbacks,
    };
}

stub_held stub_held_now(stub *s)
{
    stub_held held = {0};
    enter(s);
    held.objects = s->objects.live;
    held.buffers = s->buffers.live;
    held.images = s->images.live;
    for (uint32_t i = 0; i < s->objects.length; i++) {
        const object *live = s->objects.records[i];
        if (live == NULL)
            continue;
        held.mapped += live->is_mapped;
        for (const resource *bound = live->bound; bound != NULL; bound = bound->next)
            held.bound++;
    }
    memcpy(held.bytes, s->used, sizeof held.bytes);
    leave(s);
    return held;
}

void stub_set_budget(stub *s, uint32_t heap, VkDeviceSize budget, VkDeviceSize beside)
{
    enter(s);
    s->budgets[heap] = budget;
    s->beside[heap] = beside;
    leave(s);
}

void stub_set_limit(stub *s, uint32_t heap, VkDeviceSize limit)
{
    enter(s);
    s->limits[heap] = limit;
    leave(s);
}

uint64_t stub_budgets_below(const stub *s)
{
    return s->budgets_below;
}

VkDeviceMemory stub_make_object(stub *s, uint32_t memory_type, VkDeviceSize size)
{
    enter(s);
    bool has_room = s->objects.live < s->plan.max_objects;
    if (has_room)
        s->used_by_program[heap_of(s, memory_type)] += size;
    leave(s);
    if (!has_room)
        return VK_NULL_HANDLE;
    object *made = object_made(s, memory_type, size);
    made->is_programs = true;
    made->has_address = is_enabled(s, WTV_CREATE_DEVICE_ADDRESS);
    return (VkDeviceMemory)add_record(s, OBJECT, made);
}

unsigned char *stub_memory_bytes(stub *s, VkDeviceMemory memory, VkDeviceSize offset, VkDeviceSize size)
{
    const object *held = record_of(s, OBJECT, (uint64_t)memory, "the device");
    if (held == NULL || !holds(s, offset <= held->size && size <= held->size - offset, "the device", "a bad range"))
        return NULL;
    return held->bytes + offset;
}

static unsigned char *bytes_of(stub *s, kind of, uint64_t handle)
{
    const resource *r = record_of(s, of, handle, "the device");
    if (r == NULL || !holds(s, r->memory != NULL, "the device", "a resource that is not bound"))
        return NULL;
    return r->memory->bytes + r->offset;
}

unsigned char *stub_buffer_bytes(stub *s, VkBuffer buffer)
{
    return bytes_of(s, BUFFER, (uint64_t)buffer);
}

unsigned char *stub_image_bytes(stub *s, VkImage image)
{
    return bytes_of(s, IMAGE, (uint64_t)image);
}

VkMemoryRequirements stub_needs_of_buffer(stub *s, VkBuffer buffer)
{
    VkMemoryRequirements needs;
    fill_needs(s, BUFFER, (uint64_t)buffer, &needs, "a test");
    return needs;
}

VkMemoryRequirements stub_needs_of_image(stub *s, VkImage image, bool *requires_own)
{
    const resource *r = record_of(s, IMAGE, (uint64_t)image, "a test");
    *requires_own = r != NULL && r->requires_own;
    return r != NULL ? r->needs : (VkMemoryRequirements){0};
}

stub_object stub_object_of(stub *s, VkDeviceMemory memory)
{
    const object *held = record_of(s, OBJECT, (uint64_t)memory, "a test");
    if (held == NULL)
        return (stub_object){0};
    return (stub_object){held->size, held->owner, held->priority, held->is_mapped, held->has_address};
}

uint64_t stub_pieces_taken, stub_pieces_given;

static VKAPI_ATTR void *VKAPI_CALL take_piece(void *user, size_t size, size_t alignment, VkSystemAllocationScope scope)
{
    must(user == &stub_pieces_taken && alignment <= sizeof(uint64_t), "a callback gets something else");
    (void)scope;
    counted(&stub_pieces_taken, 1);
    return malloc(size);
}

static VKAPI_ATTR void *VKAPI_CALL grow_piece(void *user, void *old, size_t size, size_t alignment,
                                              VkSystemAllocationScope scope)
{
    must(false, "nothing grows by callbacks");
    (void)user, (void)old, (void)size, (void)alignment, (void)scope;
    return NULL;
}

static VKAPI_ATTR void VKAPI_CALL give_piece(void *user, void *piece)
{
    must(user == &stub_pieces_taken, "a callback gets something else");
    counted(&stub_pieces_given, 1);
    free(piece);
}

const VkAllocationCallbacks stub_callbacks = {
    .pUserData = &stub_pieces_taken,
    .pfnAllocation = take_piece,
    .pfnReallocation = grow_piece,
    .pfnFree = give_piece,
};

VkBufferCreateInfo stub_buffer_info(VkDeviceSize size)
{
    return (VkBufferCreateInfo){
        .sType = VK_STRUCTURE_TYPE_BUFFER_CREATE_INFO,
        .size = size,
        .usage = VK_BUFFER_USAGE_TRANSFER_SRC_BIT | VK_BUFFER_USAGE_TRANSFER_DST_BIT,
    };
}

VkImageCreateInfo stub_image_info(uint32_t width, uint32_t height, bool is_optimal)
{
    return (VkImageCreateInfo){
        .sType = VK_STRUCTURE_TYPE_IMAGE_CREATE_INFO,
        .imageType = VK_IMAGE_TYPE_2D,
        .format = VK_FORMAT_R8G8B8A8_UNORM,
        .extent = {width, height, 1},
        .mipLevels = 1,
        .arrayLayers = 1,
        .samples = VK_SAMPLE_COUNT_1_BIT,
        .tiling = is_optimal ? VK_IMAGE_TILING_OPTIMAL : VK_IMAGE_TILING_LINEAR,
        .usage = VK_IMAGE_USAGE_TRANSFER_SRC_BIT | VK_IMAGE_USAGE_TRANSFER_DST_BIT,
    };
}
