#define _POSIX_C_SOURCE 199309L /* nanosleep */
#include "driver.h"

#include "callbacks.h"
#include "random.h"
#include "refusing.h"
#include <pthread.h>
#include <time.h>

enum { MOST_OBJECTS = 512, LINGERING = 20 /* milliseconds */ };

/* A memory object. */
typedef struct object {
    VkDeviceMemory memory;
    VkDeviceSize size;
    uint32_t memory_type;
    bool is_for_one; /* it was made for one resource */
    bool is_own;     /* the program made it, and the allocator does not have it yet */
} object;

static driver_settings set;
static VkPhysicalDeviceMemoryProperties memory; /* as reported */
static uint32_t max_objects;                    /* as reported */

/* What is below changes under the lock. */
static pthread_mutex_t lock = PTHREAD_MUTEX_INITIALIZER;
static object objects[MOST_OBJECTS];
static uint32_t objects_count;
static VkDeviceSize limits[VK_MAX_MEMORY_HEAPS]; /* of what the allocator may hold of each heap */
static uint64_t budgets_random;
static driver_counts counts;

static VkDeviceSize lesser(VkDeviceSize one, VkDeviceSize other)
{
    return one < other ? one : other;
}

/* How much one is over the other, or 0. */
static VkDeviceSize over(VkDeviceSize one, VkDeviceSize other)
{
    return one > other ? one - other : 0;
}

/* The structure of that type in a chain, or null. */
static void *chained(const void *chain, VkStructureType type)
{
    const VkBaseInStructure *structure = chain;
    while (structure != NULL && structure->sType != type)
        structure = structure->pNext;
    return (void *)structure;
}

/* ---- The allocator's lock: it is held while these functions are called, so no two calls of them meet. ---- */

static int inside;

void driver_linger(uint32_t milliseconds)
{
    const struct timespec time = {.tv_nsec = (long)milliseconds * 1000000};
    if (set.lingers)
        nanosleep(&time, NULL);
}

static void come_in(void)
{
    must(__atomic_add_fetch(&inside, 1, __ATOMIC_SEQ_CST) == 1, "two threads are inside the allocator's lock");
    driver_linger(LINGERING);
}

static void go_out(void)
{
    __atomic_sub_fetch(&inside, 1, __ATOMIC_SEQ_CST);
}

/* ---- Objects, under the lock. ---- */

static uint32_t heap_of(uint32_t memory_type)
{
    return memory.memoryTypes[memory_type].heapIndex;
}

/* How many objects the allocator has, or the program, and how many bytes of a heap. */
static uint32_t count_of(bool is_own)
{
    uint32_t count = 0;
    for (uint32_t i = 0; i < objects_count; i++)
        count += objects[i].is_own == is_own;
    return count;
}

static VkDeviceSize held_of(uint32_t heap, bool is_own)
{
    VkDeviceSize held = 0;
    for (uint32_t i = 0; i < objects_count; i++)
        if (heap_of(objects[i].memory_type) == heap && objects[i].is_own == is_own)
            held += objects[i].size;
    return held;
}

static object *object_of(VkDeviceMemory handle)
{
    for (uint32_t i = 0; i < objects_count; i++)
        if (objects[i].memory == handle)
            return &objects[i];
    must(false, "an object that does not exist is named");
    return NULL;
}

static const VkMemoryDedicatedAllocateInfo *owner_of(const VkMemoryAllocateInfo *info)
{
    return chained(info->pNext, VK_STRUCTURE_TYPE_MEMORY_DEDICATED_ALLOCATE_INFO);
}

static void keep(const VkMemoryAllocateInfo *info, VkDeviceMemory handle, bool is_own)
{
    const bool is_for_one = owner_of(info) != NULL;
    pthread_mutex_lock(&lock);
    must(objects_count < MOST_OBJECTS, "there is no room for an object");
    objects[objects_count++] = (object){handle, info->allocationSize, info->memoryTypeIndex, is_for_one, is_own};
    counts.objects_made++;
    counts.dedicated += is_for_one;
    pthread_mutex_unlock(&lock);
}

/* An object that the program has made but not handed over may be the allocator's already, so it counts for neither. */
static void check_request(const VkMemoryAllocateInfo *info)
{
    uint32_t heap = heap_of(info->memoryTypeIndex);
    VkMemoryPropertyFlags properties = memory.memoryTypes[info->memoryTypeIndex].propertyFlags;
    pthread_mutex_lock(&lock);
    must(held_of(heap, false) + info->allocationSize <= lesser(limits[heap], memory.memoryHeaps[heap].size),
         "the allocator asks for more than a heap's limit leaves");
    must(count_of(false) + set.other_objects < max_objects, "the allocator asks for an object too many");
    must((properties & (VK_MEMORY_PROPERTY_LAZILY_ALLOCATED_BIT | VK_MEMORY_PROPERTY_PROTECTED_BIT)) == 0
             && properties < VK_MEMORY_PROPERTY_DEVICE_COHERENT_BIT_AMD,
         "the allocator asks for a memory type that nothing permits");
    pthread_mutex_unlock(&lock);
}

/* It is forgotten before it is freed, since its handle may come back at once. */
static void forget(VkDeviceMemory handle)
{
    pthread_mutex_lock(&lock);
    *object_of(handle) = objects[objects_count - 1];
    objects_count--;
    counts.objects_freed++;
    pthread_mutex_unlock(&lock);
}

static void add_to(uint64_t *counter, uint64_t number)
{
    pthread_mutex_lock(&lock);
    *counter += number;
    pthread_mutex_unlock(&lock);
}

VkResult driver_make(const VkMemoryAllocateInfo *info, VkDeviceMemory *made)
{
    VkResult result = vkAllocateMemory(set.device->handle, info, callbacks_of_program(), made);
    if (result == VK_SUCCESS)
        keep(info, *made, true);
    return result;
}

void driver_imported(VkDeviceMemory handle)
{
    pthread_mutex_lock(&lock);
    object_of(handle)->is_own = false;
    pthread_mutex_unlock(&lock);
}

void driver_free(VkDeviceMemory handle)
{
    forget(handle);
    vkFreeMemory(set.device->handle, handle, callbacks_of_program());
}

driver_counts driver_counted(void)
{
    pthread_mutex_lock(&lock);
    driver_counts counted = counts;
    pthread_mutex_unlock(&lock);
    return counted;
}

/* ---- What is reported. ---- */

static void cut_properties(VkPhysicalDeviceProperties *properties)
{
    VkPhysicalDeviceLimits *offered = &properties->limits;
    offered->maxMemoryAllocationCount = (uint32_t)lesser(offered->maxMemoryAllocationCount, set.max_objects);
    offered->bufferImageGranularity = set.granularity;
    if (set.is_integrated)
        properties->deviceType = VK_PHYSICAL_DEVICE_TYPE_INTEGRATED_GPU;
}

static void cut_memory(VkPhysicalDeviceMemoryProperties *reported)
{
    for (uint32_t i = 0; i < reported->memoryHeapCount; i++)
        reported->memoryHeaps[i].size = lesser(reported->memoryHeaps[i].size, set.heap_size);
    for (uint32_t i = 0; i < reported->memoryTypeCount && set.hides_coherence; i++)
        reported->memoryTypes[i].propertyFlags &= ~(VkMemoryPropertyFlags)VK_MEMORY_PROPERTY_HOST_COHERENT_BIT;
}

static VKAPI_ATTR void VKAPI_CALL get_properties(VkPhysicalDevice physical, VkPhysicalDeviceProperties *properties)
{
    vkGetPhysicalDeviceProperties(physical, properties);
    cut_properties(properties);
}

static VKAPI_ATTR void VKAPI_CALL get_properties2(VkPhysicalDevice physical, VkPhysicalDeviceProperties2 *properties)
{
    vkGetPhysicalDeviceProperties2(physical, properties);
    cut_properties(&properties->properties);
}

static VKAPI_ATTR void VKAPI_CALL get_memory_properties(VkPhysicalDevice physical,
                                                        VkPhysicalDeviceMemoryProperties *reported)
{
    vkGetPhysicalDeviceMemoryProperties(physical, reported);
    cut_memory(reported);
}

/* In half of the cases the whole heap and nothing beside; in a quarter at most what is held. */
static void draw_budget(uint32_t heap, VkPhysicalDeviceMemoryBudgetPropertiesEXT *budget)
{
    VkDeviceSize held = held_of(heap, false) + held_of(heap, true), size = memory.memoryHeaps[heap].size;
    uint32_t kind = random_below(&budgets_random, 4);
    VkDeviceSize beside = kind < 2 ? 0 : random_below(&budgets_random, (uint32_t)size / 8);
    VkDeviceSize most = kind == 2 ? held + 1 : size;
    budget->heapUsage[heap] = held + beside;
    budget->heapBudget[heap] = kind < 2 ? size : 1 + beside + random_below(&budgets_random, (uint32_t)most);
}

/* The limit is what the budget leaves beside what others hold. What is handed over just now counts as held. */
static void note_limit(uint32_t heap, const VkPhysicalDeviceMemoryBudgetPropertiesEXT *budget)
{
    VkDeviceSize held = held_of(heap, false), size = memory.memoryHeaps[heap].size;
    VkDeviceSize others = over(budget->heapUsage[heap], held + held_of(heap, true));
    limits[heap] = over(budget->heapBudget[heap], others);
    counts.limits++;
    counts.limits_below += limits[heap] < held;
    counts.limits_off += limits[heap] >= size;
}

/* A driver without the extension does not see the structure. */
static VKAPI_ATTR void VKAPI_CALL get_memory_properties2(VkPhysicalDevice physical,
                                                         VkPhysicalDeviceMemoryProperties2 *reported)
{
    VkPhysicalDeviceMemoryBudgetPropertiesEXT *budget =
        chained(reported->pNext, VK_STRUCTURE_TYPE_PHYSICAL_DEVICE_MEMORY_BUDGET_PROPERTIES_EXT);
    if (set.device->has_budgets)
        vkGetPhysicalDeviceMemoryProperties2(physical, reported);
    else
        vkGetPhysicalDeviceMemoryProperties(physical, &reported->memoryProperties);
    cut_memory(&reported->memoryProperties);
    must(budget != NULL, "the allocator asks for no budget");
    come_in();
    pthread_mutex_lock(&lock);
    for (uint32_t i = 0; i < memory.memoryHeapCount; i++) {
        if (!set.device->has_budgets)
            draw_budget(i, budget);
        note_limit(i, budget);
    }
    pthread_mutex_unlock(&lock);
    go_out();
}

void driver_lifted(void)
{
    pthread_mutex_lock(&lock);
    for (uint32_t i = 0; i < VK_MAX_MEMORY_HEAPS; i++)
        limits[i] = VK_WHOLE_SIZE;
    pthread_mutex_unlock(&lock);
}

VkPhysicalDeviceMemoryProperties driver_memory(void)
{
    return memory;
}

void driver_compare(wtv_allocator *allocator)
{
    wt_counts counted;
    wt_heap_counts heap;
    must(wtv_count(allocator, &counted) == VK_SUCCESS, "wtv_count");
    must(counted.held == count_of(false) && counted.unread == 0 && count_of(true) == 0,
         "the allocator counts other objects than there are");
    must(counted.remaining == over(max_objects, set.other_objects) - counted.held,
         "the allocator counts other objects than it may still make");
    for (uint32_t i = 0; i < memory.memoryHeapCount; i++) {
        must(wtv_heap(allocator, i, &heap) == VK_SUCCESS, "wtv_heap");
        must(heap.used == held_of(i, false) && heap.used_high == 0, "a heap counts other bytes than are held");
        must(heap.limit == lesser(limits[i], memory.memoryHeaps[i].size), "a heap has another limit than its budget");
        must(heap.budget == over(heap.limit, heap.used), "a heap's budget is not what its limit leaves");
    }
}

/* ---- Memory. ---- */

/* Notes the object that is asked for, or that was made for it. */
static void note_object(const VkMemoryAllocateInfo *info, VkDeviceMemory made)
{
    const VkMemoryDedicatedAllocateInfo *owner = owner_of(info);
    met *met = refusing_met();
    must(met->objects < MOST_ASKED, "a call asks for too many objects");
    met->types[met->objects] = info->memoryTypeIndex;
    met->made = made;
    met->buffer = owner != NULL ? owner->buffer : VK_NULL_HANDLE;
    met->image = owner != NULL ? owner->image : VK_NULL_HANDLE;
    met->is_chained = chained(info->pNext, VK_STRUCTURE_TYPE_EXPORT_MEMORY_ALLOCATE_INFO) != NULL;
}

/* Notes that an object is not mapped. */
static void note_unmapped(VkDeviceMemory handle, VkResult result)
{
    pthread_mutex_lock(&lock);
    const object held = *object_of(handle);
    pthread_mutex_unlock(&lock);
    if (held.is_for_one && refusing_has_next(result))
        refusing_met()->left_out |= (uint32_t)1 << held.memory_type;
}

static VKAPI_ATTR VkResult VKAPI_CALL allocate_memory(VkDevice device, const VkMemoryAllocateInfo *info,
                                                      const VkAllocationCallbacks *callbacks, VkDeviceMemory *made)
{
    come_in();
    must(callbacks_are_of_program(callbacks), "vkAllocateMemory has other callbacks");
    check_request(info);
    VkResult result = refusing_draw(ALLOCATE_MEMORY);
    if (result == VK_SUCCESS)
        result = vkAllocateMemory(device, info, callbacks, made);
    if (result == VK_SUCCESS)
        keep(info, *made, false);
    note_object(info, result == VK_SUCCESS ? *made : VK_NULL_HANDLE);
    go_out();
    return refusing_noted(ALLOCATE_MEMORY, result);
}

static VKAPI_ATTR void VKAPI_CALL free_memory(VkDevice device, VkDeviceMemory handle,
                                              const VkAllocationCallbacks *callbacks)
{
    come_in();
    must(callbacks_are_of_program(callbacks), "vkFreeMemory has other callbacks");
    forget(handle);
    vkFreeMemory(device, handle, callbacks);
    go_out();
}

static VKAPI_ATTR VkResult VKAPI_CALL map_memory(VkDevice device, VkDeviceMemory handle, VkDeviceSize offset,
                                                 VkDeviceSize size, VkMemoryMapFlags flags, void **host)
{
    come_in();
    VkResult result = refusing_draw(MAP_MEMORY);
    if (result == VK_SUCCESS)
        result = vkMapMemory(device, handle, offset, size, flags, host);
    add_to(&counts.mapped, result == VK_SUCCESS);
    if (result != VK_SUCCESS)
        note_unmapped(handle, result);
    go_out();
    return refusing_noted(MAP_MEMORY, result);
}

static VKAPI_ATTR void VKAPI_CALL unmap_memory(VkDevice device, VkDeviceMemory handle)
{
    come_in();
    add_to(&counts.unmapped, 1);
    vkUnmapMemory(device, handle);
    go_out();
}

/* What passes ranges to the driver, but where they are dropped. */
#define PASSES(name, UPPER, function, counter, is_dropped) \
    static VKAPI_ATTR VkResult VKAPI_CALL name(VkDevice device, uint32_t count, const VkMappedMemoryRange *ranges) \
    { \
        come_in(); \
        VkResult result = refusing_draw(UPPER); \
        if (result == VK_SUCCESS && !(is_dropped)) \
            result = function(device, count, ranges); \
        add_to(&counts.counter, result == VK_SUCCESS ? count : 0); \
        go_out(); \
        return refusing_noted(UPPER, result); \
    }

PASSES(flush_ranges, FLUSH_RANGES, vkFlushMappedMemoryRanges, flushed, set.drops_flushes)
PASSES(invalidate_ranges, INVALIDATE_RANGES, vkInvalidateMappedMemoryRanges, invalidated, false)

/* ---- Buffers and images. ---- */

/* How a sort of resource is created, destroyed and bound. */
#define RESOURCE(Type, lower, UPPER) \
    static VKAPI_ATTR VkResult VKAPI_CALL create_##lower(VkDevice device, const Vk##Type##CreateInfo *info, \
                                                         const VkAllocationCallbacks *callbacks, Vk##Type *made) \
    { \
        must(callbacks_are_of_program(callbacks), "vkCreate" #Type " has other callbacks"); \
        VkResult result = refusing_draw(CREATE_##UPPER); \
        if (result == VK_SUCCESS) \
            result = vkCreate##Type(device, info, callbacks, made); \
        add_to(&counts.lower##s, result == VK_SUCCESS); \
        return refusing_noted(CREATE_##UPPER, result); \
    } \
    static VKAPI_ATTR void VKAPI_CALL destroy_##lower(VkDevice device, Vk##Type destroyed, \
                                                      const VkAllocationCallbacks *callbacks) \
    { \
        must(callbacks_are_of_program(callbacks), "vkDestroy" #Type " has other callbacks"); \
        add_to(&counts.lower##s, UINT64_MAX); \
        vkDestroy##Type(device, destroyed, callbacks); \
    } \
    static VKAPI_ATTR VkResult VKAPI_CALL bind_##lower(VkDevice device, Vk##Type bound, VkDeviceMemory handle, \
                                                       VkDeviceSize offset) \
    { \
        VkResult result = refusing_draw(BIND_##UPPER); \
        if (result == VK_SUCCESS) \
            result = vkBind##Type##Memory(device, bound, handle, offset + (set.is_shifted ? 1 : 0)); \
        return refusing_noted(BIND_##UPPER, result); \
    }

RESOURCE(Buffer, buffer, BUFFER)
RESOURCE(Image, image, IMAGE)

/* ---- Opened. ---- */

/* The driver's own functions are named, not loaded, so that a library that is loaded before the loader stands in. */
const wtv_functions *driver_functions(void)
{
    static const wtv_functions functions = {
        .get_physical_device_properties = get_properties,
        .get_physical_device_memory_properties = get_memory_properties,
        .get_physical_device_properties2 = get_properties2,
        .get_physical_device_memory_properties2 = get_memory_properties2,
        .allocate_memory = allocate_memory,
        .free_memory = free_memory,
        .map_memory = map_memory,
        .unmap_memory = unmap_memory,
        .flush_mapped_memory_ranges = flush_ranges,
        .invalidate_mapped_memory_ranges = invalidate_ranges,
        .create_buffer = create_buffer,
        .destroy_buffer = destroy_buffer,
        .create_image = create_image,
        .destroy_image = destroy_image,
        .get_buffer_memory_requirements = vkGetBufferMemoryRequirements,
        .get_image_memory_requirements = vkGetImageMemoryRequirements,
        .get_buffer_memory_requirements2 = vkGetBufferMemoryRequirements2,
        .get_image_memory_requirements2 = vkGetImageMemoryRequirements2,
        .bind_buffer_memory = bind_buffer,
        .bind_image_memory = bind_image,
    };
    return &functions;
}

void driver_open(const driver_settings *settings)
{
    VkPhysicalDeviceProperties properties;
    set = *settings;
    budgets_random = random_mixed(set.seed);
    get_memory_properties(set.device->physical, &memory);
    get_properties(set.device->physical, &properties);
    max_objects = properties.limits.maxMemoryAllocationCount;
    driver_lifted();
}
