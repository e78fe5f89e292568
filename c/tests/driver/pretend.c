/* A device with more memory types than the one that is there, and with caches of the host's.

       LD_PRELOAD=pretend.so vulkan SEED RESOURCES REFUSED_PERCENT THREADS

   It stands between the program and the Vulkan loader. All memory comes from the device's first type, which the host
   has to see. The host's writes to memory that is not coherent reach the device by a flush, and the host sees what the
   device wrote after an invalidate. It reports a large bufferImageGranularity, and hides VK_EXT_memory_budget. Some
   images want an object of their own, and some have to have one. It refuses an object that its heap has no room for.
   It ends the program where an object has a type that may never be asked for, where there are too many objects, where
   an image is in another object than the one that it has to have, and where a range breaks a rule of Vulkan. */
#define _GNU_SOURCE
#include "random.h"
#include <dlfcn.h>
#include <pthread.h>
#include <stdbool.h>
#include <stdio.h>
#include <stdlib.h>
#include <string.h>
#include <vulkan/vulkan.h>

enum { MOST_OBJECTS = 60, ATOM = 256, PAGE = 65536, NEVER_ASKED = 4, PREFERRED_FROM = 8 << 10 };

#define LOCAL VK_MEMORY_PROPERTY_DEVICE_LOCAL_BIT
#define SEEN VK_MEMORY_PROPERTY_HOST_VISIBLE_BIT
#define COHERENT VK_MEMORY_PROPERTY_HOST_COHERENT_BIT
#define CACHED VK_MEMORY_PROPERTY_HOST_CACHED_BIT

/* From NEVER_ASKED on: with a bit that the library does not know, and lazily allocated. */
static const VkMemoryType TYPES[] = {
    {LOCAL, 0},
    {SEEN | CACHED, 1},
    {SEEN | COHERENT, 1},
    {LOCAL | SEEN, 2},
    {LOCAL | SEEN | COHERENT | VK_MEMORY_PROPERTY_DEVICE_COHERENT_BIT_AMD, 2},
    {LOCAL | VK_MEMORY_PROPERTY_LAZILY_ALLOCATED_BIT, 0},
};
static const VkMemoryHeap HEAPS[] = {{5 << 20, VK_MEMORY_HEAP_DEVICE_LOCAL_BIT}, {6 << 20, 0}, {2 << 20, 0}};
enum { TYPES_COUNT = sizeof TYPES / sizeof *TYPES, HEAPS_COUNT = sizeof HEAPS / sizeof *HEAPS };

typedef struct object {
    bool is_there;
    VkDeviceMemory handle; /* null while it is made */
    VkDeviceSize size;
    uint32_t type;
    VkImage image;        /* the object is for this one alone, or null */
    unsigned char *bytes; /* the mapped range, from the first byte on */
    unsigned char *cache; /* what the host sees of it, where it is not coherent */
    VkDeviceSize first, length;
} object;

/* What is below changes under the lock. */
static pthread_mutex_t lock = PTHREAD_MUTEX_INITIALIZER;
static object objects[MOST_OBJECTS];

static void must(bool holds, const char *what)
{
    if (!holds) {
        fprintf(stderr, "pretend: failed: %s\n", what);
        _Exit(1);
    }
}

/* The loader's function of that name. */
#define REAL(name) ((PFN_##name)real_one(#name))

static PFN_vkVoidFunction real_one(const char *name)
{
    void *found = dlsym(RTLD_NEXT, name);
    PFN_vkVoidFunction function;
    must(found != NULL, name);
    memcpy(&function, &found, sizeof found);
    return function;
}

static object *object_of(VkDeviceMemory handle)
{
    for (int i = 0; i < MOST_OBJECTS; i++)
        if (objects[i].is_there && objects[i].handle == handle)
            return &objects[i];
    must(false, "an object that does not exist is named");
    return NULL;
}

static bool is_coherent(const object *held)
{
    return (TYPES[held->type].propertyFlags & COHERENT) != 0;
}

/* The structure of that type in a chain, or null. */
static const void *chained(const void *chain, VkStructureType type)
{
    const VkBaseInStructure *structure = chain;
    while (structure != NULL && structure->sType != type)
        structure = structure->pNext;
    return structure;
}

/* ---- What is reported. ---- */

static void change_limits(VkPhysicalDeviceLimits *reported)
{
    reported->nonCoherentAtomSize = ATOM;
    reported->bufferImageGranularity = PAGE;
    reported->maxMemoryAllocationCount = MOST_OBJECTS;
}

VKAPI_ATTR void VKAPI_CALL vkGetPhysicalDeviceProperties(VkPhysicalDevice physical,
                                                         VkPhysicalDeviceProperties *reported)
{
    REAL(vkGetPhysicalDeviceProperties)(physical, reported);
    change_limits(&reported->limits);
}

VKAPI_ATTR void VKAPI_CALL vkGetPhysicalDeviceProperties2(VkPhysicalDevice physical,
                                                          VkPhysicalDeviceProperties2 *reported)
{
    REAL(vkGetPhysicalDeviceProperties2)(physical, reported);
    change_limits(&reported->properties.limits);
}

VKAPI_ATTR void VKAPI_CALL vkGetPhysicalDeviceMemoryProperties(VkPhysicalDevice physical,
                                                               VkPhysicalDeviceMemoryProperties *reported)
{
    REAL(vkGetPhysicalDeviceMemoryProperties)(physical, reported);
    must((reported->memoryTypes[0].propertyFlags & SEEN) != 0, "the host does not see the first type");
    reported->memoryTypeCount = TYPES_COUNT;
    reported->memoryHeapCount = HEAPS_COUNT;
    memcpy(reported->memoryTypes, TYPES, sizeof TYPES);
    memcpy(reported->memoryHeaps, HEAPS, sizeof HEAPS);
}

/* The real budgets are those of other heaps. */
VKAPI_ATTR VkResult VKAPI_CALL vkEnumerateDeviceExtensionProperties(VkPhysicalDevice physical, const char *layer,
                                                                    uint32_t *count, VkExtensionProperties *reported)
{
    uint32_t kept = 0;
    VkResult result = REAL(vkEnumerateDeviceExtensionProperties)(physical, layer, count, reported);
    if (result != VK_SUCCESS || reported == NULL)
        return result;
    for (uint32_t i = 0; i < *count; i++)
        if (strcmp(reported[i].extensionName, VK_EXT_MEMORY_BUDGET_EXTENSION_NAME) != 0)
            reported[kept++] = reported[i];
    *count = kept;
    return result;
}

static void widen(VkMemoryRequirements *reported)
{
    must((reported->memoryTypeBits & 1) != 0, "a resource is not for the first type");
    reported->memoryTypeBits = (1u << TYPES_COUNT) - 1;
}

VKAPI_ATTR void VKAPI_CALL vkGetBufferMemoryRequirements2(VkDevice device,
                                                          const VkBufferMemoryRequirementsInfo2 *buffer,
                                                          VkMemoryRequirements2 *reported)
{
    REAL(vkGetBufferMemoryRequirements2)(device, buffer, reported);
    widen(&reported->memoryRequirements);
}

/* One of sixteen images. */
static bool has_to_be_alone(VkImage image)
{
    return random_mixed((uint64_t)image) % 16 == 0;
}

VKAPI_ATTR void VKAPI_CALL vkGetImageMemoryRequirements2(VkDevice device, const VkImageMemoryRequirementsInfo2 *image,
                                                         VkMemoryRequirements2 *reported)
{
    REAL(vkGetImageMemoryRequirements2)(device, image, reported);
    widen(&reported->memoryRequirements);
    VkMemoryDedicatedRequirements *own =
        (void *)chained(reported->pNext, VK_STRUCTURE_TYPE_MEMORY_DEDICATED_REQUIREMENTS);
    if (own == NULL)
        return;
    own->requiresDedicatedAllocation = has_to_be_alone(image->image);
    own->prefersDedicatedAllocation =
        own->requiresDedicatedAllocation || reported->memoryRequirements.size >= PREFERRED_FROM;
}

/* ---- Objects. ---- */

VKAPI_ATTR VkResult VKAPI_CALL vkBindImageMemory(VkDevice device, VkImage image, VkDeviceMemory handle,
                                                 VkDeviceSize offset)
{
    pthread_mutex_lock(&lock);
    must(!has_to_be_alone(image) || object_of(handle)->image == image,
         "an image is not in the object that it has to have");
    pthread_mutex_unlock(&lock);
    return REAL(vkBindImageMemory)(device, image, handle, offset);
}

static VkDeviceSize used_of_heap(uint32_t heap)
{
    VkDeviceSize used = 0;
    for (int i = 0; i < MOST_OBJECTS; i++)
        if (objects[i].is_there && TYPES[objects[i].type].heapIndex == heap)
            used += objects[i].size;
    return used;
}

/* A place for an object, which has its bytes of the heap from now on; or null where the heap has no room. */
static object *begun(const VkMemoryAllocateInfo *info)
{
    const VkMemoryDedicatedAllocateInfo *owner =
        chained(info->pNext, VK_STRUCTURE_TYPE_MEMORY_DEDICATED_ALLOCATE_INFO);
    uint32_t type = info->memoryTypeIndex;
    object *place = objects;
    must(type < NEVER_ASKED, "an object of a type that may never be asked for");
    pthread_mutex_lock(&lock);
    while (place < objects + MOST_OBJECTS && place->is_there)
        place++;
    must(place < objects + MOST_OBJECTS, "an object too many");
    uint32_t heap = TYPES[type].heapIndex;
    bool has_room = used_of_heap(heap) + info->allocationSize <= HEAPS[heap].size;
    if (has_room)
        *place = (object){
            .is_there = true,
            .size = info->allocationSize,
            .type = type,
            .image = owner != NULL ? owner->image : VK_NULL_HANDLE,
        };
    pthread_mutex_unlock(&lock);
    return has_room ? place : NULL;
}

VKAPI_ATTR VkResult VKAPI_CALL vkAllocateMemory(VkDevice device, const VkMemoryAllocateInfo *info,
                                                const VkAllocationCallbacks *callbacks, VkDeviceMemory *made)
{
    VkMemoryAllocateInfo first = *info;
    object *place = begun(info);
    if (place == NULL)
        return VK_ERROR_OUT_OF_DEVICE_MEMORY;
    first.memoryTypeIndex = 0;
    VkResult result = REAL(vkAllocateMemory)(device, &first, callbacks, made);
    pthread_mutex_lock(&lock);
    if (result == VK_SUCCESS)
        place->handle = *made;
    else
        place->is_there = false;
    pthread_mutex_unlock(&lock);
    return result;
}

/* Its handle may come back as soon as it is freed, and so it is forgotten before. */
VKAPI_ATTR void VKAPI_CALL vkFreeMemory(VkDevice device, VkDeviceMemory handle, const VkAllocationCallbacks *callbacks)
{
    pthread_mutex_lock(&lock);
    object *freed = object_of(handle);
    free(freed->cache);
    *freed = (object){0};
    pthread_mutex_unlock(&lock);
    REAL(vkFreeMemory)(device, handle, callbacks);
}

/* ---- The host's side. ---- */

static void *seen_by_host(object *mapped, void *bytes, VkDeviceSize first, VkDeviceSize length)
{
    mapped->bytes = bytes;
    mapped->first = first;
    mapped->length = length;
    if (is_coherent(mapped))
        return bytes;
    mapped->cache = malloc(length);
    must(mapped->cache != NULL, "there is no memory for a cache");
    memcpy(mapped->cache, bytes, length);
    return mapped->cache;
}

VKAPI_ATTR VkResult VKAPI_CALL vkMapMemory(VkDevice device, VkDeviceMemory handle, VkDeviceSize offset,
                                           VkDeviceSize size, VkMemoryMapFlags flags, void **host)
{
    void *bytes = NULL;
    pthread_mutex_lock(&lock);
    object *mapped = object_of(handle);
    must((TYPES[mapped->type].propertyFlags & SEEN) != 0, "memory that the host does not see is mapped");
    must(mapped->bytes == NULL, "an object is mapped twice");
    must(offset < mapped->size && size <= mapped->size - offset, "a mapping passes the end of its object");
    VkResult result = REAL(vkMapMemory)(device, handle, offset, size, flags, &bytes);
    if (result == VK_SUCCESS)
        *host = seen_by_host(mapped, bytes, offset, size);
    pthread_mutex_unlock(&lock);
    return result;
}

VKAPI_ATTR void VKAPI_CALL vkUnmapMemory(VkDevice device, VkDeviceMemory handle)
{
    pthread_mutex_lock(&lock);
    object *mapped = object_of(handle);
    must(mapped->bytes != NULL, "an object is unmapped that is not mapped");
    REAL(vkUnmapMemory)(device, handle);
    free(mapped->cache);
    mapped->cache = NULL;
    mapped->bytes = NULL;
    pthread_mutex_unlock(&lock);
}

/* The object of a range that may be flushed or invalidated. */
static object *object_of_range(const VkMappedMemoryRange *range)
{
    object *mapped = object_of(range->memory);
    VkDeviceSize end = range->offset + range->size;
    must(mapped->cache != NULL, "a range of memory that is coherent or not mapped");
    must(range->offset >= mapped->first && end <= mapped->first + mapped->length, "a range that is not mapped");
    must(range->size > 0 && range->offset % ATOM == 0, "a range does not begin on an atom");
    must(end % ATOM == 0 || end == mapped->size, "a range ends neither on an atom nor with its object");
    return mapped;
}

/* Copies each range, from the cache or to it. */
static void copy(uint32_t count, const VkMappedMemoryRange *ranges, bool flushes)
{
    pthread_mutex_lock(&lock);
    for (uint32_t i = 0; i < count; i++) {
        object *mapped = object_of_range(&ranges[i]);
        unsigned char *bytes = mapped->bytes + (ranges[i].offset - mapped->first);
        unsigned char *cache = mapped->cache + (ranges[i].offset - mapped->first);
        memcpy(flushes ? bytes : cache, flushes ? cache : bytes, ranges[i].size);
    }
    pthread_mutex_unlock(&lock);
}

VKAPI_ATTR VkResult VKAPI_CALL vkFlushMappedMemoryRanges(VkDevice device, uint32_t count,
                                                         const VkMappedMemoryRange *ranges)
{
    copy(count, ranges, true);
    return REAL(vkFlushMappedMemoryRanges)(device, count, ranges);
}

VKAPI_ATTR VkResult VKAPI_CALL vkInvalidateMappedMemoryRanges(VkDevice device, uint32_t count,
                                                              const VkMappedMemoryRange *ranges)
{
    copy(count, ranges, false);
    return REAL(vkInvalidateMappedMemoryRanges)(device, count, ranges);
}
