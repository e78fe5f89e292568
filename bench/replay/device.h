/* A Vulkan device that only counts. It has no memory, and grants each memory object for which its heap has bytes. */
#ifndef WALLTHYME_BENCH_DEVICE_H
#define WALLTHYME_BENCH_DEVICE_H

#include "../../c/wallthyme_vulkan.h"

#ifdef __cplusplus
extern "C" {
#endif

/* What a resource needs. */
typedef struct device_needs {
    VkMemoryRequirements memory;
    VkBool32 prefers_own, requires_own; /* a memory object of its own */
} device_needs;

/* The device. What it offers is written before its first call, and needs before each resource is created. The rest it
   counts itself. */
typedef struct device {
    VkPhysicalDeviceMemoryProperties memory;
    VkDeviceSize granularity, atom; /* bufferImageGranularity, nonCoherentAtomSize */
    uint32_t most_objects;          /* maxMemoryAllocationCount */

    device_needs needs; /* of the resource that is created next */

    uint64_t bytes[VK_MAX_MEMORY_HEAPS]; /* that objects hold of each heap now */
    uint64_t objects, resources;         /* that live now */
    uint64_t allocations;                /* calls of vkAllocateMemory, with those that were refused */
} device;

extern device the_device;

/* Its handles, which are never looked into. */
VkInstance device_instance(void);
VkPhysicalDevice device_physical(void);
VkDevice device_handle(void);

/* The bytes that all objects hold. */
uint64_t device_held(void);

/* Its Vulkan functions. */
extern const wtv_functions device_functions;

#ifdef __cplusplus
}
#endif

#endif
