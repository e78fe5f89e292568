/* The functions that the allocator calls in place of the driver's. They
   - report less than the device has, and budgets where the driver reports none,
   - refuse by drawn errors (refusing.h),
   - keep the memory objects, and end the program where the allocator asks for more than it may hold,
   - end the program where two threads are inside the allocator's lock, or where callbacks are not passed on,
   - plant the faults that a run has to find. */
#ifndef DRIVER_H
#define DRIVER_H

#include "device.h"
#include "wallthyme_vulkan.h"

typedef struct driver_settings {
    const device *device;
    uint64_t seed;            /* of the budgets */
    VkDeviceSize heap_size;   /* what is reported of a heap at most */
    VkDeviceSize granularity; /* what is reported as bufferImageGranularity */
    uint32_t max_objects;     /* what is reported as maxMemoryAllocationCount at most */
    uint32_t other_objects;   /* as in wtv_create_info */
    bool hides_coherence;     /* no memory type is reported as coherent, so that there are ranges to flush */
    bool is_integrated;       /* the device is reported as an integrated one */
    bool is_shifted;          /* planted: each bind is one byte off */
    bool drops_flushes;       /* planted: no flush reaches the driver */
    bool lingers;             /* each call inside the lock lasts, so that another thread comes in */
} driver_settings;

typedef struct driver_counts {
    uint64_t objects_made, objects_freed; /* the program's own ones too */
    uint64_t dedicated;                   /* objects made with VkMemoryDedicatedAllocateInfo */
    uint64_t mapped, unmapped;
    uint64_t flushed, invalidated; /* ranges */
    uint64_t buffers, images;      /* that the allocator created and did not destroy */
    uint64_t limits, limits_below, limits_off; /* by budgets: in all; below what is held; no less than the heap */
} driver_counts;

void driver_open(const driver_settings *settings);

/* All that wtv_functions has. */
const wtv_functions *driver_functions(void);

/* What is reported of the device's memory. */
VkPhysicalDeviceMemoryProperties driver_memory(void);

/* Makes an object of the program's, one at a time in each thread. wtv_import takes it, or it is freed. */
VkResult driver_make(const VkMemoryAllocateInfo *info, VkDeviceMemory *memory);
void driver_imported(VkDeviceMemory memory);
void driver_free(VkDeviceMemory memory);

driver_counts driver_counted(void);

/* Ends the program where the allocator counts other objects, bytes or limits than there are. No other call may be made
   meanwhile. */
void driver_compare(wtv_allocator *allocator);

/* No budget counts any more: the program has lifted the limits. */
void driver_lifted(void);

/* Waits for a while, of less than a second, where the driver lingers. */
void driver_linger(uint32_t milliseconds);

#endif
