/* A stub of a Vulkan driver for tests, whose memory objects are bytes of malloc's. It checks what Vulkan demands of a
 * program, and what the allocator promises beside that. It prints and counts each failure, and goes on.
 *
 * It is a shared object: the tests in C and C++ link it, and those of the Rust crate load it, which have the structs
 * below once more (rust/src/vulkan/tests/driver.rs).
 *
 * It refuses calls by chance or as planned. What the host writes to memory that is not coherent reaches the device by a
 * flush alone, and what the device writes there reaches the host by an invalidate alone.
 *
 * Calls may come from any thread where Vulkan permits that. What the program has to order, as calls with one memory
 * object, has no lock here: the thread sanitizer sees where it is not ordered. */
#ifndef STUB_H
#define STUB_H

#include "wallthyme_vulkan.h"

#include <stdbool.h>
#include <stdio.h>
#include <stdlib.h>

#define LENGTH(array) (sizeof(array) / sizeof((array)[0]))

/* ---- What the tests share. ---- */

/* Ends the program where something does not hold. */
#define must(holds, what) must_at(holds, what, __FILE__, __LINE__)

static inline void must_at(bool holds, const char *what, const char *file, int line)
{
    if (!holds) {
        fprintf(stderr, "FAILED: %s (%s:%d)\n", what, file, line);
        exit(1);
    }
}

/* Spreads a number over 64 bits (splitmix64). */
static inline uint64_t mixed(uint64_t number)
{
    number += 0x9e3779b97f4a7c15u;
    number = (number ^ (number >> 30)) * 0xbf58476d1ce4e5b9u;
    number = (number ^ (number >> 27)) * 0x94d049bb133111ebu;
    return number ^ (number >> 31);
}

/* A drawn number below the bound, the same for the same state. */
static inline uint64_t draw(uint64_t *state, uint64_t bound)
{
    *state += 1;
    return (mixed(*state) >> 16) % bound;
}

/* ---- The device. ---- */

enum {
    STUB_LOCAL,         /* the host does not see it */
    STUB_CACHED,        /* not coherent */
    STUB_COHERENT,
    STUB_LOCAL_VISIBLE, /* device-local, and not coherent */
    STUB_SERVING,       /* the types from here on must never be asked for */
    STUB_UNKNOWN = STUB_SERVING, /* with a property that the library does not know */
    STUB_LAZY,
    STUB_PROTECTED,
    STUB_TYPES
};
enum { STUB_LOCAL_HEAP, STUB_HOST_HEAP, STUB_VISIBLE_HEAP, STUB_HEAPS };
enum { STUB_ALL_TYPES = (1 << STUB_TYPES) - 1 };

extern const VkMemoryType stub_types[STUB_TYPES];
extern const VkMemoryHeap stub_heaps[STUB_HEAPS];

/* The functions, in the order of wtv_functions. */
typedef enum stub_function {
    STUB_PROPERTIES,
    STUB_MEMORY_PROPERTIES,
    STUB_PROPERTIES2,
    STUB_MEMORY_PROPERTIES2,
    STUB_ALLOCATE,
    STUB_FREE,
    STUB_MAP,
    STUB_UNMAP,
    STUB_FLUSH,
    STUB_INVALIDATE,
    STUB_CREATE_BUFFER,
    STUB_DESTROY_BUFFER,
    STUB_CREATE_IMAGE,
    STUB_DESTROY_IMAGE,
    STUB_BUFFER_NEEDS,
    STUB_IMAGE_NEEDS,
    STUB_BUFFER_NEEDS2,
    STUB_IMAGE_NEEDS2,
    STUB_BIND_BUFFER,
    STUB_BIND_IMAGE,
    STUB_FUNCTIONS,
    STUB_ANY /* each that can fail */
} stub_function;

/* A driver, and the device that was created over it. */
typedef struct stub stub;

typedef struct stub_plan {
    uint64_t seed;
    uint32_t percent;     /* how many of a hundred calls that can fail are refused */
    uint32_t flags;       /* WTV_CREATE_..: what is enabled */
    uint32_t api_version; /* 0: 1.0 */
    uint32_t max_objects; /* maxMemoryAllocationCount */
    VkDeviceSize atom, page, largest; /* nonCoherentAtomSize, bufferImageGranularity, maxMemoryAllocationSize */
    VkDeviceSize granted;             /* larger objects are refused for want of device memory */
    const VkMemoryType *types;
    const VkMemoryHeap *heaps;
    uint32_t types_count, heaps_count; /* at most VK_MAX_MEMORY_TYPES and STUB_HEAPS */
    VkDeviceSize alignment; /* of each resource, which needs as many bytes as it has. 0: what it needs is drawn */
    uint32_t permitted;     /* with an alignment: the memory types of each resource, */
    VkBool32 prefers_own, requires_own; /* and whether it wants an object of its own */
    const VkAllocationCallbacks *callbacks; /* what each call that takes them has to be given, or null */
    void (*called)(void *user, const char *name); /* hears of each call; or null */
    void (*passed)(void *user, uint32_t count, const VkMappedMemoryRange *ranges); /* of each flush and invalidate */
    void *user;         /* what those two get, and the third one below */
    bool draws_budgets; /* a new budget each time that it is read */
    bool is_quiet;      /* failures are counted, and not printed */
    VkPhysicalDeviceType device_type;
    void (*asked)(void *user, uint32_t memory_type, VkDeviceSize size); /* hears of each object that is asked for */
} stub_plan;

/* A device with the usual limits, which refuses nothing. */
stub_plan stub_usual_plan(void);

stub *stub_open(const stub_plan *plan);

/* What was planned, which may be changed while no call is under way: but for callbacks and heaps. */
stub_plan *stub_plan_of(stub *s);

/* How many failures there were, with those of what is not freed. The driver is gone then. */
uint64_t stub_close(stub *s);

/* What a program creates an allocator with: handles, flags, version and callbacks. The functions are to be loaded. */
wtv_create_info stub_info(stub *s);

/* All functions. Those of extensions stand there too where nothing is enabled. */
extern const wtv_functions stub_table;
VKAPI_ATTR PFN_vkVoidFunction VKAPI_CALL stub_get_instance_proc_addr(VkInstance instance, const char *name);

/* Loading does not find this function from now on, and finds all others; STUB_FUNCTIONS: vkGetDeviceProcAddr. */
void stub_hide(stub *s, stub_function hidden);

/* ---- Refusals. ---- */

/* After skip more calls of the function the next one is refused with this result, and each one after it where is_each.
   One function at a time, or STUB_ANY; STUB_FUNCTIONS ends it. */
void stub_refuse(stub *s, stub_function refused, VkResult result, uint64_t skip, bool is_each);

/* What a function may return beside VK_SUCCESS: ends in VK_SUCCESS. A function that cannot fail has none. */
const VkResult *stub_errors_of(stub_function called);

uint64_t stub_calls(const stub *s, stub_function called);
uint64_t stub_calls_of_thread(stub_function called); /* of all drivers */

extern const char *const stub_names[STUB_FUNCTIONS];

/* How often a function was refused, or refused with the error of that number in stub_errors_of. */
uint64_t stub_refusals(const stub *s, stub_function called);
uint64_t stub_refusals_with(const stub *s, stub_function called, size_t error);

uint64_t stub_failures(const stub *s);

/* What was wrong first, or null. */
const char *stub_first_failure(const stub *s);

/* ---- What is held, and how much may be. ---- */

typedef struct stub_held {
    uint64_t objects, mapped, buffers, images, bound;
    uint64_t bytes[STUB_HEAPS];
} stub_held;

stub_held stub_held_now(stub *s);

/* The budget of a heap that is read next, and what others hold of the heap. */
void stub_set_budget(stub *s, uint32_t heap, VkDeviceSize budget, VkDeviceSize beside);

/* The allocator may hold no more of a heap. */
void stub_set_limit(stub *s, uint32_t heap, VkDeviceSize limit);

/* How often a budget was below what was held. */
uint64_t stub_budgets_below(const stub *s);

/* ---- What the program and the device do. ---- */

/* A memory object that the program makes itself, or null. It is refused by no chance, and no limit counts it. */
VkDeviceMemory stub_make_object(stub *s, uint32_t memory_type, VkDeviceSize size);

/* The device's view of a memory object, or of what is bound: the first byte, or null. */
unsigned char *stub_memory_bytes(stub *s, VkDeviceMemory memory, VkDeviceSize offset, VkDeviceSize size);
unsigned char *stub_buffer_bytes(stub *s, VkBuffer buffer);
unsigned char *stub_image_bytes(stub *s, VkImage image);

/* What the driver demands for a resource, and whether that is an object of its own. */
VkMemoryRequirements stub_needs_of_buffer(stub *s, VkBuffer buffer);
VkMemoryRequirements stub_needs_of_image(stub *s, VkImage image, bool *requires_own);

typedef struct stub_object {
    VkDeviceSize size;
    uint64_t owner; /* the handle of the one resource that it is for, or 0 */
    float priority; /* that it was made with, or -1 */
    bool is_mapped, has_address;
} stub_object;

stub_object stub_object_of(stub *s, VkDeviceMemory memory);

/* The sizes of the structs that are handed over, for those who have them once more: of stub_plan, wtv_create_info,
   stub_held and stub_object. */
extern const size_t stub_sizes[4];

/* ---- What a program hands over. ---- */

/* Callbacks that count the pieces of memory that were taken by them, and those that were given back. */
extern const VkAllocationCallbacks stub_callbacks;
extern uint64_t stub_pieces_taken, stub_pieces_given;

/* VkBufferUsageFlags2CreateInfo, which older headers lack, and its sType. */
typedef struct stub_usage_flags2 {
    VkStructureType type;
    const void *next;
    uint64_t usage;
} stub_usage_flags2;
#define STUB_USAGE_FLAGS2 ((VkStructureType)1000470006)

/* Infos with their usual fields. */

VkBufferCreateInfo stub_buffer_info(VkDeviceSize size);
/* An image of width * height texels of 4 bytes, and tiled or linear. */
VkImageCreateInfo stub_image_info(uint32_t width, uint32_t height, bool is_optimal);

#endif
