/* Wallthyme over Vulkan, for C (C99 and later) and C++ (C++11 and later): buffers and images with their memory.
 *
 * wallthyme.h decides where each block lies, and that is proved. This side makes the Vulkan calls that those decisions
 * need. It is tested, not proved. It does not link to libvulkan: the program passes in vkGetInstanceProcAddr, or a
 * table of functions. It works with any device, from Vulkan 1.0 on.
 *
 *     wtv_create_info info = {.instance = instance, .physical_device = physical_device, .device = device};
 *     info.get_instance_proc_addr = vkGetInstanceProcAddr;
 *     info.api_version = VK_API_VERSION_1_1;
 *     wtv_create(&info, &allocator);
 *     wtv_create_buffer(allocator, &buffer_info, &request, &buffer, &allocation, NULL);
 *     wtv_write(allocator, allocation, 0, bytes, size);
 *
 * Results. A call returns VK_SUCCESS, or an error, after which nothing has changed. These mean the same everywhere:
 * - VK_ERROR_OUT_OF_HOST_MEMORY, VK_ERROR_OUT_OF_DEVICE_MEMORY, VK_ERROR_MEMORY_MAP_FAILED, VK_ERROR_DEVICE_LOST: as
 *   the driver returned them. VK_ERROR_OUT_OF_DEVICE_MEMORY is also for a request that is larger than the device allows
 *   or than every permitted heap's limit leaves, or that needs an object with WT_HELD_ONLY. VK_ERROR_OUT_OF_HOST_MEMORY
 *   is also for memory that this side or the library lacks. A shared object is mostly larger than the request, and may
 *   be refused while memory is free: see wtv_create_buffer.
 * - VK_ERROR_TOO_MANY_OBJECTS: as many memory objects are held as the device allows.
 * - VK_ERROR_FEATURE_NOT_PRESENT: no permitted memory type serves the usage with the required properties; lazily
 *   allocated or protected memory is asked for; or the resource is sparse or disjoint.
 * - VK_ERROR_VALIDATION_FAILED_EXT: an argument that the call forbids, such as an unknown allocation, a range that ends
 *   past its block, or flags that do not go together.
 * Any other error is the driver's. wtv_create_buffer says which driver errors end a request and which do not.
 *
 * Threads. Calls may come from any thread. Each takes the allocator's lock and keeps it until its request or its free
 * has ended, including the driver's calls for memory objects. Buffers and images are created and bound without it, and
 * bytes are copied without it. WTV_CREATE_NO_LOCK leaves the lock out; the program then makes one call at a time. No
 * other call may run during wtv_destroy. VkAllocationCallbacks must not call the allocator that they serve.
 *
 * Memory. It takes its own memory from malloc. The most blocks and objects ever held at once bound how much.
 *
 * What the host writes and reads. Two rules of Vulkan concern every program:
 * - The host's writes reach the device once they are flushed, where the memory is not coherent, and commands are
 *   submitted after that. wtv_write flushes by itself; after writes through a pointer call wtv_flush.
 * - The device's writes reach the host once a barrier made them available to VK_PIPELINE_STAGE_HOST_BIT with
 *   VK_ACCESS_HOST_READ_BIT, a fence was waited for, and, where the memory is not coherent, the range was invalidated.
 *   wtv_read invalidates by itself; before reads through a pointer call wtv_invalidate.
 * A flush writes whole atoms (nonCoherentAtomSize). Where the device wrote next to the host's bytes in one block,
 * invalidate before the host writes. Blocks of shared objects never share an atom (proved).
 *
 * Sizes and offsets are bytes.
 */
#ifndef WALLTHYME_VULKAN_H
#define WALLTHYME_VULKAN_H

#include "wallthyme.h"
#include <vulkan/vulkan.h>

/* As WT_API. A program that has wallthyme_vulkan.c among its sources and links wallthyme.dll with WT_DLL defines it as
   nothing, and a build of wallthyme-vulkan.dll as what exports. */
#ifndef WTV_API
#define WTV_API WT_API
#endif

#ifdef __cplusplus
extern "C" {
#endif

typedef struct wtv_allocator wtv_allocator;

/* A live block: wt_block.key. 0 is no block. A freed one is refused as unknown, even after its place is used again. */
typedef uint64_t wtv_allocation;

/* The functions that are called. */
typedef struct wtv_functions {
    PFN_vkGetPhysicalDeviceProperties get_physical_device_properties;
    PFN_vkGetPhysicalDeviceMemoryProperties get_physical_device_memory_properties;
    PFN_vkGetPhysicalDeviceProperties2 get_physical_device_properties2;              /* with WTV_CREATE_PROPERTIES2 */
    PFN_vkGetPhysicalDeviceMemoryProperties2 get_physical_device_memory_properties2; /* with WTV_CREATE_PROPERTIES2 */
    PFN_vkAllocateMemory allocate_memory;
    PFN_vkFreeMemory free_memory;
    PFN_vkMapMemory map_memory;
    PFN_vkUnmapMemory unmap_memory;
    PFN_vkFlushMappedMemoryRanges flush_mapped_memory_ranges;
    PFN_vkInvalidateMappedMemoryRanges invalidate_mapped_memory_ranges;
    PFN_vkCreateBuffer create_buffer;
    PFN_vkDestroyBuffer destroy_buffer;
    PFN_vkCreateImage create_image;
    PFN_vkDestroyImage destroy_image;
    PFN_vkGetBufferMemoryRequirements get_buffer_memory_requirements;
    PFN_vkGetImageMemoryRequirements get_image_memory_requirements;
    PFN_vkGetBufferMemoryRequirements2 get_buffer_memory_requirements2; /* with WTV_CREATE_DEDICATED_ALLOCATION */
    PFN_vkGetImageMemoryRequirements2 get_image_memory_requirements2;   /* with WTV_CREATE_DEDICATED_ALLOCATION */
    PFN_vkBindBufferMemory bind_buffer_memory;
    PFN_vkBindImageMemory bind_image_memory;
} wtv_functions;

/* wtv_create_info.flags. The first four say what the program has enabled; api_version 1.1 implies the first two. */
enum {
    WTV_CREATE_PROPERTIES2 = 0x01,           /* VK_KHR_get_physical_device_properties2, of the instance, and
                                                VK_KHR_maintenance3 */
    WTV_CREATE_DEDICATED_ALLOCATION = 0x02,  /* VK_KHR_get_memory_requirements2 and VK_KHR_dedicated_allocation */
    WTV_CREATE_MEMORY_BUDGET = 0x04,         /* VK_EXT_memory_budget; needs properties2 */
    WTV_CREATE_DEVICE_ADDRESS = 0x08,        /* the feature bufferDeviceAddress */
    WTV_CREATE_NO_LOCK = 0x10                /* the program makes one call at a time */
};

/* The parameters of an allocator. Zeros are defaults, except for the three handles and for one of the two ways to the
   functions. */
typedef struct wtv_create_info {
    VkInstance instance;
    VkPhysicalDevice physical_device;
    VkDevice device;
    uint32_t flags;       /* WTV_CREATE_.. */
    uint32_t api_version; /* the lesser of what the instance was created for and what the device offers; 0: 1.0 */
    PFN_vkGetInstanceProcAddr get_instance_proc_addr; /* loads the functions; may be null where the table has all */
    const wtv_functions *functions;         /* each that is not null replaces the loaded one; copied. Or null */
    const VkAllocationCallbacks *callbacks; /* passed to each Vulkan call that takes them; copied. Or null. What the
                                               program makes itself and this side destroys or frees needs compatible
                                               ones: see wtv_destroy_buffer and wtv_import */
    const wt_config *config;                /* null: that of wtv_default_config, with WT_FIT. Any other says by its own
                                               sharing how requests share objects: zero there means WT_BUDDY */
    uint32_t other_objects; /* how many memory objects the program makes itself at most, outside this allocator */
} wtv_create_info;

/* wtv_request.usage, beside WT_USAGE_..: an intent. The resource's own usage and the flags WTV_HOST_ACCESS_.. then
   order the memory types, so intents are for wtv_create_buffer and wtv_create_image alone. Of WT_USAGE_.. only
   WT_USAGE_TRANSIENT and WT_USAGE_DEVICE_ADDRESS may be added. The rules are those of Vulkan Memory Allocator 3:

   host access              required       preferred                    unwanted
   none                     -              DEVICE_LOCAL (1)             else DEVICE_LOCAL
   sequential write         HOST_VISIBLE   DEVICE_LOCAL (2)             HOST_CACHED, else DEVICE_LOCAL
   the same, or a copy (3)  -              DEVICE_LOCAL, HOST_VISIBLE   HOST_CACHED
   random                   HOST_VISIBLE   HOST_CACHED                  -
   the same, or a copy (3)  -              HOST_CACHED, DEVICE_LOCAL    -

   (1) Without PREFER_HOST. (2) Without PREFER_HOST, where the device uses the resource for more than transfers; with
   PREFER_DEVICE, where for transfers alone. (3) With WTV_HOST_ACCESS_ALLOW_TRANSFER_INSTEAD and without PREFER_HOST,
   where the device uses the resource for more than transfers and is not an integrated one.

   The usage in a VkBufferUsageFlags2CreateInfo that is chained to a buffer's create-info counts in place of its own.
   A memory type costs one for each preferred property that it lacks, and one for each unwanted one that it has. The
   cheapest is asked first, and of equal ones that of the lowest index. */
#define WTV_USAGE_AUTO 0x100u
#define WTV_USAGE_AUTO_PREFER_DEVICE 0x200u
#define WTV_USAGE_AUTO_PREFER_HOST 0x400u

/* wtv_request.flags, beside WT_OPTIMAL and WT_HELD_ONLY. */
/* The block is mapped as long as it lives: wtv_block.mapped is its first byte, or null where its memory is not
   host-visible, as may be with an intent without WTV_HOST_ACCESS_.. In a shared object it costs nothing, as such an
   object is mapped anyway; but which block is shared may change with its size. A dedicated object costs a vkMapMemory
   when it is made, and address space as long as it lives. For an access now and then wtv_write, wtv_read or wtv_map are
   enough. wtv_flush and wtv_invalidate are as for others, and wtv_map and wtv_unmap still nest. */
#define WTV_MAPPED 0x10000u
/* Nothing is bound; the program does it, at offset 0 of the block, by wtv_bind_buffer or wtv_bind_image, or by its own
   call at wtv_block.offset of wtv_block.memory. The memory is still made for the resource. */
#define WTV_DONT_BIND 0x20000u
/* With an intent, at most one of these two: the host writes the block in order and never reads it, or it reads, or
   writes anywhere. Without either it promises not to reach it. */
#define WTV_HOST_ACCESS_SEQUENTIAL_WRITE 0x40000u
#define WTV_HOST_ACCESS_RANDOM 0x80000u
/* With one of those two: a copy by the device will do as well. VK_MEMORY_PROPERTY_HOST_VISIBLE_BIT in
   wtv_block.properties says whether the host reaches the block itself. */
#define WTV_HOST_ACCESS_ALLOW_TRANSFER_INSTEAD 0x100000u

/* What memory a resource gets. Zeros are defaults. */
typedef struct wtv_request {
    uint32_t usage;        /* WT_USAGE_.., or an intent; 0 means WT_USAGE_FAST_DEVICE_ACCESS. A buffer whose own usage
                              has the shader device address gets WT_USAGE_DEVICE_ADDRESS by itself */
    uint32_t memory_types; /* bit i permits memory type i; 0 permits all. Types that the requirements exclude,
                              or that the library does not know, are left out */
    uint32_t dedicated;    /* WT_SHARED, WT_PREFERRED or WT_REQUIRED; raised to what the driver asks for */
    uint32_t flags;        /* WTV_..; for wtv_allocate and wtv_allocate_for_image: WT_OPTIMAL for an image whose tiling
                              is not linear. WT_HELD_ONLY: no memory object is made; VK_ERROR_OUT_OF_DEVICE_MEMORY where
                              no held one has a place, so always where the driver requires a dedicated one */
    uint64_t user;         /* the program's own value, kept with the block */
    const void *next;      /* chained to VkMemoryAllocateInfo exactly where the object holds only this block: a
                              priority, an export. It stays the program's. A structure that must be chained needs
                              WT_REQUIRED. Neither VkMemoryDedicatedAllocateInfo nor VkMemoryAllocateFlagsInfo may be in
                              it: this side chains those */
    VkMemoryPropertyFlags required;  /* a memory type without one of these does not serve */
    VkMemoryPropertyFlags preferred; /* types that have more of these are asked first, as with an intent. Of equal ones
                                        the usage's order decides (wtv_candidates) */
    VkDeviceSize min_alignment; /* a power of two that divides wtv_block.offset too; 0: that of the requirements */
} wtv_request;

/* A block. */
typedef struct wtv_block {
    wtv_allocation allocation;
    VkDeviceMemory memory;
    VkDeviceSize offset;   /* in memory */
    VkDeviceSize size;     /* at least asked */
    VkDeviceSize asked;    /* the requested size: bind nothing past these bytes */
    void *mapped;          /* its first byte while it is mapped, otherwise null. A block of a shared host-visible object
                              is mapped as long as it lives */
    const char *name;      /* wtv_set_name; null: it has none. Valid until it gets another name or is freed */
    uint64_t user;
    uint32_t memory_type;
    VkMemoryPropertyFlags properties; /* of its memory type */
    uint32_t flags;        /* WT_OPTIMAL, or 0 */
    uint32_t dedicated;    /* 1 where its memory object holds only this block, 0 where it is shared */
} wtv_block;

/* Bytes of a block. */
typedef struct wtv_range {
    wtv_allocation allocation;
    VkDeviceSize offset; /* from the block's first byte */
    VkDeviceSize size;   /* VK_WHOLE_SIZE: up to its end */
} wtv_range;

/* ---- Allocators. ---- */

/* Creates an allocator. VK_ERROR_OUT_OF_HOST_MEMORY. VK_ERROR_INITIALIZATION_FAILED in any of these cases:
   - instance, physical_device or device is null, or flags has an unknown bit;
   - api_version is neither 0 nor a version of Vulkan, for instance 11 instead of VK_API_VERSION_1_1;
   - a function is missing: get_instance_proc_addr is null, or does not have a function of api_version or of an
     extension in flags. Nothing above 1.1 is loaded: where the driver has 1.1 or more, a version above its own is not
     noticed, and changes nothing;
   - WTV_CREATE_MEMORY_BUDGET is set without properties2;
   - the device's properties are not valid in Vulkan (an atom or a granularity that is not a power of two);
   - config has a sharing that is neither WT_BUDDY nor WT_FIT;
   - header and library have different versions. */
WTV_API VkResult wtv_create(const wtv_create_info *info, wtv_allocator **allocator);

/* Frees all memory objects, and the allocator itself; null does nothing. Where blocks are live it frees nothing, and
   lists them: VK_ERROR_VALIDATION_FAILED_EXT, *count is their number, and live has the first of them, at most room. So
   check its result: the VkDevice must not be destroyed before it succeeds. live may be null where room is 0, and count
   may be null. */
WTV_API VkResult wtv_destroy(wtv_allocator *a, wtv_block *live, size_t room, size_t *count);

/* The configuration of an allocator that is given none. H is the size of the largest device-local heap (of the largest
   heap, where none is device-local). U is H / 1024, rounded down to a power of two, at least 64 KiB and at most 8 MiB.
   Requests share fit chunks (WT_FIT) of U to 4 U. They get objects of their own over U (from U / 8 on where preferred,
   and from 16 U on for transient ones). Free lists' chunks grow from U to 16 U. From 8 GiB on this is
   WT_CONFIG_PROTOTYPING with WT_FIT. With sharing set to WT_BUDDY, there are buddy chunks from U on, with blocks of at
   least 1 KiB, and objects of their own from 4 U on. */
WTV_API void wtv_default_config(const VkPhysicalDeviceMemoryProperties *memory, wt_config *config);

/* ---- Buffers and images. ---- */

/* Creates a buffer, allocates memory for it and binds it. *block is what wtv_block_of returns; block may be null, and
   so may request: it is then all zeros. Two intents, flags WTV_HOST_ACCESS_.. without an intent or together where they
   exclude each other, a min_alignment that is not a power of two, and flags without a name are refused
   (VK_ERROR_VALIDATION_FAILED_EXT).
   Not for sparse buffers (VK_ERROR_FEATURE_NOT_PRESENT), nor for buffers with a flag for capture and replay, such as
   VK_BUFFER_CREATE_DEVICE_ADDRESS_CAPTURE_REPLAY_BIT, which is not checked: their memory needs
   VkMemoryAllocateFlagsInfo with flags that this side does not set. Allocate it yourself, and import it.
   Where the driver refuses an object with VK_ERROR_OUT_OF_DEVICE_MEMORY or VK_ERROR_TOO_MANY_OBJECTS, the next memory
   type is tried. Any other error ends the request. Where no memory type is left, the request is tried once more as with
   WT_REQUIRED, under the same hold of the lock, over the memory types for which no object of its own was refused. So
   every memory type is tried shared before any is tried alone, and each block served that way costs a memory object
   (maxMemoryAllocationCount). Where the second try fails too, for whatever cause, the result is that of the first one.
   There is no second try with WT_REQUIRED or WT_HELD_ONLY.
   With an intent, or preferred properties, each memory type is asked alone, and the second try comes before the next
   type. Where all are refused, the result is that of the first type asked.
   With WTV_MAPPED a refused mapping of a dedicated object counts as a refused object, for that memory type.
   After an error whatever was made is destroyed. Where the bind is refused, the block is freed as by wtv_free: an
   unused chunk of transient blocks, or an unused fit chunk, may stay, or one that was held before may go. */
WTV_API VkResult wtv_create_buffer(wtv_allocator *a, const VkBufferCreateInfo *info, const wtv_request *request,
                                   VkBuffer *buffer, wtv_allocation *allocation, wtv_block *block);

/* The same for an image. Not for sparse or disjoint images (VK_ERROR_FEATURE_NOT_PRESENT). */
WTV_API VkResult wtv_create_image(wtv_allocator *a, const VkImageCreateInfo *info, const wtv_request *request,
                                  VkImage *image, wtv_allocation *allocation, wtv_block *block);

/* Destroys a buffer or an image, and frees its block. The device must be done with it. A null handle with allocation 0
   does nothing. It is destroyed with wtv_create_info.callbacks: where the program created it itself, it did so with
   compatible ones, or with none where those are null (VUID-vkDestroyBuffer-buffer-00923, -00924,
   VUID-vkDestroyImage-image-01001, -01002). VK_ERROR_VALIDATION_FAILED_EXT: the allocation is unknown, and nothing is
   destroyed. */
WTV_API VkResult wtv_destroy_buffer(wtv_allocator *a, VkBuffer buffer, wtv_allocation allocation);
WTV_API VkResult wtv_destroy_image(wtv_allocator *a, VkImage image, wtv_allocation allocation);

/* ---- Blocks. ---- */

/* Allocates a block for given requirements; nothing is bound to it. Errors, and a second try, are as for
   wtv_create_buffer. An intent is refused here and by the two calls below (VK_ERROR_VALIDATION_FAILED_EXT): they see no
   create-info. */
WTV_API VkResult wtv_allocate(wtv_allocator *a, const VkMemoryRequirements *requirements, const wtv_request *request,
                              wtv_allocation *allocation, wtv_block *block);

/* Allocates a block for the program's own buffer or image, and binds it. For an image whose tiling is not linear the
   request has WT_OPTIMAL, and for a buffer whose address is used WT_USAGE_DEVICE_ADDRESS. What cannot be served, and
   which errors end a request, is as for wtv_create_buffer and wtv_create_image, but that no flag of the resource is
   checked. Where the bind is refused, the block is freed as by wtv_free: an unused chunk of transient blocks, or an
   unused fit chunk, may stay, or one that was held before may go. The resource stays the program's. */
WTV_API VkResult wtv_allocate_for_buffer(wtv_allocator *a, VkBuffer buffer, const wtv_request *request,
                                         wtv_allocation *allocation, wtv_block *block);
WTV_API VkResult wtv_allocate_for_image(wtv_allocator *a, VkImage image, const wtv_request *request,
                                        wtv_allocation *allocation, wtv_block *block);

/* Binds a buffer or an image to a block, from offset on. An image whose tiling is not linear needs a block with
   WT_OPTIMAL, and any other resource one without. Several resources may lie in a block, one after the other or at once.
   But an object that was made for one resource (VkMemoryDedicatedAllocateInfo) keeps it, so its block takes no other
   one, and that one at offset 0 (VUID-vkBindBufferMemory-memory-01508, VUID-vkBindImageMemory-memory-02628). The calls
   above that allocate for a resource make such an object where wtv_block.dedicated is 1, with
   WTV_CREATE_DEDICATED_ALLOCATION; wtv_allocate makes none. Whether an imported object is one, only the program knows,
   and nothing checks.
   VK_ERROR_VALIDATION_FAILED_EXT: offset is at or past the end of the requested bytes (wtv_block.asked), or the object
   was made for another resource, or for this one and offset is not 0. Any other error is the driver's. */
WTV_API VkResult wtv_bind_buffer(wtv_allocator *a, wtv_allocation allocation, VkDeviceSize offset, VkBuffer buffer);
WTV_API VkResult wtv_bind_image(wtv_allocator *a, wtv_allocation allocation, VkDeviceSize offset, VkImage image);

/* Frees a block, mapped or not. The device must be done with it, and what was bound to it destroyed. 0 does nothing.
   Its memory object is freed with it where no other block needs it. Of each memory type one unused chunk of transient
   blocks, and one unused fit chunk (WT_FIT), stay until wtv_cleanup. */
WTV_API VkResult wtv_free(wtv_allocator *a, wtv_allocation allocation);

/* Imports a range of the program's own memory object as a block. The object has object_size bytes, is not mapped, and
   belongs to the allocator from then on, which frees it with wtv_create_info.callbacks: the program made it with
   compatible ones, or with none where those are null. On an error it stays the program's. wtv_candidates writes the
   memory types that serve a usage, the best one first, at most 32, and their number. */
WTV_API VkResult wtv_import(wtv_allocator *a, VkDeviceMemory memory, uint32_t memory_type, VkDeviceSize object_size,
                            VkDeviceSize offset, VkDeviceSize size, wtv_allocation *allocation, wtv_block *block);
WTV_API VkResult wtv_candidates(wtv_allocator *a, uint32_t usage, uint32_t memory_type_bits, uint32_t types[32],
                                uint32_t *count);

/* Reports a block. */
WTV_API VkResult wtv_block_of(wtv_allocator *a, wtv_allocation allocation, wtv_block *block);

/* Writes the live blocks, in the order of their places, as many as fit in room. *count is how many it wrote; where that
   is less than room, there are no more. after is 0, or the allocation of the last block that the call before wrote.
   wtv_count says how many are live in all. */
WTV_API VkResult wtv_blocks(wtv_allocator *a, wtv_allocation after, wtv_block *blocks, size_t room, size_t *count);

/* Sets the program's own value of a block. */
WTV_API VkResult wtv_set_user(wtv_allocator *a, wtv_allocation allocation, uint64_t user);

/* Gives a block a name in place of an earlier one: UTF-8 that ends in a 0, copied and kept until the block is freed.
   Null or an empty text takes it away. It is in wtv_block.name, so also in what wtv_destroy lists, and in
   wtv_report_text. VK_ERROR_VALIDATION_FAILED_EXT: the allocation is unknown, or the text is not UTF-8.
   VK_ERROR_OUT_OF_HOST_MEMORY. */
WTV_API VkResult wtv_set_name(wtv_allocator *a, wtv_allocation allocation, const char *name);

/* ---- The host's side. ---- */

/* Maps a block: *bytes is its first byte. Calls nest: each wtv_map needs its wtv_unmap, and the pointer is the same.
   VK_ERROR_MEMORY_MAP_FAILED: the memory is not host-visible, or the driver refused. Unmapping flushes nothing.
   wtv_unmap without its wtv_map is refused (VK_ERROR_VALIDATION_FAILED_EXT), and a block of WTV_MAPPED stays mapped. */
WTV_API VkResult wtv_map(wtv_allocator *a, wtv_allocation allocation, void **bytes);
WTV_API VkResult wtv_unmap(wtv_allocator *a, wtv_allocation allocation);

/* wtv_write copies size bytes into a block, from offset on, and flushes them. wtv_read invalidates them and copies them
   out. The memory must be host-visible: ask for WT_USAGE_UPLOAD, WT_USAGE_DOWNLOAD or WT_USAGE_HOST_ACCESS. With
   WT_USAGE_FAST_DEVICE_ACCESS alone it may not be (VK_ERROR_MEMORY_MAP_FAILED). The block need not be mapped. The bytes
   may lie past those that were requested (wtv_block.asked), up to the block's end. After an error of a flush each byte
   is the old one or the new one. The lock is held once before the bytes are copied, and once after that where something
   is flushed or unmapped then: the block must not be freed until the call has returned. */
WTV_API VkResult wtv_write(wtv_allocator *a, wtv_allocation allocation, VkDeviceSize offset, const void *bytes,
                           size_t size);
WTV_API VkResult wtv_read(wtv_allocator *a, wtv_allocation allocation, VkDeviceSize offset, void *bytes, size_t size);

/* Flushes or invalidates ranges of mapped blocks, in at most one call of the driver, or none where all of their memory
   is coherent. VK_ERROR_VALIDATION_FAILED_EXT: a block is not mapped. */
WTV_API VkResult wtv_flush(wtv_allocator *a, const wtv_range *ranges, size_t count);
WTV_API VkResult wtv_invalidate(wtv_allocator *a, const wtv_range *ranges, size_t count);

/* ---- How much is held. ---- */

/* Reads the budgets of VK_EXT_memory_budget and limits each heap by its own. The limit is heapBudget less what the
   process holds outside this allocator (heapUsage less what the allocator holds, at least 0), at least 0. Call it about
   once a frame. A limit below what is held refuses new objects and frees nothing. VK_ERROR_EXTENSION_NOT_PRESENT:
   without WTV_CREATE_MEMORY_BUDGET, or where the driver fills in no budget, for instance because it lacks the
   extension. */
WTV_API VkResult wtv_update_budget(wtv_allocator *a);

/* wtv_set_heap_limit sets one heap's limit by hand; a value at or above the heap's size removes it. wtv_heap reports
   what is held of a heap, and its limit. */
WTV_API VkResult wtv_set_heap_limit(wtv_allocator *a, uint32_t heap, VkDeviceSize limit);
WTV_API VkResult wtv_heap(wtv_allocator *a, uint32_t heap, wt_heap_counts *counts);

/* How many blocks and objects there are; and the sums of one memory type. */
WTV_API VkResult wtv_count(wtv_allocator *a, wt_counts *counts);
WTV_API VkResult wtv_statistics(wtv_allocator *a, uint32_t memory_type, wt_type_statistics *statistics);

/* All that is held, as JSON that ends in a 0: the sums of each heap and memory type, or a report that also has each
   object, which wallthyme-picture draws. doc/REPORTS.md describes their members. A named block has its name there.
   *text is the program's, which frees it with wtv_free_text. */
WTV_API VkResult wtv_statistics_text(wtv_allocator *a, char **text);
WTV_API VkResult wtv_report_text(wtv_allocator *a, char **text);
WTV_API void wtv_free_text(char *text);

/* Frees the memory objects that no block needs. */
WTV_API VkResult wtv_cleanup(wtv_allocator *a);

/* What a result of these calls means, in a line without a full stop. */
static inline const char *wtv_text(VkResult result) {
    switch (result) {
    case VK_SUCCESS: return "Done";
    case VK_ERROR_OUT_OF_HOST_MEMORY: return "Host memory exhausted";
    case VK_ERROR_OUT_OF_DEVICE_MEMORY: return "Device memory exhausted, or a heap's limit reached";
    case VK_ERROR_INITIALIZATION_FAILED: return "What the allocator is created over is not fit: see wtv_create";
    case VK_ERROR_DEVICE_LOST: return "The device is lost";
    case VK_ERROR_MEMORY_MAP_FAILED: return "The host does not see the memory, or the driver did not map it";
    case VK_ERROR_EXTENSION_NOT_PRESENT: return "VK_EXT_memory_budget is not enabled or not there";
    case VK_ERROR_FEATURE_NOT_PRESENT:
        return "No permitted memory type serves the request, or the resource is sparse or disjoint";
    case VK_ERROR_TOO_MANY_OBJECTS: return "As many memory objects are held as the device allows";
    case VK_ERROR_VALIDATION_FAILED_EXT: return "An argument that the call forbids";
    default: return "An error of the driver";
    }
}

#ifdef __cplusplus
}
#endif
#endif
