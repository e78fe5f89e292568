/* The names of the Vulkan functions begin with `counting_`, and no other names do: bench/peers leaves them out of what
   callgrind counts. So none of them calls another one. */
#include "device.h"

#include "../must.h"

/* A memory object. */
typedef struct object {
    VkDeviceSize size;
    uint32_t memory_type;
} object;

/* A buffer or an image. */
typedef struct resource {
    device_needs needs;
} resource;

device the_device;

/* Handles are pointers, or numbers of 64 bits. */
#define HANDLE_OF(Handle, pointer) ((Handle)(uintptr_t)(pointer))
#define OBJECT_OF(handle) ((object *)(uintptr_t)(handle))
#define RESOURCE_OF(handle) ((resource *)(uintptr_t)(handle))

VkInstance device_instance(void)
{
    return HANDLE_OF(VkInstance, &the_device);
}

VkPhysicalDevice device_physical(void)
{
    return HANDLE_OF(VkPhysicalDevice, &the_device);
}

VkDevice device_handle(void)
{
    return HANDLE_OF(VkDevice, &the_device);
}

uint64_t device_held(void)
{
    uint64_t bytes = 0;
    for (uint32_t heap = 0; heap < the_device.memory.memoryHeapCount; heap++)
        bytes += the_device.bytes[heap];
    return bytes;
}

/* ---- What it offers. ---- */

static VkPhysicalDeviceProperties offered(void)
{
    return (VkPhysicalDeviceProperties){
        .apiVersion = VK_API_VERSION_1_1,
        .deviceType = VK_PHYSICAL_DEVICE_TYPE_DISCRETE_GPU,
        .limits = {
            .maxMemoryAllocationCount = the_device.most_objects,
            .bufferImageGranularity = the_device.granularity,
            .nonCoherentAtomSize = the_device.atom,
        },
    };
}

static void counting_get_properties(VkPhysicalDevice physical, VkPhysicalDeviceProperties *properties)
{
    (void)physical;
    *properties = offered();
}

/* The largest memory object is the least that Vulkan allows: 1 GiB. */
static void counting_get_properties2(VkPhysicalDevice physical, VkPhysicalDeviceProperties2 *properties)
{
    (void)physical;
    properties->properties = offered();
    for (VkBaseOutStructure *next = properties->pNext; next != NULL; next = next->pNext)
        if (next->sType == VK_STRUCTURE_TYPE_PHYSICAL_DEVICE_MAINTENANCE_3_PROPERTIES)
            ((VkPhysicalDeviceMaintenance3Properties *)next)->maxMemoryAllocationSize = 1 << 30;
}

static void counting_get_memory_properties(VkPhysicalDevice physical, VkPhysicalDeviceMemoryProperties *memory)
{
    (void)physical;
    *memory = the_device.memory;
}

static void counting_get_memory_properties2(VkPhysicalDevice physical, VkPhysicalDeviceMemoryProperties2 *memory)
{
    (void)physical;
    memory->memoryProperties = the_device.memory;
}

/* ---- Memory objects. ---- */

static uint32_t heap_of(uint32_t memory_type)
{
    return the_device.memory.memoryTypes[memory_type].heapIndex;
}

static VkResult counting_allocate_memory(VkDevice handle, const VkMemoryAllocateInfo *info,
                                         const VkAllocationCallbacks *callbacks, VkDeviceMemory *memory)
{
    uint32_t heap = heap_of(info->memoryTypeIndex);
    (void)handle, (void)callbacks;
    the_device.allocations++;
    if (info->allocationSize > the_device.memory.memoryHeaps[heap].size - the_device.bytes[heap])
        return VK_ERROR_OUT_OF_DEVICE_MEMORY;
    if (the_device.objects >= the_device.most_objects)
        return VK_ERROR_TOO_MANY_OBJECTS;
    object *made = malloc(sizeof *made);
    must(made != NULL, "host memory is exhausted");
    *made = (object){info->allocationSize, info->memoryTypeIndex};
    the_device.objects++;
    the_device.bytes[heap] += made->size;
    *memory = HANDLE_OF(VkDeviceMemory, made);
    return VK_SUCCESS;
}

static void counting_free_memory(VkDevice handle, VkDeviceMemory memory, const VkAllocationCallbacks *callbacks)
{
    object *freed = OBJECT_OF(memory);
    (void)handle, (void)callbacks;
    if (freed == NULL)
        return;
    the_device.objects--;
    the_device.bytes[heap_of(freed->memory_type)] -= freed->size;
    free(freed);
}

/* The pointer is for arithmetic alone. */
static VkResult counting_map_memory(VkDevice handle, VkDeviceMemory memory, VkDeviceSize offset, VkDeviceSize size,
                                    VkMemoryMapFlags flags, void **host)
{
    (void)handle, (void)memory, (void)size, (void)flags;
    *host = (void *)(uintptr_t)((UINT64_C(1) << 40) + offset);
    return VK_SUCCESS;
}

static void counting_unmap_memory(VkDevice handle, VkDeviceMemory memory)
{
    (void)handle, (void)memory;
}

static VkResult counting_pass_ranges(VkDevice handle, uint32_t count, const VkMappedMemoryRange *ranges)
{
    (void)handle, (void)count, (void)ranges;
    return VK_SUCCESS;
}

/* ---- Buffers and images. ---- */

static resource *created(void)
{
    resource *made = malloc(sizeof *made);
    must(made != NULL, "host memory is exhausted");
    made->needs = the_device.needs;
    the_device.resources++;
    return made;
}

static void destroyed(resource *gone)
{
    if (gone == NULL)
        return;
    the_device.resources--;
    free(gone);
}

static void report_needs(const resource *of, VkMemoryRequirements2 *needs)
{
    needs->memoryRequirements = of->needs.memory;
    for (VkBaseOutStructure *next = needs->pNext; next != NULL; next = next->pNext)
        if (next->sType == VK_STRUCTURE_TYPE_MEMORY_DEDICATED_REQUIREMENTS) {
            VkMemoryDedicatedRequirements *own = (VkMemoryDedicatedRequirements *)next;
            own->prefersDedicatedAllocation = of->needs.prefers_own;
            own->requiresDedicatedAllocation = of->needs.requires_own;
        }
}

/* An allocator that binds wrongly is not worth measuring. */
static VkResult bound(const resource *it, const object *to, VkDeviceSize offset)
{
    const VkMemoryRequirements *needs = &it->needs.memory;
    must(offset % needs->alignment == 0, "a resource is bound where it is not aligned");
    must(offset <= to->size && needs->size <= to->size - offset, "a resource is bound past its memory object");
    must(needs->memoryTypeBits >> to->memory_type & 1, "a resource is bound to a memory type that it excludes");
    return VK_SUCCESS;
}

static VkResult counting_create_buffer(VkDevice handle, const VkBufferCreateInfo *info,
                                       const VkAllocationCallbacks *callbacks, VkBuffer *buffer)
{
    (void)handle, (void)info, (void)callbacks;
    *buffer = HANDLE_OF(VkBuffer, created());
    return VK_SUCCESS;
}

static void counting_destroy_buffer(VkDevice handle, VkBuffer buffer, const VkAllocationCallbacks *callbacks)
{
    (void)handle, (void)callbacks;
    destroyed(RESOURCE_OF(buffer));
}

static VkResult counting_create_image(VkDevice handle, const VkImageCreateInfo *info,
                                      const VkAllocationCallbacks *callbacks, VkImage *image)
{
    (void)handle, (void)info, (void)callbacks;
    *image = HANDLE_OF(VkImage, created());
    return VK_SUCCESS;
}

static void counting_destroy_image(VkDevice handle, VkImage image, const VkAllocationCallbacks *callbacks)
{
    (void)handle, (void)callbacks;
    destroyed(RESOURCE_OF(image));
}

static void counting_get_buffer_needs(VkDevice handle, VkBuffer buffer, VkMemoryRequirements *needs)
{
    (void)handle;
    *needs = RESOURCE_OF(buffer)->needs.memory;
}

static void counting_get_image_needs(VkDevice handle, VkImage image, VkMemoryRequirements *needs)
{
    (void)handle;
    *needs = RESOURCE_OF(image)->needs.memory;
}

static void counting_get_buffer_needs2(VkDevice handle, const VkBufferMemoryRequirementsInfo2 *of,
                                       VkMemoryRequirements2 *needs)
{
    (void)handle;
    report_needs(RESOURCE_OF(of->buffer), needs);
}

static void counting_get_image_needs2(VkDevice handle, const VkImageMemoryRequirementsInfo2 *of,
                                      VkMemoryRequirements2 *needs)
{
    (void)handle;
    report_needs(RESOURCE_OF(of->image), needs);
}

static VkResult counting_bind_buffer(VkDevice handle, VkBuffer buffer, VkDeviceMemory memory, VkDeviceSize offset)
{
    (void)handle;
    return bound(RESOURCE_OF(buffer), OBJECT_OF(memory), offset);
}

static VkResult counting_bind_image(VkDevice handle, VkImage image, VkDeviceMemory memory, VkDeviceSize offset)
{
    (void)handle;
    return bound(RESOURCE_OF(image), OBJECT_OF(memory), offset);
}

const wtv_functions device_functions = {
    .get_physical_device_properties = counting_get_properties,
    .get_physical_device_memory_properties = counting_get_memory_properties,
    .get_physical_device_properties2 = counting_get_properties2,
    .get_physical_device_memory_properties2 = counting_get_memory_properties2,
    .allocate_memory = counting_allocate_memory,
    .free_memory = counting_free_memory,
    .map_memory = counting_map_memory,
    .unmap_memory = counting_unmap_memory,
    .flush_mapped_memory_ranges = counting_pass_ranges,
    .invalidate_mapped_memory_ranges = counting_pass_ranges,
    .create_buffer = counting_create_buffer,
    .destroy_buffer = counting_destroy_buffer,
    .create_image = counting_create_image,
    .destroy_image = counting_destroy_image,
    .get_buffer_memory_requirements = counting_get_buffer_needs,
    .get_image_memory_requirements = counting_get_image_needs,
    .get_buffer_memory_requirements2 = counting_get_buffer_needs2,
    .get_image_memory_requirements2 = counting_get_image_needs2,
    .bind_buffer_memory = counting_bind_buffer,
    .bind_image_memory = counting_bind_image,
};
