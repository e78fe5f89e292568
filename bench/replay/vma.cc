// Vulkan Memory Allocator, 2.3 and later. The way is how many MiB a block has at most that several resources share: 256
// by its own choice. VMA_HEADER is its header's name, and bench/peers compiles what is in it on its own. Its flag for
// programs that make one call at a time leaves a lock, of its pool of allocations: some 100 instructions a pair.
#include VMA_HEADER

#include "../must.h"
#include "side.h"

static VmaAllocator allocator;

static VmaVulkanFunctions functions()
{
    VmaVulkanFunctions called = {};
    called.vkGetPhysicalDeviceProperties = device_functions.get_physical_device_properties;
    called.vkGetPhysicalDeviceMemoryProperties = device_functions.get_physical_device_memory_properties;
    called.vkGetPhysicalDeviceMemoryProperties2KHR = device_functions.get_physical_device_memory_properties2;
    called.vkAllocateMemory = device_functions.allocate_memory;
    called.vkFreeMemory = device_functions.free_memory;
    called.vkMapMemory = device_functions.map_memory;
    called.vkUnmapMemory = device_functions.unmap_memory;
    called.vkFlushMappedMemoryRanges = device_functions.flush_mapped_memory_ranges;
    called.vkInvalidateMappedMemoryRanges = device_functions.invalidate_mapped_memory_ranges;
    called.vkCreateBuffer = device_functions.create_buffer;
    called.vkDestroyBuffer = device_functions.destroy_buffer;
    called.vkCreateImage = device_functions.create_image;
    called.vkDestroyImage = device_functions.destroy_image;
    called.vkGetBufferMemoryRequirements = device_functions.get_buffer_memory_requirements;
    called.vkGetImageMemoryRequirements = device_functions.get_image_memory_requirements;
    called.vkGetBufferMemoryRequirements2KHR = device_functions.get_buffer_memory_requirements2;
    called.vkGetImageMemoryRequirements2KHR = device_functions.get_image_memory_requirements2;
    called.vkBindBufferMemory = device_functions.bind_buffer_memory;
    called.vkBindImageMemory = device_functions.bind_image_memory;
    return called;
}

void side_open(const char *way)
{
    const VmaVulkanFunctions called = functions();
    VmaAllocatorCreateInfo info = {};
    info.flags = VMA_ALLOCATOR_CREATE_EXTERNALLY_SYNCHRONIZED_BIT;
#ifdef VMA_BUFFER_DEVICE_ADDRESS // not in 2.3, which makes no objects for it
    info.flags |= VMA_ALLOCATOR_CREATE_BUFFER_DEVICE_ADDRESS_BIT;
#endif
    info.instance = device_instance();
    info.physicalDevice = device_physical();
    info.device = device_handle();
    info.vulkanApiVersion = VK_API_VERSION_1_1;
    info.pVulkanFunctions = &called;
    info.preferredLargeHeapBlockSize = std::strtoull(way, nullptr, 10) << 20;
    must(info.preferredLargeHeapBlockSize > 0, "the way is a number of MiB");
    must(vmaCreateAllocator(&info, &allocator) == VK_SUCCESS, "vmaCreateAllocator");
}

side_resource side_create(const side_wish *wish)
{
    VmaAllocationCreateInfo request = {};
    VmaAllocation allocation;
    side_resource made = {};
    request.memoryTypeBits = wish->memory_types;
    VkResult result = wish->buffer != nullptr
        ? vmaCreateBuffer(allocator, wish->buffer, &request, &made.buffer, &allocation, nullptr)
        : vmaCreateImage(allocator, wish->image, &request, &made.image, &allocation, nullptr);
    must(result == VK_SUCCESS, wtv_text(result));
    made.allocation = reinterpret_cast<uintptr_t>(allocation);
    return made;
}

void side_destroy(const side_resource *resource)
{
    VmaAllocation allocation = reinterpret_cast<VmaAllocation>(static_cast<uintptr_t>(resource->allocation));
    if (resource->buffer != VK_NULL_HANDLE)
        vmaDestroyBuffer(allocator, resource->buffer, allocation);
    else
        vmaDestroyImage(allocator, resource->image, allocation);
}

void side_close()
{
    vmaDestroyAllocator(allocator);
}
