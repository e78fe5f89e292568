#include "first_use.h"

#include "wallthyme_vulkan.h"

static const char GREETING[] = "hello block";

void use_first(const device *d)
{
    wtv_allocator *allocator;
    wtv_allocation allocation;
    VkBuffer buffer;

    wtv_create_info created = {.instance = d->instance, .physical_device = d->physical, .device = d->handle,
                               .api_version = d->api_version, .get_instance_proc_addr = vkGetInstanceProcAddr};
    must(wtv_create(&created, &allocator) == VK_SUCCESS, "wtv_create");

    VkBufferCreateInfo info = {.sType = VK_STRUCTURE_TYPE_BUFFER_CREATE_INFO, .size = sizeof GREETING,
                               .usage = VK_BUFFER_USAGE_TRANSFER_SRC_BIT};
    wtv_request request = {.usage = WT_USAGE_UPLOAD};
    must(wtv_create_buffer(allocator, &info, &request, &buffer, &allocation, NULL) == VK_SUCCESS, "wtv_create_buffer");
    must(wtv_write(allocator, allocation, 0, GREETING, sizeof GREETING) == VK_SUCCESS, "wtv_write");

    must(wtv_destroy_buffer(allocator, buffer, allocation) == VK_SUCCESS, "wtv_destroy_buffer"); /* no longer used */
    must(wtv_destroy(allocator, NULL, 0, NULL) == VK_SUCCESS, "wtv_destroy: a block is live");
}
