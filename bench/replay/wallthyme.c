/* Wallthyme's Vulkan side. The ways: `fit` and `buddy` have the sizes of wtv_default_config, and say how requests share
   objects; `potato` is WT_CONFIG_POTATO. */
#include "../must.h"
#include "side.h"

#include <string.h>

static wtv_allocator *allocator;

static wt_config config_of(const char *way)
{
    static const wt_config potato = WT_CONFIG_POTATO;
    wt_config config;
    if (strcmp(way, "potato") == 0)
        return potato;
    must(strcmp(way, "fit") == 0 || strcmp(way, "buddy") == 0, "the way is fit, buddy or potato");
    wtv_default_config(&the_device.memory, &config);
    config.sharing = strcmp(way, "fit") == 0 ? WT_FIT : WT_BUDDY;
    return config;
}

void side_open(const char *way)
{
    const wt_config config = config_of(way);
    const wtv_create_info info = {
        .instance = device_instance(),
        .physical_device = device_physical(),
        .device = device_handle(),
        .flags = WTV_CREATE_NO_LOCK | WTV_CREATE_DEVICE_ADDRESS,
        .api_version = VK_API_VERSION_1_1,
        .functions = &device_functions,
        .config = &config,
    };
    must(wtv_create(&info, &allocator) == VK_SUCCESS, "wtv_create");
}

side_resource side_create(const side_wish *wish)
{
    const wtv_request request = {.memory_types = wish->memory_types};
    side_resource made = {.allocation = 0};
    VkResult result = wish->buffer != NULL
        ? wtv_create_buffer(allocator, wish->buffer, &request, &made.buffer, &made.allocation, NULL)
        : wtv_create_image(allocator, wish->image, &request, &made.image, &made.allocation, NULL);
    must(result == VK_SUCCESS, wtv_text(result));
    return made;
}

void side_destroy(const side_resource *resource)
{
    VkResult result = resource->buffer != VK_NULL_HANDLE
        ? wtv_destroy_buffer(allocator, resource->buffer, resource->allocation)
        : wtv_destroy_image(allocator, resource->image, resource->allocation);
    must(result == VK_SUCCESS, wtv_text(result));
}

void side_close(void)
{
    must(wtv_destroy(allocator, NULL, 0, NULL) == VK_SUCCESS, "wtv_destroy");
}
