/* The first Vulkan device with a queue, under the validation layer where that is installed. */
#ifndef DEVICE_H
#define DEVICE_H

#include <stdbool.h>
#include <stdint.h>
#include <vulkan/vulkan.h>

#ifdef __cplusplus
extern "C" {
#endif

typedef struct device {
    VkInstance instance;
    VkDebugUtilsMessengerEXT messenger;
    VkPhysicalDevice physical;
    VkDevice handle;
    uint32_t queue_family;
    VkQueue queue;
    uint32_t api_version; /* the lesser of what the instance was created for and what the device offers */
    bool has_addresses;   /* bufferDeviceAddress is enabled */
    bool has_budgets;     /* VK_EXT_memory_budget is enabled */
    bool is_validated;
    uint64_t messages; /* warnings and errors of the layer, counted from any thread */
} device;

/* Ends the program, and says what failed, where a condition does not hold. */
void must(bool holds, const char *what);

/* An open device stays where it is: the layer's messages are counted in it. */
void device_open(device *d);
void device_close(device *d);

#ifdef __cplusplus
}
#endif
#endif
