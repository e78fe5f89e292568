/* The first Vulkan device with a queue that draws, and a command buffer. The validation layer, where it is installed,
   checks each call, synchronisation too. */
#ifndef DEVICE_H
#define DEVICE_H

#include <stdbool.h>
#include <stdint.h>
#include <vulkan/vulkan.h>

#ifdef __cplusplus
extern "C" {
#endif

typedef struct device {
    VkInstance instance;
    VkPhysicalDevice physical;
    VkDevice handle;
    uint32_t api_version; /* the lesser of the instance's and the device's */
    VkQueue queue;
    VkCommandPool pool;
    VkCommandBuffer commands;
    VkDebugUtilsMessengerEXT messenger; /* null without the layer */
    uint32_t messages;                  /* warnings and errors of the layer */
} device;

/* Ends the program with the call's text where its result is not VK_SUCCESS. */
#define MUST(call) must((call), #call)
void must(VkResult result, const char *call);

/* Opens a device. It must stay where it is until device_close: the layer counts its messages there. */
void device_open(device *d);
void device_close(device *d);

/* Begins the command buffer; ends it, submits it, and waits until the device is done with it. */
VkCommandBuffer device_begin(device *d);
void device_run(device *d);

#ifdef __cplusplus
}
#endif
#endif
