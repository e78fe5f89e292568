#include "device.h"

#include <stdio.h>
#include <stdlib.h>

enum { MOST_FAMILIES = 16 };

void must(VkResult result, const char *call)
{
    if (result != VK_SUCCESS) {
        fprintf(stderr, "triangle: VkResult %d of %s\n", (int)result, call);
        exit(1);
    }
}

/* ---- The instance, with the validation layer where it is installed. ---- */

static VKAPI_ATTR VkBool32 VKAPI_CALL count_message(VkDebugUtilsMessageSeverityFlagBitsEXT severity,
                                                    VkDebugUtilsMessageTypeFlagsEXT types,
                                                    const VkDebugUtilsMessengerCallbackDataEXT *data, void *messages)
{
    (void)severity;
    (void)types;
    ++*(uint32_t *)messages;
    fprintf(stderr, "message: %s\n", data->pMessage);
    return VK_FALSE;
}

static VkDebugUtilsMessengerCreateInfoEXT messenger_info(device *d)
{
    return (VkDebugUtilsMessengerCreateInfoEXT){
        .sType = VK_STRUCTURE_TYPE_DEBUG_UTILS_MESSENGER_CREATE_INFO_EXT,
        .messageSeverity =
            VK_DEBUG_UTILS_MESSAGE_SEVERITY_WARNING_BIT_EXT | VK_DEBUG_UTILS_MESSAGE_SEVERITY_ERROR_BIT_EXT,
        .messageType =
            VK_DEBUG_UTILS_MESSAGE_TYPE_VALIDATION_BIT_EXT | VK_DEBUG_UTILS_MESSAGE_TYPE_PERFORMANCE_BIT_EXT,
        .pfnUserCallback = count_message,
        .pUserData = &d->messages,
    };
}

static VkResult create_instance(device *d, bool is_validated)
{
    static const char *const layers[] = {"VK_LAYER_KHRONOS_validation"};
    static const char *const extensions[] = {"VK_EXT_debug_utils", "VK_EXT_validation_features"};
    const VkValidationFeatureEnableEXT check = VK_VALIDATION_FEATURE_ENABLE_SYNCHRONIZATION_VALIDATION_EXT;
    const VkDebugUtilsMessengerCreateInfoEXT messenger = messenger_info(d);
    const VkValidationFeaturesEXT features = {
        .sType = VK_STRUCTURE_TYPE_VALIDATION_FEATURES_EXT,
        .pNext = &messenger,
        .enabledValidationFeatureCount = 1,
        .pEnabledValidationFeatures = &check,
    };
    const VkApplicationInfo program = {
        .sType = VK_STRUCTURE_TYPE_APPLICATION_INFO,
        .apiVersion = VK_API_VERSION_1_1,
    };
    const VkInstanceCreateInfo info = {
        .sType = VK_STRUCTURE_TYPE_INSTANCE_CREATE_INFO,
        .pNext = is_validated ? &features : NULL,
        .pApplicationInfo = &program,
        .enabledLayerCount = is_validated ? 1 : 0,
        .ppEnabledLayerNames = layers,
        .enabledExtensionCount = is_validated ? 2 : 0,
        .ppEnabledExtensionNames = extensions,
    };
    return vkCreateInstance(&info, NULL, &d->instance);
}

static void open_instance(device *d)
{
    const VkDebugUtilsMessengerCreateInfoEXT info = messenger_info(d);
    VkResult result = create_instance(d, true);
    if (result == VK_ERROR_LAYER_NOT_PRESENT) {
        fprintf(stderr, "triangle: runs unchecked, since the validation layer is not installed\n");
        MUST(create_instance(d, false));
        return;
    }
    must(result, "vkCreateInstance");
    PFN_vkCreateDebugUtilsMessengerEXT create =
        (PFN_vkCreateDebugUtilsMessengerEXT)vkGetInstanceProcAddr(d->instance, "vkCreateDebugUtilsMessengerEXT");
    MUST(create(d->instance, &info, NULL, &d->messenger));
}

static void close_instance(device *d)
{
    if (d->messenger != VK_NULL_HANDLE) {
        PFN_vkDestroyDebugUtilsMessengerEXT destroy =
            (PFN_vkDestroyDebugUtilsMessengerEXT)vkGetInstanceProcAddr(d->instance, "vkDestroyDebugUtilsMessengerEXT");
        destroy(d->instance, d->messenger, NULL);
    }
    vkDestroyInstance(d->instance, NULL);
}

/* ---- The device, its queue and commands. ---- */

static void find_physical(device *d)
{
    uint32_t count = 1;
    VkResult result = vkEnumeratePhysicalDevices(d->instance, &count, &d->physical);
    must(result >= 0 && count == 1 ? VK_SUCCESS : VK_ERROR_INITIALIZATION_FAILED, "finding a Vulkan device");
}

static uint32_t drawing_family(VkPhysicalDevice physical)
{
    VkQueueFamilyProperties families[MOST_FAMILIES];
    uint32_t count = MOST_FAMILIES, family = 0;
    vkGetPhysicalDeviceQueueFamilyProperties(physical, &count, families);
    while (family < count && (families[family].queueFlags & VK_QUEUE_GRAPHICS_BIT) == 0)
        family++;
    must(family < count ? VK_SUCCESS : VK_ERROR_FEATURE_NOT_PRESENT, "finding a queue that draws");
    return family;
}

static void open_handle(device *d, uint32_t family)
{
    const float priority = 1;
    const VkDeviceQueueCreateInfo queue = {
        .sType = VK_STRUCTURE_TYPE_DEVICE_QUEUE_CREATE_INFO,
        .queueFamilyIndex = family,
        .queueCount = 1,
        .pQueuePriorities = &priority,
    };
    const VkDeviceCreateInfo info = {
        .sType = VK_STRUCTURE_TYPE_DEVICE_CREATE_INFO,
        .queueCreateInfoCount = 1,
        .pQueueCreateInfos = &queue,
    };
    MUST(vkCreateDevice(d->physical, &info, NULL, &d->handle));
    vkGetDeviceQueue(d->handle, family, 0, &d->queue);
}

static void open_commands(device *d, uint32_t family)
{
    const VkCommandPoolCreateInfo pool = {
        .sType = VK_STRUCTURE_TYPE_COMMAND_POOL_CREATE_INFO,
        .flags = VK_COMMAND_POOL_CREATE_RESET_COMMAND_BUFFER_BIT, /* for a program that records more than once */
        .queueFamilyIndex = family,
    };
    VkCommandBufferAllocateInfo commands = {
        .sType = VK_STRUCTURE_TYPE_COMMAND_BUFFER_ALLOCATE_INFO,
        .level = VK_COMMAND_BUFFER_LEVEL_PRIMARY,
        .commandBufferCount = 1,
    };
    MUST(vkCreateCommandPool(d->handle, &pool, NULL, &d->pool));
    commands.commandPool = d->pool;
    MUST(vkAllocateCommandBuffers(d->handle, &commands, &d->commands));
}

void device_open(device *d)
{
    VkPhysicalDeviceProperties properties;
    *d = (device){.messages = 0};
    open_instance(d);
    find_physical(d);
    vkGetPhysicalDeviceProperties(d->physical, &properties);
    fprintf(stderr, "triangle: on %s\n", properties.deviceName);
    d->api_version = properties.apiVersion < VK_API_VERSION_1_1 ? properties.apiVersion : VK_API_VERSION_1_1;
    uint32_t family = drawing_family(d->physical);
    open_handle(d, family);
    open_commands(d, family);
}

VkCommandBuffer device_begin(device *d)
{
    const VkCommandBufferBeginInfo info = {
        .sType = VK_STRUCTURE_TYPE_COMMAND_BUFFER_BEGIN_INFO,
        .flags = VK_COMMAND_BUFFER_USAGE_ONE_TIME_SUBMIT_BIT,
    };
    MUST(vkBeginCommandBuffer(d->commands, &info));
    return d->commands;
}

void device_run(device *d)
{
    const VkSubmitInfo info = {
        .sType = VK_STRUCTURE_TYPE_SUBMIT_INFO,
        .commandBufferCount = 1,
        .pCommandBuffers = &d->commands,
    };
    MUST(vkEndCommandBuffer(d->commands));
    MUST(vkQueueSubmit(d->queue, 1, &info, VK_NULL_HANDLE));
    MUST(vkQueueWaitIdle(d->queue));
}

void device_close(device *d)
{
    vkDestroyCommandPool(d->handle, d->pool, NULL);
    vkDestroyDevice(d->handle, NULL);
    close_instance(d);
}
