#include "device.h"

#include <stdio.h>
#include <stdlib.h>
#include <string.h>

#define LAYER "VK_LAYER_KHRONOS_validation"
#define API_VERSION VK_API_VERSION_1_2
enum { SHOWN_MESSAGES = 5, MOST_LISTED = 64, MOST_EXTENSIONS = 1024 };

/* Other threads may be at work, so nothing is cleaned up. */
void must(bool holds, const char *what)
{
    if (!holds) {
        fprintf(stderr, "vulkan: failed: %s\n", what);
        _Exit(1);
    }
}

static VKAPI_ATTR VkBool32 VKAPI_CALL count_message(VkDebugUtilsMessageSeverityFlagBitsEXT severity,
                                                    VkDebugUtilsMessageTypeFlagsEXT types,
                                                    const VkDebugUtilsMessengerCallbackDataEXT *data, void *messages)
{
    (void)severity;
    (void)types;
    if (__atomic_add_fetch((uint64_t *)messages, 1, __ATOMIC_RELAXED) <= SHOWN_MESSAGES)
        fprintf(stderr, "message: %s\n", data->pMessage);
    return VK_FALSE;
}

static VkDebugUtilsMessengerCreateInfoEXT messenger_of(device *d)
{
    return (VkDebugUtilsMessengerCreateInfoEXT){
        .sType = VK_STRUCTURE_TYPE_DEBUG_UTILS_MESSENGER_CREATE_INFO_EXT,
        .messageSeverity =
            VK_DEBUG_UTILS_MESSAGE_SEVERITY_WARNING_BIT_EXT | VK_DEBUG_UTILS_MESSAGE_SEVERITY_ERROR_BIT_EXT,
        .messageType =
            VK_DEBUG_UTILS_MESSAGE_TYPE_VALIDATION_BIT_EXT | VK_DEBUG_UTILS_MESSAGE_TYPE_PERFORMANCE_BIT_EXT,
        .pfnUserCallback = count_message,
        .pUserData = &d->messages,
    };
}

static bool has_layer(void)
{
    VkLayerProperties layers[MOST_LISTED];
    uint32_t count = MOST_LISTED;
    if (vkEnumerateInstanceLayerProperties(&count, layers) < 0)
        return false;
    for (uint32_t i = 0; i < count; i++)
        if (strcmp(layers[i].layerName, LAYER) == 0)
            return true;
    return false;
}

/* The layer also checks what commands wait for. */
static void open_instance(device *d)
{
    static const char *const layers[] = {LAYER};
    static const char *const extensions[] = {
        VK_EXT_DEBUG_UTILS_EXTENSION_NAME,
        VK_EXT_VALIDATION_FEATURES_EXTENSION_NAME,
    };
    static const VkValidationFeatureEnableEXT checks[] = {
        VK_VALIDATION_FEATURE_ENABLE_SYNCHRONIZATION_VALIDATION_EXT,
    };
    VkDebugUtilsMessengerCreateInfoEXT messenger = messenger_of(d);
    VkValidationFeaturesEXT features = {
        .sType = VK_STRUCTURE_TYPE_VALIDATION_FEATURES_EXT,
        .pNext = &messenger,
        .enabledValidationFeatureCount = 1,
        .pEnabledValidationFeatures = checks,
    };
    VkApplicationInfo program = {
        .sType = VK_STRUCTURE_TYPE_APPLICATION_INFO,
        .pApplicationName = "wallthyme over Vulkan",
        .apiVersion = API_VERSION,
    };
    VkInstanceCreateInfo info = {
        .sType = VK_STRUCTURE_TYPE_INSTANCE_CREATE_INFO,
        .pApplicationInfo = &program,
    };
    d->is_validated = has_layer();
    if (d->is_validated) {
        info.pNext = &features;
        info.enabledLayerCount = 1;
        info.ppEnabledLayerNames = layers;
        info.enabledExtensionCount = 2;
        info.ppEnabledExtensionNames = extensions;
    }
    must(vkCreateInstance(&info, NULL, &d->instance) == VK_SUCCESS, "vkCreateInstance");
}

static void open_messenger(device *d)
{
    VkDebugUtilsMessengerCreateInfoEXT info = messenger_of(d);
    PFN_vkCreateDebugUtilsMessengerEXT create =
        (PFN_vkCreateDebugUtilsMessengerEXT)vkGetInstanceProcAddr(d->instance, "vkCreateDebugUtilsMessengerEXT");
    must(create != NULL, "vkCreateDebugUtilsMessengerEXT is missing");
    must(create(d->instance, &info, NULL, &d->messenger) == VK_SUCCESS, "vkCreateDebugUtilsMessengerEXT");
}

static void close_messenger(device *d)
{
    PFN_vkDestroyDebugUtilsMessengerEXT destroy =
        (PFN_vkDestroyDebugUtilsMessengerEXT)vkGetInstanceProcAddr(d->instance, "vkDestroyDebugUtilsMessengerEXT");
    destroy(d->instance, d->messenger, NULL);
}

static bool has_extension(VkPhysicalDevice physical, const char *name)
{
    static VkExtensionProperties extensions[MOST_EXTENSIONS];
    uint32_t count = MOST_EXTENSIONS;
    if (vkEnumerateDeviceExtensionProperties(physical, NULL, &count, extensions) < 0)
        return false;
    for (uint32_t i = 0; i < count; i++)
        if (strcmp(extensions[i].extensionName, name) == 0)
            return true;
    return false;
}

/* Takes the first device, and looks at what it offers. */
static void find_first(device *d)
{
    VkPhysicalDeviceBufferDeviceAddressFeatures addresses = {
        .sType = VK_STRUCTURE_TYPE_PHYSICAL_DEVICE_BUFFER_DEVICE_ADDRESS_FEATURES,
    };
    VkPhysicalDeviceFeatures2 features = {.sType = VK_STRUCTURE_TYPE_PHYSICAL_DEVICE_FEATURES_2, .pNext = &addresses};
    VkPhysicalDeviceProperties properties;
    uint32_t count = 1;
    VkResult result = vkEnumeratePhysicalDevices(d->instance, &count, &d->physical);
    must(result >= 0 && count == 1, "there is no Vulkan device");
    vkGetPhysicalDeviceProperties(d->physical, &properties);
    must(properties.apiVersion >= VK_API_VERSION_1_1, "the device has no Vulkan 1.1");
    d->api_version = properties.apiVersion < API_VERSION ? properties.apiVersion : API_VERSION;
    d->has_budgets = has_extension(d->physical, VK_EXT_MEMORY_BUDGET_EXTENSION_NAME);
    if (d->api_version >= VK_API_VERSION_1_2) {
        vkGetPhysicalDeviceFeatures2(d->physical, &features);
        d->has_addresses = addresses.bufferDeviceAddress == VK_TRUE;
    }
}

/* A family of queues that copy. */
static uint32_t copying_family(VkPhysicalDevice physical)
{
    VkQueueFamilyProperties families[MOST_LISTED];
    uint32_t count = MOST_LISTED;
    vkGetPhysicalDeviceQueueFamilyProperties(physical, &count, families);
    for (uint32_t i = 0; i < count; i++)
        if (families[i].queueFlags & (VK_QUEUE_GRAPHICS_BIT | VK_QUEUE_COMPUTE_BIT | VK_QUEUE_TRANSFER_BIT))
            return i;
    must(false, "no queue of the device copies");
    return 0;
}

static void open_handle(device *d)
{
    static const char *const extensions[] = {VK_EXT_MEMORY_BUDGET_EXTENSION_NAME};
    VkPhysicalDeviceBufferDeviceAddressFeatures addresses = {
        .sType = VK_STRUCTURE_TYPE_PHYSICAL_DEVICE_BUFFER_DEVICE_ADDRESS_FEATURES,
        .bufferDeviceAddress = VK_TRUE,
    };
    float priority = 1;
    VkDeviceQueueCreateInfo queue = {
        .sType = VK_STRUCTURE_TYPE_DEVICE_QUEUE_CREATE_INFO,
        .queueFamilyIndex = copying_family(d->physical),
        .queueCount = 1,
        .pQueuePriorities = &priority,
    };
    VkDeviceCreateInfo info = {
        .sType = VK_STRUCTURE_TYPE_DEVICE_CREATE_INFO,
        .pNext = d->has_addresses ? &addresses : NULL,
        .queueCreateInfoCount = 1,
        .pQueueCreateInfos = &queue,
        .enabledExtensionCount = d->has_budgets ? 1 : 0,
        .ppEnabledExtensionNames = extensions,
    };
    must(vkCreateDevice(d->physical, &info, NULL, &d->handle) == VK_SUCCESS, "vkCreateDevice");
    d->queue_family = queue.queueFamilyIndex;
    vkGetDeviceQueue(d->handle, d->queue_family, 0, &d->queue);
}

void device_open(device *d)
{
    memset(d, 0, sizeof *d);
    open_instance(d);
    if (d->is_validated)
        open_messenger(d);
    find_first(d);
    open_handle(d);
}

void device_close(device *d)
{
    vkDestroyDevice(d->handle, NULL);
    if (d->is_validated)
        close_messenger(d);
    vkDestroyInstance(d->instance, NULL);
}
