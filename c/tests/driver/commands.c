#include "commands.h"

#include <pthread.h>

static pthread_mutex_t queue_lock = PTHREAD_MUTEX_INITIALIZER;

void commands_open(commands *c, const device *d)
{
    VkCommandPoolCreateInfo pool = {
        .sType = VK_STRUCTURE_TYPE_COMMAND_POOL_CREATE_INFO,
        .flags = VK_COMMAND_POOL_CREATE_RESET_COMMAND_BUFFER_BIT,
        .queueFamilyIndex = d->queue_family,
    };
    VkCommandBufferAllocateInfo buffer = {
        .sType = VK_STRUCTURE_TYPE_COMMAND_BUFFER_ALLOCATE_INFO,
        .level = VK_COMMAND_BUFFER_LEVEL_PRIMARY,
        .commandBufferCount = 1,
    };
    VkFenceCreateInfo fence = {.sType = VK_STRUCTURE_TYPE_FENCE_CREATE_INFO};
    c->device = d;
    must(vkCreateCommandPool(d->handle, &pool, NULL, &c->pool) == VK_SUCCESS, "vkCreateCommandPool");
    buffer.commandPool = c->pool;
    must(vkAllocateCommandBuffers(d->handle, &buffer, &c->buffer) == VK_SUCCESS, "vkAllocateCommandBuffers");
    must(vkCreateFence(d->handle, &fence, NULL, &c->fence) == VK_SUCCESS, "vkCreateFence");
}

VkCommandBuffer commands_begin(commands *c)
{
    VkCommandBufferBeginInfo info = {
        .sType = VK_STRUCTURE_TYPE_COMMAND_BUFFER_BEGIN_INFO,
        .flags = VK_COMMAND_BUFFER_USAGE_ONE_TIME_SUBMIT_BIT,
    };
    must(vkBeginCommandBuffer(c->buffer, &info) == VK_SUCCESS, "vkBeginCommandBuffer");
    return c->buffer;
}

void commands_run(commands *c)
{
    VkDevice handle = c->device->handle;
    VkSubmitInfo info = {
        .sType = VK_STRUCTURE_TYPE_SUBMIT_INFO,
        .commandBufferCount = 1,
        .pCommandBuffers = &c->buffer,
    };
    must(vkEndCommandBuffer(c->buffer) == VK_SUCCESS, "vkEndCommandBuffer");
    pthread_mutex_lock(&queue_lock);
    VkResult result = vkQueueSubmit(c->device->queue, 1, &info, c->fence);
    pthread_mutex_unlock(&queue_lock);
    must(result == VK_SUCCESS, "vkQueueSubmit");
    must(vkWaitForFences(handle, 1, &c->fence, VK_TRUE, UINT64_MAX) == VK_SUCCESS, "vkWaitForFences");
    must(vkResetFences(handle, 1, &c->fence) == VK_SUCCESS, "vkResetFences");
}

void commands_close(commands *c)
{
    vkDestroyFence(c->device->handle, c->fence, NULL);
    vkDestroyCommandPool(c->device->handle, c->pool, NULL);
}
