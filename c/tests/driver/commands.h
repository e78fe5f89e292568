/* Commands of one thread: its own pool, command buffer and fence, over the device's one queue. */
#ifndef COMMANDS_H
#define COMMANDS_H

#include "device.h"

typedef struct commands {
    const device *device;
    VkCommandPool pool;
    VkCommandBuffer buffer;
    VkFence fence;
} commands;

void commands_open(commands *c, const device *d);

/* Begins the command buffer; then submits it, and waits until the device is done with it. */
VkCommandBuffer commands_begin(commands *c);
void commands_run(commands *c);

void commands_close(commands *c);

#endif
