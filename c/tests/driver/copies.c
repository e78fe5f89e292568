/* The device's side of resources. */
#include "resources.h"

/* The layout that an image is copied in: the host sees a linear one in the general layout alone. */
static VkImageLayout layout_to_copy(const resource *r, bool is_source)
{
    if (r->kind == LINEAR_IMAGE)
        return VK_IMAGE_LAYOUT_GENERAL;
    return is_source ? VK_IMAGE_LAYOUT_TRANSFER_SRC_OPTIMAL : VK_IMAGE_LAYOUT_TRANSFER_DST_OPTIMAL;
}

static VkImageMemoryBarrier change_of_layout(const resource *r, VkImageLayout layout)
{
    return (VkImageMemoryBarrier){
        .sType = VK_STRUCTURE_TYPE_IMAGE_MEMORY_BARRIER,
        .srcAccessMask = VK_ACCESS_MEMORY_WRITE_BIT | VK_ACCESS_HOST_WRITE_BIT,
        .dstAccessMask = VK_ACCESS_TRANSFER_READ_BIT | VK_ACCESS_TRANSFER_WRITE_BIT,
        .oldLayout = r->layout,
        .newLayout = layout,
        .srcQueueFamilyIndex = VK_QUEUE_FAMILY_IGNORED,
        .dstQueueFamilyIndex = VK_QUEUE_FAMILY_IGNORED,
        .image = r->image,
        .subresourceRange = {VK_IMAGE_ASPECT_COLOR_BIT, 0, 1, 0, 1},
    };
}

/* The copy sees what was written before, by the host or in other commands. Images come to their layout. */
static void wait_for_writes(VkCommandBuffer commands, resource *from, resource *to)
{
    resource *const both[] = {from, to};
    VkMemoryBarrier writes = {
        .sType = VK_STRUCTURE_TYPE_MEMORY_BARRIER,
        .srcAccessMask = VK_ACCESS_MEMORY_WRITE_BIT | VK_ACCESS_HOST_WRITE_BIT,
        .dstAccessMask = VK_ACCESS_TRANSFER_READ_BIT | VK_ACCESS_TRANSFER_WRITE_BIT,
    };
    VkImageMemoryBarrier changes[2];
    uint32_t count = 0;
    for (int i = 0; i < 2; i++) {
        VkImageLayout layout = layout_to_copy(both[i], both[i] == from);
        if (both[i]->kind == BUFFER || both[i]->layout == layout)
            continue;
        changes[count++] = change_of_layout(both[i], layout);
        both[i]->layout = layout;
    }
    vkCmdPipelineBarrier(commands, VK_PIPELINE_STAGE_ALL_COMMANDS_BIT | VK_PIPELINE_STAGE_HOST_BIT,
                         VK_PIPELINE_STAGE_TRANSFER_BIT, 0, 1, &writes, 0, NULL, count, changes);
}

/* The host sees what the copy wrote, once the fence was waited for. */
static void show_to_host(VkCommandBuffer commands)
{
    VkMemoryBarrier copied = {
        .sType = VK_STRUCTURE_TYPE_MEMORY_BARRIER,
        .srcAccessMask = VK_ACCESS_TRANSFER_WRITE_BIT,
        .dstAccessMask = VK_ACCESS_HOST_READ_BIT | VK_ACCESS_HOST_WRITE_BIT,
    };
    vkCmdPipelineBarrier(commands, VK_PIPELINE_STAGE_TRANSFER_BIT, VK_PIPELINE_STAGE_HOST_BIT, 0, 1, &copied, 0, NULL,
                         0, NULL);
}

static void record_copy(VkCommandBuffer commands, const resource *from, const resource *to)
{
    const content *bytes = &from->content;
    const VkImageSubresourceLayers level = {VK_IMAGE_ASPECT_COLOR_BIT, 0, 0, 1};
    const VkExtent3D extent = {bytes->width, bytes->height, 1};
    const VkBufferCopy plain = {.size = bytes->length};
    const VkBufferImageCopy rows = {.imageSubresource = level, .imageExtent = extent};
    const VkImageCopy whole = {.srcSubresource = level, .dstSubresource = level, .extent = extent};
    if (from->kind == BUFFER && to->kind == BUFFER)
        vkCmdCopyBuffer(commands, from->buffer, to->buffer, 1, &plain);
    else if (from->kind == BUFFER)
        vkCmdCopyBufferToImage(commands, from->buffer, to->image, to->layout, 1, &rows);
    else if (to->kind == BUFFER)
        vkCmdCopyImageToBuffer(commands, from->image, from->layout, to->buffer, 1, &rows);
    else
        vkCmdCopyImage(commands, from->image, from->layout, to->image, to->layout, 1, &whole);
}

void resource_copy(worker *w, resource *from, resource *to)
{
    VkCommandBuffer commands = commands_begin(&w->commands);
    wait_for_writes(commands, from, to);
    record_copy(commands, from, to);
    show_to_host(commands);
    commands_run(&w->commands);
    to->content = from->content;
    w->tally.copies++;
}
