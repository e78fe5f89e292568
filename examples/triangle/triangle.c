#include "triangle.h"

#include "pipeline.h"

#include <string.h>

const vertex VERTICES[3] = {
    {{0.0f, -0.8f}, {0.5f, 0.0f}},
    {{0.8f, 0.8f}, {1.0f, 1.0f}},
    {{-0.8f, 0.8f}, {0.0f, 1.0f}},
};

void fill_checkerboard(unsigned char texels[TEXTURE_BYTES])
{
    static const unsigned char colours[2][TEXEL] = {{235, 160, 60, 255}, {40, 90, 160, 255}};
    for (unsigned y = 0; y < TEXTURE_SIDE; y++)
        for (unsigned x = 0; x < TEXTURE_SIDE; x++, texels += TEXEL)
            memcpy(texels, colours[(x / FIELD_SIDE + y / FIELD_SIDE) % 2], TEXEL);
}

VkBufferCreateInfo buffer_info(VkDeviceSize size, VkBufferUsageFlags usage)
{
    return (VkBufferCreateInfo){.sType = VK_STRUCTURE_TYPE_BUFFER_CREATE_INFO, .size = size, .usage = usage};
}

VkImageCreateInfo image_info(uint32_t side, VkImageUsageFlags usage)
{
    return (VkImageCreateInfo){
        .sType = VK_STRUCTURE_TYPE_IMAGE_CREATE_INFO,
        .imageType = VK_IMAGE_TYPE_2D,
        .format = VK_FORMAT_R8G8B8A8_UNORM,
        .extent = {side, side, 1},
        .mipLevels = 1,
        .arrayLayers = 1,
        .samples = VK_SAMPLE_COUNT_1_BIT,
        .tiling = VK_IMAGE_TILING_OPTIMAL,
        .usage = usage,
    };
}

/* ---- The commands. ---- */

static VkImageMemoryBarrier to_layout(VkImage image, VkImageLayout from, VkImageLayout to, VkAccessFlags before,
                                      VkAccessFlags after)
{
    return (VkImageMemoryBarrier){
        .sType = VK_STRUCTURE_TYPE_IMAGE_MEMORY_BARRIER,
        .srcAccessMask = before,
        .dstAccessMask = after,
        .oldLayout = from,
        .newLayout = to,
        .srcQueueFamilyIndex = VK_QUEUE_FAMILY_IGNORED,
        .dstQueueFamilyIndex = VK_QUEUE_FAMILY_IGNORED,
        .image = image,
        .subresourceRange = {VK_IMAGE_ASPECT_COLOR_BIT, 0, 1, 0, 1},
    };
}

static VkBufferImageCopy all_of_image(uint32_t side)
{
    return (VkBufferImageCopy){
        .imageSubresource = {VK_IMAGE_ASPECT_COLOR_BIT, 0, 0, 1},
        .imageExtent = {side, side, 1},
    };
}

/* What the host wrote before the submission is visible to its commands. */
static void record_upload(VkCommandBuffer commands, const resources *r)
{
    const VkImageMemoryBarrier before =
        to_layout(r->texture, VK_IMAGE_LAYOUT_UNDEFINED, VK_IMAGE_LAYOUT_TRANSFER_DST_OPTIMAL, 0,
                  VK_ACCESS_TRANSFER_WRITE_BIT);
    const VkImageMemoryBarrier after =
        to_layout(r->texture, VK_IMAGE_LAYOUT_TRANSFER_DST_OPTIMAL, VK_IMAGE_LAYOUT_SHADER_READ_ONLY_OPTIMAL,
                  VK_ACCESS_TRANSFER_WRITE_BIT, VK_ACCESS_SHADER_READ_BIT);
    const VkMemoryBarrier vertices = {
        VK_STRUCTURE_TYPE_MEMORY_BARRIER, NULL, VK_ACCESS_TRANSFER_WRITE_BIT, VK_ACCESS_VERTEX_ATTRIBUTE_READ_BIT,
    };
    const VkBufferImageCopy texels = all_of_image(TEXTURE_SIDE);
    const VkBufferCopy bytes = {STAGED_VERTICES, 0, sizeof VERTICES};
    vkCmdPipelineBarrier(commands, VK_PIPELINE_STAGE_TOP_OF_PIPE_BIT, VK_PIPELINE_STAGE_TRANSFER_BIT, 0, 0, NULL, 0,
                         NULL, 1, &before);
    vkCmdCopyBufferToImage(commands, r->staging, r->texture, VK_IMAGE_LAYOUT_TRANSFER_DST_OPTIMAL, 1, &texels);
    vkCmdCopyBuffer(commands, r->staging, r->vertices, 1, &bytes);
    vkCmdPipelineBarrier(commands, VK_PIPELINE_STAGE_TRANSFER_BIT,
                         VK_PIPELINE_STAGE_VERTEX_INPUT_BIT | VK_PIPELINE_STAGE_FRAGMENT_SHADER_BIT, 0, 1, &vertices,
                         0, NULL, 1, &after);
}

static void record_drawing(VkCommandBuffer commands, const resources *r, const pipeline *p)
{
    const VkDeviceSize first = 0;
    const VkClearValue clear = {.color.float32 = {0.05f, 0.05f, 0.10f, 1.0f}};
    const VkRenderPassBeginInfo pass = {
        .sType = VK_STRUCTURE_TYPE_RENDER_PASS_BEGIN_INFO,
        .renderPass = p->pass,
        .framebuffer = p->framebuffer,
        .renderArea = {{0, 0}, {TARGET_SIDE, TARGET_SIDE}},
        .clearValueCount = 1,
        .pClearValues = &clear,
    };
    vkCmdBeginRenderPass(commands, &pass, VK_SUBPASS_CONTENTS_INLINE);
    vkCmdBindPipeline(commands, VK_PIPELINE_BIND_POINT_GRAPHICS, p->handle);
    vkCmdBindDescriptorSets(commands, VK_PIPELINE_BIND_POINT_GRAPHICS, p->layout, 0, 1, &p->set, 0, NULL);
    vkCmdBindVertexBuffers(commands, 0, 1, &r->vertices, &first);
    vkCmdDraw(commands, 3, 1, 0, 0);
    vkCmdEndRenderPass(commands);
}

/* The barrier makes what the device wrote available to the host. */
static void record_read_back(VkCommandBuffer commands, const resources *r)
{
    const VkBufferImageCopy pixels = all_of_image(TARGET_SIDE);
    const VkMemoryBarrier to_host = {
        VK_STRUCTURE_TYPE_MEMORY_BARRIER, NULL, VK_ACCESS_TRANSFER_WRITE_BIT, VK_ACCESS_HOST_READ_BIT,
    };
    vkCmdCopyImageToBuffer(commands, r->target, VK_IMAGE_LAYOUT_TRANSFER_SRC_OPTIMAL, r->read_back, 1, &pixels);
    vkCmdPipelineBarrier(commands, VK_PIPELINE_STAGE_TRANSFER_BIT, VK_PIPELINE_STAGE_HOST_BIT, 0, 1, &to_host, 0, NULL,
                         0, NULL);
}

void draw(device *d, const resources *r)
{
    pipeline p;
    create_pipeline(d->handle, r, &p);
    VkCommandBuffer commands = device_begin(d);
    record_upload(commands, r);
    record_drawing(commands, r, &p);
    record_read_back(commands, r);
    device_run(d);
    destroy_pipeline(d->handle, &p);
}
