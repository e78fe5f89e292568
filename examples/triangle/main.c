/* Draws a textured triangle and writes it as triangle.png. On standard output: what memory it held, as JSON, which
   wallthyme-picture draws. Statuses: 0, or 1 after an error or a message of the layer. */
#include "triangle.h"
#include "wallthyme_vulkan.h"

#include <stdio.h>

/* The memory of each resource. */
typedef struct blocks {
    wtv_allocation vertices, texture, target, staging, read_back;
} blocks;

static wtv_allocator *create_allocator(const device *d)
{
    const wtv_create_info info = {
        .instance = d->instance,
        .physical_device = d->physical,
        .device = d->handle,
        .api_version = d->api_version,
        .get_instance_proc_addr = vkGetInstanceProcAddr,
    };
    wtv_allocator *memory;
    MUST(wtv_create(&info, &memory));
    return memory;
}

/* The resources that the device alone works on. */
static void create_for_device(wtv_allocator *memory, resources *r, blocks *b)
{
    const VkBufferCreateInfo vertices =
        buffer_info(sizeof VERTICES, VK_BUFFER_USAGE_VERTEX_BUFFER_BIT | VK_BUFFER_USAGE_TRANSFER_DST_BIT);
    const VkImageCreateInfo texture =
        image_info(TEXTURE_SIDE, VK_IMAGE_USAGE_SAMPLED_BIT | VK_IMAGE_USAGE_TRANSFER_DST_BIT);
    const VkImageCreateInfo target =
        image_info(TARGET_SIDE, VK_IMAGE_USAGE_COLOR_ATTACHMENT_BIT | VK_IMAGE_USAGE_TRANSFER_SRC_BIT);
    const wtv_request device = {.usage = WT_USAGE_FAST_DEVICE_ACCESS};
    MUST(wtv_create_buffer(memory, &vertices, &device, &r->vertices, &b->vertices, NULL));
    MUST(wtv_create_image(memory, &texture, &device, &r->texture, &b->texture, NULL));
    MUST(wtv_create_image(memory, &target, &device, &r->target, &b->target, NULL));
}

/* The two buffers that the host writes or reads. */
static void create_for_host(wtv_allocator *memory, resources *r, blocks *b)
{
    const VkBufferCreateInfo staging =
        buffer_info(STAGED_VERTICES + sizeof VERTICES, VK_BUFFER_USAGE_TRANSFER_SRC_BIT);
    const VkBufferCreateInfo read_back = buffer_info(TARGET_BYTES, VK_BUFFER_USAGE_TRANSFER_DST_BIT);
    const wtv_request upload = {.usage = WT_USAGE_UPLOAD | WT_USAGE_TRANSIENT};
    const wtv_request download = {.usage = WT_USAGE_DOWNLOAD};
    MUST(wtv_create_buffer(memory, &staging, &upload, &r->staging, &b->staging, NULL));
    MUST(wtv_create_buffer(memory, &read_back, &download, &r->read_back, &b->read_back, NULL));
}

/* What reports and their pictures call the blocks. */
static void name_blocks(wtv_allocator *memory, const blocks *b)
{
    MUST(wtv_set_name(memory, b->vertices, "vertices"));
    MUST(wtv_set_name(memory, b->texture, "texture"));
    MUST(wtv_set_name(memory, b->target, "target"));
    MUST(wtv_set_name(memory, b->staging, "staging"));
    MUST(wtv_set_name(memory, b->read_back, "read back"));
}

static void write_staging(wtv_allocator *memory, wtv_allocation staging)
{
    static unsigned char texels[TEXTURE_BYTES];
    fill_checkerboard(texels);
    MUST(wtv_write(memory, staging, 0, texels, sizeof texels));
    MUST(wtv_write(memory, staging, STAGED_VERTICES, VERTICES, sizeof VERTICES));
}

static void print_report(wtv_allocator *memory)
{
    char *text;
    MUST(wtv_report_text(memory, &text));
    puts(text);
    wtv_free_text(text);
}

static void destroy_all(wtv_allocator *memory, const resources *r, const blocks *b)
{
    MUST(wtv_destroy_buffer(memory, r->vertices, b->vertices));
    MUST(wtv_destroy_image(memory, r->texture, b->texture));
    MUST(wtv_destroy_image(memory, r->target, b->target));
    MUST(wtv_destroy_buffer(memory, r->staging, b->staging));
    MUST(wtv_destroy_buffer(memory, r->read_back, b->read_back));
    MUST(wtv_destroy(memory, NULL, 0, NULL));
}

int main(void)
{
    static unsigned char pixels[TARGET_BYTES];
    device d;
    resources r;
    blocks b;
    device_open(&d);
    wtv_allocator *memory = create_allocator(&d);
    create_for_device(memory, &r, &b);
    create_for_host(memory, &r, &b);
    name_blocks(memory, &b);
    write_staging(memory, b.staging);
    draw(&d, &r);
    MUST(wtv_read(memory, b.read_back, 0, pixels, sizeof pixels));
    write_png("triangle.png", pixels);
    print_report(memory);
    destroy_all(memory, &r, &b);
    device_close(&d);
    return d.messages == 0 ? 0 : 1;
}
