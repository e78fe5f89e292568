/* The five calls that take a request, over the stub: what they make, and that an error changes nothing. */
#ifndef CALLS_H
#define CALLS_H

#include "stub.h"

#include <string.h>

enum {
    SIZE = 1000,
    SIDE = 16, /* of images */
    ALIGNMENT = 64,
    LARGER = 4096,
};
#define INVALID VK_ERROR_VALIDATION_FAILED_EXT
#define ABSENT VK_ERROR_FEATURE_NOT_PRESENT
#define LACKING VK_ERROR_OUT_OF_DEVICE_MEMORY
#define UNMAPPABLE VK_ERROR_MEMORY_MAP_FAILED
#define INTENTS (WTV_USAGE_AUTO | WTV_USAGE_AUTO_PREFER_DEVICE | WTV_USAGE_AUTO_PREFER_HOST)
#define SEQUENTIAL WTV_HOST_ACCESS_SEQUENTIAL_WRITE
#define RANDOM WTV_HOST_ACCESS_RANDOM
#define OR_COPY WTV_HOST_ACCESS_ALLOW_TRANSFER_INSTEAD

typedef struct world {
    stub *driver;
    VkDevice device;
    wtv_allocator *allocator;
    VkBuffer buffer; /* of the program's, bound to nothing at first */
    VkImage image;
} world;

static inline void begin_over(world *w, const stub_plan *plan, const wtv_functions *functions)
{
    const VkBufferCreateInfo buffer = stub_buffer_info(SIZE);
    const VkImageCreateInfo image = stub_image_info(SIDE, SIDE, true);
    *w = (world){.driver = stub_open(plan)};
    wtv_create_info info = stub_info(w->driver);
    info.functions = functions;
    w->device = info.device;
    must(wtv_create(&info, &w->allocator) == VK_SUCCESS, "no allocator is created");
    must(stub_table.create_buffer(w->device, &buffer, NULL, &w->buffer) == VK_SUCCESS, "no buffer");
    must(stub_table.create_image(w->device, &image, NULL, &w->image) == VK_SUCCESS, "no image");
}

static inline void begin_with(world *w, const stub_plan *plan)
{
    begin_over(w, plan, NULL);
}

/* Each resource needs as many bytes as it has, on 64 bytes, of any memory type. */
static inline stub_plan even_plan(void)
{
    stub_plan plan = stub_usual_plan();
    plan.alignment = ALIGNMENT;
    plan.permitted = STUB_ALL_TYPES;
    return plan;
}

static inline void begin(world *w)
{
    const stub_plan plan = even_plan();
    begin_with(w, &plan);
}

static inline void end(world *w)
{
    stub_table.destroy_buffer(w->device, w->buffer, NULL);
    stub_table.destroy_image(w->device, w->image, NULL);
    must(wtv_destroy(w->allocator, NULL, 0, NULL) == VK_SUCCESS, "an allocator is not destroyed");
    must(stub_close(w->driver) == 0, "the stub found failures");
}

/* ---- The five calls that take a request. ---- */

enum call { BUFFER, IMAGE, BLOCK, FOR_BUFFER, FOR_IMAGE, CALLS };

/* What a call made. */
typedef struct made {
    enum call by;
    VkBuffer buffer;
    VkImage image;
    wtv_block block;
} made;

static inline VkResult make(world *w, enum call by, const wtv_request *request, made *m)
{
    wtv_request for_image = *request;
    const VkBufferCreateInfo buffer = stub_buffer_info(SIZE);
    const VkImageCreateInfo image = stub_image_info(SIDE, SIDE, true);
    const VkMemoryRequirements needs = {SIZE, ALIGNMENT, STUB_ALL_TYPES};
    wtv_allocation allocation = 7;
    VkResult result;
    *m = (made){.by = by};
    for_image.flags |= WT_OPTIMAL;
    switch (by) {
    case BUFFER:
        result = wtv_create_buffer(w->allocator, &buffer, request, &m->buffer, &allocation, &m->block);
        break;
    case IMAGE: result = wtv_create_image(w->allocator, &image, request, &m->image, &allocation, &m->block); break;
    case BLOCK: result = wtv_allocate(w->allocator, &needs, request, &allocation, &m->block); break;
    case FOR_BUFFER:
        result = wtv_allocate_for_buffer(w->allocator, w->buffer, request, &allocation, &m->block);
        break;
    default: result = wtv_allocate_for_image(w->allocator, w->image, &for_image, &allocation, &m->block);
    }
    must(result == VK_SUCCESS ? allocation == m->block.allocation : allocation == 7 && m->block.allocation == 0
                                                                        && m->buffer == VK_NULL_HANDLE
                                                                        && m->image == VK_NULL_HANDLE,
         "an error writes something, or a block has two keys");
    return result;
}

/* A resource that was bound is bound for ever, so that another one takes the place of the program's. */
static inline void unmake(world *w, const made *m)
{
    const VkBufferCreateInfo buffer = stub_buffer_info(SIZE);
    const VkImageCreateInfo image = stub_image_info(SIDE, SIDE, true);
    VkResult result = VK_SUCCESS;
    if (m->by == FOR_BUFFER) {
        stub_table.destroy_buffer(w->device, w->buffer, NULL);
        result = stub_table.create_buffer(w->device, &buffer, NULL, &w->buffer);
    } else if (m->by == FOR_IMAGE) {
        stub_table.destroy_image(w->device, w->image, NULL);
        result = stub_table.create_image(w->device, &image, NULL, &w->image);
    }
    must(result == VK_SUCCESS, "a resource is not created");
    result = m->by == BUFFER  ? wtv_destroy_buffer(w->allocator, m->buffer, m->block.allocation)
             : m->by == IMAGE ? wtv_destroy_image(w->allocator, m->image, m->block.allocation)
                              : wtv_free(w->allocator, m->block.allocation);
    must(result == VK_SUCCESS, "a block is not taken back");
}

static inline wtv_block now(world *w, wtv_allocation allocation)
{
    wtv_block block;
    must(wtv_block_of(w->allocator, allocation, &block) == VK_SUCCESS, "a live block is unknown");
    return block;
}

/* What is held once free chunks are gone. */
typedef struct picture {
    wt_counts counts;
    stub_held held;
} picture;

static inline picture taken(world *w)
{
    picture seen;
    memset(&seen, 0, sizeof seen);
    must(wtv_cleanup(w->allocator) == VK_SUCCESS, "a cleanup fails");
    must(wtv_count(w->allocator, &seen.counts) == VK_SUCCESS, "nothing is counted");
    seen.held = stub_held_now(w->driver);
    return seen;
}

static inline void expect_same(world *w, const picture *before)
{
    const picture after = taken(w);
    must(memcmp(before, &after, sizeof after) == 0, "something is changed");
}

#endif
