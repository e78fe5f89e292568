#include "resources.h"

#include "calls.h"
#include "callbacks.h"
#include "random.h"
#include "requests.h"

/* How resources come to their memory, in percent; the others are created by the allocator. */
enum { ALLOCATED_FOR_PERCENT = 8, BOUND_BY_HAND_PERCENT = 6, IMPORTED_PERCENT = 4 };
/* What is drawn of a resource, in percent. */
enum { ADDRESSES_PERCENT = 25, USED_PERCENT = 50, NAMED_PERCENT = 40, MAPPED_AT_END_PERCENT = 5 };
/* What is drawn of a change of a name, in percent. */
enum { MALFORMED_PERCENT = 30, NAMELESS_PERCENT = 30 };

static const VkFormat FORMAT = VK_FORMAT_R8G8B8A8_UNORM;

static VkDevice handle_of(const worker *w)
{
    return w->run->device->handle;
}

/* ---- Created. ---- */

static VkBufferCreateInfo buffer_info(const resource *r)
{
    const VkBufferUsageFlags address = r->has_address ? VK_BUFFER_USAGE_SHADER_DEVICE_ADDRESS_BIT : 0;
    const VkBufferUsageFlags used = r->is_used ? VK_BUFFER_USAGE_STORAGE_BUFFER_BIT : 0;
    return (VkBufferCreateInfo){
        .sType = VK_STRUCTURE_TYPE_BUFFER_CREATE_INFO,
        .size = r->content.length,
        .usage = VK_BUFFER_USAGE_TRANSFER_SRC_BIT | VK_BUFFER_USAGE_TRANSFER_DST_BIT | address | used,
    };
}

/* A linear image keeps what the host wrote before the device first uses it. */
static VkImageCreateInfo image_info(const resource *r)
{
    const VkImageUsageFlags used = r->is_used ? VK_IMAGE_USAGE_SAMPLED_BIT : 0;
    return (VkImageCreateInfo){
        .sType = VK_STRUCTURE_TYPE_IMAGE_CREATE_INFO,
        .imageType = VK_IMAGE_TYPE_2D,
        .format = FORMAT,
        .extent = {r->content.width, r->content.height, 1},
        .mipLevels = 1,
        .arrayLayers = 1,
        .samples = VK_SAMPLE_COUNT_1_BIT,
        .tiling = r->kind == LINEAR_IMAGE ? VK_IMAGE_TILING_LINEAR : VK_IMAGE_TILING_OPTIMAL,
        .usage = VK_IMAGE_USAGE_TRANSFER_SRC_BIT | VK_IMAGE_USAGE_TRANSFER_DST_BIT | used,
        .initialLayout = r->kind == LINEAR_IMAGE ? VK_IMAGE_LAYOUT_PREINITIALIZED : VK_IMAGE_LAYOUT_UNDEFINED,
    };
}

static void make(const worker *w, resource *r)
{
    const VkBufferCreateInfo buffer = buffer_info(r);
    const VkImageCreateInfo image = image_info(r);
    VkResult result = r->kind == BUFFER ? vkCreateBuffer(handle_of(w), &buffer, callbacks_of_program(), &r->buffer)
                                        : vkCreateImage(handle_of(w), &image, callbacks_of_program(), &r->image);
    must(result == VK_SUCCESS, "a buffer or an image is not created");
}

static void unmake(const worker *w, resource *r)
{
    vkDestroyBuffer(handle_of(w), r->buffer, callbacks_of_program());
    vkDestroyImage(handle_of(w), r->image, callbacks_of_program());
    r->buffer = VK_NULL_HANDLE;
    r->image = VK_NULL_HANDLE;
}

static void find_rows(const worker *w, resource *r)
{
    const VkImageSubresource level = {VK_IMAGE_ASPECT_COLOR_BIT, 0, 0};
    VkSubresourceLayout rows;
    r->layout = image_info(r).initialLayout;
    if (r->kind == LINEAR_IMAGE) {
        vkGetImageSubresourceLayout(handle_of(w), r->image, &level, &rows);
        r->first = rows.offset;
        r->pitch = rows.rowPitch;
    }
}

/* What the driver asks for a resource. */
static VkMemoryRequirements needs_of(const worker *w, const resource *r, VkMemoryDedicatedRequirements *own)
{
    VkBufferMemoryRequirementsInfo2 buffer = {VK_STRUCTURE_TYPE_BUFFER_MEMORY_REQUIREMENTS_INFO_2, NULL, r->buffer};
    VkImageMemoryRequirementsInfo2 image = {VK_STRUCTURE_TYPE_IMAGE_MEMORY_REQUIREMENTS_INFO_2, NULL, r->image};
    VkMemoryRequirements2 needs = {.sType = VK_STRUCTURE_TYPE_MEMORY_REQUIREMENTS_2, .pNext = own};
    *own = (VkMemoryDedicatedRequirements){.sType = VK_STRUCTURE_TYPE_MEMORY_DEDICATED_REQUIREMENTS};
    if (r->kind == BUFFER)
        vkGetBufferMemoryRequirements2(handle_of(w), &buffer, &needs);
    else
        vkGetImageMemoryRequirements2(handle_of(w), &image, &needs);
    return needs.memoryRequirements;
}

/* ---- Memory. ---- */

static wt_heap_counts heap_of(const worker *w, uint32_t memory_type)
{
    wt_heap_counts heap;
    uint32_t index = driver_memory().memoryTypes[memory_type].heapIndex;
    must(wtv_heap(w->run->allocator, index, &heap) == VK_SUCCESS, "wtv_heap");
    return heap;
}

/* A dedicated object is for its resource, where the allocator knows that. */
static bool is_made_for(const resource *r, const met *met)
{
    const bool has_resource = r->block.dedicated && r->way != ALLOCATED;
    return met->buffer == (has_resource ? r->buffer : VK_NULL_HANDLE)
           && met->image == (has_resource ? r->image : VK_NULL_HANDLE);
}

/* An object that was made for a block has what the program chained, exactly if it holds the block alone. A block in a
   held object is granted even where its heap is over its limit. */
static VkResult granted(worker *w, const resource *r, VkResult result)
{
    const met *met = refusing_met();
    VkMemoryDedicatedRequirements own;
    request_check_order(w, r);
    if (result != VK_SUCCESS)
        return result;
    request_check_granted(w, r, needs_of(w, r, &own).memoryTypeBits);
    const wt_heap_counts heap = heap_of(w, r->block.memory_type);
    must((met->left_out >> r->block.memory_type & 1) == 0, "a block has a memory type that is left out");
    if (met->made != r->block.memory) {
        w->tally.over_limit += heap.used > heap.limit;
        return result;
    }
    must(met->is_chained == (r->request.next != NULL && r->block.dedicated),
         "an object has another chain than its request");
    must(is_made_for(r, met), "an object is made for another resource than its block");
    return result;
}

static VkResult call_create(worker *w, resource *r)
{
    wtv_allocator *a = w->run->allocator;
    const VkBufferCreateInfo buffer = buffer_info(r);
    const VkImageCreateInfo image = image_info(r);
    return r->kind == BUFFER ? wtv_create_buffer(a, &buffer, &r->request, &r->buffer, &r->allocation, &r->block)
                             : wtv_create_image(a, &image, &r->request, &r->image, &r->allocation, &r->block);
}

static VkResult call_allocate_for(worker *w, resource *r)
{
    wtv_allocator *a = w->run->allocator;
    return r->kind == BUFFER ? wtv_allocate_for_buffer(a, r->buffer, &r->request, &r->allocation, &r->block)
                             : wtv_allocate_for_image(a, r->image, &r->request, &r->allocation, &r->block);
}

static VkResult call_allocate(worker *w, resource *r)
{
    VkMemoryDedicatedRequirements own;
    const VkMemoryRequirements needs = needs_of(w, r, &own);
    return wtv_allocate(w->run->allocator, &needs, &r->request, &r->allocation, &r->block);
}

static VkResult call_bind(worker *w, const resource *r, VkDeviceSize offset)
{
    wtv_allocator *a = w->run->allocator;
    return r->kind == BUFFER ? wtv_bind_buffer(a, r->allocation, offset, r->buffer)
                             : wtv_bind_image(a, r->allocation, offset, r->image);
}

/* Binds a resource to the block that it has already. A bind that is refused is made again. */
static void bind(worker *w, const resource *r)
{
    must(call_bind(w, r, r->block.asked) == VK_ERROR_VALIDATION_FAILED_EXT, "a resource is bound behind its block");
    do
        refusing_begins();
    while (is_refused(w, call_bind(w, r, 0)));
    w->tally.bound_by_hand++;
}

/* Asks in one of the ways that have a request. What the allocator does not bind, the program does. */
static VkResult ask(worker *w, resource *r)
{
    VkResult (*const calls[])(worker *, resource *) = {call_create, call_allocate_for, call_allocate};
    request_begins(w, &r->request);
    VkResult result = calls[r->way](w, r);
    result = granted(w, r, request_ends(w, result));
    if (result == VK_SUCCESS && (r->way == ALLOCATED || (r->request.flags & WTV_DONT_BIND) != 0))
        bind(w, r);
    return result;
}

/* An object that the program makes itself, as one that comes from another process would be. */
static VkResult make_object(const resource *r, uint32_t memory_type, VkDeviceSize size, VkDeviceMemory *memory)
{
    VkMemoryAllocateFlagsInfo address = {
        .sType = VK_STRUCTURE_TYPE_MEMORY_ALLOCATE_FLAGS_INFO,
        .flags = VK_MEMORY_ALLOCATE_DEVICE_ADDRESS_BIT,
    };
    VkMemoryAllocateInfo info = {
        .sType = VK_STRUCTURE_TYPE_MEMORY_ALLOCATE_INFO,
        .pNext = r->has_address ? &address : NULL,
        .allocationSize = size,
        .memoryTypeIndex = memory_type,
    };
    return driver_make(&info, memory);
}

/* An import is not refused for a heap's limit, so the program looks. */
static VkResult import(worker *w, resource *r)
{
    wtv_allocator *a = w->run->allocator;
    VkMemoryDedicatedRequirements own;
    const VkMemoryRequirements needs = needs_of(w, r, &own);
    VkDeviceMemory memory;
    uint32_t types[32], count;
    uint32_t permitted = needs.memoryTypeBits & (r->request.memory_types != 0 ? r->request.memory_types : UINT32_MAX);
    must(wtv_candidates(a, r->request.usage, permitted, types, &count) == VK_SUCCESS, "wtv_candidates");
    if (count == 0 || needs.size > heap_of(w, types[0]).budget
        || make_object(r, types[0], needs.size, &memory) != VK_SUCCESS)
        return VK_ERROR_OUT_OF_DEVICE_MEMORY;
    VkResult result = wtv_import(a, memory, types[0], needs.size, 0, needs.size, &r->allocation, &r->block);
    if (result != VK_SUCCESS) {
        must(result == VK_ERROR_TOO_MANY_OBJECTS, "wtv_import");
        driver_free(memory);
        return result;
    }
    driver_imported(memory);
    must(wtv_set_user(a, r->allocation, r->request.user) == VK_SUCCESS, "wtv_set_user");
    must(wtv_block_of(a, r->allocation, &r->block) == VK_SUCCESS, "wtv_block_of");
    bind(w, r);
    w->tally.imports++;
    return VK_SUCCESS;
}

/* What the program binds by hand does not have an object of its own, which some images want. */
static bool is_for_hands(const worker *w, const resource *r)
{
    VkMemoryDedicatedRequirements own;
    needs_of(w, r, &own);
    return !own.requiresDedicatedAllocation;
}

static enum way drawn_way(worker *w)
{
    const uint32_t drawn = random_below(&w->random, 100);
    if (drawn < ALLOCATED_FOR_PERCENT)
        return ALLOCATED_FOR;
    if (drawn < ALLOCATED_FOR_PERCENT + BOUND_BY_HAND_PERCENT)
        return ALLOCATED;
    return drawn < ALLOCATED_FOR_PERCENT + BOUND_BY_HAND_PERCENT + IMPORTED_PERCENT ? IMPORTED : CREATED;
}

/* Only the calls that create a resource leave it to its memory how the host reaches it. */
static void draw_way(worker *w, resource *r)
{
    r->way = r->reach == EITHER ? CREATED : drawn_way(w);
    if (r->way == CREATED)
        return;
    make(w, r);
    if (!is_for_hands(w, r))
        r->way = ALLOCATED_FOR;
}

static VkResult take_memory(worker *w, resource *r)
{
    draw_way(w, r);
    request_draw(w, r);
    VkResult result = r->way == IMPORTED ? import(w, r) : ask(w, r);
    if (result != VK_SUCCESS && r->way != CREATED)
        unmake(w, r);
    return result;
}

/* ---- Opened and closed. ---- */

/* A block has what its request asks for beyond the requirements. */
static void check_wishes(worker *w, const resource *r, VkDeviceSize alignment)
{
    const wtv_request *request = &r->request;
    const wtv_block *block = &r->block;
    const bool is_seen = (block->properties & VK_MEMORY_PROPERTY_HOST_VISIBLE_BIT) != 0;
    const bool stays_mapped = !block->dedicated || (request->flags & WTV_MAPPED) != 0;
    must((block->mapped != NULL) == (is_seen && stays_mapped), "a block is mapped, or is not, and should be otherwise");
    must((request->required & ~block->properties) == 0, "a block lacks a property that is required");
    must(request->min_alignment == 0 || block->offset % request->min_alignment == 0,
         "a block is not aligned as its request wants it");
    w->tally.aligned += request->min_alignment > alignment && block->offset != 0;
}

/* A block is what was asked for, and wtv_block_of says the same. */
static void check_block(worker *w, const resource *r)
{
    VkMemoryDedicatedRequirements own;
    const VkMemoryRequirements needs = needs_of(w, r, &own);
    const wtv_block *block = &r->block;
    const VkMemoryPropertyFlags seen = VK_MEMORY_PROPERTY_HOST_VISIBLE_BIT;
    wtv_block again;
    must(wtv_block_of(w->run->allocator, r->allocation, &again) == VK_SUCCESS, "wtv_block_of");
    must(again.allocation == block->allocation && again.memory == block->memory && again.offset == block->offset
             && again.size == block->size && again.mapped == block->mapped && again.user == block->user,
         "a block is another one when it is asked for again");
    must(block->name == NULL && again.name == NULL, "a new block has a name");
    must(block->allocation == r->allocation && block->user == r->request.user,
         "a block is another one than was allocated");
    must(block->asked == needs.size && block->size >= block->asked, "a block is too small");
    must(block->offset % needs.alignment == 0, "a block is not aligned");
    must((needs.memoryTypeBits >> block->memory_type & 1) != 0
             && (r->request.memory_types == 0 || (r->request.memory_types >> block->memory_type & 1) != 0),
         "a block has a memory type that is not permitted");
    must(block->properties == driver_memory().memoryTypes[block->memory_type].propertyFlags,
         "a block has other properties than its memory type");
    must(!r->is_seen || (block->properties & seen) != 0, "the host does not see a block");
    must(block->dedicated || (!own.requiresDedicatedAllocation && r->request.dedicated != WT_REQUIRED),
         "a resource shares its object, and must not");
    must(!block->dedicated || (block->offset == 0 && block->size == block->asked),
         "a dedicated object is larger than its resource");
    check_wishes(w, r, needs.alignment);
}

/* A resource takes the bytes that were asked for: the first ones of its block. */
static void keep_pages(worker *w, const resource *r)
{
    const bound bytes = {
        .object = r->block.memory,
        .first = r->block.offset,
        .length = r->block.asked,
        .is_optimal = r->kind == OPTIMAL_IMAGE,
        .is_dedicated = r->block.dedicated != 0,
    };
    pages_bind(&w->run->pages, &bytes);
}

static void check_address(const worker *w, const resource *r)
{
    const VkBufferDeviceAddressInfo info = {VK_STRUCTURE_TYPE_BUFFER_DEVICE_ADDRESS_INFO, NULL, r->buffer};
    must(!r->has_address || vkGetBufferDeviceAddress(handle_of(w), &info) != 0, "a buffer has no address");
}

/* ---- Names. ---- */

static void check_name(const worker *w, const resource *r)
{
    wtv_block named;
    must(wtv_block_of(w->run->allocator, r->allocation, &named) == VK_SUCCESS, "wtv_block_of");
    must(name_is(&r->name, named.name), "a block has another name than it was given");
}

/* The text is the program's, which changes it at once. */
static void give_name(worker *w, resource *r)
{
    r->name = name_drawn(&w->random, r->request.user);
    name lent = r->name;
    must(wtv_set_name(w->run->allocator, r->allocation, lent.text) == VK_SUCCESS, "wtv_set_name");
    lent.text[0] = '?';
    check_name(w, r);
}

static void take_name(worker *w, resource *r)
{
    r->name = (name){"", ""};
    must(wtv_set_name(w->run->allocator, r->allocation, random_below(&w->random, 2) == 0 ? NULL : "") == VK_SUCCESS,
         "a name is not taken away");
    check_name(w, r);
}

void resource_rename(worker *w, resource *r)
{
    if (random_in_hundred(&w->random, MALFORMED_PERCENT)) {
        must(wtv_set_name(w->run->allocator, r->allocation, name_malformed(&w->random))
                 == VK_ERROR_VALIDATION_FAILED_EXT,
             "a block has a name that is no text");
        check_name(w, r);
        w->tally.forbidden++;
        return;
    }
    w->tally.renamed += r->name.text[0] != '\0';
    if (random_in_hundred(&w->random, NAMELESS_PERCENT))
        take_name(w, r);
    else
        give_name(w, r);
}

/* ---- Opened and closed. ---- */

/* A resource that has no memory yet. */
static resource drawn_resource(worker *w, const content *bytes, enum kind kind, enum reach reach)
{
    resource drawn = {.content = *bytes, .kind = kind, .reach = reach, .is_seen = reach == ITSELF};
    drawn.has_address =
        kind == BUFFER && w->run->device->has_addresses && random_in_hundred(&w->random, ADDRESSES_PERCENT);
    drawn.is_used = random_in_hundred(&w->random, USED_PERCENT);
    w->opened++;
    return drawn;
}

VkResult resource_open(worker *w, resource *r, const content *bytes, enum kind kind, enum reach reach)
{
    *r = drawn_resource(w, bytes, kind, reach);
    VkResult result = take_memory(w, r);
    if (result != VK_SUCCESS)
        return result;
    if (reach == EITHER)
        r->is_seen = (r->block.properties & VK_MEMORY_PROPERTY_HOST_VISIBLE_BIT) != 0;
    w->tally.created++;
    request_count(w, r);
    check_block(w, r);
    keep_pages(w, r);
    check_address(w, r);
    if (random_in_hundred(&w->random, NAMED_PERCENT)) {
        give_name(w, r);
        w->tally.named++;
    }
    if (kind != BUFFER)
        find_rows(w, r);
    return VK_SUCCESS;
}

void resource_close(worker *w, resource *r)
{
    wtv_allocator *a = w->run->allocator;
    wtv_block gone;
    VkResult result;
    if (r->is_seen && random_in_hundred(&w->random, MAPPED_AT_END_PERCENT))
        resource_map(w, r);
    pages_unbind(&w->run->pages, r->block.memory, r->block.offset);
    if (r->way != CREATED) {
        unmake(w, r);
        result = wtv_free(a, r->allocation);
    } else if (r->kind == BUFFER) {
        result = wtv_destroy_buffer(a, r->buffer, r->allocation);
    } else {
        result = wtv_destroy_image(a, r->image, r->allocation);
    }
    must(result == VK_SUCCESS, "a block is not freed");
    must(wtv_block_of(a, r->allocation, &gone) == VK_ERROR_VALIDATION_FAILED_EXT, "a freed block is still known");
    must(wtv_free(a, r->allocation) == VK_ERROR_VALIDATION_FAILED_EXT, "a block is freed twice");
    must(wtv_set_name(a, r->allocation, "gone") == VK_ERROR_VALIDATION_FAILED_EXT, "a freed block is named");
}

void resource_ask_in_vain(worker *w, const content *bytes, enum kind kind)
{
    VkResult (*const calls[])(worker *, resource *) = {call_create, call_allocate_for, call_allocate};
    resource r = drawn_resource(w, bytes, kind, BY_COPIES);
    r.way = (enum way)random_below(&w->random, IMPORTED);
    if (r.way != CREATED)
        make(w, &r);
    const VkResult error = request_draw_forbidden(w, &r);
    request_begins(w, &r.request);
    request_is_forbidden(w, calls[r.way](w, &r), error);
    must(r.allocation == 0, "a refused request has an allocation");
    if (r.way != CREATED)
        unmake(w, &r);
}
