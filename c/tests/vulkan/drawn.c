/* Drawn calls from some threads over the stub, which may refuse each of its own. What was written is compared byte for
 * byte, by the host and by the device.
 *
 *     drawn SEED RESOURCES THREADS PERCENT [FAULT | FOLDER/]
 *
 * PERCENT: how many of a hundred calls of the driver are refused. FAULT: what is planted and has to be found, one of
 * faults below. FOLDER: where the texts of what is held at the end are written. The seed decides what is enabled. */
#include "stub.h"

#include <pthread.h>
#include <string.h>

enum {
    MOST_LIVE = 96, /* of a thread */
    MOST_THREADS = 16,
    MOST_MAPS = 3,
    MOST_RANGES = 40,
    MOST_TRIES = 2000,
    MOST_NAME = 32, /* bytes */
    RUN_OF_NOTE = 8000,    /* resources from which on each thing has to come to pass */
    MANY_REFUSALS = 50000, /* resources by percents */
    COARSE = 1024, /* a multiple of each atom */
    INTENTS = WTV_USAGE_AUTO | WTV_USAGE_AUTO_PREFER_DEVICE | WTV_USAGE_AUTO_PREFER_HOST,
};

typedef enum kind { BUFFER, LINEAR_IMAGE, OPTIMAL_IMAGE, BLOCK, IMPORT, KINDS } kind;

/* A buffer or an image with its block, or a block alone. */
typedef struct resource {
    kind kind;
    bool is_seen;  /* it lies where the host sees it */
    bool is_stale; /* the device wrote what the host has not invalidated */
    VkBuffer buffer;
    VkImage image;
    wtv_block block;
    unsigned maps;          /* how often it is mapped, */
    bool is_kept;           /* beside that it is as long as it lives */
    unsigned char *mapped;  /* its first byte then */
    char name[MOST_NAME];   /* empty: it has none */
    unsigned char *bytes;   /* what it holds */
    size_t size;
} resource;

typedef struct world {
    stub *driver;
    wtv_functions call; /* what the program calls itself */
    wtv_create_info info;
    wtv_allocator *allocator;
    uint32_t threads, percent;
    uint64_t seed;
} world;

typedef struct worker {
    world *world;
    pthread_t thread;
    uint32_t number;
    uint64_t random;
    uint64_t wanted; /* resources */
    resource live[MOST_LIVE];
    size_t live_count;
    uint64_t opened[KINDS], dedicated, refused, compared, flushes, mapped, over_limit;
    uint64_t intents, preferred, kept, kept_alone, unbound, names, compared_kept; /* see print_wishes */
} worker;

static uint64_t drawn(worker *w, uint64_t bound)
{
    return draw(&w->random, bound);
}

static void fill(worker *w, unsigned char *bytes, size_t size)
{
    for (size_t i = 0; i < size; i += sizeof(uint64_t)) {
        uint64_t some = mixed(++w->random);
        memcpy(bytes + i, &some, size - i < sizeof some ? size - i : sizeof some);
    }
}

/* Whether an error is one that a driver's refusal or a limit causes. A misuse is not. */
static bool is_refusal(const world *o, VkResult result)
{
    switch (result) {
    case VK_ERROR_OUT_OF_DEVICE_MEMORY:
    case VK_ERROR_TOO_MANY_OBJECTS: return true;
    case VK_ERROR_OUT_OF_HOST_MEMORY:
    case VK_ERROR_MEMORY_MAP_FAILED:
    case VK_ERROR_INVALID_EXTERNAL_HANDLE:
    case VK_ERROR_INVALID_OPAQUE_CAPTURE_ADDRESS:
    case VK_ERROR_DEVICE_LOST:
    case VK_ERROR_UNKNOWN: return o->percent > 0;
    default: return false;
    }
}

static bool is_coherent(const resource *r)
{
    return (r->block.properties & VK_MEMORY_PROPERTY_HOST_COHERENT_BIT) != 0;
}

static bool is_visible(const resource *r)
{
    return (r->block.properties & VK_MEMORY_PROPERTY_HOST_VISIBLE_BIT) != 0;
}

/* Whether the host has a pointer to it. */
static bool is_pointed_at(const resource *r)
{
    return r->maps > 0 || r->is_kept;
}

/* ---- The device's side. ---- */

static unsigned char *device_bytes(worker *w, const resource *r)
{
    stub *driver = w->world->driver;
    unsigned char *bytes = r->buffer != VK_NULL_HANDLE  ? stub_buffer_bytes(driver, r->buffer)
                           : r->image != VK_NULL_HANDLE ? stub_image_bytes(driver, r->image)
                               : stub_memory_bytes(driver, r->block.memory, r->block.offset, r->size);
    must(bytes != NULL, "the device does not find a resource");
    return bytes;
}

static void compare_by_device(worker *w, const resource *r)
{
    must(memcmp(device_bytes(w, r), r->bytes, r->size) == 0, "the device sees a wrong byte");
    w->compared++;
}

static void write_by_device(worker *w, resource *r)
{
    fill(w, r->bytes, r->size);
    memcpy(device_bytes(w, r), r->bytes, r->size);
    r->is_stale = true;
}

/* ---- The host's side. ---- */

/* Whether a call that the driver may refuse has to be made again. */
static bool is_again(worker *w, VkResult result, unsigned *tries)
{
    must(result == VK_SUCCESS || is_refusal(w->world, result), "a call of the host's side fails");
    must(++*tries < MOST_TRIES, "a call is refused for ever");
    return result != VK_SUCCESS;
}

static void read_by_host(worker *w, resource *r, size_t offset, unsigned char *bytes, size_t size)
{
    unsigned tries = 0;
    while (is_again(w, wtv_read(w->world->allocator, r->block.allocation, offset, bytes, size), &tries))
        continue;
}

static void compare_by_host(worker *w, resource *r)
{
    size_t offset = (size_t)drawn(w, r->size), size = (size_t)drawn(w, r->size - offset + 1);
    unsigned char *bytes = malloc(r->size);
    must(bytes != NULL, "no memory");
    if (drawn(w, 2) == 0) {
        offset = 0;
        size = r->size;
        r->is_stale = false;
    }
    read_by_host(w, r, offset, bytes, size);
    must(memcmp(bytes, r->bytes + offset, size) == 0, "the host reads a wrong byte");
    w->compared++;
    free(bytes);
}

/* A flush writes whole atoms, so the host has to see what the device wrote there. */
static void catch_up(worker *w, resource *r)
{
    if (!r->is_stale || is_coherent(r))
        return;
    unsigned char *bytes = malloc(r->size);
    must(bytes != NULL, "no memory");
    read_by_host(w, r, 0, bytes, r->size);
    free(bytes);
    r->is_stale = false;
}

/* A write that fails leaves each byte the old one or the new one. */
static void check_half_written(worker *w, const resource *r, const unsigned char *old)
{
    const unsigned char *seen = device_bytes(w, r);
    for (size_t i = 0; i < r->size; i++)
        must(seen[i] == old[i] || seen[i] == r->bytes[i], "a failed write leaves a byte that is neither");
}

static void write_by_host(worker *w, resource *r)
{
    size_t offset = (size_t)drawn(w, r->size), size = (size_t)drawn(w, r->size - offset + 1);
    unsigned tries = 0;
    unsigned char *old = malloc(r->size);
    must(old != NULL, "no memory");
    catch_up(w, r);
    memcpy(old, r->bytes, r->size);
    fill(w, r->bytes + offset, size);
    while (is_again(w, wtv_write(w->world->allocator, r->block.allocation, offset, r->bytes + offset, size), &tries))
        check_half_written(w, r, old);
    free(old);
    compare_by_device(w, r);
}

static void check_mapping(worker *w, const resource *r)
{
    bool is_held_mapped = is_visible(r) && (r->block.dedicated == 0 || is_pointed_at(r));
    wtv_block now;
    must(wtv_block_of(w->world->allocator, r->block.allocation, &now) == VK_SUCCESS, "a live block is unknown");
    must((now.mapped != NULL) == is_held_mapped, "a block is mapped where it should not be, or is not");
    must(stub_object_of(w->world->driver, r->block.memory).is_mapped == is_held_mapped,
         "the driver disagrees on a mapping");
    must(!is_pointed_at(r) || now.mapped == r->mapped, "a block is mapped at two places");
}

static void map(worker *w, resource *r)
{
    void *mapped;
    VkResult result = wtv_map(w->world->allocator, r->block.allocation, &mapped);
    must(result == VK_SUCCESS || is_refusal(w->world, result), "a block cannot be mapped");
    if (result == VK_SUCCESS) {
        must(!is_pointed_at(r) || mapped == r->mapped, "a nested mapping is another pointer");
        r->mapped = mapped;
        r->maps++;
        w->mapped++;
    }
    check_mapping(w, r);
}

static void unmap(worker *w, resource *r)
{
    VkResult result = wtv_unmap(w->world->allocator, r->block.allocation);
    must(result == (r->maps > 0 ? VK_SUCCESS : VK_ERROR_VALIDATION_FAILED_EXT), "an unmapping");
    r->maps -= r->maps > 0;
    check_mapping(w, r);
}

/* A drawn range of a block that is mapped. */
static wtv_range drawn_range(worker *w, const resource *r)
{
    size_t offset = (size_t)drawn(w, r->size);
    wtv_range range = {r->block.allocation, offset, drawn(w, r->size - offset + 1)};
    if (drawn(w, 4) == 0)
        range.size = VK_WHOLE_SIZE;
    return range;
}

/* The host writes drawn ranges of some blocks by pointers, and flushes all of them at once; then it reads them. */
static void write_many(worker *w)
{
    wtv_range ranges[MOST_RANGES];
    resource *written[MOST_RANGES];
    size_t count = 0, wanted = 1 + (size_t)drawn(w, drawn(w, 4) == 0 ? MOST_RANGES : 4);
    uint64_t calls_wanted = 0;
    unsigned tries = 0;
    for (size_t i = 0; i < 4 * wanted && count < wanted && w->live_count > 0; i++) {
        resource *r = &w->live[drawn(w, w->live_count)];
        if (!is_pointed_at(r))
            continue;
        catch_up(w, r);
        wtv_range range = drawn_range(w, r);
        size_t size = range.size == VK_WHOLE_SIZE ? r->size - (size_t)range.offset : (size_t)range.size;
        fill(w, r->bytes + range.offset, size);
        memcpy(r->mapped + range.offset, r->bytes + range.offset, size);
        if (!is_coherent(r) && range.size > 0)
            calls_wanted = 1;
        ranges[count] = range;
        written[count++] = r;
    }
    uint64_t before = stub_calls_of_thread(STUB_FLUSH);
    while (is_again(w, wtv_flush(w->world->allocator, ranges, count), &tries))
        continue;
    must(stub_calls_of_thread(STUB_FLUSH) - before == tries * calls_wanted, "a flush is not one call of the driver");
    w->flushes += tries * calls_wanted;
    for (size_t i = 0; i < count; i++)
        compare_by_device(w, written[i]);
}

/* The device writes into some blocks, and the host reads them by pointers, after one call. */
static void read_many(worker *w)
{
    wtv_range ranges[MOST_RANGES];
    resource *read[MOST_RANGES];
    size_t count = 0;
    uint64_t calls_wanted = 0;
    unsigned tries = 0;
    for (size_t i = 0; i < w->live_count && count < MOST_RANGES; i++) {
        resource *r = &w->live[i];
        if (!is_pointed_at(r))
            continue;
        write_by_device(w, r);
        ranges[count] = (wtv_range){r->block.allocation, 0, drawn(w, 2) == 0 ? VK_WHOLE_SIZE : r->size};
        read[count++] = r;
        if (!is_coherent(r))
            calls_wanted = 1;
    }
    uint64_t before = stub_calls_of_thread(STUB_INVALIDATE);
    while (is_again(w, wtv_invalidate(w->world->allocator, ranges, count), &tries))
        continue;
    must(stub_calls_of_thread(STUB_INVALIDATE) - before == tries * calls_wanted,
         "an invalidation is not one call of the driver");
    for (size_t i = 0; i < count; i++) {
        must(memcmp(read[i]->mapped, read[i]->bytes, read[i]->size) == 0, "a pointer shows a wrong byte");
        read[i]->is_stale = false;
        w->compared++;
        w->compared_kept += read[i]->maps == 0;
    }
}

/* ---- Names. ---- */

static void check_name(const resource *r, const wtv_block *block)
{
    must((block->name != NULL) == (r->name[0] != '\0'), "a block has a name, or has none");
    must(block->name == NULL || strcmp(block->name, r->name) == 0, "a block has another name");
}

/* Another name, or none. What is refused leaves the name. */
static void rename_block(worker *w, resource *r)
{
    wtv_allocator *a = w->world->allocator;
    must(wtv_set_name(a, r->block.allocation, "\xff") == VK_ERROR_VALIDATION_FAILED_EXT, "a name is not UTF-8");
    must(wtv_block_of(a, r->block.allocation, &r->block) == VK_SUCCESS, "a live block is unknown");
    check_name(r, &r->block);
    if (drawn(w, 4) == 0)
        r->name[0] = '\0';
    else
        sprintf(r->name, "\"%llx\" \xe2\x80\xa0", (unsigned long long)mixed(++w->random));
    must(wtv_set_name(a, r->block.allocation, r->name) == VK_SUCCESS, "a block is not named");
    must(wtv_block_of(a, r->block.allocation, &r->block) == VK_SUCCESS, "a live block is unknown");
    check_name(r, &r->block);
    w->names += r->name[0] != '\0';
}

/* ---- Opened and closed. ---- */

static size_t drawn_size(worker *w)
{
    uint64_t dice = drawn(w, 100);
    return 1 + (size_t)drawn(w, dice == 0 ? 400000 : dice < 12 ? 20000 : 2000);
}

static void add_wishes(worker *w, const resource *r, wtv_request *request)
{
    static const VkMemoryPropertyFlags preferred[] = {
        VK_MEMORY_PROPERTY_HOST_CACHED_BIT, VK_MEMORY_PROPERTY_DEVICE_LOCAL_BIT,
        VK_MEMORY_PROPERTY_HOST_COHERENT_BIT | VK_MEMORY_PROPERTY_HOST_VISIBLE_BIT};
    if (drawn(w, 8) == 0)
        request->preferred = preferred[drawn(w, LENGTH(preferred))];
    if (r->is_seen && drawn(w, 4) == 0)
        request->required = VK_MEMORY_PROPERTY_HOST_VISIBLE_BIT;
    if (drawn(w, 8) == 0)
        request->min_alignment = (VkDeviceSize)1 << drawn(w, 12);
    if (drawn(w, 4) == 0)
        request->flags |= WTV_MAPPED;
    if (drawn(w, 16) == 0)
        request->flags |= WTV_DONT_BIND;
}

static wtv_request drawn_request(worker *w, const resource *r)
{
    static const uint32_t seen[] = {WT_USAGE_HOST_ACCESS, WT_USAGE_UPLOAD, WT_USAGE_DOWNLOAD,
                                    WT_USAGE_HOST_ACCESS | WT_USAGE_FAST_DEVICE_ACCESS};
    wtv_request request = {.user = mixed(++w->random)};
    uint64_t dice = drawn(w, 20);
    if (r->is_seen)
        request.usage = seen[drawn(w, LENGTH(seen))];
    if (drawn(w, 2) == 0)
        request.usage |= WT_USAGE_TRANSIENT;
    if (!r->is_seen && drawn(w, 4) > 0)
        request.usage |= WT_USAGE_FAST_DEVICE_ACCESS;
    request.dedicated = dice == 0 ? WT_REQUIRED : dice == 1 ? WT_PREFERRED : WT_SHARED;
    if (drawn(w, 8) == 0)
        request.memory_types = 1u << STUB_LOCAL | 1u << STUB_COHERENT | 1u << STUB_CACHED | 1u << STUB_UNKNOWN;
    add_wishes(w, r, &request);
    return request;
}

/* An intent in the place of a usage. Where the host has to see it no copy will do. Of the permitted types some images
   may lie in none that the host sees. */
static void draw_intent(worker *w, const resource *r, wtv_request *request)
{
    static const uint32_t intents[] = {WTV_USAGE_AUTO, WTV_USAGE_AUTO_PREFER_DEVICE, WTV_USAGE_AUTO_PREFER_HOST};
    static const uint32_t accesses[] = {WTV_HOST_ACCESS_SEQUENTIAL_WRITE, WTV_HOST_ACCESS_RANDOM};
    if (drawn(w, 3) > 0)
        return;
    request->usage = intents[drawn(w, LENGTH(intents))] | (request->usage & WT_USAGE_TRANSIENT);
    if (r->is_seen)
        request->flags |= accesses[drawn(w, LENGTH(accesses))];
    else if (drawn(w, 2) == 0 && (r->kind != OPTIMAL_IMAGE || request->memory_types == 0))
        request->flags |= accesses[drawn(w, LENGTH(accesses))] | WTV_HOST_ACCESS_ALLOW_TRANSFER_INSTEAD;
}

static bool is_same_block(const wtv_block *one, const wtv_block *other)
{
    return one->allocation == other->allocation && one->memory == other->memory && one->offset == other->offset
           && one->size == other->size && one->asked == other->asked && one->mapped == other->mapped
           && one->name == other->name && one->user == other->user && one->memory_type == other->memory_type
           && one->properties == other->properties && one->flags == other->flags
           && one->dedicated == other->dedicated;
}

static void check_block(worker *w, const resource *r, const VkMemoryRequirements *needs, const wtv_request *request)
{
    const wtv_block *block = &r->block;
    const VkMemoryPriorityAllocateInfoEXT *priority = request->next;
    uint32_t types = needs->memoryTypeBits & (request->memory_types != 0 ? request->memory_types : ~0u);
    wtv_block now;
    must(block->allocation != 0 && block->memory != VK_NULL_HANDLE, "a block without a name");
    must(block->asked == needs->size && block->size >= needs->size, "a block of another size");
    must(block->offset % needs->alignment == 0, "a block that is not aligned");
    must(request->min_alignment == 0 || block->offset % request->min_alignment == 0, "a block that is not aligned");
    must((request->required & ~block->properties) == 0, "a required property lacks");
    must(block->name == NULL, "a new block has a name");
    must(block->memory_type < STUB_SERVING && (types >> block->memory_type & 1) != 0, "a wrong memory type");
    must(block->properties == stub_types[block->memory_type].propertyFlags, "wrong properties");
    must(block->user == request->user, "another value than the program's");
    must(block->flags == (r->kind == OPTIMAL_IMAGE ? WT_OPTIMAL : 0), "wrong flags");
    must(block->dedicated <= 1 && (block->dedicated == 1 || request->dedicated != WT_REQUIRED), "no own object");
    must(block->dedicated == 0 || block->offset == 0, "an own object that does not begin with its block");
    must((block->mapped != NULL) == (is_visible(r) && (block->dedicated == 0 || (request->flags & WTV_MAPPED) != 0)),
         "a wrong mapping");
    must(is_visible(r) || !r->is_seen, "a block that the host does not see");
    must(stub_object_of(w->world->driver, block->memory).priority
             == (block->dedicated == 1 && priority != NULL ? priority->priority : -1),
         "a chain is lost, or went to a shared object");
    must(wtv_block_of(w->world->allocator, block->allocation, &now) == VK_SUCCESS, "a new block is unknown");
    must(is_same_block(&now, block), "a block is shown in two ways");
}

/* What is left of a resource that the program made itself, after its memory was refused. */
static VkResult undo(worker *w, resource *r, VkResult result)
{
    const wtv_create_info *info = &w->world->info;
    if (r->buffer != VK_NULL_HANDLE)
        w->world->call.destroy_buffer(info->device, r->buffer, info->callbacks);
    if (r->image != VK_NULL_HANDLE)
        w->world->call.destroy_image(info->device, r->image, info->callbacks);
    r->buffer = VK_NULL_HANDLE;
    r->image = VK_NULL_HANDLE;
    return result;
}

/* Allocates a block and binds what the program made to it. */
static VkResult allocate_and_bind(worker *w, resource *r, const VkMemoryRequirements *needs,
                                  const wtv_request *request)
{
    wtv_allocator *a = w->world->allocator;
    wtv_allocation allocation;
    VkResult result = wtv_allocate(a, needs, request, &allocation, &r->block);
    if (result != VK_SUCCESS)
        return result;
    must(allocation == r->block.allocation, "two names of a block");
    result = r->buffer != VK_NULL_HANDLE ? wtv_bind_buffer(a, allocation, 0, r->buffer)
                                         : wtv_bind_image(a, allocation, 0, r->image);
    if (result != VK_SUCCESS)
        must(wtv_free(a, allocation) == VK_SUCCESS, "a block is not taken back");
    return result;
}

/* Binds what was created and is not bound, or destroys it. */
static VkResult bind_created(worker *w, resource *r, const wtv_request *request)
{
    wtv_allocator *a = w->world->allocator;
    wtv_allocation allocation = r->block.allocation;
    bool is_buffer = r->buffer != VK_NULL_HANDLE;
    if ((request->flags & WTV_DONT_BIND) == 0)
        return VK_SUCCESS;
    VkResult result =
        is_buffer ? wtv_bind_buffer(a, allocation, 0, r->buffer) : wtv_bind_image(a, allocation, 0, r->image);
    w->unbound += result == VK_SUCCESS;
    if (result != VK_SUCCESS && is_buffer)
        must(wtv_destroy_buffer(a, r->buffer, allocation) == VK_SUCCESS, "a buffer is not destroyed");
    else if (result != VK_SUCCESS)
        must(wtv_destroy_image(a, r->image, allocation) == VK_SUCCESS, "an image is not destroyed");
    return result;
}

static VkResult create_buffer(worker *w, resource *r, VkBufferCreateInfo *buffer, wtv_request *request)
{
    wtv_allocation allocation = 0;
    if (drawn(w, 2) == 0)
        buffer->usage |= VK_BUFFER_USAGE_VERTEX_BUFFER_BIT;
    draw_intent(w, r, request);
    VkResult result =
        wtv_create_buffer(w->world->allocator, buffer, request, &r->buffer, &allocation, &r->block);
    return result == VK_SUCCESS ? bind_created(w, r, request) : result;
}

static VkResult create_image(worker *w, resource *r, VkImageCreateInfo *image, wtv_request *request)
{
    wtv_allocation allocation = 0;
    if (drawn(w, 2) == 0)
        image->usage |= VK_IMAGE_USAGE_SAMPLED_BIT;
    draw_intent(w, r, request);
    VkResult result = wtv_create_image(w->world->allocator, image, request, &r->image, &allocation, &r->block);
    return result == VK_SUCCESS ? bind_created(w, r, request) : result;
}

static VkResult open_buffer(worker *w, resource *r, wtv_request *request)
{
    const wtv_create_info *info = &w->world->info;
    wtv_allocator *a = w->world->allocator;
    VkBufferCreateInfo buffer = stub_buffer_info(r->size);
    wtv_allocation allocation = 0;
    bool has_address = (info->flags & WTV_CREATE_DEVICE_ADDRESS) != 0 && drawn(w, 4) == 0;
    if (has_address)
        buffer.usage |= VK_BUFFER_USAGE_SHADER_DEVICE_ADDRESS_BIT;
    if (drawn(w, 2) == 0)
        return create_buffer(w, r, &buffer, request);
    request->flags &= ~WTV_DONT_BIND;
    VkResult result = w->world->call.create_buffer(info->device, &buffer, info->callbacks, &r->buffer);
    if (result != VK_SUCCESS)
        return result;
    VkMemoryRequirements needs = stub_needs_of_buffer(w->world->driver, r->buffer);
    if (has_address)
        request->usage |= WT_USAGE_DEVICE_ADDRESS;
    result = drawn(w, 2) == 0 ? allocate_and_bind(w, r, &needs, request)
                              : wtv_allocate_for_buffer(a, r->buffer, request, &allocation, &r->block);
    return result == VK_SUCCESS ? result : undo(w, r, result);
}

static VkResult open_image(worker *w, resource *r, wtv_request *request)
{
    const wtv_create_info *info = &w->world->info;
    wtv_allocator *a = w->world->allocator;
    uint32_t width = 1 + (uint32_t)drawn(w, 64), height = 1 + (uint32_t)(r->size / 4 / width);
    VkImageCreateInfo image = stub_image_info(width, height, r->kind == OPTIMAL_IMAGE);
    wtv_allocation allocation = 0;
    bool requires_own;
    r->size = (size_t)4 * width * height;
    if (drawn(w, 2) == 0)
        return create_image(w, r, &image, request);
    request->flags &= ~WTV_DONT_BIND;
    VkResult result = w->world->call.create_image(info->device, &image, info->callbacks, &r->image);
    if (result != VK_SUCCESS)
        return result;
    VkMemoryRequirements needs = stub_needs_of_image(w->world->driver, r->image, &requires_own);
    request->flags |= r->kind == OPTIMAL_IMAGE ? WT_OPTIMAL : 0;
    result = drawn(w, 2) == 0 && !requires_own ? allocate_and_bind(w, r, &needs, request)
                                               : wtv_allocate_for_image(a, r->image, request, &allocation, &r->block);
    return result == VK_SUCCESS ? result : undo(w, r, result);
}

static VkResult open_block(worker *w, resource *r, const wtv_request *request)
{
    const VkMemoryRequirements needs = {r->size, (VkDeviceSize)1 << drawn(w, 10), STUB_ALL_TYPES};
    wtv_allocation allocation;
    VkResult result = wtv_allocate(w->world->allocator, &needs, request, &allocation, &r->block);
    if (result == VK_SUCCESS)
        check_block(w, r, &needs, request);
    return result;
}

/* A range of an object of the program's. Where it is not coherent its end lies on an atom, or at the object's end. */
static VkResult open_import(worker *w, resource *r, const wtv_request *request)
{
    wtv_allocator *a = w->world->allocator;
    stub *driver = w->world->driver;
    uint32_t types[32], count = 0;
    VkDeviceSize offset = drawn(w, 3) * drawn(w, 600), behind = drawn(w, 2) * COARSE;
    wtv_allocation allocation;
    must(wtv_candidates(a, request->usage, STUB_ALL_TYPES, types, &count) == VK_SUCCESS && count > 0,
         "no memory type serves an import");
    VkDeviceSize end = offset + r->size;
    if (behind > 0)
        end = (end + COARSE - 1) / COARSE * COARSE;
    r->size = (size_t)(end - offset);
    VkDeviceSize object_size = end + behind;
    uint32_t type = types[drawn(w, count)];
    must(type < STUB_SERVING, "a memory type that never serves is a candidate");
    VkDeviceMemory memory = stub_make_object(driver, type, object_size);
    if (memory == VK_NULL_HANDLE)
        return VK_ERROR_TOO_MANY_OBJECTS;
    VkResult result = wtv_import(a, memory, type, object_size, offset, r->size, &allocation, &r->block);
    if (result != VK_SUCCESS) {
        w->world->call.free_memory(w->world->info.device, memory, w->world->info.callbacks);
        return result;
    }
    must(r->block.memory == memory && r->block.offset == offset, "an import lies elsewhere");
    must(r->block.size == r->size, "an import has another size");
    must(r->block.asked == r->size && r->block.dedicated == 1 && r->block.mapped == NULL, "an import is a wrong block");
    must(r->block.user == 0 && r->block.memory_type == type && r->block.flags == 0, "an import is a wrong block");
    return wtv_set_user(a, allocation, r->block.user = mixed(++w->random));
}

static void check_needs_met(worker *w, const resource *r, const wtv_request *request)
{
    VkMemoryRequirements needs;
    bool requires_own = false;
    if (r->buffer != VK_NULL_HANDLE)
        needs = stub_needs_of_buffer(w->world->driver, r->buffer);
    else if (r->image != VK_NULL_HANDLE)
        needs = stub_needs_of_image(w->world->driver, r->image, &requires_own);
    else
        return;
    check_block(w, r, &needs, request);
}

static void note_wishes(worker *w, resource *r, const wtv_request *request)
{
    r->is_kept = r->kind != IMPORT && is_visible(r) && (request->flags & WTV_MAPPED) != 0;
    r->mapped = r->block.mapped;
    w->intents += (request->usage & INTENTS) != 0;
    w->preferred += request->preferred != 0;
    w->kept += r->is_kept;
    w->kept_alone += r->is_kept && r->block.dedicated == 1;
}

static VkResult open_kind(worker *w, resource *r)
{
    const VkMemoryPriorityAllocateInfoEXT priority = {
        .sType = VK_STRUCTURE_TYPE_MEMORY_PRIORITY_ALLOCATE_INFO_EXT,
        .priority = (float)drawn(w, 64) / 64,
    };
    wtv_request request = drawn_request(w, r);
    if (drawn(w, 6) == 0)
        request.next = &priority;
    VkResult result = r->kind == BUFFER   ? open_buffer(w, r, &request)
                      : r->kind == BLOCK  ? open_block(w, r, &request)
                      : r->kind == IMPORT ? open_import(w, r, &request)
                                          : open_image(w, r, &request);
    if (result == VK_SUCCESS) {
        check_needs_met(w, r, &request);
        note_wishes(w, r, &request);
    }
    return result;
}

/* What is held, but for free chunks. After an error it is the same; one thread alone can compare it. */
typedef struct picture {
    wt_counts counts;
    stub_held held;
} picture;

static picture picture_of(world *o, bool is_taken)
{
    picture seen;
    memset(&seen, 0, sizeof seen);
    if (is_taken) {
        must(wtv_cleanup(o->allocator) == VK_SUCCESS, "a cleanup fails");
        must(wtv_count(o->allocator, &seen.counts) == VK_SUCCESS, "what is held is not counted");
        seen.held = stub_held_now(o->driver);
    }
    return seen;
}

static void open_resource(worker *w)
{
    static const kind kinds[] = {BUFFER, BUFFER, LINEAR_IMAGE, OPTIMAL_IMAGE, OPTIMAL_IMAGE, BLOCK, BUFFER, BLOCK};
    resource *r = &w->live[w->live_count];
    bool is_compared = w->world->threads == 1 && drawn(w, 4) == 0;
    picture before = picture_of(w->world, is_compared);
    *r = (resource){.kind = drawn(w, 20) == 0 ? IMPORT : kinds[drawn(w, LENGTH(kinds))], .size = drawn_size(w)};
    r->is_seen = r->kind != OPTIMAL_IMAGE && drawn(w, 2) == 0;
    VkResult result = open_kind(w, r);
    if (result != VK_SUCCESS) {
        picture after = picture_of(w->world, is_compared);
        must(is_refusal(w->world, result), "a request is refused for no cause");
        must(memcmp(&before, &after, sizeof before) == 0, "a refused request changes something");
        w->refused++;
        return;
    }
    w->opened[r->kind]++;
    w->dedicated += r->block.dedicated;
    w->live_count++;
    r->bytes = malloc(r->size);
    must(r->bytes != NULL, "no memory");
    write_by_device(w, r);
    if (is_visible(r))
        write_by_host(w, r);
}

static void close_resource(worker *w, resource *r)
{
    const wtv_create_info *info = &w->world->info;
    wtv_allocator *a = w->world->allocator;
    VkResult result;
    wtv_block gone;
    compare_by_device(w, r);
    if (r->buffer != VK_NULL_HANDLE && drawn(w, 2) == 0) {
        w->world->call.destroy_buffer(info->device, r->buffer, info->callbacks);
        result = wtv_free(a, r->block.allocation);
    } else if (r->buffer != VK_NULL_HANDLE) {
        result = wtv_destroy_buffer(a, r->buffer, r->block.allocation);
    } else if (r->image != VK_NULL_HANDLE) {
        result = wtv_destroy_image(a, r->image, r->block.allocation);
    } else {
        result = wtv_free(a, r->block.allocation);
    }
    must(result == VK_SUCCESS, "a block is not taken back");
    must(wtv_block_of(a, r->block.allocation, &gone) == VK_ERROR_VALIDATION_FAILED_EXT, "a freed block is known");
    must(wtv_free(a, r->block.allocation) == VK_ERROR_VALIDATION_FAILED_EXT, "a block is taken back twice");
    free(r->bytes);
    *r = w->live[--w->live_count];
}

/* ---- What is held. ---- */

/* Whether a text's brackets match, outside of its strings, and all of it lies in one pair. */
static bool is_balanced(const char *text)
{
    char open[64];
    size_t depth = 0;
    bool is_string = false;
    for (; *text != '\0'; text++) {
        if (is_string) {
            text += *text == '\\' && text[1] != '\0';
            is_string = *text != '"';
        } else if (*text == '"') {
            is_string = true;
        } else if (*text == '{' || *text == '[') {
            if (depth == sizeof open)
                return false;
            open[depth++] = *text == '{' ? '}' : ']';
        } else if (*text == '}' || *text == ']') {
            if (depth == 0 || open[--depth] != *text)
                return false;
            if (depth == 0)
                break;
        }
    }
    return depth == 0 && *text == '}' && (text[1] == '\0' || strcmp(text + 1, "\n") == 0);
}

static void check_texts(worker *w, const char *folder)
{
    static const char *const titles[] = {"statistics.json", "report.json"};
    wtv_allocator *a = w->world->allocator;
    for (size_t i = 0; i < LENGTH(titles); i++) {
        char *text = NULL, path[512];
        VkResult result = i == 0 ? wtv_statistics_text(a, &text) : wtv_report_text(a, &text);
        must(result == VK_SUCCESS, "no text");
        must(is_balanced(text), "a text is no JSON");
        if (folder != NULL) {
            must(snprintf(path, sizeof path, "%s%s", folder, titles[i]) < (int)sizeof path, "a long path");
            FILE *file = fopen(path, "w");
            must(file != NULL && fputs(text, file) >= 0 && fclose(file) == 0, "a text is not written");
        }
        wtv_free_text(text);
    }
}

/* Walks the live blocks in parts: each of the thread's own comes exactly once. */
static void walk(worker *w)
{
    unsigned seen[MOST_LIVE] = {0};
    wtv_block blocks[24];
    size_t room = 1 + (size_t)drawn(w, LENGTH(blocks)), count;
    wtv_allocation after = 0;
    do {
        must(wtv_blocks(w->world->allocator, after, blocks, room, &count) == VK_SUCCESS, "a walk fails");
        for (size_t i = 0; i < count; i++)
            for (size_t j = 0; j < w->live_count; j++)
                if (blocks[i].allocation == w->live[j].block.allocation) {
                    wtv_block known = w->live[j].block;
                    known.mapped = blocks[i].mapped;
                    must(is_same_block(&known, &blocks[i]), "a walk shows another block");
                    check_name(&w->live[j], &blocks[i]);
                    seen[j]++;
                }
        if (count > 0)
            after = blocks[count - 1].allocation;
    } while (count == room);
    for (size_t j = 0; j < w->live_count; j++)
        must(seen[j] == 1, "a walk passes a block, or comes to it twice");
}

/* The first thread alone sets limits by hand. The stub hears of a greater one before, and of a lesser one after. */
static void limit_heap(worker *w)
{
    world *o = w->world;
    uint32_t heap = (uint32_t)drawn(w, STUB_HEAPS);
    uint64_t dice = drawn(w, 4);
    wt_heap_counts before, after;
    must(wtv_heap(o->allocator, heap, &before) == VK_SUCCESS, "a heap is not counted");
    VkDeviceSize size = stub_heaps[heap].size;
    VkDeviceSize limit = dice < 2 ? size : drawn(w, dice == 2 ? size : before.used + 1);
    if (limit > before.limit)
        stub_set_limit(o->driver, heap, limit);
    must(wtv_set_heap_limit(o->allocator, heap, limit) == VK_SUCCESS, "a limit is not set");
    if (limit <= before.limit)
        stub_set_limit(o->driver, heap, limit);
    must(wtv_heap(o->allocator, heap, &after) == VK_SUCCESS && after.limit == limit, "a limit is another one");
    w->over_limit += after.used > limit;
}

/* The requested bytes of each memory type are those of its blocks. */
static void check_asked(worker *w)
{
    uint64_t asked[STUB_TYPES] = {0};
    wtv_block blocks[16];
    wtv_allocation after = 0;
    size_t count;
    do {
        must(wtv_blocks(w->world->allocator, after, blocks, LENGTH(blocks), &count) == VK_SUCCESS, "a walk fails");
        for (size_t i = 0; i < count; i++)
            asked[blocks[i].memory_type] += blocks[i].asked;
        after = count > 0 ? blocks[count - 1].allocation : 0;
    } while (count == LENGTH(blocks));
    for (uint32_t type = 0; type < STUB_TYPES; type++) {
        wt_type_statistics sums;
        must(wtv_statistics(w->world->allocator, type, &sums) == VK_SUCCESS, "no statistics");
        uint64_t sum = sums.dedicated.asked_bytes + sums.imported.asked_bytes + sums.buddy.asked_bytes
                       + sums.free_list.asked_bytes + sums.fit.asked_bytes;
        must(sum == asked[type], "other bytes are asked for than blocks were");
    }
}

static void look_at_all(worker *w)
{
    wtv_allocator *a = w->world->allocator;
    wt_type_statistics statistics;
    wt_counts counts;
    wt_heap_counts heap;
    must(wtv_statistics(a, (uint32_t)drawn(w, STUB_TYPES), &statistics) == VK_SUCCESS, "no statistics");
    must(wtv_count(a, &counts) == VK_SUCCESS && counts.blocks >= w->live_count, "too few blocks are counted");
    must(counts.unread == 0, "objects wait to be freed");
    must(wtv_heap(a, (uint32_t)drawn(w, STUB_HEAPS), &heap) == VK_SUCCESS, "a heap is not counted");
    if (drawn(w, 8) == 0)
        check_texts(w, NULL);
    if (w->world->threads == 1)
        check_asked(w);
}

static void follow_budgets(worker *w)
{
    if ((w->world->info.flags & WTV_CREATE_MEMORY_BUDGET) != 0)
        must(wtv_update_budget(w->world->allocator) == VK_SUCCESS, "budgets are not followed");
    else if (w->number == 0)
        limit_heap(w);
}

/* ---- Runs. ---- */

static void touch(worker *w, resource *r)
{
    static const wtv_allocation unknown = UINT64_C(0xffffffff00000001);
    wtv_block block;
    uint64_t dice = drawn(w, 17);
    if (dice == 16) {
        rename_block(w, r);
    } else if (dice == 0) {
        write_by_device(w, r);
    } else if (dice == 1) {
        compare_by_device(w, r);
    } else if (dice == 2) {
        r->block.user = mixed(++w->random);
        must(wtv_set_user(w->world->allocator, r->block.allocation, r->block.user) == VK_SUCCESS, "no value is set");
    } else if (dice == 3) {
        must(wtv_block_of(w->world->allocator, unknown, &block) == VK_ERROR_VALIDATION_FAILED_EXT, "no block is known");
    } else if (is_visible(r) && dice < 6) {
        compare_by_host(w, r);
    } else if (is_visible(r) && dice < 8) {
        write_by_host(w, r);
    } else if (is_visible(r) && dice < 14 && r->maps < MOST_MAPS) {
        map(w, r);
    } else {
        unmap(w, r);
    }
}

static void step(worker *w)
{
    uint64_t dice = drawn(w, 200);
    if (dice < 68 && w->live_count < MOST_LIVE)
        open_resource(w);
    else if (w->live_count == 0)
        return;
    else if (dice < 122)
        close_resource(w, &w->live[drawn(w, w->live_count)]);
    else if (dice < 185)
        touch(w, &w->live[drawn(w, w->live_count)]);
    else if (dice < 191)
        write_many(w);
    else if (dice < 193)
        read_many(w);
    else if (dice < 196)
        follow_budgets(w);
    else if (dice < 197)
        must(wtv_cleanup(w->world->allocator) == VK_SUCCESS, "a cleanup fails");
    else if (dice < 198)
        walk(w);
    else
        look_at_all(w);
}

static uint64_t opened_of(const worker *w)
{
    uint64_t sum = 0;
    for (int i = 0; i < KINDS; i++)
        sum += w->opened[i];
    return sum;
}

static void *work(void *argument)
{
    worker *w = argument;
    while (opened_of(w) < w->wanted) {
        step(w);
        must(stub_failures(w->world->driver) == 0, "the stub found a failure");
    }
    return NULL;
}

/* ---- Faults, planted between the allocator and the stub. ---- */

static VKAPI_ATTR VkResult VKAPI_CALL bind_buffer_shifted(VkDevice device, VkBuffer buffer, VkDeviceMemory memory,
                                                          VkDeviceSize offset)
{
    return stub_table.bind_buffer_memory(device, buffer, memory, offset + 1);
}

static VKAPI_ATTR VkResult VKAPI_CALL bind_image_shifted(VkDevice device, VkImage image, VkDeviceMemory memory,
                                                         VkDeviceSize offset)
{
    return stub_table.bind_image_memory(device, image, memory, offset + 1);
}

static VKAPI_ATTR VkResult VKAPI_CALL pass_no_ranges(VkDevice device, uint32_t count, const VkMappedMemoryRange *ranges)
{
    (void)device, (void)count, (void)ranges;
    return VK_SUCCESS;
}

static VKAPI_ATTR void VKAPI_CALL free_no_memory(VkDevice device, VkDeviceMemory memory,
                                                 const VkAllocationCallbacks *given)
{
    (void)device, (void)memory, (void)given;
}

static VKAPI_ATTR void VKAPI_CALL unmap_nothing(VkDevice device, VkDeviceMemory memory)
{
    (void)device, (void)memory;
}

static VKAPI_ATTR VkResult VKAPI_CALL allocate_without_callbacks(VkDevice device, const VkMemoryAllocateInfo *info,
                                                                 const VkAllocationCallbacks *given,
                                                                 VkDeviceMemory *memory)
{
    (void)given;
    return stub_table.allocate_memory(device, info, NULL, memory);
}

static VKAPI_ATTR VkResult VKAPI_CALL allocate_without_chain(VkDevice device, const VkMemoryAllocateInfo *info,
                                                             const VkAllocationCallbacks *given, VkDeviceMemory *memory)
{
    VkMemoryAllocateInfo bare = *info;
    bare.pNext = NULL;
    return stub_table.allocate_memory(device, &bare, given, memory);
}

#define TELLS(name, limit, change) \
    static VKAPI_ATTR void VKAPI_CALL name(VkPhysicalDevice physical, VkPhysicalDeviceProperties2 *properties) \
    { \
        stub_table.get_physical_device_properties2(physical, properties); \
        properties->properties.limits.limit change; \
    }

TELLS(tell_half_a_page, bufferImageGranularity, /= 2)
TELLS(tell_half_an_atom, nonCoherentAtomSize, /= 2)
TELLS(tell_more_objects, maxMemoryAllocationCount, *= 2)

static VKAPI_ATTR void VKAPI_CALL tell_no_budget(VkPhysicalDevice physical,
                                                 VkPhysicalDeviceMemoryProperties2 *properties)
{
    VkPhysicalDeviceMemoryBudgetPropertiesEXT *budget = properties->pNext;
    stub_table.get_physical_device_memory_properties2(physical, properties);
    for (uint32_t i = 0; i < STUB_HEAPS; i++)
        budget->heapBudget[i] = stub_heaps[i].size;
}

typedef struct fault {
    const char *name;
    wtv_functions functions; /* those that the allocator gets in place of the stub's */
    uint32_t flags;          /* which it gets beside */
} fault;

static const fault faults[] = {
    {.name = "shifted-buffers", .functions.bind_buffer_memory = bind_buffer_shifted},
    {.name = "shifted-images", .functions.bind_image_memory = bind_image_shifted},
    {.name = "no-flush", .functions.flush_mapped_memory_ranges = pass_no_ranges},
    {.name = "no-invalidate", .functions.invalidate_mapped_memory_ranges = pass_no_ranges},
    {.name = "no-free", .functions.free_memory = free_no_memory},
    {.name = "no-unmap", .functions.unmap_memory = unmap_nothing},
    {.name = "no-callbacks", .functions.allocate_memory = allocate_without_callbacks},
    {.name = "no-chain", .functions.allocate_memory = allocate_without_chain},
    {.name = "half-a-page", .functions.get_physical_device_properties2 = tell_half_a_page},
    {.name = "half-an-atom", .functions.get_physical_device_properties2 = tell_half_an_atom},
    {.name = "more-objects", .functions.get_physical_device_properties2 = tell_more_objects},
    {.name = "no-budget", .functions.get_physical_device_memory_properties2 = tell_no_budget},
    {.name = "no-lock", .flags = WTV_CREATE_NO_LOCK},
};

static const fault *fault_of(const char *name)
{
    for (size_t i = 0; i < LENGTH(faults); i++)
        if (strcmp(faults[i].name, name) == 0)
            return &faults[i];
    must(false, "no such fault");
    return NULL;
}

/* ---- Begun and ended. ---- */

/* What is enabled: 1.0 without extensions, 1.0 with all of them, or 1.1. */
static stub_plan plan_of(uint64_t seed, uint32_t percent)
{
    static const VkDeviceSize pages[] = {1024, 4096, 65536, 1}, atoms[] = {64, 256, 16};
    stub_plan plan = stub_usual_plan();
    plan.seed = seed;
    plan.percent = percent;
    plan.page = pages[seed % LENGTH(pages)];
    plan.atom = atoms[seed % LENGTH(atoms)];
    plan.max_objects = seed % 5 == 0 ? 40 : 160;
    plan.draws_budgets = true;
    plan.callbacks = seed % 2 == 0 ? &stub_callbacks : NULL;
    plan.api_version = seed % 3 == 2 ? VK_API_VERSION_1_1 : VK_API_VERSION_1_0;
    if (seed % 3 == 1)
        plan.flags = WTV_CREATE_PROPERTIES2 | WTV_CREATE_DEDICATED_ALLOCATION;
    if (seed % 3 != 0)
        plan.flags |= WTV_CREATE_MEMORY_BUDGET;
    if (seed % 4 >= 2)
        plan.flags |= WTV_CREATE_DEVICE_ADDRESS;
    return plan;
}

/* Small chunks, so that many objects come and go. */
static wt_config small_config = {
    .dedicated_threshold = 64 << 10,
    .preferred_dedicated_threshold = 8 << 10,
    .transient_dedicated_threshold = 128 << 10,
    .starting_free_list_chunk = 16 << 10,
    .final_free_list_chunk = 128 << 10,
    .minimal_buddy_size = 64,
    .initial_buddy_dedicated_size = 16 << 10,
};

static void begin(world *o, const fault *planted)
{
    stub_plan plan = plan_of(o->seed, o->percent);
    wtv_create_info info;
    o->driver = stub_open(&plan);
    o->call = stub_table;
    o->info = info = stub_info(o->driver);
    info.other_objects = o->threads;
    small_config.sharing = o->seed % 4 == 1 ? WT_BUDDY : WT_FIT;
    info.config = o->seed % 2 == 1 ? &small_config : NULL;
    if (o->seed % 4 == 1) {
        info.functions = &stub_table;
        info.get_instance_proc_addr = NULL;
    }
    if (planted != NULL) {
        info.functions = &planted->functions;
        info.get_instance_proc_addr = stub_get_instance_proc_addr;
        info.flags |= planted->flags;
    }
    must(wtv_create(&info, &o->allocator) == VK_SUCCESS, "no allocator is created");
}

/* The sums of all live blocks and objects, by what the threads know, the allocator and the stub. */
static void check_sums(world *o, worker *workers)
{
    wt_counts counts;
    uint64_t live = 0, objects = 0, blocks = 0;
    stub_held held = stub_held_now(o->driver);
    for (uint32_t i = 0; i < o->threads; i++)
        live += workers[i].live_count;
    for (uint32_t type = 0; type < STUB_TYPES; type++) {
        wt_type_statistics sums;
        must(wtv_statistics(o->allocator, type, &sums) == VK_SUCCESS, "no statistics");
        const wt_kind_statistics *kinds[] = {&sums.dedicated, &sums.imported, &sums.buddy, &sums.free_list, &sums.fit};
        for (size_t i = 0; i < LENGTH(kinds); i++) {
            objects += kinds[i]->objects;
            blocks += kinds[i]->blocks;
        }
    }
    must(wtv_count(o->allocator, &counts) == VK_SUCCESS, "what is held is not counted");
    must(counts.blocks == live && blocks == live, "other blocks are counted than are live");
    must(counts.held == held.objects && objects == held.objects, "other objects are counted than are held");
    check_asked(&workers[0]);
}

/* An allocator with live blocks is not destroyed, but lists them. */
static void check_not_destroyed(world *o, const worker *workers)
{
    static wtv_block live[MOST_THREADS * MOST_LIVE], first[3];
    size_t count = 0, known = 0;
    uint64_t wanted = 0;
    for (uint32_t i = 0; i < o->threads; i++)
        wanted += workers[i].live_count;
    if (wanted == 0)
        return;
    must(wtv_destroy(o->allocator, first, LENGTH(first), &count) == VK_ERROR_VALIDATION_FAILED_EXT, "it is destroyed");
    must(count == wanted, "other blocks are counted than are live");
    must(wtv_destroy(o->allocator, NULL, 0, NULL) == VK_ERROR_VALIDATION_FAILED_EXT, "it is destroyed with blocks");
    must(wtv_destroy(o->allocator, live, LENGTH(live), &count) == VK_ERROR_VALIDATION_FAILED_EXT, "it is destroyed");
    for (size_t i = 0; i < LENGTH(first) && i < count; i++)
        must(is_same_block(&first[i], &live[i]), "a list begins with other blocks");
    for (size_t i = 0; i < count; i++)
        for (uint32_t j = 0; j < o->threads; j++)
            for (size_t k = 0; k < workers[j].live_count; k++)
                if (live[i].allocation == workers[j].live[k].block.allocation) {
                    check_name(&workers[j].live[k], &live[i]);
                    known++;
                }
    must(count == wanted && known == wanted, "a list of live blocks lacks one");
}

/* In long runs each function was refused, and in longer ones with each of its errors. */
static void check_refusals(const world *o, uint64_t resources)
{
    if (resources * o->percent < MANY_REFUSALS)
        return;
    for (int i = 0; i < STUB_FUNCTIONS; i++) {
        const VkResult *errors = stub_errors_of((stub_function)i);
        must(errors[0] == VK_SUCCESS || stub_refusals(o->driver, (stub_function)i) > 0, "a function is never refused");
        for (size_t j = 0; errors[j] != VK_SUCCESS && resources * o->percent >= 4 * MANY_REFUSALS; j++)
            must(stub_refusals_with(o->driver, (stub_function)i, j) > 0, "an error is never returned");
    }
}

static void end(world *o, worker *workers, const char *folder)
{
    for (uint32_t i = 0; i < o->threads; i++)
        for (size_t j = 0; j < workers[i].live_count; j++)
            compare_by_device(&workers[i], &workers[i].live[j]);
    check_sums(o, workers);
    check_texts(&workers[0], folder);
    check_not_destroyed(o, workers);
    for (uint32_t i = 0; i < o->threads; i++) {
        walk(&workers[i]);
        while (workers[i].live_count > 0)
            close_resource(&workers[i], &workers[i].live[drawn(&workers[i], workers[i].live_count)]);
    }
    must(wtv_cleanup(o->allocator) == VK_SUCCESS, "a cleanup fails");
    check_sums(o, workers);
    stub_held held = stub_held_now(o->driver);
    must(held.objects == 0 && held.buffers == 0 && held.images == 0, "something is held at the end");
    must(wtv_destroy(o->allocator, NULL, 0, NULL) == VK_SUCCESS, "an allocator is not destroyed");
}

/* How many had an intent or preferred properties, stayed mapped, and that with an object of their own, or were bound by
   the program; how many names were given; and how often bytes were compared through a pointer that stays. */
static void print_wishes(const worker *sum)
{
    printf("  %llu by intents, %llu by preferred properties, %llu kept mapped, %llu of these alone, %llu bound later, ",
           (unsigned long long)sum->intents, (unsigned long long)sum->preferred, (unsigned long long)sum->kept,
           (unsigned long long)sum->kept_alone, (unsigned long long)sum->unbound);
    printf("%llu names, %llu compared by a lasting pointer\n", (unsigned long long)sum->names,
           (unsigned long long)sum->compared_kept);
    if (opened_of(sum) >= RUN_OF_NOTE)
        must(sum->intents > 0 && sum->preferred > 0 && sum->kept > 0 && sum->kept_alone > 0 && sum->unbound > 0
                 && sum->names > 0 && sum->compared_kept > 0, "something never came to pass");
}

static void print_run(const world *o, const worker *workers)
{
    worker sum = {0};
    for (uint32_t i = 0; i < o->threads; i++) {
        const worker *w = &workers[i];
        for (int j = 0; j < KINDS; j++)
            sum.opened[j] += w->opened[j];
        sum.dedicated += w->dedicated;
        sum.refused += w->refused;
        sum.compared += w->compared;
        sum.flushes += w->flushes;
        sum.mapped += w->mapped;
        sum.over_limit += w->over_limit;
        sum.intents += w->intents;
        sum.preferred += w->preferred;
        sum.kept += w->kept;
        sum.kept_alone += w->kept_alone;
        sum.unbound += w->unbound;
        sum.names += w->names;
        sum.compared_kept += w->compared_kept;
    }
    uint64_t below = sum.over_limit + stub_budgets_below(o->driver);
    printf("drawn %llu: %u threads, %u %% refused: ", (unsigned long long)o->seed, o->threads, o->percent);
    printf("%llu buffers, %llu linear and %llu optimal images, %llu blocks, %llu imports; ",
           (unsigned long long)sum.opened[BUFFER], (unsigned long long)sum.opened[LINEAR_IMAGE],
           (unsigned long long)sum.opened[OPTIMAL_IMAGE], (unsigned long long)sum.opened[BLOCK],
           (unsigned long long)sum.opened[IMPORT]);
    printf("%llu dedicated, %llu refused, %llu compared, %llu mapped, %llu flushes of many, %llu limits below\n",
           (unsigned long long)sum.dedicated, (unsigned long long)sum.refused, (unsigned long long)sum.compared,
           (unsigned long long)sum.mapped, (unsigned long long)sum.flushes, (unsigned long long)below);
    if (opened_of(&sum) >= RUN_OF_NOTE) {
        for (int j = 0; j < KINDS; j++)
            must(sum.opened[j] > 0, "a kind of resource never came");
        must(sum.dedicated > 0 && sum.flushes > 0 && sum.mapped > 0 && below > 0, "something never came to pass");
    }
    print_wishes(&sum);
}

int main(int argc, char **argv)
{
    static worker workers[MOST_THREADS];
    must(argc == 5 || argc == 6, "drawn SEED RESOURCES THREADS PERCENT [FAULT | FOLDER/]");
    const char *last = argc == 6 ? argv[5] : "";
    bool is_folder = strchr(last, '/') != NULL;
    uint64_t resources = strtoull(argv[2], NULL, 10);
    world o = {
        .seed = strtoull(argv[1], NULL, 10),
        .threads = (uint32_t)strtoul(argv[3], NULL, 10),
        .percent = (uint32_t)strtoul(argv[4], NULL, 10),
    };
    must(o.threads >= 1 && o.threads <= MOST_THREADS && o.percent < 100, "a wrong argument");
    begin(&o, argc == 6 && !is_folder ? fault_of(last) : NULL);
    for (uint32_t i = 0; i < o.threads; i++) {
        workers[i].world = &o;
        workers[i].number = i;
        workers[i].random = mixed(o.seed * MOST_THREADS + i);
        workers[i].wanted = resources / o.threads;
        must(pthread_create(&workers[i].thread, NULL, work, &workers[i]) == 0, "no thread");
    }
    for (uint32_t i = 0; i < o.threads; i++)
        must(pthread_join(workers[i].thread, NULL) == 0, "a thread is lost");
    end(&o, workers, is_folder ? last : NULL);
    check_refusals(&o, resources);
    print_run(&o, workers);
    must(stub_close(o.driver) == 0, "the stub found failures");
    must(stub_pieces_taken == stub_pieces_given, "memory of the program's callbacks is not freed");
    return 0;
}
