/* Blocks that stay mapped as long as they live, over the stub: shared ones, and those with an object of their own; what
 * happens where the driver refuses the mapping. And resources that the program binds itself. */
#include "calls.h"

/* ---- Mapped as long as a block lives. ---- */

static uint64_t maps(const world *w)
{
    return stub_calls(w->driver, STUB_MAP);
}

static wtv_request mapped_request(uint32_t type, uint32_t dedicated)
{
    return (wtv_request){
        .usage = type == STUB_LOCAL ? WT_USAGE_FAST_DEVICE_ACCESS : WT_USAGE_HOST_ACCESS,
        .memory_types = 1u << type,
        .dedicated = dedicated,
        .flags = WTV_MAPPED,
    };
}

/* It is mapped as it was, and no wtv_unmap without its wtv_map ends that. */
static void expect_mapped(world *w, const made *m)
{
    must(now(w, m->block.allocation).mapped == m->block.mapped, "a mapping is another one");
    must(stub_object_of(w->driver, m->block.memory).is_mapped, "a mapping is ended");
    must(wtv_unmap(w->allocator, m->block.allocation) == INVALID, "what was not mapped is unmapped");
    must(now(w, m->block.allocation).mapped == m->block.mapped, "a mapping is another one");
    must(stub_object_of(w->driver, m->block.memory).is_mapped, "a mapping is ended");
}

/* Mappings nest over the one that lasts, and copies leave it. */
static void check_nesting(world *w, const made *m)
{
    char bytes[8] = "";
    void *first, *second;
    expect_mapped(w, m);
    must(wtv_map(w->allocator, m->block.allocation, &first) == VK_SUCCESS, "a mapped block is not mapped again");
    must(wtv_map(w->allocator, m->block.allocation, &second) == VK_SUCCESS, "a mapped block is not mapped again");
    must(first == m->block.mapped && second == first, "a nested mapping is another pointer");
    must(wtv_unmap(w->allocator, m->block.allocation) == VK_SUCCESS, "a mapping is not ended");
    must(wtv_unmap(w->allocator, m->block.allocation) == VK_SUCCESS, "a mapping is not ended");
    expect_mapped(w, m);
    must(wtv_write(w->allocator, m->block.allocation, 3, "nested", 7) == VK_SUCCESS, "nothing is written");
    must(memcmp((char *)m->block.mapped + 3, "nested", 7) == 0, "written bytes are not under the pointer");
    must(wtv_read(w->allocator, m->block.allocation, 3, bytes, 7) == VK_SUCCESS, "nothing is read");
    must(memcmp(bytes, "nested", 7) == 0, "other bytes are read");
    expect_mapped(w, m);
}

/* Bytes under the pointer reach the device by a flush, and its bytes come by an invalidation, unless it is coherent. */
static void check_bytes(world *w, const made *m)
{
    bool is_coherent = (m->block.properties & VK_MEMORY_PROPERTY_HOST_COHERENT_BIT) != 0;
    unsigned char *device = stub_memory_bytes(w->driver, m->block.memory, m->block.offset, m->block.asked);
    const wtv_range all = {m->block.allocation, 0, VK_WHOLE_SIZE}, some = {m->block.allocation, 5, 9};
    memcpy((char *)m->block.mapped + 5, "persists", 9);
    must((memcmp(device + 5, "persists", 9) == 0) == is_coherent, "bytes reach the device by themselves, or do not");
    must(wtv_flush(w->allocator, &some, 1) == VK_SUCCESS, "a mapped block is not flushed");
    must(memcmp(device + 5, "persists", 9) == 0, "flushed bytes do not reach the device");
    memcpy(device + 5, "returned", 9);
    must(wtv_invalidate(w->allocator, &all, 1) == VK_SUCCESS, "a mapped block is not invalidated");
    must(memcmp((char *)m->block.mapped + 5, "returned", 9) == 0, "invalidated bytes are the old ones");
}

static void check_mapped(world *w, enum call by, uint32_t type, uint32_t dedicated)
{
    wtv_request request = mapped_request(type, dedicated), plain = request;
    made first, m;
    plain.flags = 0;
    must(make(w, by == IMAGE ? IMAGE : BUFFER, &plain, &first) == VK_SUCCESS, "no block");
    uint64_t before = maps(w), unmappings = stub_calls(w->driver, STUB_UNMAP);
    must(make(w, by, &request, &m) == VK_SUCCESS && m.block.memory_type == type, "no block");
    bool is_seen = type != STUB_LOCAL;
    must((m.block.mapped != NULL) == is_seen, "a block is not mapped, or one that the host does not see is");
    must(m.block.dedicated == 0 || maps(w) - before == is_seen, "an object of its own is not mapped once");
    must(m.block.dedicated == 1 || m.block.memory != first.block.memory || maps(w) == before,
         "a shared object is mapped once more");
    if (is_seen) {
        before = maps(w);
        check_nesting(w, &m);
        check_bytes(w, &m);
        must(maps(w) == before, "a mapped block is mapped by the driver again");
    } else {
        void *bytes;
        must(wtv_map(w->allocator, m.block.allocation, &bytes) == UNMAPPABLE, "what the host does not see is mapped");
        must(wtv_unmap(w->allocator, m.block.allocation) == INVALID, "what was not mapped is unmapped");
    }
    unmake(w, &m);
    must(stub_calls(w->driver, STUB_UNMAP) == unmappings, "an object is unmapped before it is freed");
    unmake(w, &first);
}

/* A block that is freed while the program maps it, too; and one that has the same place later is not mapped. */
static void check_freed_while_mapped(void)
{
    const wtv_request request = mapped_request(STUB_CACHED, WT_REQUIRED);
    wtv_request plain = request;
    wtv_block listed;
    size_t count;
    void *bytes;
    world w;
    made m;
    plain.flags = 0;
    begin(&w);
    const picture before = taken(&w);
    for (int i = 0; i < 3; i++) {
        must(make(&w, BLOCK, &request, &m) == VK_SUCCESS, "no block");
        must(wtv_map(w.allocator, m.block.allocation, &bytes) == VK_SUCCESS, "a block is not mapped");
        must(wtv_destroy(w.allocator, &listed, 1, &count) == INVALID && count == 1, "an allocator is destroyed");
        must(listed.mapped == bytes && bytes == m.block.mapped, "a list of live blocks has another mapping");
        unmake(&w, &m);
        must(wtv_unmap(w.allocator, m.block.allocation) == INVALID, "a freed block is unmapped");
        expect_same(&w, &before);
        must(make(&w, BLOCK, &plain, &m) == VK_SUCCESS && m.block.mapped == NULL, "a block is mapped");
        must(wtv_unmap(w.allocator, m.block.allocation) == INVALID, "a new block has an earlier one's mapping");
        unmake(&w, &m);
    }
    expect_same(&w, &before);
    end(&w);
}

static void run_mapped(void)
{
    static const uint32_t seen[] = {STUB_LOCAL, STUB_CACHED, STUB_COHERENT, STUB_LOCAL_VISIBLE};
    world w;
    begin(&w);
    for (int by = 0; by < CALLS; by++)
        for (size_t i = 0; i < LENGTH(seen); i++) {
            check_mapped(&w, (enum call)by, seen[i], WT_SHARED);
            check_mapped(&w, (enum call)by, seen[i], WT_REQUIRED);
        }
    end(&w);
    check_freed_while_mapped();
}

/* ---- A mapping that the driver refuses. ---- */

/* Requests whose memory types stand in an order: the usage's, with preferred properties, and an intent's. */
static const wtv_request refused_requests[] = {
    {.usage = WT_USAGE_UPLOAD, .dedicated = WT_REQUIRED, .flags = WTV_MAPPED},
    {.usage = WT_USAGE_UPLOAD, .dedicated = WT_REQUIRED, .flags = WTV_MAPPED,
     .preferred = VK_MEMORY_PROPERTY_HOST_CACHED_BIT},
    {.usage = WTV_USAGE_AUTO, .dedicated = WT_REQUIRED, .flags = WTV_MAPPED | SEQUENTIAL},
};
static const uint32_t refused_orders[][3] = {
    {STUB_COHERENT, STUB_CACHED, STUB_LOCAL_VISIBLE},
    {STUB_CACHED, STUB_COHERENT, STUB_LOCAL_VISIBLE},
    {STUB_COHERENT, STUB_CACHED, STUB_LOCAL_VISIBLE},
};
enum { ORDERED = 3 };


/* How many mappings are refused from now on: the first one with this result, and the others for want of memory. */
static struct {
    uint64_t left;
    VkResult first;
} refusing;

static VKAPI_ATTR VkResult VKAPI_CALL map_or_refuse(VkDevice device, VkDeviceMemory memory, VkDeviceSize offset,
                                                    VkDeviceSize size, VkMemoryMapFlags flags, void **bytes)
{
    VkResult result = refusing.left > 0 ? refusing.first : VK_SUCCESS;
    refusing.left -= refusing.left > 0;
    refusing.first = LACKING;
    return result != VK_SUCCESS ? result : stub_table.map_memory(device, memory, offset, size, flags, bytes);
}

static void refuse_mappings(uint64_t count, VkResult first)
{
    refusing.left = count;
    refusing.first = first;
}

/* The memory type behind those whose mappings are refused serves, until none is left. */
static void check_next_type(world *w, size_t which, uint64_t refused, VkResult first)
{
    const picture before = taken(w);
    uint64_t asked = stub_calls(w->driver, STUB_ALLOCATE);
    made m;
    refuse_mappings(refused, first);
    VkResult result = make(w, BUFFER, &refused_requests[which], &m);
    must(result == (refused < ORDERED ? VK_SUCCESS : first), "the result is not that of the first memory type");
    must(stub_calls(w->driver, STUB_ALLOCATE) - asked == (refused < ORDERED ? refused + 1 : ORDERED),
         "a memory type is asked again");
    if (result == VK_SUCCESS) {
        const stub_held held = stub_held_now(w->driver);
        must(m.block.memory_type == refused_orders[which][refused] && m.block.mapped != NULL, "another type serves");
        must(held.objects == before.held.objects + 1 && held.mapped == before.held.mapped + 1,
             "an object of a refused mapping stays");
        unmake(w, &m);
    }
    expect_same(w, &before);
}

/* Any other error ends the request. */
static void check_ended(world *w, size_t which, VkResult error)
{
    const picture before = taken(w);
    uint64_t asked = stub_calls(w->driver, STUB_ALLOCATE);
    for (int by = 0; by < CALLS; by++) {
        bool has_intent = (refused_requests[which].usage & INTENTS) != 0;
        made m;
        if (has_intent && by > IMAGE)
            continue;
        refuse_mappings(1, error);
        must(make(w, (enum call)by, &refused_requests[which], &m) == error, "an error does not end a request");
        must(refusing.left == 0 && stub_calls(w->driver, STUB_ALLOCATE) == ++asked, "another memory type is asked");
        expect_same(w, &before);
    }
}

/* A shared object is refused its mapping when it is made. With an intent the same memory type serves alone then. */
static void check_shared(world *w)
{
    const wtv_request plain = {.usage = WT_USAGE_UPLOAD, .flags = WTV_MAPPED};
    const wtv_request intent = {.usage = WTV_USAGE_AUTO, .flags = WTV_MAPPED | SEQUENTIAL};
    const struct {
        const wtv_request *request;
        uint64_t refused;
        uint32_t type, dedicated;
    } cases[] = {
        {&plain, 1, STUB_CACHED, 0},
        {&plain, 3, STUB_COHERENT, 1},
        {&plain, 4, STUB_CACHED, 0},
        {&intent, 1, STUB_COHERENT, 1},
        {&intent, 2, STUB_CACHED, 0},
        {&intent, 3, STUB_CACHED, 1},
        {&intent, 4, STUB_LOCAL_VISIBLE, 0},
    };
    const picture before = taken(w);
    made m;
    for (size_t i = 0; i < LENGTH(cases); i++) {
        refuse_mappings(cases[i].refused, LACKING);
        must(make(w, BUFFER, cases[i].request, &m) == VK_SUCCESS && refusing.left == 0, "no other type serves");
        must(m.block.memory_type == cases[i].type && m.block.dedicated == cases[i].dedicated, "another one serves");
        must(m.block.mapped != NULL, "a block is not mapped");
        unmake(w, &m);
        expect_same(w, &before);
    }
    refuse_mappings(UINT64_MAX, LACKING);
    must(make(w, BUFFER, &plain, &m) == LACKING, "a block is mapped though none can be");
    expect_same(w, &before);
    must(make(w, BUFFER, &intent, &m) == LACKING, "a block is mapped though none can be");
    refuse_mappings(0, VK_SUCCESS);
    expect_same(w, &before);
}

static void run_refused_mappings(void)
{
    static const wtv_functions functions = {.map_memory = map_or_refuse};
    const stub_plan plan = even_plan();
    world w;
    begin_over(&w, &plan, &functions);
    for (size_t i = 0; i < LENGTH(refused_requests); i++) {
        for (uint64_t refused = 0; refused <= ORDERED; refused++)
            check_next_type(&w, i, refused, LACKING);
        check_next_type(&w, i, ORDERED, VK_ERROR_TOO_MANY_OBJECTS);
        check_ended(&w, i, UNMAPPABLE);
        check_ended(&w, i, VK_ERROR_OUT_OF_HOST_MEMORY);
        check_ended(&w, i, VK_ERROR_DEVICE_LOST);
        check_ended(&w, i, VK_ERROR_UNKNOWN);
    }
    check_shared(&w);
    end(&w);
}

/* ---- Bound by the program. ---- */

static uint64_t binds(const world *w)
{
    return stub_calls(w->driver, STUB_BIND_BUFFER) + stub_calls(w->driver, STUB_BIND_IMAGE);
}

static VkResult bind_made(world *w, const made *m, VkDeviceSize offset)
{
    bool is_image = m->by == IMAGE || m->by == FOR_IMAGE;
    VkBuffer buffer = m->by == BUFFER ? m->buffer : w->buffer;
    VkImage image = m->by == IMAGE ? m->image : w->image;
    return is_image ? wtv_bind_image(w->allocator, m->block.allocation, offset, image)
                    : wtv_bind_buffer(w->allocator, m->block.allocation, offset, buffer);
}

static uint64_t handle_of(const world *w, const made *m)
{
    switch (m->by) {
    case BUFFER: return (uint64_t)m->buffer;
    case IMAGE: return (uint64_t)m->image;
    case FOR_BUFFER: return (uint64_t)w->buffer;
    case FOR_IMAGE: return (uint64_t)w->image;
    default: return 0; /* nothing is known of a resource */
    }
}

static void check_not_bound(world *w, enum call by, wtv_request request)
{
    const uint64_t before = binds(w), bound = stub_held_now(w->driver).bound;
    made m;
    request.flags |= WTV_DONT_BIND;
    must(make(w, by, &request, &m) == VK_SUCCESS, "no block");
    must(binds(w) == before, "a resource is bound");
    must(stub_object_of(w->driver, m.block.memory).owner == (m.block.dedicated == 1 ? handle_of(w, &m) : 0),
         "an object is not made for its resource");
    must(m.block.dedicated == (request.dedicated == WT_REQUIRED), "an object is shared, or not");
    must(m.block.dedicated == 0 || by == BLOCK || bind_made(w, &m, 256) == INVALID, "a resource is bound elsewhere");
    must(bind_made(w, &m, 0) == VK_SUCCESS, "the program does not bind a resource");
    must(stub_held_now(w->driver).bound == bound + 1, "a resource is not bound");
    if (by == BLOCK) /* the buffer that is bound now is the program's */
        m.by = FOR_BUFFER;
    unmake(w, &m);
}

/* What was never bound is destroyed all the same. */
static void check_never_bound(world *w, enum call by)
{
    const wtv_request request = {.dedicated = WT_REQUIRED, .flags = WTV_DONT_BIND | WTV_MAPPED};
    const picture before = taken(w);
    made m;
    must(make(w, by, &request, &m) == VK_SUCCESS, "no block");
    unmake(w, &m);
    expect_same(w, &before);
}

static void run_binds(void)
{
    static const wtv_request requests[] = {
        {.usage = 0}, {.usage = WT_USAGE_UPLOAD | WT_USAGE_TRANSIENT}, {.dedicated = WT_REQUIRED},
        {.usage = WT_USAGE_UPLOAD, .dedicated = WT_REQUIRED, .flags = WTV_MAPPED},
        {.usage = WTV_USAGE_AUTO}, {.usage = WTV_USAGE_AUTO, .dedicated = WT_REQUIRED},
    };
    world w;
    begin(&w);
    for (int by = 0; by < CALLS; by++) {
        for (size_t i = 0; i < LENGTH(requests); i++)
            if (by <= IMAGE || (requests[i].usage & INTENTS) == 0)
                check_not_bound(&w, (enum call)by, requests[i]);
        check_never_bound(&w, (enum call)by);
    }
    end(&w);
}

int main(void)
{
    run_mapped();
    run_refused_mappings();
    run_binds();
    printf("mapped: mappings for life, refused and nested, and binds by the program\n");
    return 0;
}
