/* What a request may ask for beside a memory type, over the stub: properties, an alignment, an intent with what else it
 * says. Each set of usages and flags is served or refused as wallthyme_vulkan.h says, and a refusal changes nothing. */
#include "calls.h"

/* A request ends so, and changes nothing where that is an error. */
static void expect_result(world *w, enum call by, const wtv_request *request, VkResult wanted)
{
    const picture before = taken(w);
    made m;
    VkResult result = make(w, by, request, &m);
    if (result != wanted)
        fprintf(stderr, "call %d, usage %#x, flags %#x, required %#x, preferred %#x, alignment %llu: %d and not %d\n",
                by, request->usage, request->flags, request->required, request->preferred,
                (unsigned long long)request->min_alignment, result, wanted);
    must(result == wanted, "a request ends otherwise");
    if (result == VK_SUCCESS)
        unmake(w, &m);
    expect_same(w, &before);
}

/* ---- What goes together. ---- */

static bool has_two(uint32_t bits)
{
    return (bits & (bits - 1)) != 0;
}

/* An intent wants a create-info, stands alone, and may have two bits of WT_USAGE_.. added. Host access wants an intent,
   and is one of two; that a copy will do wants host access. */
static bool go_together(enum call by, const wtv_request *request)
{
    const uint32_t intents = request->usage & INTENTS, host = request->flags & (SEQUENTIAL | RANDOM);
    const uint32_t addable = WT_USAGE_TRANSIENT | WT_USAGE_DEVICE_ADDRESS;
    if (intents != 0 && (has_two(intents) || (request->usage & ~(intents | addable)) != 0 || by > IMAGE))
        return false;
    if (host != 0 && (has_two(host) || intents == 0))
        return false;
    return host != 0 || (request->flags & OR_COPY) == 0;
}

static uint32_t chosen(const uint32_t *bits, size_t bits_len, size_t which)
{
    uint32_t sum = 0;
    for (size_t i = 0; i < bits_len; i++)
        sum |= (which >> i & 1) != 0 ? bits[i] : 0;
    return sum;
}

/* Each set of usages and flags, by each call. */
static unsigned run_sets(void)
{
    static const uint32_t usages[] = {WTV_USAGE_AUTO, WTV_USAGE_AUTO_PREFER_DEVICE, WTV_USAGE_AUTO_PREFER_HOST,
                                      WT_USAGE_TRANSIENT, WT_USAGE_DEVICE_ADDRESS, WT_USAGE_FAST_DEVICE_ACCESS,
                                      WT_USAGE_DOWNLOAD};
    static const uint32_t flags[] = {SEQUENTIAL, RANDOM, OR_COPY, WTV_MAPPED, WTV_DONT_BIND};
    stub_plan plan = even_plan();
    unsigned count = 0, refused = 0;
    world w;
    plan.flags |= WTV_CREATE_DEVICE_ADDRESS;
    begin_with(&w, &plan);
    for (int by = 0; by < CALLS; by++)
        for (size_t i = 0; i < (size_t)1 << LENGTH(usages); i++)
            for (size_t j = 0; j < (size_t)1 << LENGTH(flags); j++, count++) {
                const wtv_request request = {
                    .usage = chosen(usages, LENGTH(usages), i),
                    .flags = chosen(flags, LENGTH(flags), j),
                };
                bool is_good = go_together((enum call)by, &request);
                refused += !is_good;
                expect_result(&w, (enum call)by, &request, is_good ? VK_SUCCESS : INVALID);
            }
    must(refused > count / 2, "too few sets are refused");
    end(&w);
    return count;
}

typedef struct row {
    VkResult wanted;
    wtv_request request;
} row;

/* By each call, or, with an intent, by those that see a create-info. */
static const row rows[] = {
    {VK_SUCCESS, {.min_alignment = 0}},
    {VK_SUCCESS, {.min_alignment = 1}},
    {VK_SUCCESS, {.min_alignment = LARGER}},
    {INVALID, {.min_alignment = 3}},
    {INVALID, {.min_alignment = LARGER + 1}},
    {INVALID, {.min_alignment = LARGER | (VkDeviceSize)1 << 40}},
    {INVALID, {.min_alignment = UINT64_MAX}},
    {INVALID, {.usage = WTV_USAGE_AUTO, .min_alignment = 48}},
    {INVALID, {.required = VK_MEMORY_PROPERTY_LAZILY_ALLOCATED_BIT, .min_alignment = 48}},
    {ABSENT, {.required = VK_MEMORY_PROPERTY_LAZILY_ALLOCATED_BIT}},
    {ABSENT, {.required = VK_MEMORY_PROPERTY_PROTECTED_BIT | VK_MEMORY_PROPERTY_DEVICE_LOCAL_BIT}},
    {ABSENT, {.preferred = VK_MEMORY_PROPERTY_LAZILY_ALLOCATED_BIT}},
    {ABSENT, {.preferred = VK_MEMORY_PROPERTY_PROTECTED_BIT | VK_MEMORY_PROPERTY_HOST_CACHED_BIT}},
    {ABSENT, {.usage = WTV_USAGE_AUTO, .required = VK_MEMORY_PROPERTY_LAZILY_ALLOCATED_BIT}},
    {ABSENT, {.usage = WTV_USAGE_AUTO, .preferred = VK_MEMORY_PROPERTY_PROTECTED_BIT}},
    {ABSENT, {.required = VK_MEMORY_PROPERTY_DEVICE_COHERENT_BIT_AMD}},
    {ABSENT, {.usage = WTV_USAGE_AUTO_PREFER_HOST, .required = VK_MEMORY_PROPERTY_DEVICE_COHERENT_BIT_AMD}},
    {ABSENT, {.required = VK_MEMORY_PROPERTY_HOST_CACHED_BIT | VK_MEMORY_PROPERTY_HOST_COHERENT_BIT}},
    {ABSENT, {.usage = WT_USAGE_UPLOAD, .required = VK_MEMORY_PROPERTY_HOST_CACHED_BIT,
              .memory_types = 1u << STUB_LOCAL | 1u << STUB_COHERENT}},
    {ABSENT, {.usage = WTV_USAGE_AUTO, .flags = SEQUENTIAL, .memory_types = 1u << STUB_LOCAL | 1u << STUB_LAZY}},
    {ABSENT, {.preferred = VK_MEMORY_PROPERTY_HOST_CACHED_BIT, .memory_types = 1u << STUB_PROTECTED}},
    {VK_SUCCESS, {.preferred = VK_MEMORY_PROPERTY_DEVICE_COHERENT_BIT_AMD}},
    {VK_SUCCESS, {.preferred = 0x80000000u}},
    {INVALID, {.usage = 0x40, .preferred = VK_MEMORY_PROPERTY_HOST_CACHED_BIT}},
    {INVALID, {.usage = 0x800}},
    {INVALID, {.usage = WTV_USAGE_AUTO | 0x800}},
    {INVALID, {.usage = WTV_USAGE_AUTO, .dedicated = 3}},
    {INVALID, {.usage = WTV_USAGE_AUTO | WT_USAGE_DEVICE_ADDRESS}}, /* which are not enabled */
    {INVALID, {.usage = WT_USAGE_UPLOAD | WT_USAGE_DEVICE_ADDRESS, .preferred = VK_MEMORY_PROPERTY_HOST_CACHED_BIT}},
    {INVALID, {.usage = WTV_USAGE_AUTO, .flags = 4}},
    {INVALID, {.flags = 0x200000}},
    {INVALID, {.flags = WTV_MAPPED | 0x8000}},
};

static void run_rows(void)
{
    world w;
    begin(&w);
    for (size_t i = 0; i < LENGTH(rows); i++) {
        bool has_intent = (rows[i].request.usage & INTENTS) != 0;
        for (int by = 0; by < CALLS; by++)
            expect_result(&w, (enum call)by, &rows[i].request, has_intent && by > IMAGE ? INVALID : rows[i].wanted);
    }
    end(&w);
}

/* ---- Properties. ---- */

/* The memory type that a request gets, of the stub's. */
static const struct {
    wtv_request request;
    uint32_t type;
} types[] = {
    {{.required = VK_MEMORY_PROPERTY_HOST_CACHED_BIT}, STUB_CACHED},
    {{.usage = WT_USAGE_UPLOAD}, STUB_COHERENT},
    {{.usage = WT_USAGE_UPLOAD, .required = VK_MEMORY_PROPERTY_HOST_CACHED_BIT}, STUB_CACHED},
    {{.usage = WT_USAGE_UPLOAD, .preferred = VK_MEMORY_PROPERTY_HOST_CACHED_BIT}, STUB_CACHED},
    {{.usage = WT_USAGE_UPLOAD, .preferred = VK_MEMORY_PROPERTY_DEVICE_LOCAL_BIT}, STUB_LOCAL_VISIBLE},
    {{.usage = WT_USAGE_DOWNLOAD, .required = VK_MEMORY_PROPERTY_HOST_COHERENT_BIT}, STUB_COHERENT},
    {{.preferred = VK_MEMORY_PROPERTY_HOST_COHERENT_BIT | VK_MEMORY_PROPERTY_HOST_VISIBLE_BIT}, STUB_COHERENT},
    {{.required = VK_MEMORY_PROPERTY_HOST_VISIBLE_BIT, .preferred = VK_MEMORY_PROPERTY_DEVICE_LOCAL_BIT},
     STUB_LOCAL_VISIBLE},
    {{.required = VK_MEMORY_PROPERTY_HOST_VISIBLE_BIT, .preferred = VK_MEMORY_PROPERTY_DEVICE_LOCAL_BIT,
      .memory_types = 1u << STUB_LOCAL | 1u << STUB_CACHED}, STUB_CACHED},
};

static void run_properties(void)
{
    world w;
    begin(&w);
    for (size_t i = 0; i < LENGTH(types); i++)
        for (int by = 0; by < CALLS; by++) {
            made m;
            must(make(&w, (enum call)by, &types[i].request, &m) == VK_SUCCESS, "no block");
            must(m.block.memory_type == types[i].type, "another memory type");
            must(m.block.properties == stub_types[types[i].type].propertyFlags, "other properties");
            unmake(&w, &m);
        }
    end(&w);
}

/* An intent keeps what else a request says: its value, an object of its own, what is chained, and what is held. */
static void run_beside_intents(void)
{
    const VkMemoryPriorityAllocateInfoEXT priority = {
        .sType = VK_STRUCTURE_TYPE_MEMORY_PRIORITY_ALLOCATE_INFO_EXT,
        .priority = 0.25f,
    };
    wtv_request request = {.usage = WTV_USAGE_AUTO, .flags = WT_HELD_ONLY, .user = 77};
    wt_type_statistics sums;
    world w;
    made shared, own, held;
    begin(&w);
    must(make(&w, BUFFER, &request, &held) == LACKING && stub_calls(w.driver, STUB_ALLOCATE) == 0,
         "an object is asked for where none may be made");
    request.flags = 0;
    must(make(&w, BUFFER, &request, &shared) == VK_SUCCESS && shared.block.user == 77, "no buffer");
    request.flags = WT_HELD_ONLY;
    uint64_t asked = stub_calls(w.driver, STUB_ALLOCATE);
    must(make(&w, BUFFER, &request, &held) == VK_SUCCESS && held.block.memory == shared.block.memory,
         "a held object is not found");
    must(stub_calls(w.driver, STUB_ALLOCATE) == asked, "an object is asked for where none may be made");
    unmake(&w, &held);
    request = (wtv_request){.usage = WTV_USAGE_AUTO, .dedicated = WT_REQUIRED, .next = &priority};
    must(make(&w, IMAGE, &request, &own) == VK_SUCCESS && own.block.dedicated == 1, "no object of its own");
    const stub_object object = stub_object_of(w.driver, own.block.memory);
    must(object.priority == 0.25f && object.owner == (uint64_t)own.image && own.block.flags == WT_OPTIMAL,
         "a chain is lost");
    unmake(&w, &own);
    request = (wtv_request){.usage = WTV_USAGE_AUTO | WT_USAGE_TRANSIENT};
    must(make(&w, BUFFER, &request, &held) == VK_SUCCESS, "no transient buffer");
    must(wtv_statistics(w.allocator, held.block.memory_type, &sums) == VK_SUCCESS && sums.free_list.blocks == 1,
         "a transient buffer is served as others");
    unmake(&w, &held);
    unmake(&w, &shared);
    end(&w);
}

/* ---- The buffer's usage. ---- */

typedef struct usage_row {
    VkBufferUsageFlags own;
    uint64_t chained; /* 0: none */
    uint32_t type;    /* for a block that the host writes, with an intent */
} usage_row;

static void check_usage(const usage_row *r)
{
    const stub_usage_flags2 usage = {STUB_USAGE_FLAGS2, NULL, r->chained};
    const VkExternalMemoryBufferCreateInfo before = {
        .sType = VK_STRUCTURE_TYPE_EXTERNAL_MEMORY_BUFFER_CREATE_INFO,
        .pNext = r->chained != 0 ? &usage : NULL,
    };
    const wtv_request request = {.usage = WTV_USAGE_AUTO, .flags = SEQUENTIAL, .dedicated = WT_REQUIRED};
    VkBufferCreateInfo info = stub_buffer_info(SIZE);
    stub_plan plan = even_plan();
    world w;
    VkBuffer buffer;
    wtv_allocation allocation;
    wtv_block block;
    plan.flags |= WTV_CREATE_DEVICE_ADDRESS;
    begin_with(&w, &plan);
    info.usage = r->own;
    info.pNext = &before;
    must(wtv_create_buffer(w.allocator, &info, &request, &buffer, &allocation, &block) == VK_SUCCESS, "no buffer");
    must(block.memory_type == r->type, "another usage decides");
    must(stub_object_of(w.driver, block.memory).has_address, "all objects have addresses where these are enabled");
    must(wtv_destroy_buffer(w.allocator, buffer, allocation) == VK_SUCCESS, "a buffer is not destroyed");
    end(&w);
}

/* A chained usage counts in place of the info's own. */
static void run_usages(void)
{
    const VkBufferUsageFlags copies = VK_BUFFER_USAGE_TRANSFER_SRC_BIT | VK_BUFFER_USAGE_TRANSFER_DST_BIT;
    const VkBufferUsageFlags vertices = VK_BUFFER_USAGE_VERTEX_BUFFER_BIT;
    const usage_row usages[] = {
        {copies, 0, STUB_COHERENT},
        {vertices, 0, STUB_LOCAL_VISIBLE},
        {vertices | copies, 0, STUB_LOCAL_VISIBLE},
        {vertices, copies, STUB_COHERENT},
        {copies, vertices, STUB_LOCAL_VISIBLE},
        {0, (uint64_t)1 << 40, STUB_LOCAL_VISIBLE},
        {0, VK_BUFFER_USAGE_TRANSFER_SRC_BIT, STUB_COHERENT},
        {copies, VK_BUFFER_USAGE_SHADER_DEVICE_ADDRESS_BIT, STUB_LOCAL_VISIBLE},
    };
    for (size_t i = 0; i < LENGTH(usages); i++)
        check_usage(&usages[i]);
}

/* ---- An alignment. ---- */

/* The second block of a shared object, or the only one of its own: on the alignment and on that of the requirements. */
static void check_alignment(world *w, enum call by, wtv_request request)
{
    made first, second;
    const wtv_request plain = {.usage = request.usage, .dedicated = request.dedicated};
    bool has_resource = by == BUFFER || by == IMAGE;
    must(make(w, has_resource ? by : BLOCK, &plain, &first) == VK_SUCCESS, "no block");
    must(make(w, by, &request, &second) == VK_SUCCESS, "no block");
    VkDeviceSize alignment = request.min_alignment > ALIGNMENT ? request.min_alignment : ALIGNMENT;
    must(second.block.offset % alignment == 0, "a block is not aligned");
    must(second.block.dedicated == (request.dedicated == WT_REQUIRED), "an object is shared, or not");
    must(second.block.asked == (by == IMAGE || by == FOR_IMAGE ? 4 * SIDE * SIDE : SIZE), "another size is asked for");
    unmake(w, &second);
    unmake(w, &first);
}

static void run_alignments(void)
{
    static const VkDeviceSize alignments[] = {1, 16, ALIGNMENT, 128, 256, LARGER};
    static const uint32_t usages[] = {0, WT_USAGE_UPLOAD, WT_USAGE_DOWNLOAD, WT_USAGE_UPLOAD | WT_USAGE_TRANSIENT,
                                      WTV_USAGE_AUTO, WTV_USAGE_AUTO | WT_USAGE_TRANSIENT};
    world w;
    begin(&w);
    for (size_t i = 0; i < LENGTH(alignments); i++)
        for (size_t j = 0; j < LENGTH(usages); j++)
            for (int by = 0; by < CALLS; by++)
                for (uint32_t dedicated = WT_SHARED; dedicated <= WT_REQUIRED; dedicated += WT_REQUIRED) {
                    wtv_request request = {
                        .usage = usages[j], .dedicated = dedicated, .min_alignment = alignments[i]};
                    if ((usages[j] & INTENTS) != 0 && by > IMAGE)
                        continue;
                    check_alignment(&w, (enum call)by, request);
                    request.preferred = VK_MEMORY_PROPERTY_HOST_COHERENT_BIT;
                    request.flags = WTV_MAPPED;
                    check_alignment(&w, (enum call)by, request);
                }
    end(&w);
}

/* An alignment of the driver's that is none stays one, whatever the request adds. */
static void run_wrong_alignments(void)
{
    static const VkDeviceSize wrong[] = {0, 3, 24};
    world w;
    begin(&w);
    for (size_t i = 0; i < LENGTH(wrong); i++) {
        const VkMemoryRequirements needs = {SIZE, wrong[i], STUB_ALL_TYPES};
        const wtv_request requests[] = {{.min_alignment = 0}, {.min_alignment = LARGER}};
        for (size_t j = 0; j < LENGTH(requests); j++) {
            wtv_allocation allocation = 7;
            must(wtv_allocate(w.allocator, &needs, &requests[j], &allocation, NULL) == INVALID && allocation == 7,
                 "a wrong alignment is accepted");
        }
    }
    end(&w);
}

int main(void)
{
    unsigned sets = run_sets();
    run_rows();
    run_properties();
    run_beside_intents();
    run_usages();
    run_alignments();
    run_wrong_alignments();
    printf("wishes: %u sets of usages and flags, %zu rows, properties, usages and alignments\n", sets, LENGTH(rows));
    return 0;
}
