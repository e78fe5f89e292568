/* Which memory types serve an intent, and in which order: for each intent, host access and device access, over five
 * devices, against the rules of wallthyme_vulkan.h, and against rows that are written out. The driver refuses object
 * after object, so that each memory type is asked for: first a shared object, and then one for the resource alone. */
#include "stub.h"

#include <string.h>

#define LOCAL VK_MEMORY_PROPERTY_DEVICE_LOCAL_BIT
#define VISIBLE VK_MEMORY_PROPERTY_HOST_VISIBLE_BIT
#define COHERENT VK_MEMORY_PROPERTY_HOST_COHERENT_BIT
#define CACHED VK_MEMORY_PROPERTY_HOST_CACHED_BIT
#define LAZY VK_MEMORY_PROPERTY_LAZILY_ALLOCATED_BIT
#define PROTECTED VK_MEMORY_PROPERTY_PROTECTED_BIT
#define UNNAMED VK_MEMORY_PROPERTY_DEVICE_COHERENT_BIT_AMD /* a property that the library does not know */

#define AUTO WTV_USAGE_AUTO
#define PREFER_DEVICE WTV_USAGE_AUTO_PREFER_DEVICE
#define PREFER_HOST WTV_USAGE_AUTO_PREFER_HOST
#define SEQUENTIAL WTV_HOST_ACCESS_SEQUENTIAL_WRITE
#define RANDOM WTV_HOST_ACCESS_RANDOM
#define OR_COPY WTV_HOST_ACCESS_ALLOW_TRANSFER_INSTEAD

enum { MOST_TYPES = VK_MAX_MEMORY_TYPES, SIDE = 16, SIZE = 4 * SIDE * SIDE };

/* ---- Devices. ---- */

typedef struct device {
    const char *name;
    VkPhysicalDeviceType type;
    uint32_t types_len;
    VkMemoryType types[MOST_TYPES];
} device;

/* Eleven memory types, of which three never serve. */
#define ELEVEN \
    {VISIBLE | CACHED, 1}, {LOCAL | LAZY, 0}, {0, 1}, {LOCAL | VISIBLE | COHERENT | CACHED, 2}, {LOCAL | UNNAMED, 0}, \
        {VISIBLE | COHERENT, 1}, {LOCAL, 0}, {LOCAL | VISIBLE | CACHED, 2}, {VISIBLE | COHERENT | CACHED, 1}, \
        {LOCAL | PROTECTED, 0}, {LOCAL | VISIBLE | COHERENT, 2}

static const device devices[] = {
    {"discrete", VK_PHYSICAL_DEVICE_TYPE_DISCRETE_GPU, 3,
     {{LOCAL, 0}, {VISIBLE | COHERENT, 1}, {VISIBLE | COHERENT | CACHED, 1}}},
    {"integrated", VK_PHYSICAL_DEVICE_TYPE_INTEGRATED_GPU, 4,
     {{LOCAL, 0}, {LOCAL | VISIBLE | COHERENT, 0}, {LOCAL | VISIBLE | COHERENT | CACHED, 0}, {VISIBLE | COHERENT, 1}}},
    {"discrete with a small heap that the host sees", VK_PHYSICAL_DEVICE_TYPE_DISCRETE_GPU, 4,
     {{LOCAL, 0}, {VISIBLE | COHERENT, 1}, {VISIBLE | COHERENT | CACHED, 1}, {LOCAL | VISIBLE | COHERENT, 2}}},
    {"software", VK_PHYSICAL_DEVICE_TYPE_CPU, 1, {{LOCAL | VISIBLE | COHERENT | CACHED, 0}}},
    {"32 memory types", VK_PHYSICAL_DEVICE_TYPE_DISCRETE_GPU, 32,
     {ELEVEN, ELEVEN, {LOCAL, 0}, {VISIBLE | CACHED, 1}, {VISIBLE | COHERENT | CACHED, 1}, {LOCAL | LAZY, 0},
      {LOCAL | VISIBLE | COHERENT, 2}, {0, 1}, {VISIBLE | COHERENT, 1}, {LOCAL | VISIBLE | CACHED, 2},
      {LOCAL | VISIBLE | COHERENT | CACHED, 2}, {VISIBLE | COHERENT | UNNAMED, 1}}},
};
enum { DISCRETE, INTEGRATED, SMALL_HEAP, SOFTWARE };

static const VkMemoryHeap heaps[STUB_HEAPS] = {
    {(VkDeviceSize)8 << 30, VK_MEMORY_HEAP_DEVICE_LOCAL_BIT},
    {(VkDeviceSize)16 << 30, 0},
    {(VkDeviceSize)256 << 20, VK_MEMORY_HEAP_DEVICE_LOCAL_BIT},
};

/* ---- What is asked for. ---- */

typedef struct order {
    uint32_t types[2 * MOST_TYPES];
    VkDeviceSize sizes[2 * MOST_TYPES];
    size_t count;
} order;

static void note_asked(void *user, uint32_t memory_type, VkDeviceSize size)
{
    order *seen = user;
    must(seen->count < LENGTH(seen->types), "the driver is asked for ever");
    seen->types[seen->count] = memory_type;
    seen->sizes[seen->count++] = size;
}

/* An allocator over a driver that refuses each object. */
typedef struct world {
    const device *device;
    stub *driver;
    wtv_allocator *allocator;
    order seen;
} world;

static void begin(world *w, const device *of)
{
    stub_plan plan = stub_usual_plan();
    *w = (world){.device = of};
    plan.device_type = of->type;
    plan.types = of->types;
    plan.types_count = of->types_len;
    plan.heaps = heaps;
    plan.largest = (VkDeviceSize)1 << 30;
    plan.alignment = 64;
    plan.permitted = ~0u;
    plan.asked = note_asked;
    plan.user = &w->seen;
    w->driver = stub_open(&plan);
    const wtv_create_info info = stub_info(w->driver);
    must(wtv_create(&info, &w->allocator) == VK_SUCCESS, "no allocator is created");
    stub_refuse(w->driver, STUB_ALLOCATE, VK_ERROR_OUT_OF_DEVICE_MEMORY, 0, true);
}

static void end(world *w)
{
    must(wtv_destroy(w->allocator, NULL, 0, NULL) == VK_SUCCESS, "an allocator is not destroyed");
    must(stub_close(w->driver) == 0, "the stub found failures");
}

/* A resource that is asked for, and by what. */
typedef struct wish {
    wtv_request request;
    bool is_image, has_device_access;
} wish;

static VkResult asked(world *w, const wish *of)
{
    VkBufferCreateInfo buffer_info = stub_buffer_info(SIZE);
    VkImageCreateInfo image_info = stub_image_info(SIDE, SIDE, true);
    VkBuffer buffer;
    VkImage image;
    wtv_allocation allocation;
    w->seen.count = 0;
    if (of->has_device_access) {
        buffer_info.usage |= VK_BUFFER_USAGE_VERTEX_BUFFER_BIT;
        image_info.usage |= VK_IMAGE_USAGE_SAMPLED_BIT;
    }
    return of->is_image ? wtv_create_image(w->allocator, &image_info, &of->request, &image, &allocation, NULL)
                        : wtv_create_buffer(w->allocator, &buffer_info, &of->request, &buffer, &allocation, NULL);
}

/* The memory types were asked for in this order, each for a shared object and then for one of the resource alone. */
static void expect(const world *w, const wish *of, VkResult result, const uint32_t *wanted, size_t wanted_len)
{
    const order *seen = &w->seen;
    bool is_so = seen->count == 2 * wanted_len
                 && result == (wanted_len > 0 ? VK_ERROR_OUT_OF_DEVICE_MEMORY : VK_ERROR_FEATURE_NOT_PRESENT);
    for (size_t i = 0; i < wanted_len && is_so; i++)
        is_so = seen->types[2 * i] == wanted[i] && seen->types[2 * i + 1] == wanted[i] && seen->sizes[2 * i] > SIZE
                && seen->sizes[2 * i + 1] == SIZE;
    if (is_so)
        return;
    fprintf(stderr, "%s, %s, usage %#x, flags %#x, %s device access, required %#x, preferred %#x: result %d\nasked:",
            w->device->name, of->is_image ? "an image" : "a buffer", of->request.usage, of->request.flags,
            of->has_device_access ? "with" : "without", of->request.required, of->request.preferred, result);
    for (size_t i = 0; i < seen->count; i++)
        fprintf(stderr, " %u", seen->types[i]);
    fprintf(stderr, "\nwanted, each twice:");
    for (size_t i = 0; i < wanted_len; i++)
        fprintf(stderr, " %u", wanted[i]);
    fprintf(stderr, "\n");
    must(false, "the memory types are asked in another order");
}

/* ---- The rules once more. ---- */

typedef struct rule {
    VkMemoryPropertyFlags required, preferred, unwanted;
} rule;

static rule rule_of(const device *d, const wish *of)
{
    const bool will_a_copy_do = (of->request.flags & OR_COPY) != 0;
    const bool is_integrated = d->type == VK_PHYSICAL_DEVICE_TYPE_INTEGRATED_GPU;
    const uint32_t intent = of->request.usage & (AUTO | PREFER_DEVICE | PREFER_HOST);
    const bool may_be_copied = will_a_copy_do && of->has_device_access && !is_integrated && intent != PREFER_HOST;
    if ((of->request.flags & RANDOM) != 0)
        return may_be_copied ? (rule){0, CACHED | LOCAL, 0} : (rule){VISIBLE, CACHED, 0};
    if ((of->request.flags & SEQUENTIAL) == 0)
        return intent == PREFER_HOST ? (rule){0, 0, LOCAL} : (rule){0, LOCAL, 0};
    if (may_be_copied)
        return (rule){0, LOCAL | VISIBLE, CACHED};
    const bool is_near_device = of->has_device_access ? intent != PREFER_HOST : intent == PREFER_DEVICE;
    return is_near_device ? (rule){VISIBLE, LOCAL, CACHED} : (rule){VISIBLE, 0, LOCAL | CACHED};
}

static unsigned cost(const rule *r, VkMemoryPropertyFlags properties)
{
    unsigned sum = 0;
    for (unsigned bit = 0; bit < 32; bit++) {
        const VkMemoryPropertyFlags property = (VkMemoryPropertyFlags)1 << bit;
        sum += (r->preferred & property) != 0 && (properties & property) == 0;
        sum += (r->unwanted & property) != 0 && (properties & property) != 0;
    }
    return sum;
}

static bool is_served(const device *d, const rule *r, uint32_t type, uint32_t permitted)
{
    const VkMemoryPropertyFlags properties = d->types[type].propertyFlags;
    return (permitted >> type & 1) != 0 && (properties & (LAZY | PROTECTED | UNNAMED)) == 0
           && (properties & r->required) == r->required;
}

/* Those that serve, of these in this order: all that cost nothing, then all that cost one, and so on. */
static size_t ranked(const device *d, const rule *r, uint32_t permitted, const uint32_t *types, size_t types_len,
                     uint32_t *wanted)
{
    size_t count = 0;
    for (unsigned costs = 0; costs <= 32; costs++)
        for (size_t i = 0; i < types_len; i++)
            if (is_served(d, r, types[i], permitted) && cost(r, d->types[types[i]].propertyFlags) == costs)
                wanted[count++] = types[i];
    return count;
}

static unsigned compared;

static void compare(world *w, const wish *of)
{
    uint32_t by_index[MOST_TYPES], wanted[MOST_TYPES];
    const uint32_t permitted = of->request.memory_types != 0 ? of->request.memory_types : ~0u;
    rule r = rule_of(w->device, of);
    r.required |= of->request.required;
    r.preferred |= of->request.preferred;
    for (uint32_t i = 0; i < w->device->types_len; i++)
        by_index[i] = i;
    size_t count = ranked(w->device, &r, permitted, by_index, w->device->types_len, wanted);
    expect(w, of, asked(w, of), wanted, count);
    compared++;
}

/* ---- All combinations. ---- */

static const uint32_t intents[] = {AUTO, PREFER_DEVICE, PREFER_HOST};
static const uint32_t host_accesses[] = {0, SEQUENTIAL, SEQUENTIAL | OR_COPY, RANDOM, RANDOM | OR_COPY};

/* What a request may add by itself. */
static const wtv_request additions[] = {
    {.usage = 0},
    {.usage = WT_USAGE_TRANSIENT},
    {.memory_types = 0xaaaaaaaa},
    {.memory_types = 1u << 31 | 1u << 1},
    {.required = COHERENT},
    {.required = VISIBLE | LOCAL},
    {.preferred = CACHED},
    {.preferred = COHERENT | LOCAL, .memory_types = 0x0ff0ff0f},
    {.required = CACHED, .preferred = LOCAL},
};

static void run_all(world *w, uint32_t intent, uint32_t host_access)
{
    for (int i = 0; i < 4; i++)
        for (size_t j = 0; j < LENGTH(additions); j++) {
            wish of = {.request = additions[j], .is_image = i % 2 != 0, .has_device_access = i / 2 != 0};
            of.request.usage |= intent;
            of.request.flags = host_access;
            compare(w, &of);
        }
}

static void run_combinations(void)
{
    static world w;
    for (size_t d = 0; d < LENGTH(devices); d++) {
        begin(&w, &devices[d]);
        for (size_t i = 0; i < LENGTH(intents); i++)
            for (size_t j = 0; j < LENGTH(host_accesses); j++)
                run_all(&w, intents[i], host_accesses[j]);
        end(&w);
    }
}

/* ---- Rows that are written out. ---- */

typedef struct row {
    const char *name;
    int device;
    uint32_t intent, flags;
    bool has_device_access;
    size_t count;
    uint32_t types[4];
} row;

static const row rows[] = {
    {"a vertex buffer", DISCRETE, AUTO, 0, true, 3, {0, 1, 2}},
    {"a texture beside a small heap that the host sees", SMALL_HEAP, AUTO, 0, true, 4, {0, 3, 1, 2}},
    {"a render target of an integrated device", INTEGRATED, AUTO, 0, true, 4, {0, 1, 2, 3}},
    {"what the device seldom needs", SMALL_HEAP, PREFER_HOST, 0, true, 4, {1, 2, 0, 3}},
    {"a staging buffer", DISCRETE, AUTO, SEQUENTIAL, false, 2, {1, 2}},
    {"a staging buffer beside a small heap", SMALL_HEAP, AUTO, SEQUENTIAL, false, 3, {1, 2, 3}},
    {"a staging buffer near the device", SMALL_HEAP, PREFER_DEVICE, SEQUENTIAL, false, 3, {3, 1, 2}},
    {"a staging buffer of an integrated device", INTEGRATED, AUTO, SEQUENTIAL, false, 3, {3, 1, 2}},
    {"uniforms of each frame", DISCRETE, AUTO, SEQUENTIAL, true, 2, {1, 2}},
    {"uniforms of each frame in a small heap", SMALL_HEAP, AUTO, SEQUENTIAL, true, 3, {3, 1, 2}},
    {"uniforms of each frame, near the host", SMALL_HEAP, PREFER_HOST, SEQUENTIAL, true, 3, {1, 2, 3}},
    {"uniforms, or by a copy", DISCRETE, AUTO, SEQUENTIAL | OR_COPY, true, 3, {0, 1, 2}},
    {"uniforms in a small heap, or by a copy", SMALL_HEAP, AUTO, SEQUENTIAL | OR_COPY, true, 4, {3, 0, 1, 2}},
    {"a copy where nothing needs one", INTEGRATED, AUTO, SEQUENTIAL | OR_COPY, true, 3, {1, 2, 3}},
    {"a readback buffer", DISCRETE, AUTO, RANDOM, false, 2, {2, 1}},
    {"a readback buffer beside a small heap", SMALL_HEAP, AUTO, RANDOM, false, 3, {2, 1, 3}},
    {"a readback buffer of an integrated device", INTEGRATED, AUTO, RANDOM, false, 3, {2, 1, 3}},
    {"results, or by a copy", DISCRETE, AUTO, RANDOM | OR_COPY, true, 3, {0, 2, 1}},
    {"results near the host", DISCRETE, PREFER_HOST, RANDOM | OR_COPY, true, 2, {2, 1}},
    {"anything in software", SOFTWARE, PREFER_HOST, SEQUENTIAL, true, 1, {0}},
};

static void run_rows(void)
{
    static world w;
    for (size_t i = 0; i < LENGTH(rows); i++)
        for (int is_image = 0; is_image < 2; is_image++) {
            const row *r = &rows[i];
            const wish of = {
                .request = {.usage = r->intent, .flags = r->flags},
                .is_image = is_image != 0,
                .has_device_access = r->has_device_access,
            };
            begin(&w, &devices[r->device]);
            expect(&w, &of, asked(&w, &of), r->types, r->count);
            end(&w);
        }
}

/* ---- Preferred properties with WT_USAGE_..: of equal costs the usage's own order decides. ---- */

static const uint32_t usages[] = {
    0, WT_USAGE_FAST_DEVICE_ACCESS, WT_USAGE_HOST_ACCESS, WT_USAGE_UPLOAD, WT_USAGE_DOWNLOAD | WT_USAGE_TRANSIENT,
    WT_USAGE_HOST_ACCESS | WT_USAGE_FAST_DEVICE_ACCESS,
};
static const VkMemoryPropertyFlags properties[] = {LOCAL, CACHED, COHERENT, VISIBLE | LOCAL, CACHED | UNNAMED};

static void compare_preferred(world *w, uint32_t usage, VkMemoryPropertyFlags required, VkMemoryPropertyFlags preferred)
{
    const wish of = {.request = {.usage = usage, .required = required, .preferred = preferred}};
    const rule r = {required, preferred, 0};
    uint32_t candidates[32], candidates_len, wanted[MOST_TYPES];
    VkResult result = wtv_candidates(w->allocator, usage, ~0u, candidates, &candidates_len);
    size_t count = 0;
    if (result == VK_SUCCESS)
        count = ranked(w->device, &r, ~0u, candidates, candidates_len, wanted);
    expect(w, &of, asked(w, &of), wanted, count);
    compared++;
}

static void run_preferred(void)
{
    static world w;
    for (size_t d = 0; d < LENGTH(devices); d++) {
        begin(&w, &devices[d]);
        for (size_t i = 0; i < LENGTH(usages); i++)
            for (size_t j = 0; j < LENGTH(properties); j++) {
                compare_preferred(&w, usages[i], 0, properties[j]);
                compare_preferred(&w, usages[i], COHERENT, properties[j]);
            }
        end(&w);
    }
}

/* ---- Which errors go on to the next memory type. ---- */

/* One refusal, of the first object that is asked for: of the second one too, where this memory type is left. */
static void check_error(VkResult error, bool goes_on)
{
    static world w;
    const wish of = {.request = {.usage = AUTO}, .has_device_access = true};
    begin(&w, &devices[DISCRETE]);
    stub_refuse(w.driver, STUB_ALLOCATE, error, 0, true);
    VkResult result = asked(&w, &of);
    must(result == error, "the result is not that of the first memory type asked");
    must(w.seen.count == (goes_on ? 6 : 1), "an error does not end a request, or ends it too early");
    end(&w);
}

/* The first refusal is another one than those behind it. */
static void check_first_error(void)
{
    static world w;
    const wish of = {.request = {.usage = AUTO}};
    begin(&w, &devices[DISCRETE]);
    stub_plan_of(w.driver)->granted = 0;
    stub_refuse(w.driver, STUB_ALLOCATE, VK_ERROR_TOO_MANY_OBJECTS, 0, false);
    must(asked(&w, &of) == VK_ERROR_TOO_MANY_OBJECTS, "the result is not that of the first memory type asked");
    must(w.seen.count == 6, "not each memory type is asked");
    end(&w);
}

/* An object of its own comes before the next memory type, which comes where the first one's heap is full. */
static void check_second_type(void)
{
    static world w;
    VkBufferCreateInfo info = stub_buffer_info(SIZE);
    const wtv_request request = {.usage = AUTO};
    VkBuffer buffer;
    wtv_allocation allocation;
    wtv_block block;
    begin(&w, &devices[DISCRETE]);
    stub_refuse(w.driver, STUB_FUNCTIONS, VK_SUCCESS, 0, false);
    stub_plan_of(w.driver)->granted = SIZE;
    must(wtv_create_buffer(w.allocator, &info, &request, &buffer, &allocation, &block) == VK_SUCCESS, "no buffer");
    must(block.memory_type == 0 && block.dedicated == 1 && w.seen.count == 2,
         "another type is asked before an object for the resource alone");
    must(wtv_destroy_buffer(w.allocator, buffer, allocation) == VK_SUCCESS, "a buffer is not destroyed");
    stub_plan_of(w.driver)->granted = UINT64_MAX;
    must(wtv_set_heap_limit(w.allocator, 0, 0) == VK_SUCCESS, "no limit is set");
    w.seen.count = 0;
    must(wtv_create_buffer(w.allocator, &info, &request, &buffer, &allocation, &block) == VK_SUCCESS, "no buffer");
    must(block.memory_type == 1 && block.dedicated == 0 && w.seen.count == 1,
         "the next type is not asked where the first one's heap is full");
    must(wtv_destroy_buffer(w.allocator, buffer, allocation) == VK_SUCCESS, "a buffer is not destroyed");
    end(&w);
}

static void run_errors(void)
{
    check_error(VK_ERROR_OUT_OF_DEVICE_MEMORY, true);
    check_error(VK_ERROR_TOO_MANY_OBJECTS, true);
    check_error(VK_ERROR_OUT_OF_HOST_MEMORY, false);
    check_error(VK_ERROR_DEVICE_LOST, false);
    check_error(VK_ERROR_UNKNOWN, false);
    check_first_error();
    check_second_type();
}

int main(void)
{
    run_combinations();
    run_rows();
    run_preferred();
    run_errors();
    printf("intents: %u orders of memory types over %zu devices, and %zu rows\n", compared, LENGTH(devices),
           LENGTH(rows));
    return 0;
}
