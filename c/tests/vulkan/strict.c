/* Breaks each rule that the stub checks, one at a time: the stub finds it first, and says which it is. */
#include "stub.h"

#include <string.h>

enum { SIZE = 4096, ATOM = 256, PAGE = 4096, MOST_OBJECTS = 4 };

typedef struct device {
    stub *driver;
    VkDevice handle;
    VkPhysicalDevice physical;
    const VkAllocationCallbacks *callbacks;
} device;

/* ---- Calls as they should be. ---- */

static VkDeviceMemory object_typed(const device *d, VkStructureType typed, uint32_t type, VkDeviceSize size,
                                   const void *next)
{
    const VkMemoryAllocateInfo info = {typed, next, size, type};
    VkDeviceMemory memory = VK_NULL_HANDLE;
    stub_table.allocate_memory(d->handle, &info, d->callbacks, &memory);
    return memory;
}

static VkDeviceMemory object_chained(const device *d, uint32_t type, VkDeviceSize size, const void *next)
{
    return object_typed(d, VK_STRUCTURE_TYPE_MEMORY_ALLOCATE_INFO, type, size, next);
}

static VkDeviceMemory object_of(const device *d, uint32_t type)
{
    return object_chained(d, type, 4 * SIZE, NULL);
}

static void freed(const device *d, VkDeviceMemory memory)
{
    stub_table.free_memory(d->handle, memory, d->callbacks);
}

static void mapped(const device *d, VkDeviceMemory memory, VkDeviceSize offset, VkDeviceSize size)
{
    void *bytes;
    stub_table.map_memory(d->handle, memory, offset, size, 0, &bytes);
}

static void flushed(const device *d, VkDeviceMemory memory, VkDeviceSize offset, VkDeviceSize size)
{
    const VkMappedMemoryRange range = {VK_STRUCTURE_TYPE_MAPPED_MEMORY_RANGE, NULL, memory, offset, size};
    stub_table.flush_mapped_memory_ranges(d->handle, 1, &range);
}

static VkBuffer buffer_of(const device *d, const VkBufferCreateInfo *info)
{
    VkBuffer buffer = VK_NULL_HANDLE;
    stub_table.create_buffer(d->handle, info, d->callbacks, &buffer);
    return buffer;
}

static VkBuffer buffer_sized(const device *d, VkDeviceSize size)
{
    const VkBufferCreateInfo info = stub_buffer_info(size);
    return buffer_of(d, &info);
}

static VkBuffer buffer_made(const device *d)
{
    return buffer_sized(d, 1000);
}

static VkImage image_of(const device *d, uint32_t width, VkImageCreateFlags flags, bool is_optimal)
{
    VkImageCreateInfo info = stub_image_info(width, 10, is_optimal);
    VkImage image = VK_NULL_HANDLE;
    info.flags = flags;
    stub_table.create_image(d->handle, &info, d->callbacks, &image);
    return image;
}

/* An image that may lie in a shared object, or that may not. */
static VkImage image_made(const device *d, bool requires_own)
{
    for (uint32_t width = 1;; width++) {
        VkImage image = image_of(d, width, 0, true);
        bool found;
        VkMemoryRequirements needs = stub_needs_of_image(d->driver, image, &found);
        if (found == requires_own && needs.size <= SIZE)
            return image;
        stub_table.destroy_image(d->handle, image, d->callbacks);
    }
}

static void bound(const device *d, VkBuffer buffer, VkDeviceMemory memory, VkDeviceSize offset)
{
    stub_table.bind_buffer_memory(d->handle, buffer, memory, offset);
}

/* ---- Rules broken. ---- */

#define RULE(name, ...) \
    static void name(const device *d) \
    { \
        __VA_ARGS__; \
    }

RULE(use_a_handle_of_another_kind,
     stub_table.get_physical_device_memory_properties((VkPhysicalDevice)(void *)d->handle,
                                                      &(VkPhysicalDeviceMemoryProperties){0}))

static void map_what_was_freed(const device *d)
{
    VkDeviceMemory memory = object_of(d, STUB_COHERENT);
    freed(d, memory);
    object_of(d, STUB_COHERENT); /* which takes its place */
    mapped(d, memory, 0, SIZE);
}

static void free_twice(const device *d)
{
    VkDeviceMemory memory = object_of(d, STUB_COHERENT);
    freed(d, memory);
    freed(d, memory);
}

RULE(destroy_as_a_buffer,
     stub_table.destroy_buffer(d->handle, (VkBuffer)(uint64_t)image_made(d, false), d->callbacks))
RULE(bind_an_unknown_object, bound(d, buffer_made(d), (VkDeviceMemory)(uint64_t)7, 0))

static void use_properties2(const device *d)
{
    VkPhysicalDeviceProperties2 properties = {.sType = VK_STRUCTURE_TYPE_PHYSICAL_DEVICE_PROPERTIES_2};
    stub_table.get_physical_device_properties2(d->physical, &properties);
}

static void use_memory_properties2(const device *d)
{
    VkPhysicalDeviceMemoryProperties2 properties = {.sType = VK_STRUCTURE_TYPE_PHYSICAL_DEVICE_MEMORY_PROPERTIES_2};
    stub_table.get_physical_device_memory_properties2(d->physical, &properties);
}

static void use_requirements2(const device *d)
{
    const VkBufferMemoryRequirementsInfo2 info = {
        .sType = VK_STRUCTURE_TYPE_BUFFER_MEMORY_REQUIREMENTS_INFO_2,
        .buffer = buffer_made(d),
    };
    VkMemoryRequirements2 needs = {.sType = VK_STRUCTURE_TYPE_MEMORY_REQUIREMENTS_2};
    stub_table.get_buffer_memory_requirements2(d->handle, &info, &needs);
}

static void chain_to_properties2(const device *d)
{
    VkPhysicalDeviceMaintenance3Properties twice[2] = {
        {.sType = VK_STRUCTURE_TYPE_PHYSICAL_DEVICE_MAINTENANCE_3_PROPERTIES, .pNext = &twice[1]},
        {.sType = VK_STRUCTURE_TYPE_PHYSICAL_DEVICE_MAINTENANCE_3_PROPERTIES},
    };
    VkPhysicalDeviceProperties2 properties = {VK_STRUCTURE_TYPE_PHYSICAL_DEVICE_PROPERTIES_2, .pNext = twice};
    stub_table.get_physical_device_properties2(d->physical, &properties);
}

static void read_budgets(const device *d)
{
    VkPhysicalDeviceMemoryBudgetPropertiesEXT budget = {
        .sType = VK_STRUCTURE_TYPE_PHYSICAL_DEVICE_MEMORY_BUDGET_PROPERTIES_EXT,
    };
    VkPhysicalDeviceMemoryProperties2 properties = {
        .sType = VK_STRUCTURE_TYPE_PHYSICAL_DEVICE_MEMORY_PROPERTIES_2,
        .pNext = &budget,
    };
    stub_table.get_physical_device_memory_properties2(d->physical, &properties);
}

static void leave_requirements2_untyped(const device *d)
{
    const VkImageMemoryRequirementsInfo2 info = {
        .sType = VK_STRUCTURE_TYPE_IMAGE_MEMORY_REQUIREMENTS_INFO_2,
        .image = image_made(d, false),
    };
    stub_table.get_image_memory_requirements2(d->handle, &info, &(VkMemoryRequirements2){0});
}

static const VkMemoryPriorityAllocateInfoEXT priority = {VK_STRUCTURE_TYPE_MEMORY_PRIORITY_ALLOCATE_INFO_EXT, NULL, 0};
static const VkMemoryPriorityAllocateInfoEXT second_priority = {VK_STRUCTURE_TYPE_MEMORY_PRIORITY_ALLOCATE_INFO_EXT,
                                                                &priority, 0};
static const VkMappedMemoryRange no_structure_of_objects = {.sType = VK_STRUCTURE_TYPE_MAPPED_MEMORY_RANGE};
#define FLAGS(kind, mask) \
    {VK_STRUCTURE_TYPE_MEMORY_ALLOCATE_FLAGS_INFO, NULL, VK_MEMORY_ALLOCATE_DEVICE_##kind##_BIT, mask}
static const VkMemoryAllocateFlagsInfo wrong_flags = FLAGS(MASK, 0), one_device = FLAGS(ADDRESS, 1);
static const VkMemoryAllocateFlagsInfo address = FLAGS(ADDRESS, 0);

RULE(leave_an_object_untyped, object_typed(d, VK_STRUCTURE_TYPE_APPLICATION_INFO, STUB_LOCAL, SIZE, NULL))
RULE(chain_to_an_object, object_chained(d, STUB_LOCAL, SIZE, &no_structure_of_objects))
RULE(chain_to_an_object_twice, object_chained(d, STUB_LOCAL, SIZE, &second_priority))
RULE(ask_for_wrong_flags, object_chained(d, STUB_LOCAL, SIZE, &wrong_flags))
RULE(ask_for_one_device, object_chained(d, STUB_LOCAL, SIZE, &one_device))
RULE(ask_for_addresses, object_chained(d, STUB_LOCAL, SIZE, &address))
RULE(ask_for_no_addresses, object_of(d, STUB_COHERENT))

static void give_no_callbacks(const device *d)
{
    const device without = {d->driver, d->handle, d->physical, NULL};
    object_of(&without, STUB_LOCAL);
}

static void give_other_callbacks(const device *d)
{
    VkAllocationCallbacks others = *d->callbacks;
    others.pUserData = &others;
    stub_table.destroy_image(d->handle, VK_NULL_HANDLE, &others);
}

RULE(ask_for_a_type_that_is_not_there, object_of(d, STUB_TYPES))
RULE(ask_for_a_type_that_never_serves, object_of(d, STUB_LAZY))
RULE(ask_for_nothing, object_chained(d, STUB_LOCAL, 0, NULL))
RULE(ask_for_too_much, object_chained(d, STUB_LOCAL, (4 << 20) + 1, NULL))
RULE(pass_a_heap, object_chained(d, STUB_LOCAL, 4 << 20, NULL), object_chained(d, STUB_LOCAL, (2 << 20) + 1, NULL))
RULE(pass_a_limit, object_of(d, STUB_LOCAL), stub_set_limit(d->driver, STUB_LOCAL_HEAP, 6 * SIZE),
     object_of(d, STUB_LOCAL))
RULE(pass_a_budget, object_of(d, STUB_LOCAL), stub_set_budget(d->driver, STUB_LOCAL_HEAP, 8 * SIZE, 1), read_budgets(d),
     object_of(d, STUB_LOCAL))
RULE(hold_too_many, for (int i = 0; i <= MOST_OBJECTS; i++) object_of(d, STUB_LOCAL))

/* An object for these alone, of the size that the buffer needs and more. */
static VkDeviceMemory own(const device *d, uint32_t type, VkBuffer buffer, VkImage image, VkDeviceSize more)
{
    const VkMemoryDedicatedAllocateInfo owner = {VK_STRUCTURE_TYPE_MEMORY_DEDICATED_ALLOCATE_INFO, NULL, image, buffer};
    return object_chained(d, type, stub_needs_of_buffer(d->driver, buffer).size + more, &owner);
}

RULE(own_for_a_buffer, own(d, STUB_LOCAL, buffer_made(d), VK_NULL_HANDLE, 0))
RULE(own_for_two, own(d, STUB_LOCAL, buffer_made(d), image_made(d, false), 0))
RULE(own_of_another_size, own(d, STUB_LOCAL, buffer_made(d), VK_NULL_HANDLE, SIZE))

static void own_for_what_is_bound(const device *d)
{
    VkBuffer buffer = buffer_made(d);
    bound(d, buffer, object_of(d, STUB_COHERENT), 0);
    own(d, STUB_LOCAL, buffer, VK_NULL_HANDLE, 0);
}

RULE(bind_to_what_another_owns,
     bound(d, buffer_made(d), own(d, STUB_COHERENT, buffer_made(d), VK_NULL_HANDLE, 0), 0))
RULE(bind_what_has_to_be_alone,
     stub_table.bind_image_memory(d->handle, image_made(d, true), object_of(d, STUB_LOCAL), 0))

static void free_what_is_bound(const device *d)
{
    VkDeviceMemory memory = object_of(d, STUB_COHERENT);
    bound(d, buffer_made(d), memory, 0);
    freed(d, memory);
}

static void bind_twice(const device *d)
{
    VkBuffer buffer = buffer_made(d);
    VkDeviceMemory memory = object_of(d, STUB_COHERENT);
    bound(d, buffer, memory, 0);
    bound(d, buffer, memory, SIZE);
}

RULE(bind_one_byte_off, bound(d, buffer_made(d), object_of(d, STUB_COHERENT), 1))
RULE(bind_past_the_end, bound(d, buffer_made(d), object_chained(d, STUB_COHERENT, 900, NULL), 0))
RULE(bind_behind_the_end, bound(d, buffer_made(d), object_of(d, STUB_COHERENT), 4 * SIZE))

static void bind_to_a_wrong_type(const device *d)
{
    for (uint32_t size = 1;; size++) {
        VkBuffer buffer = buffer_sized(d, size);
        if ((stub_needs_of_buffer(d->driver, buffer).memoryTypeBits >> STUB_LOCAL_VISIBLE & 1) == 0) {
            bound(d, buffer, object_of(d, STUB_LOCAL_VISIBLE), 0);
            return;
        }
        stub_table.destroy_buffer(d->handle, buffer, d->callbacks);
    }
}

static void create_with_addresses(const device *d)
{
    VkBufferCreateInfo info = stub_buffer_info(1000);
    info.usage |= VK_BUFFER_USAGE_SHADER_DEVICE_ADDRESS_BIT;
    buffer_of(d, &info);
}

static void bind_over_another(const device *d)
{
    VkDeviceMemory memory = object_of(d, STUB_COHERENT);
    bound(d, buffer_made(d), memory, 0);
    bound(d, buffer_made(d), memory, 512);
}

/* The image begins the second page, and the buffer ends it. */
static void bind_to_the_same_page(const device *d)
{
    VkDeviceMemory memory = object_of(d, STUB_LOCAL);
    VkBuffer buffer = buffer_made(d);
    VkMemoryRequirements needs = stub_needs_of_buffer(d->driver, buffer);
    VkDeviceSize offset = (2 * PAGE - needs.size) / needs.alignment * needs.alignment;
    bool requires_own;
    VkImage image = image_made(d, false);
    VkMemoryRequirements image_needs = stub_needs_of_image(d->driver, image, &requires_own);
    must(image_needs.alignment <= PAGE && PAGE + image_needs.size <= offset, "an image does not fit before the buffer");
    bound(d, buffer, memory, offset);
    stub_table.bind_image_memory(d->handle, image, memory, PAGE);
}

static void leave_a_buffer_untyped(const device *d)
{
    VkBufferCreateInfo info = stub_buffer_info(10);
    info.sType = VK_STRUCTURE_TYPE_APPLICATION_INFO;
    buffer_of(d, &info);
}

RULE(create_a_wrong_buffer, buffer_sized(d, 0))
static void chain_to_a_buffer(const device *d)
{
    VkBufferCreateInfo info = stub_buffer_info(1000);
    info.pNext = &no_structure_of_objects;
    buffer_of(d, &info);
}

RULE(create_a_wrong_image, image_of(d, 1, VK_IMAGE_CREATE_DISJOINT_BIT, true))
RULE(create_an_empty_image, image_of(d, 0, 0, true))
RULE(map_what_is_not_seen, mapped(d, object_of(d, STUB_LOCAL), 0, SIZE))

static void map_twice(const device *d)
{
    VkDeviceMemory memory = object_of(d, STUB_COHERENT);
    mapped(d, memory, 0, SIZE);
    mapped(d, memory, SIZE, SIZE);
}

RULE(map_past_the_end, mapped(d, object_of(d, STUB_COHERENT), SIZE, 4 * SIZE))
RULE(map_with_flags, stub_table.map_memory(d->handle, object_of(d, STUB_COHERENT), 0, SIZE, 1, &(void *){NULL}))
RULE(unmap_what_is_not_mapped, stub_table.unmap_memory(d->handle, object_of(d, STUB_COHERENT)))

static VkDeviceMemory mapped_object(const device *d, uint32_t type)
{
    VkDeviceMemory memory = object_of(d, type);
    mapped(d, memory, ATOM, 2 * ATOM);
    return memory;
}

RULE(flush_what_is_not_mapped, flushed(d, object_of(d, STUB_CACHED), 0, ATOM))
RULE(flush_from_within_an_atom, flushed(d, mapped_object(d, STUB_CACHED), ATOM + 1, ATOM - 1))
RULE(flush_up_to_within_an_atom, flushed(d, mapped_object(d, STUB_CACHED), ATOM, ATOM - 1))
RULE(flush_before_what_is_mapped, flushed(d, mapped_object(d, STUB_CACHED), 0, ATOM))
RULE(flush_behind_what_is_mapped, flushed(d, mapped_object(d, STUB_CACHED), ATOM, 3 * ATOM))
RULE(flush_what_is_coherent, flushed(d, mapped_object(d, STUB_COHERENT), ATOM, ATOM))
RULE(flush_no_range, stub_table.flush_mapped_memory_ranges(d->handle, 0, NULL))

static void flush_an_untyped_range(const device *d)
{
    const VkMappedMemoryRange range = {.memory = mapped_object(d, STUB_CACHED), .offset = ATOM, .size = ATOM};
    stub_table.flush_mapped_memory_ranges(d->handle, 1, &range);
}

RULE(use_what_is_not_bound, stub_buffer_bytes(d->driver, buffer_made(d)))
RULE(use_more_than_an_object, stub_memory_bytes(d->driver, object_of(d, STUB_LOCAL), SIZE, 4 * SIZE))
/* These are left at the end, which is no failure before. */
RULE(leave_an_object, object_of(d, STUB_LOCAL))
RULE(leave_a_buffer, buffer_made(d))
RULE(leave_an_image, image_of(d, 10, 0, true))

/* ---- Rows. ---- */

/* What is left at the end is a failure too, and comes behind the first one. */
typedef struct rule {
    const char *wanted; /* or null, where nothing but that is found */
    void (*break_it)(const device *);
    uint32_t flags, api_version;
    bool has_callbacks;
} rule;

#define ADDRESSES .flags = WTV_CREATE_DEVICE_ADDRESS
#define PLAIN .api_version = VK_API_VERSION_1_0
#define NEW .api_version = VK_API_VERSION_1_1

static const rule rules[] = {
    {"a handle of another kind", use_a_handle_of_another_kind, NEW},
    {"an unknown handle", map_what_was_freed, NEW},
    {"an unknown handle", free_twice, NEW},
    {"an unknown handle", destroy_as_a_buffer, NEW},
    {"an unknown handle", bind_an_unknown_object, NEW},
    {"a function that is not enabled", use_properties2, PLAIN},
    {"a function that is not enabled", use_memory_properties2, PLAIN},
    {"a function that is not enabled", use_requirements2, PLAIN},
    {"a wrong chain", chain_to_properties2, NEW},
    {"budgets are not enabled", read_budgets, NEW},
    {"a wrong sType", leave_requirements2_untyped, NEW},
    {"a wrong sType", leave_an_object_untyped, NEW},
    {"a wrong chain", chain_to_an_object, NEW},
    {"a wrong chain", chain_to_an_object_twice, NEW},
    {"a wrong chain", chain_to_a_buffer, NEW},
    {"wrong flags", ask_for_wrong_flags, NEW, ADDRESSES},
    {"wrong flags", ask_for_one_device, NEW, ADDRESSES},
    {"device addresses are not enabled", ask_for_addresses, NEW},
    {"other callbacks than the program's", give_no_callbacks, NEW, .has_callbacks = true},
    {"other callbacks than the program's", give_other_callbacks, NEW, .has_callbacks = true},
    {"no such memory type", ask_for_a_type_that_is_not_there, NEW},
    {"a memory type that must never be asked for", ask_for_a_type_that_never_serves, NEW},
    {"a size that the device does not allow", ask_for_nothing, NEW},
    {"a size that the device does not allow", ask_for_too_much, NEW},
    {"an object passes its heap", pass_a_heap, NEW},
    {"an object passes its heap's limit", pass_a_limit, NEW},
    {"an object passes its budget", pass_a_budget, NEW, .flags = WTV_CREATE_MEMORY_BUDGET},
    {"an object too many", hold_too_many, NEW},
    {"objects for one resource are not enabled", own_for_a_buffer, PLAIN},
    {"an object is for a buffer and for an image", own_for_two, NEW},
    {"an object for one resource has another size", own_of_another_size, NEW},
    {"an object is for a resource that is bound", own_for_what_is_bound, NEW},
    {"an object for another resource", bind_to_what_another_owns, NEW},
    {"a resource has to have an object of its own", bind_what_has_to_be_alone, NEW},
    {"a resource is bound to the object", free_what_is_bound, NEW},
    {"a resource is bound twice", bind_twice, NEW},
    {"an offset that is not aligned", bind_one_byte_off, NEW},
    {"a resource passes the end", bind_past_the_end, NEW},
    {"a resource passes the end", bind_behind_the_end, NEW},
    {"a memory type that does not serve", bind_to_a_wrong_type, NEW},
    {"an object without addresses", ask_for_no_addresses, NEW, ADDRESSES},
    {"device addresses are not enabled", create_with_addresses, NEW},
    {"two resources share a byte", bind_over_another, NEW},
    {"a linear and an optimal resource share a page", bind_to_the_same_page, NEW},
    {"a wrong field", create_a_wrong_buffer, NEW},
    {"a wrong sType", leave_a_buffer_untyped, NEW},
    {"a wrong field", create_a_wrong_image, NEW},
    {"a wrong extent", create_an_empty_image, NEW},
    {"memory that the host does not see", map_what_is_not_seen, NEW},
    {"an object that is mapped", map_twice, NEW},
    {"a range past the end", map_past_the_end, NEW},
    {"wrong flags", map_with_flags, NEW},
    {"an object that is not mapped", unmap_what_is_not_mapped, NEW},
    {"an object that is not mapped", flush_what_is_not_mapped, NEW},
    {"a range does not begin on an atom", flush_from_within_an_atom, NEW},
    {"a range ends neither on an atom nor at the end", flush_up_to_within_an_atom, NEW},
    {"a range that is not mapped", flush_before_what_is_mapped, NEW},
    {"a range that is not mapped", flush_behind_what_is_mapped, NEW},
    {"a range of coherent memory", flush_what_is_coherent, NEW},
    {"no range", flush_no_range, NEW},
    {"a wrong sType", flush_an_untyped_range, NEW},
    {"a resource that is not bound", use_what_is_not_bound, NEW},
    {"a bad range", use_more_than_an_object, NEW},
    {NULL, leave_an_object, NEW},
    {NULL, leave_a_buffer, NEW},
    {NULL, leave_an_image, NEW},
};

static void run_rule(const rule *r)
{
    stub_plan plan = stub_usual_plan();
    plan.flags = r->flags;
    plan.api_version = r->api_version;
    plan.atom = ATOM;
    plan.page = PAGE;
    plan.max_objects = MOST_OBJECTS;
    plan.is_quiet = true;
    plan.callbacks = r->has_callbacks ? &stub_callbacks : NULL;
    stub *driver = stub_open(&plan);
    wtv_create_info info = stub_info(driver);
    const device d = {driver, info.device, info.physical_device, plan.callbacks};
    r->break_it(&d);
    const char *found = stub_first_failure(driver);
    if (found != r->wanted && (found == NULL || r->wanted == NULL || strcmp(found, r->wanted) != 0)) {
        fprintf(stderr, "FAILED: the stub finds '%s', and not '%s'\n", found != NULL ? found : "nothing",
                r->wanted != NULL ? r->wanted : "nothing");
        exit(1);
    }
    uint64_t failures = stub_close(driver);
    must(r->wanted == NULL ? failures == 1 : failures > 0, "a failure is not counted");
}

int main(void)
{
    for (size_t i = 0; i < LENGTH(rules); i++)
        run_rule(&rules[i]);
    printf("strict: the stub finds each of %zu broken rules\n", LENGTH(rules));
    return 0;
}
