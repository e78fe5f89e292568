/* Replays a trace through one allocator over the counting device, for bench/peers:
 *
 *     replay WAY < TRACE      WAY is a word of the side
 *
 * A trace is what a program asked of a Vulkan driver, line by line. Numbers are decimal, but for U, F and TYPES, which
 * are hexadecimal. Names are numbers, and a destroyed resource's may be used again:
 *
 *     device N objects LIMIT granularity G atom A
 *     heap SIZE FLAGS
 *     type HEAP PROPS
 *     buffer NAME size S usage U flags F needs SIZE ALIGNMENT TYPES [preferred|required]
 *     image NAME .. tiling optimal|linear usage U flags F needs .. [swapchain] [external]      `needs` as above
 *     memory NAME SIZE TYPE ..
 *     bind RESOURCE MEMORY OFFSET
 *     destroy RESOURCE
 *
 * A resource is created where it was bound, in the memory type that the program took. Images of swapchains, and
 * external ones, are left out, since no allocator serves them; so are a program's other lines. A drawn load has two
 * more. At `counts`, but for the first one, what is held counts for a mean. At `counted` the counting of calls begins
 * anew.
 *
 * It prints words with numbers: bytes asked and held, and memory objects, all when most is asked; all calls of
 * vkAllocateMemory; sums of bytes asked and held at `counts`; how many resources were created and destroyed since
 * `counted`. callgrind counts from begin_counting to end_counting. */
#include "../must.h"
#include "side.h"

#include <inttypes.h>
#include <stdbool.h>
#include <string.h>

enum { NAMES = 1 << 18, LINE = 512 };

/* A resource of the trace. */
typedef struct resource {
    VkBufferCreateInfo buffer; /* one of the two has its sType */
    VkImageCreateInfo image;
    device_needs needs;
    side_resource made;
    bool is_left_out, is_live;
} resource;

static resource resources[NAMES];
static uint32_t types_of[NAMES]; /* memory types, by the names of memory objects */
static bool is_open;

static struct {
    uint64_t asked; /* by the live resources */
    uint64_t most_asked, held, objects;
    uint64_t later_asked, later_held, counts;
    uint64_t calls;
} seen;

static __attribute__((noinline)) void begin_counting(void)
{
    seen.calls = 0;
}

static __attribute__((noinline)) void end_counting(void)
{
    __asm__ volatile(""); /* so that the call stays */
}

/* ---- Fields of a line. ---- */

/* What stands behind a word, or null. */
static const char *behind(const char *line, const char *word)
{
    const char *found = strstr(line, word);
    return found == NULL ? NULL : found + strlen(word);
}

static uint64_t number_behind(const char *line, const char *word, int base)
{
    const char *digits = behind(line, word);
    must(digits != NULL, line);
    return strtoull(digits, NULL, base);
}

static uint32_t name_of(const char *line)
{
    uint64_t name = number_behind(line, " ", 10);
    must(name < NAMES, "a name is too large");
    return (uint32_t)name;
}

static bool begins(const char *line, const char *word)
{
    size_t length = strlen(word);
    return strncmp(line, word, length) == 0 && strchr(" \n", line[length]) != NULL;
}

/* ---- The device. ---- */

static void read_device(const char *line)
{
    uint64_t objects = number_behind(line, " objects ", 10);
    the_device.most_objects = objects > UINT32_MAX ? UINT32_MAX : (uint32_t)objects;
    the_device.granularity = number_behind(line, " granularity ", 10);
    the_device.atom = number_behind(line, " atom ", 10);
}

static void read_heap(const char *line)
{
    VkMemoryHeap heap;
    must(sscanf(line, "heap %" SCNu64 " %" SCNu32, &heap.size, &heap.flags) == 2, line);
    must(the_device.memory.memoryHeapCount < VK_MAX_MEMORY_HEAPS, "too many heaps");
    the_device.memory.memoryHeaps[the_device.memory.memoryHeapCount++] = heap;
}

static void read_type(const char *line)
{
    VkMemoryType type;
    must(sscanf(line, "type %" SCNu32 " %" SCNu32, &type.heapIndex, &type.propertyFlags) == 2, line);
    must(the_device.memory.memoryTypeCount < VK_MAX_MEMORY_TYPES, "too many memory types");
    the_device.memory.memoryTypes[the_device.memory.memoryTypeCount++] = type;
}

/* ---- Resources. ---- */

static device_needs needs_of(const char *line)
{
    device_needs needs = {
        .prefers_own = strstr(line, " preferred") != NULL,
        .requires_own = strstr(line, " required") != NULL,
    };
    const char *numbers = behind(line, " needs ");
    must(numbers != NULL && sscanf(numbers, "%" SCNu64 " %" SCNu64 " %" SCNx32, &needs.memory.size,
                                   &needs.memory.alignment, &needs.memory.memoryTypeBits) == 3, line);
    return needs;
}

/* The place of a resource that the trace is about to create. */
static resource *place_of(const char *line)
{
    resource *place = &resources[name_of(line)];
    must(!place->is_live, "a name is used twice");
    return place;
}

static void read_buffer(const char *line)
{
    *place_of(line) = (resource){
        .buffer = {
            .sType = VK_STRUCTURE_TYPE_BUFFER_CREATE_INFO,
            .flags = (VkBufferCreateFlags)number_behind(line, " flags ", 16),
            .size = number_behind(line, " size ", 10),
            .usage = (VkBufferUsageFlags)number_behind(line, " usage ", 16),
        },
        .needs = needs_of(line),
    };
}

static void read_image(const char *line)
{
    bool is_optimal = strstr(line, " tiling optimal ") != NULL;
    *place_of(line) = (resource){
        .image = {
            .sType = VK_STRUCTURE_TYPE_IMAGE_CREATE_INFO,
            .flags = (VkImageCreateFlags)number_behind(line, " flags ", 16),
            .extent = {1, 1, 1}, /* the device looks at none of it, but VMA refuses zeros */
            .mipLevels = 1,
            .arrayLayers = 1,
            .tiling = is_optimal ? VK_IMAGE_TILING_OPTIMAL : VK_IMAGE_TILING_LINEAR,
            .usage = (VkImageUsageFlags)number_behind(line, " usage ", 16),
        },
        .needs = needs_of(line),
        .is_left_out = strstr(line, " swapchain") != NULL || strstr(line, " external") != NULL,
    };
}

static void read_memory(const char *line)
{
    uint32_t name, type;
    must(sscanf(line, "memory %" SCNu32 " %*u %" SCNu32, &name, &type) == 2 && name < NAMES, line);
    must(type < the_device.memory.memoryTypeCount, "there is no such memory type");
    types_of[name] = type;
}

static void see_most(void)
{
    if (seen.asked <= seen.most_asked)
        return;
    seen.most_asked = seen.asked;
    seen.held = device_held();
    seen.objects = the_device.objects;
}

static void create(resource *it, uint32_t memory_type)
{
    const side_wish wish = {
        .buffer = it->buffer.sType == VK_STRUCTURE_TYPE_BUFFER_CREATE_INFO ? &it->buffer : NULL,
        .image = it->image.sType == VK_STRUCTURE_TYPE_IMAGE_CREATE_INFO ? &it->image : NULL,
        .memory_types = UINT32_C(1) << memory_type,
    };
    must((wish.buffer != NULL) != (wish.image != NULL), "there is no such resource");
    the_device.needs = it->needs;
    it->made = side_create(&wish);
    it->is_live = true;
    seen.asked += it->needs.memory.size;
    seen.calls++;
    see_most();
}

static void destroy(resource *it)
{
    side_destroy(&it->made);
    it->is_live = false;
    seen.asked -= it->needs.memory.size;
    seen.calls++;
}

static void run_bind(const char *line, const char *way)
{
    uint32_t name, memory;
    must(sscanf(line, "bind %" SCNu32 " %" SCNu32, &name, &memory) == 2 && name < NAMES && memory < NAMES, line);
    if (resources[name].is_left_out || resources[name].is_live)
        return;
    if (!is_open) {
        side_open(way);
        begin_counting();
    }
    is_open = true;
    create(&resources[name], types_of[memory]);
}

static void run_destroy(const char *line)
{
    resource *it = &resources[name_of(line)];
    if (it->is_live)
        destroy(it);
}

static void run_counts(void)
{
    if (seen.counts++ == 0)
        return;
    seen.later_asked += seen.asked;
    seen.later_held += device_held();
}

/* ---- The trace. ---- */

static void run(const char *line, const char *way)
{
    static const char *const left_out[] = {"map", "unmap", "gone", "submit", "present", "refused", "end"};
    if (begins(line, "device")) read_device(line);
    else if (begins(line, "heap")) read_heap(line);
    else if (begins(line, "type")) read_type(line);
    else if (begins(line, "buffer")) read_buffer(line);
    else if (begins(line, "image")) read_image(line);
    else if (begins(line, "memory")) read_memory(line);
    else if (begins(line, "bind")) run_bind(line, way);
    else if (begins(line, "destroy")) run_destroy(line);
    else if (begins(line, "counts")) run_counts();
    else if (begins(line, "counted")) begin_counting();
    else {
        size_t i = 0;
        while (i < sizeof left_out / sizeof *left_out && !begins(line, left_out[i]))
            i++;
        must(i < sizeof left_out / sizeof *left_out, line);
    }
}

static void print_seen(void)
{
    printf("asked %" PRIu64 " held %" PRIu64 " objects %" PRIu64, seen.most_asked, seen.held, seen.objects);
    printf(" allocations %" PRIu64, the_device.allocations);
    printf(" later_asked %" PRIu64 " later_held %" PRIu64, seen.later_asked, seen.later_held);
    printf(" calls %" PRIu64 "\n", seen.calls);
}

int main(int argc, char **argv)
{
    static char line[LINE];
    must(argc == 2, "usage: replay WAY < TRACE");
    while (fgets(line, sizeof line, stdin) != NULL)
        run(line, argv[1]);
    must(is_open, "the trace has no resource");
    end_counting();
    print_seen();
    for (uint32_t name = 0; name < NAMES; name++)
        if (resources[name].is_live)
            destroy(&resources[name]);
    side_close();
    must(the_device.objects == 0 && the_device.resources == 0, "something is held at the end");
    return 0;
}
