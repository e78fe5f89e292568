/* Prints how many bytes are held for 1,000 blocks of 4 KiB, for linear and for optimal resources: bench/held runs it.

   Each row is of one allocator over one device-local heap of 16 GiB that grants all. */
#include "granting.h"
#include <inttypes.h>

enum { BLOCKS = 1000, SIZE = 4096, PAGES = 3 };

typedef struct held {
    uint64_t bytes;
    uint32_t objects;
} held;

static const wt_config CONFIGS[] = {WT_CONFIG_POTATO, WT_CONFIG_PROTOTYPING};
static const char *const NAMES[] = {"potato", "prototyping"};

/* What is held for the blocks. They and their allocator stay until the program ends. */
static held held_for(const wt_config *config, uint64_t granularity, uint32_t usage, uint32_t flags)
{
    const wt_memory_type type = {0, WT_DEVICE_LOCAL};
    const uint64_t heap = (uint64_t)16 << 30;
    const wt_limits limits = {
        .max_memory_allocation_size = 1 << 30,
        .non_coherent_atom_size = 64,
        .max_memory_allocation_count = 4096,
        .buffer_image_granularity = granularity,
    };
    const wt_request request = {
        .size = SIZE,
        .align_mask = SIZE - 1,
        .usage = usage,
        .memory_types = 1,
        .flags = flags,
    };
    wt_allocator a = {0, NULL};
    wt_heap_counts bytes;
    wt_counts counts;
    must(wt_open(&a, &type, 1, &heap, 1, &limits, config) == WT_OK, "wt_open");
    for (int i = 0; i < BLOCKS; i++)
        allocate(&a, &request);
    must(wt_heap(&a, 0, &bytes) == WT_OK && bytes.used_high == 0, "wt_heap");
    must(wt_count(&a, &counts) == WT_OK, "wt_count");
    return (held){bytes.used, counts.held};
}

int main(void)
{
    static const uint64_t pages[PAGES] = {1024, 4096, 65536};
    static const uint32_t usages[] = {WT_USAGE_FAST_DEVICE_ACCESS, WT_USAGE_FAST_DEVICE_ACCESS | WT_USAGE_TRANSIENT};
    static const char *const usage_names[] = {"FAST_DEVICE_ACCESS", "and TRANSIENT"};
    printf("%-11s %-18s %11s %13s %8s %13s %8s\n", "config", "usage", "granularity", "optimal bytes", "objects",
           "linear bytes", "objects");
    for (int config = 0; config < 2; config++)
        for (int usage = 0; usage < 2; usage++)
            for (int page = 0; page < PAGES; page++) {
                held optimal = held_for(&CONFIGS[config], pages[page], usages[usage], WT_OPTIMAL);
                held linear = held_for(&CONFIGS[config], pages[page], usages[usage], 0);
                printf("%-11s %-18s %11" PRIu64 " %13" PRIu64 " %8" PRIu32 " %13" PRIu64 " %8" PRIu32 "\n",
                       NAMES[config], usage_names[usage], pages[page], optimal.bytes, optimal.objects, linear.bytes,
                       linear.objects);
            }
    return 0;
}
