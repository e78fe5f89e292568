/* Runs a load over the library with one way to share objects: bench/held runs it for fit chunks, which scripts lack.

     load CONFIG SHARING < LINES      CONFIG: potato, prototyping; SHARING: buddy, fit

   It has one device-local heap of 16 GiB that grants all. A line is `alloc NAME SIZE MASK USAGE TYPES`, `free NAME` or
   `counts`, as in a script, with names below 65,536. So are the replies, but for `block OBJECT OFFSET SIZE`. */
#include "granting.h"
#include <inttypes.h>
#include <string.h>

enum { NAMES = 65536 };

static uint64_t keys[NAMES];

static void grant(wt_allocator *a, uint32_t name, const wt_request *request)
{
    const wt_block block = allocate(a, request);
    keys[name] = block.key;
    printf("block %" PRIu64 " %" PRIu64 " %" PRIu64 "\n", block.object, block.offset, block.size);
}

static void release(wt_allocator *a, uint32_t name)
{
    static uint64_t gone[NAMES];
    size_t count;
    must(wt_free(a, keys[name]) == WT_OK, "wt_free");
    must(wt_gone(a, gone, NAMES, &count) == WT_OK, "wt_gone");
    puts("ok");
}

static void count(wt_allocator *a)
{
    wt_heap_counts bytes;
    wt_counts counts;
    must(wt_heap(a, 0, &bytes) == WT_OK && bytes.used_high == 0, "wt_heap");
    must(wt_count(a, &counts) == WT_OK, "wt_count");
    printf("counts remaining %" PRIu32 " held %" PRIu32 " used %" PRIu64 "\n", counts.remaining, counts.held,
           bytes.used);
}

int main(int argc, char **argv)
{
    static const wt_config potato = WT_CONFIG_POTATO, prototyping = WT_CONFIG_PROTOTYPING;
    const wt_memory_type type = {0, WT_DEVICE_LOCAL};
    const uint64_t heap = (uint64_t)16 << 30;
    const wt_limits limits = {
        .max_memory_allocation_size = 1 << 30,
        .non_coherent_atom_size = 64,
        .max_memory_allocation_count = 4096,
    };
    wt_config config;
    wt_allocator a = {0, NULL};
    char line[128];
    must(argc == 3, "usage: load CONFIG SHARING");
    config = strcmp(argv[1], "potato") == 0 ? potato : prototyping;
    config.sharing = strcmp(argv[2], "fit") == 0 ? WT_FIT : WT_BUDDY;
    must(wt_open(&a, &type, 1, &heap, 1, &limits, &config) == WT_OK, "wt_open");
    while (fgets(line, sizeof line, stdin)) {
        wt_request request = WT_REQUEST_INIT;
        uint32_t name;
        if (sscanf(line, "alloc %" SCNu32 " %" SCNu64 " %" SCNu64 " %" SCNu32 " %" SCNu32, &name, &request.size,
                   &request.align_mask, &request.usage, &request.memory_types) == 5 && name < NAMES)
            grant(&a, name, &request);
        else if (sscanf(line, "free %" SCNu32, &name) == 1 && name < NAMES)
            release(&a, name);
        else if (strcmp(line, "counts\n") == 0)
            count(&a);
        else
            must(0, line);
    }
    return 0;
}
