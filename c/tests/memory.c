/* Device memory that the host sees costs the process next to nothing: 64 mapped objects of 16 MiB, of which the test
 * itself allocates no byte, under 1 MiB in all. */
#include "common.h"

#define OBJECTS 64
#define MOST_KIBIBYTES 1024

/* The most memory that the process had since it began, or -1 where the system does not say. (getrusage would count what
 * its parent had.) */
static long peak_kibibytes(void) {
    char line[256];
    long peak = -1;
    FILE *status = fopen("/proc/self/status", "r");
    if (!status) return -1;
    while (peak < 0 && fgets(line, sizeof line, status))
        if (sscanf(line, "VmHWM: %ld kB", &peak) != 1) peak = -1;
    fclose(status);
    return peak;
}

static void open_large_heap(wt_allocator *a) {
    uint64_t heap = 2 * OBJECTS * 16 * MEBIBYTE;
    wt_memory_type type = { 0, WT_HOST_VISIBLE };
    wt_limits limits = device_limits(2 * OBJECTS, 0);
    limits.max_memory_allocation_size = heap;
    expect(wt_open(a, &type, 1, &heap, 1, &limits, &small_config) == WT_OK, "it was not opened");
}

static void take_and_map(wt_allocator *a, wt_block *block) {
    wt_request request = REQUEST(16 * MEBIBYTE, 0, WT_USAGE_HOST_ACCESS, 1, WT_REQUIRED);
    questions talk;
    wt_range mapped;
    expect(allocate(a, &request, grants, &talk, block) == WT_OK, "a block is refused");
    expect(block->size == request.size && block->fresh, "a block is no object of its own");
    expect(map(a, block->key, 0, block->size, grants, &talk, &mapped) == WT_OK, "a block is not mapped");
}

int main(void) {
    static wt_block blocks[OBJECTS];
    wt_allocator allocator = { 0, NULL };
    uint64_t name;
    size_t count;
    long before = peak_kibibytes(), taken;
    open_large_heap(&allocator);
    for (size_t i = 0; i < OBJECTS; i++) take_and_map(&allocator, &blocks[i]);
    expect(counts_of(&allocator).held == OBJECTS, "other objects are held");
    for (size_t i = 0; i < OBJECTS; i++) {
        expect(wt_free(&allocator, blocks[i].key) == WT_OK, "a block is not taken back");
        expect(wt_gone(&allocator, &name, 1, &count) == WT_OK && count == 1, "a block's own object is not told");
    }
    expect(wt_close(&allocator) == WT_OK, "it is not closed");
    taken = peak_kibibytes() - before;
    if (before < 0) printf("memory: left out, since /proc/self/status does not tell it here\n");
    expect(before < 0 || taken < MOST_KIBIBYTES, "the host pays for the device's memory");
    if (before >= 0) printf("memory: %ld KiB for %d MiB of the device's\n", taken, OBJECTS * 16);
    return 0;
}
