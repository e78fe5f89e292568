/* Replays a load over the library with fit chunks, for the script replay. The device grants all.
 *
 *     load < LINES
 *
 * The lines are `heap SIZE ..` and `type HEAP PROPS` of the device, and then `alloc NAME SIZE MASK USAGE TYPES` and
 * `free NAME`, as in a script. It prints how many chunks were asked for, and how many bytes all heaps held at the peak. */
#include "../common.h"

#include <inttypes.h>

enum { NAMES = 65536, MOST = 32 };

static wt_allocator allocator;
static uint64_t keys[NAMES], sizes[MOST], chunks, peak;
static wt_memory_type types[MOST];
static uint32_t types_len, heaps_len;

/* The sizes of wtv_default_config, which go by the largest device-local heap. Here that is the first one. */
static void open_default(void) {
    const wt_limits limits = {
        .max_memory_allocation_size = 1 << 30,
        .non_coherent_atom_size = 64,
        .max_memory_allocation_count = 4096,
    };
    uint64_t unit = 64 * KIBIBYTE;
    while (unit < 8 * MEBIBYTE && 2 * unit <= sizes[0] / 1024)
        unit *= 2;
    const wt_config config = { 4 * unit, unit / 8, 16 * unit, unit, 16 * unit, 1024, unit, WT_FIT };
    expect(wt_open(&allocator, types, types_len, sizes, heaps_len, &limits, &config) == WT_OK, "it was not opened");
}

static void grant(uint64_t *key, const wt_request *request) {
    wt_question asked[WT_MAX_QUESTIONS + 1];
    wt_block block;
    uint32_t status;
    uint64_t held = 0;
    for (size_t n = 0; (status = wt_alloc(&allocator, request, asked, n, &block, &asked[n])) == WT_ASK; n++) {
        chunks += asked[n].kind == WT_ALLOCATE && (asked[n].flags & WT_ALLOCATE_OWN) == 0;
        asked[n].answer = WT_GRANTED;
    }
    expect(status == WT_OK, wt_text(status));
    *key = block.key;
    for (uint32_t heap = 0; heap < heaps_len; heap++)
        held += heap_counts_of(&allocator, heap).used;
    peak = held > peak ? held : peak;
}

static void release(uint64_t *key) {
    static uint64_t gone[NAMES];
    size_t count;
    expect(wt_free(&allocator, *key) == WT_OK, "a block is not taken back");
    expect(wt_gone(&allocator, gone, NAMES, &count) == WT_OK, "what is gone is not told");
    *key = 0;
}

int main(void) {
    char line[128];
    uint32_t name;
    uint64_t heap;
    for (; fgets(line, sizeof line, stdin) != NULL; current_step++) {
        wt_request request = WT_REQUEST_INIT;
        wt_memory_type type;
        if (sscanf(line, "heap %" SCNu64, &heap) == 1 && heaps_len < MOST)
            sizes[heaps_len++] = heap;
        else if (sscanf(line, "type %" SCNu32 " %" SCNu32, &type.heap, &type.props) == 2 && types_len < MOST)
            types[types_len++] = type;
        else if (sscanf(line, "alloc %" SCNu32 " %" SCNu64 " %" SCNu64 " %" SCNu32 " %" SCNu32, &name, &request.size,
                        &request.align_mask, &request.usage, &request.memory_types) == 5 && name < NAMES) {
            if (allocator.state == NULL)
                open_default();
            grant(&keys[name], &request);
        } else {
            expect(sscanf(line, "free %" SCNu32, &name) == 1 && name < NAMES, line);
            release(&keys[name]);
        }
    }
    for (name = 0; name < NAMES; name++)
        if (keys[name] != 0)
            release(&keys[name]);
    expect(wt_cleanup(&allocator) == WT_OK, "it is not cleaned up");
    printf("%" PRIu64 " %" PRIu64 "\n", chunks, peak);
    return 0;
}
