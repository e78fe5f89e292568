/* Drawn calls that print each status and all that is written, so that two platforms can be compared byte for byte. No
 * two numbers are drawn in one expression, whose order a compiler chooses.
 *
 *     trace SEED STEPS buddy|fit
 *
 * A struct is printed as its bytes: layout.c tells what these are, and no struct has bytes without a meaning. */
#include "common.h"
#include "layout.h"

#ifdef _WIN32
#include <fcntl.h>
#include <io.h>
#endif

enum { MOST = 400, FEW = 16 };

/* Every shared object has pages of this many bytes. */
static const uint64_t page = 1024;

static wt_allocator allocator;
static wt_block live[MOST];
static size_t live_len;

static void put(const char *what, const void *from, size_t bytes) {
    const unsigned char *at = from;
    printf("%s ", what);
    for (size_t i = 0; i < bytes; i++) printf("%02x", at[i]);
    printf("\n");
}

static void put_status(const char *what, uint32_t status) {
    printf("%s %u\n", what, (unsigned)status);
}

/* The device grants most questions, and refuses others for either cause. */
static uint32_t answers_by_draw(const wt_question *question) {
    put("asked", question, sizeof *question);
    switch (draw(8)) {
    case 0: return WT_NO_DEVICE_MEMORY;
    case 1: return WT_NO_HOST_MEMORY;
    default: return WT_GRANTED;
    }
}

/* A block is live, or it is returned where there is no place for it. */
static void keep(const char *what, uint32_t status, const wt_block *block) {
    put_status(what, status);
    if (status != WT_OK) return;
    put("block", block, sizeof *block);
    if (live_len < MOST) live[live_len++] = *block;
    else put_status("free", wt_free(&allocator, block->key));
}

static void take(void) {
    static const uint32_t usages[] = { 0, WT_USAGE_FAST_DEVICE_ACCESS, WT_USAGE_HOST_ACCESS, WT_USAGE_UPLOAD,
                                       WT_USAGE_DOWNLOAD, WT_USAGE_TRANSIENT | WT_USAGE_UPLOAD };
    wt_request request = WT_REQUEST_INIT;
    wt_block block;
    questions asked;
    uint32_t status;
    memset(&block, 0, sizeof block);
    request.size = draw(8) == 0 ? draw(200000) : draw(6000);
    request.align_mask = ((uint64_t)1 << draw(12)) - 1;
    request.usage = usages[draw(LENGTH(usages))];
    request.memory_types = (uint32_t)draw(1u << TYPES);
    request.dedicated = (uint32_t)(draw(10) == 0 ? draw(4) : 0);
    request.flags = (uint32_t)(draw(4) == 0 ? draw(4) : 0);
    request.user = draw(1u << 30);
    status = allocate(&allocator, &request, answers_by_draw, &asked, &block);
    keep("alloc", status, &block);
}

/* Sizes near 2^64, so that the sums of bytes pass 64 bits. */
static void import(void) {
    wt_block block;
    uint32_t type = (uint32_t)draw(TYPES + 1);
    uint64_t offset = draw(3) * ATOM;
    uint64_t size = UINT64_MAX - draw(3) * ATOM;
    uint32_t status;
    memset(&block, 0, sizeof block);
    status = wt_import(&allocator, type, UINT64_MAX, offset, size, &block);
    keep("import", status, &block);
}

static void give_back(size_t i) {
    put_status("free", wt_free(&allocator, live[i].key));
    live[i] = live[--live_len];
}

static void use_bytes(size_t i) {
    wt_range range = { 0, 0, 0 };
    questions asked;
    uint64_t object = 0, offset = draw(live[i].size);
    uint64_t size = draw(2000);
    put_status("map", map(&allocator, live[i].key, offset, size, answers_by_draw, &asked, &range));
    put("range", &range, sizeof range);
    offset = draw(live[i].size);
    size = draw(2000);
    put_status("range_of", wt_range_of(&allocator, live[i].key, offset, size, &range));
    put("range", &range, sizeof range);
    if (draw(2)) put_status("unmap", wt_unmap(&allocator, live[i].key, &object));
    put("object", &object, sizeof object);
}

static size_t put_gone(void) {
    uint64_t names[8];
    size_t count = 0;
    put_status("gone", wt_gone(&allocator, names, LENGTH(names), &count));
    put("names", names, count * sizeof names[0]);
    return count;
}

static void release(void) {
    uint32_t heap = (uint32_t)draw(HEAPS + 1);
    uint64_t limit = draw(3) ? UINT64_MAX : draw(8 * MEBIBYTE);
    put_gone();
    if (draw(4) == 0) put_status("cleanup", wt_cleanup(&allocator));
    put_status("limit", wt_set_heap_limit(&allocator, heap, limit));
}

static void put_books(void) {
    static char text[1 << 20];
    wt_counts counts = counts_of(&allocator);
    wt_block blocks[FEW];
    uint32_t types[FEW];
    size_t count = 0;
    put("counts", &counts, sizeof counts);
    for (uint32_t heap = 0; heap < HEAPS; heap++) {
        wt_heap_counts of = heap_counts_of(&allocator, heap);
        put("heap", &of, sizeof of);
    }
    for (uint32_t type = 0; type < TYPES; type++) {
        wt_type_statistics statistics;
        put_status("statistics", wt_statistics(&allocator, type, &statistics));
        put("of", &statistics, sizeof statistics);
    }
    put_status("blocks", wt_blocks(&allocator, 0, blocks, FEW, &count));
    put("of", blocks, (count < FEW ? count : FEW) * sizeof blocks[0]);
    put_status("candidates", wt_candidates(&allocator, (uint32_t)draw(16), 15, types, FEW, &count));
    put("of", types, (count < FEW ? count : FEW) * sizeof types[0]);
    printf("free %llx\n", (unsigned long long)free_space(&allocator));
    put_status("report", wt_report(&allocator, text, sizeof text, &count));
    printf("%.*s\n", (int)count, text);
}

static void step(void) {
    uint64_t kind = draw(16);
    if (kind < 8) take();
    else if (kind < 11 && live_len) give_back(draw(live_len));
    else if (kind < 13 && live_len) use_bytes(draw(live_len));
    else if (kind == 13) import();
    else if (kind == 14) release();
    else put_books();
}

int main(int argc, char **argv) {
    wt_limits limits = device_limits(48, 1);
    expect(argc == 4, "trace SEED STEPS buddy|fit");
#ifdef _WIN32 /* which would end each line in two bytes */
    expect(_setmode(_fileno(stdout), _O_BINARY) != -1, "there is no output as it is");
#endif
    seed_draws(strtoul(argv[1], NULL, 10));
    limits.buffer_image_granularity = page;
    open_device(&allocator, &limits, sharing_named(argv[3]));
    for (uint32_t row = 0; wt_layout(row) != WT_LAYOUT_END; row++) printf("layout %u\n", (unsigned)wt_layout(row));
    for (unsigned long steps = strtoul(argv[2], NULL, 10); current_step < steps; current_step++) {
        printf("step %u\n", current_step);
        step();
    }
    while (live_len) give_back(live_len - 1);
    put_status("cleanup", wt_cleanup(&allocator));
    while (put_gone()) continue;
    put_status("close", wt_close(&allocator));
    return 0;
}
