// The header in C++11: a block is taken, told, given back, and the allocator closed.
#include "wallthyme.h"

#include <cstdio>
#include <vector>

static int wrong(const char *what) {
    std::fprintf(stderr, "FAILED: %s\n", what);
    return 1;
}

int main() {
    wt_allocator allocator = {};
    const wt_memory_type type = { 0, WT_DEVICE_LOCAL };
    const uint64_t heap = 1u << 28;
    const wt_limits limits = { 1u << 27, 64, 512, 0, 1024 };
    const wt_config config = { 1 << 15, 1 << 10, 1 << 17, 1 << 13, 1 << 17, 1, 1 << 13, WT_FIT };
    wt_request request = WT_REQUEST_INIT;
    std::vector<wt_question> asked;
    wt_question question;
    wt_block block, told;
    uint64_t names[2];
    size_t count = 0;
    uint32_t status;
    request.size = 100;
    request.memory_types = 1;
    request.flags = WT_OPTIMAL;
    if (wt_open(&allocator, &type, 1, &heap, 1, &limits, &config) != WT_OK) return wrong("it was not opened");
    while ((status = wt_alloc(&allocator, &request, asked.data(), asked.size(), &block, &question)) == WT_ASK) {
        question.answer = WT_GRANTED;
        asked.push_back(question);
    }
    if (status != WT_OK || asked.size() != 1 || block.fresh != 1) return wrong("no block of a new object was granted");
    if (wt_block_of(&allocator, block.key, &told) != WT_OK || told.size != block.size)
        return wrong("the block is not told");
    if (told.flags != WT_OPTIMAL || told.asked != 100) return wrong("what was asked is not told");
    if (wt_set_user(&allocator, block.key, 7) != WT_OK) return wrong("no value is set");
    if (wt_blocks(&allocator, 0, &told, 1, &count) != WT_OK || count != 1 || told.user != 7)
        return wrong("no block is walked");
    if (wt_set_heap_limit(&allocator, 0, 1) != WT_OK) return wrong("no limit is set");
    if (wt_free(&allocator, block.key) != WT_OK || wt_free(&allocator, block.key) != WT_UNKNOWN_KEY)
        return wrong("not freed once");
    if (wt_cleanup(&allocator) != WT_OK) return wrong("it is not cleaned up");
    if (wt_gone(&allocator, names, 2, &count) != WT_OK || count != 1 || names[0] != block.object)
        return wrong("the object is not told");
    if (wt_close(&allocator) != WT_OK) return wrong("it is not closed");
    std::printf("plus: a block came and went\n");
    return 0;
}
