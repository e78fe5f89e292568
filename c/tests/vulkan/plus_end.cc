// An allocator of wallthyme.hpp that ends while blocks are live, over a stub of a driver. What has to be printed on
// standard error in a debug build is printed on standard output.
#include "wallthyme.hpp"

#include <stdbool.h>
#include <stdio.h>
#include <stdlib.h>

extern "C" {
#include "stub.h"
}

enum { BLOCKS = 20 }; // more than are read at once

int main() {
    const stub_plan plan = stub_usual_plan();
    stub *driver = stub_open(&plan);
    wtv_block blocks[BLOCKS];
    wtv_allocation allocation = 0;
    wtv_allocator *left = nullptr;
    {
        const wallthyme::Allocator memory = wallthyme::Allocator::create(stub_info(driver));
        left = memory.get();
        printf("wallthyme: %d blocks are live at the end of their allocator\n", BLOCKS);
        for (unsigned i = 0; i < BLOCKS; i++) {
            const VkMemoryRequirements needs = {100 * (i + 1), 16, STUB_ALL_TYPES};
            const wtv_request request = wallthyme::request(WT_USAGE_FAST_DEVICE_ACCESS, UINT64_MAX - i);
            must(wtv_allocate(left, &needs, &request, &allocation, &blocks[i]) == VK_SUCCESS, "no block");
            if (i % 3 == 0)
                must(wtv_set_name(left, allocation, "\"mesh\" %s") == VK_SUCCESS, "a block is not named");
            printf("wallthyme: live block: size %llu, key %llu, user %llu%s\n",
                   static_cast<unsigned long long>(blocks[i].size), static_cast<unsigned long long>(allocation),
                   static_cast<unsigned long long>(blocks[i].user), i % 3 == 0 ? ", name \"mesh\" %s" : "");
        }
        fflush(stdout);
    }
    for (const wtv_block &block : blocks)
        must(wtv_free(left, block.allocation) == VK_SUCCESS, "a block did not stay");
    must(wtv_destroy(left, nullptr, 0, nullptr) == VK_SUCCESS, "an allocator did not stay");
    must(stub_close(driver) == 0, "the driver found failures");
    return 0;
}
