/* Grants and returns of one sort, for bench/calls: an object of their own, a block of a buddy chunk, a fit chunk or a
   free list. */
#include "../c/wallthyme.h"
#include <stdio.h>
#include <stdlib.h>
#include <string.h>

enum { MOST_NAMES = 16 };

static void must(int holds, const char *what)
{
    if (!holds) {
        fprintf(stderr, "calls: failed: %s\n", what);
        exit(1);
    }
}

static void grant(wt_allocator *a, const wt_request *request, wt_block *block)
{
    wt_question asked[WT_MAX_QUESTIONS + 1];
    uint32_t status;
    for (size_t n = 0; (status = wt_alloc(a, request, asked, n, block, &asked[n])) == WT_ASK; n++)
        asked[n].answer = WT_GRANTED;
    must(status == WT_OK, wt_text(status));
}

static void take_back(wt_allocator *a, const wt_block *block)
{
    uint64_t names[MOST_NAMES];
    size_t count;
    must(wt_free(a, block->key) == WT_OK, "wt_free");
    must(wt_gone(a, names, MOST_NAMES, &count) == WT_OK, "wt_gone");
}

/* A block that stays keeps its chunk held. */
int main(int count, char **words)
{
    const wt_memory_type type = {0, WT_DEVICE_LOCAL};
    const uint64_t heap = (uint64_t)16 << 30;
    const wt_limits limits = {.max_memory_allocation_size = heap, .non_coherent_atom_size = 64,
                              .max_memory_allocation_count = 4096};
    wt_config config = WT_CONFIG_PROTOTYPING;
    wt_request request = {0};
    wt_allocator a = {0, NULL};
    wt_block kept, block;
    must(count == 3, "usage: calls own|buddy|fit|transient PAIRS");
    config.sharing = strcmp(words[1], "fit") == 0 ? WT_FIT : WT_BUDDY;
    request.size = strcmp(words[1], "own") == 0 ? 64 << 20 : 4096;
    request.usage = strcmp(words[1], "transient") == 0 ? WT_USAGE_TRANSIENT : WT_USAGE_FAST_DEVICE_ACCESS;
    request.memory_types = 1;
    must(wt_open(&a, &type, 1, &heap, 1, &limits, &config) == WT_OK, "wt_open");
    grant(&a, &request, &kept);
    for (long left = atol(words[2]); left > 0; left--) {
        grant(&a, &request, &block);
        take_back(&a, &block);
    }
    take_back(&a, &kept);
    must(wt_cleanup(&a) == WT_OK, "wt_cleanup");
    return 0;
}
