/* A block of memory that the host writes and reads, of a device whose memory objects come from malloc. */
#include "wallthyme.h"
#include <stdio.h>
#include <stdlib.h>
#include <string.h>

typedef struct { uint64_t name; char *bytes; } object;
static object objects[64]; /* those that the allocator holds; name 0 marks a free entry */
static char *made;         /* what was made for a request, until the request is at its end */

static object *find(uint64_t name) {
    for (size_t i = 0; i < 64; i++) if (objects[i].name == name) return &objects[i];
    abort();
}

static uint32_t answer(const wt_question *question) {
    if (question->kind != WT_ALLOCATE) return WT_GRANTED; /* what malloc gave is mapped from the first */
    free(made);                                           /* it is not needed: the request goes on to another type */
    made = malloc((size_t)question->size);
    return made ? WT_GRANTED : WT_NO_DEVICE_MEMORY;
}

static uint32_t allocate(wt_allocator *a, const wt_request *request, wt_block *block) {
    wt_question asked[WT_MAX_QUESTIONS + 1];
    uint32_t status;
    for (size_t n = 0; (status = wt_alloc(a, request, asked, n, block, &asked[n])) == WT_ASK; n++)
        asked[n].answer = answer(&asked[n]);
    if (status == WT_OK && block->fresh) *find(0) = (object){ block->object, made };
    else free(made);
    made = NULL;
    return status;
}

static void free_gone(wt_allocator *a) {
    uint64_t name;
    size_t count;
    while (wt_gone(a, &name, 1, &count) == WT_OK && count == 1) {
        free(find(name)->bytes);
        *find(name) = (object){ 0, NULL };
    }
}

int main(void) {
    const wt_memory_type type = { 0, WT_HOST_VISIBLE | WT_HOST_COHERENT };
    const uint64_t heap = 64 << 20;
    const wt_limits limits = { 32 << 20, 64, 64, 0, 1 };
    const wt_config config = { 1 << 20, 1 << 16, 1 << 20, 1 << 16, 1 << 20, 256, 1 << 16, WT_FIT };
    wt_request request = WT_REQUEST_INIT;
    wt_allocator a = { 0, NULL };
    wt_block block;
    request.size = 12;
    request.align_mask = 15;
    request.usage = WT_USAGE_UPLOAD | WT_USAGE_TRANSIENT;
    request.memory_types = 1;
    if (wt_open(&a, &type, 1, &heap, 1, &limits, &config) != WT_OK || allocate(&a, &request, &block) != WT_OK) return 1;
    memcpy(find(block.object)->bytes + block.offset, "hello block", 12);
    puts(find(block.object)->bytes + block.offset);
    if (wt_free(&a, block.key) != WT_OK || wt_cleanup(&a) != WT_OK) return 1;
    free_gone(&a);
    return wt_close(&a) != WT_OK;
}
