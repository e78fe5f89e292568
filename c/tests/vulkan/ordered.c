/* Writes to the allocator at each call of the library. The thread sanitizer does not see into the library; so it sees
 * two calls that nothing orders. The linker puts these in place of the library's by --wrap. */
#include "wallthyme.h"

static void touch(wt_allocator *a)
{
    volatile uint32_t *full = &a->full;
    *full = *full;
}

#define CALL(name, parameters, arguments) \
    uint32_t __real_##name parameters; \
    uint32_t __wrap_##name parameters; \
    uint32_t __wrap_##name parameters \
    { \
        touch(a); \
        return __real_##name arguments; \
    }

CALL(wt_close, (wt_allocator *a), (a))
CALL(wt_alloc,
     (wt_allocator *a, const wt_request *request, const wt_question *asked, size_t asked_len, wt_block *block,
      wt_question *question),
     (a, request, asked, asked_len, block, question))
CALL(wt_import,
     (wt_allocator *a, uint32_t memory_type, uint64_t object_size, uint64_t offset, uint64_t size, wt_block *block),
     (a, memory_type, object_size, offset, size, block))
CALL(wt_block_of, (wt_allocator *a, uint64_t key, wt_block *block), (a, key, block))
CALL(wt_set_user, (wt_allocator *a, uint64_t key, uint64_t user), (a, key, user))
CALL(wt_blocks, (wt_allocator *a, uint64_t after, wt_block *blocks, size_t room, size_t *count),
     (a, after, blocks, room, count))
CALL(wt_candidates,
     (wt_allocator *a, uint32_t usage, uint32_t memory_types, uint32_t *types, size_t room, size_t *count),
     (a, usage, memory_types, types, room, count))
CALL(wt_map,
     (wt_allocator *a, uint64_t key, uint64_t offset, uint64_t size, const wt_question *asked, size_t asked_len,
      wt_range *mapped, wt_question *question),
     (a, key, offset, size, asked, asked_len, mapped, question))
CALL(wt_unmap, (wt_allocator *a, uint64_t key, uint64_t *object), (a, key, object))
CALL(wt_range_of, (wt_allocator *a, uint64_t key, uint64_t offset, uint64_t size, wt_range *range),
     (a, key, offset, size, range))
CALL(wt_free, (wt_allocator *a, uint64_t key), (a, key))
CALL(wt_cleanup, (wt_allocator *a), (a))
CALL(wt_gone, (wt_allocator *a, uint64_t *gone, size_t room, size_t *count), (a, gone, room, count))
CALL(wt_count, (wt_allocator *a, wt_counts *counts), (a, counts))
CALL(wt_heap, (wt_allocator *a, uint32_t heap, wt_heap_counts *counts), (a, heap, counts))
CALL(wt_set_heap_limit, (wt_allocator *a, uint32_t heap, uint64_t limit), (a, heap, limit))
CALL(wt_statistics, (wt_allocator *a, uint32_t memory_type, wt_type_statistics *statistics),
     (a, memory_type, statistics))
CALL(wt_report, (wt_allocator *a, char *text, size_t room, size_t *length), (a, text, room, length))
