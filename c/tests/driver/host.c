/* The host's side of resources. */
#include "resources.h"

#include "calls.h"
#include "random.h"
#include <string.h>

enum { POINTER_PERCENT = 70 /* of what is mapped for life, without another mapping */ };

static unsigned char byte_of(const content *bytes, uint64_t at)
{
    return (unsigned char)(random_mixed(bytes->seed + at / 8) >> (at % 8 * 8));
}

static void put_bytes(unsigned char *host, const content *bytes, uint64_t from, uint64_t size)
{
    for (uint64_t i = 0; i < size; i++)
        host[i] = byte_of(bytes, from + i);
}

static void compare_bytes(worker *w, const unsigned char *host, const content *bytes, uint64_t from, uint64_t size)
{
    for (uint64_t i = 0; i < size; i++)
        must(host[i] == byte_of(bytes, from + i), "a byte is another one than was written");
    w->tally.compared += size;
}

/* A row of a linear image, or all of a buffer: where it lies in the block, and in the content. */
typedef struct row {
    uint64_t offset, from, size;
} row;

static uint32_t rows_of(const resource *r)
{
    return r->kind == BUFFER ? 1 : r->content.height;
}

static row row_of(const resource *r, uint32_t index)
{
    uint64_t length = r->kind == BUFFER ? r->content.length : (uint64_t)r->content.width * TEXEL;
    return (row){r->first + index * r->pitch, index * length, length};
}

/* ---- By copies: wtv_write and wtv_read, which map the block for as long as they copy. ---- */

static void write_part(worker *w, const resource *r, const row *part)
{
    put_bytes(w->bytes, &r->content, part->from, part->size);
    do
        refusing_begins();
    while (is_refused(w, wtv_write(w->run->allocator, r->allocation, part->offset, w->bytes, part->size)));
}

static void compare_part(worker *w, const resource *r, const row *part)
{
    memset(w->bytes, 0, part->size);
    do
        refusing_begins();
    while (is_refused(w, wtv_read(w->run->allocator, r->allocation, part->offset, w->bytes, part->size)));
    compare_bytes(w, w->bytes, &r->content, part->from, part->size);
}

/* Each row goes in one part or two. */
static void pass_by_copies(worker *w, const resource *r, void (*pass)(worker *, const resource *, const row *))
{
    for (uint32_t i = 0; i < rows_of(r); i++) {
        row rest = row_of(r, i);
        if (rest.size > 1 && random_below(&w->random, 4) == 0) {
            const row first = {rest.offset, rest.from, 1 + random_below(&w->random, (uint32_t)rest.size - 1)};
            pass(w, r, &first);
            rest = (row){rest.offset + first.size, rest.from + first.size, rest.size - first.size};
        }
        pass(w, r, &rest);
    }
}

/* ---- By pointers: several blocks are mapped, and flushed or invalidated together. ---- */

/* A mapping begins where the block's own value says, also where it nests. */
unsigned char *resource_map(worker *w, const resource *r)
{
    wtv_allocator *a = w->run->allocator;
    wtv_block block;
    void *host, *again;
    do
        refusing_begins();
    while (is_refused(w, wtv_map(a, r->allocation, &host)));
    must(wtv_block_of(a, r->allocation, &block) == VK_SUCCESS && block.mapped == host,
         "a block is mapped elsewhere than it says");
    must(r->block.mapped == NULL || r->block.mapped == host, "a block that stays mapped is mapped elsewhere now");
    if (random_in_hundred(&w->random, 25)) {
        refusing_begins();
        must(!is_refused(w, wtv_map(a, r->allocation, &again)) && again == host, "a nested mapping is another one");
        must(wtv_unmap(a, r->allocation) == VK_SUCCESS, "wtv_unmap");
    }
    return host;
}

/* The bytes of a resource while the host works at them: where its block is mapped for life, or by a mapping. */
typedef struct view {
    unsigned char *bytes;
    bool is_mapped; /* by a mapping */
} view;

static view view_begin(worker *w, const resource *r)
{
    const bool is_for_life = (r->request.flags & WTV_MAPPED) != 0 && r->block.mapped != NULL;
    if (is_for_life && random_in_hundred(&w->random, POINTER_PERCENT)) {
        w->tally.by_pointer++;
        return (view){r->block.mapped, false};
    }
    return (view){resource_map(w, r), true};
}

/* What is mapped for life, or shared, stays so. */
static void view_end(worker *w, const resource *r, const view *ended)
{
    wtv_allocator *a = w->run->allocator;
    wtv_block block;
    must(!ended->is_mapped || wtv_unmap(a, r->allocation) == VK_SUCCESS, "wtv_unmap");
    must(wtv_unmap(a, r->allocation) == VK_ERROR_VALIDATION_FAILED_EXT, "a block is unmapped twice");
    must(wtv_block_of(a, r->allocation, &block) == VK_SUCCESS && block.mapped == r->block.mapped,
         "a block is mapped otherwise than before its mapping");
}

/* The ranges of all rows, and their number. */
static size_t ranges_of(worker *w, resource *const *several, uint32_t count)
{
    size_t written = 0;
    for (uint32_t i = 0; i < count; i++)
        for (uint32_t j = 0; j < rows_of(several[i]); j++) {
            row part = row_of(several[i], j);
            must(written < MOST_RANGES, "there are too many ranges");
            w->ranges[written++] = (wtv_range){several[i]->allocation, part.offset, part.size};
        }
    return written;
}

static void write_by_pointers(worker *w, resource *const *several, uint32_t count)
{
    wtv_allocator *a = w->run->allocator;
    view views[MOST_TOGETHER];
    size_t ranges = ranges_of(w, several, count);
    for (uint32_t i = 0; i < count; i++) {
        views[i] = view_begin(w, several[i]);
        for (uint32_t j = 0; j < rows_of(several[i]); j++) {
            row part = row_of(several[i], j);
            put_bytes(views[i].bytes + part.offset, &several[i]->content, part.from, part.size);
        }
    }
    do
        refusing_begins();
    while (is_refused(w, wtv_flush(a, w->ranges, ranges)));
    for (uint32_t i = 0; i < count; i++)
        view_end(w, several[i], &views[i]);
}

static void compare_by_pointers(worker *w, resource *const *several, uint32_t count)
{
    wtv_allocator *a = w->run->allocator;
    view views[MOST_TOGETHER];
    size_t ranges = ranges_of(w, several, count);
    for (uint32_t i = 0; i < count; i++)
        views[i] = view_begin(w, several[i]);
    do
        refusing_begins();
    while (is_refused(w, wtv_invalidate(a, w->ranges, ranges)));
    for (uint32_t i = 0; i < count; i++) {
        for (uint32_t j = 0; j < rows_of(several[i]); j++) {
            row part = row_of(several[i], j);
            compare_bytes(w, views[i].bytes + part.offset, &several[i]->content, part.from, part.size);
        }
        view_end(w, several[i], &views[i]);
    }
}

void resources_write(worker *w, resource *const *several, uint32_t count)
{
    if (random_in_hundred(&w->random, 50)) {
        write_by_pointers(w, several, count);
        return;
    }
    for (uint32_t i = 0; i < count; i++)
        pass_by_copies(w, several[i], write_part);
}

void resources_compare(worker *w, resource *const *several, uint32_t count)
{
    if (random_in_hundred(&w->random, 50)) {
        compare_by_pointers(w, several, count);
        return;
    }
    for (uint32_t i = 0; i < count; i++)
        pass_by_copies(w, several[i], compare_part);
}

/* Compares what a refused write left. */
static void compare_mixed(worker *w, const resource *r, const content *other)
{
    do
        refusing_begins();
    while (is_refused(w, wtv_read(w->run->allocator, r->allocation, 0, w->bytes, r->content.length)));
    for (uint32_t i = 0; i < r->content.length; i++)
        must(w->bytes[i] == byte_of(&r->content, i) || w->bytes[i] == byte_of(other, i),
             "a refused write left a byte that is neither the old nor the new one");
    w->tally.mixed++;
}

void resource_rewrite_once(worker *w, resource *r)
{
    content other = r->content;
    const row all = row_of(r, 0);
    other.seed = random_mixed(r->content.seed);
    put_bytes(w->bytes, &other, 0, other.length);
    refusing_begins();
    if (!is_refused(w, wtv_write(w->run->allocator, r->allocation, 0, w->bytes, other.length))) {
        r->content = other;
        return;
    }
    compare_mixed(w, r, &other);
    write_part(w, r, &all);
}
