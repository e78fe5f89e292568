/* An allocator without a device: every question is granted, and the ranges are what the program likes. */
#include "common.h"

enum { BLOCKS = 200 };

static const wt_memory_type only_type = { 0, WT_DEVICE_LOCAL };
static const uint64_t only_heap = 64 * MEBIBYTE;
static const wt_limits no_limits = { UINT64_MAX, 1, UINT32_MAX, 0, 0 };
static wt_config potato = WT_CONFIG_POTATO, prototyping = WT_CONFIG_PROTOTYPING;

static wt_allocator space;
static wt_block blocks[BLOCKS];

static int are_apart(const wt_block *one, const wt_block *other) {
    return one->object != other->object || one->offset + one->size <= other->offset
           || other->offset + other->size <= one->offset;
}

/* Takes a range, in one object or another, that no other has a part of. */
static void take(uint32_t place) {
    wt_request request = REQUEST(1 + draw(20000), 0, 0, 1, WT_SHARED);
    questions asked;
    request.align_mask = ((uint64_t)1 << draw(9)) - 1;
    if (place % 2) request.usage = WT_USAGE_FAST_DEVICE_ACCESS | WT_USAGE_TRANSIENT;
    expect(allocate(&space, &request, grants, &asked, &blocks[place]) == WT_OK, "a range is refused");
    expect(blocks[place].size >= request.size && blocks[place].offset % (request.align_mask + 1) == 0,
           "a range is otherwise than asked");
    for (uint32_t i = 0; i < place; i++) expect(are_apart(&blocks[i], &blocks[place]), "two ranges share a byte");
}

static void use(const wt_config *config) {
    wt_counts counts;
    uint64_t names[16];
    size_t count;
    expect(wt_open(&space, &only_type, 1, &only_heap, 1, &no_limits, config) == WT_OK, "it was not opened");
    for (uint32_t i = 0; i < BLOCKS; i++) take(i);
    for (uint32_t i = 0; i < BLOCKS; i++) expect(wt_free(&space, blocks[i].key) == WT_OK, "a range is not taken back");
    expect(wt_cleanup(&space) == WT_OK, "no cleanup");
    do expect(wt_gone(&space, names, LENGTH(names), &count) == WT_OK, "no names");
    while (count == LENGTH(names));
    expect(wt_count(&space, &counts) == WT_OK && counts.held == 0 && counts.unread == 0, "something is held");
    expect(wt_close(&space) == WT_OK, "it was not closed");
}

int main(void) {
    seed_draws(1);
    current_case = "potato";
    use(&potato);
    current_case = "prototyping";
    use(&prototyping);
    potato.sharing = prototyping.sharing = WT_FIT;
    current_case = "potato, with fit chunks";
    use(&potato);
    current_case = "prototyping, with fit chunks";
    use(&prototyping);
    printf("virtual: %d ranges of a space without a device, four times\n", BLOCKS);
    return 0;
}
