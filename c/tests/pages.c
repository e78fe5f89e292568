/* Optimal blocks beside linear ones at some granularities: no page has bytes of both, and who asks for none of it is
 * served as ever. What looks for such pages finds planted ones, and those of requests that do not say what they are. */
#include "common.h"

enum { BLOCKS = 400, STEPS = 3000 };

static const wt_memory_type types[] = { { 0, WT_DEVICE_LOCAL },
                                        { 0, WT_DEVICE_LOCAL | WT_HOST_VISIBLE | WT_HOST_COHERENT } };
static const uint64_t heap = 4096 * MEBIBYTE;
static wt_config config = WT_CONFIG_PROTOTYPING;
static const uint64_t granularities[] = { 1, 1024, 4096, 65536, 1048576 };

/* How a run says of its requests what they are: as they are, that none is optimal, or that each is. */
enum { TOLD, UNTOLD, ALL_OPTIMAL };

/* A run: its live blocks, of key 0 where there is none, and a number of all that was granted. */
typedef struct {
    wt_allocator allocator;
    wt_block blocks[BLOCKS];
    uint64_t granularity, grants;
    int told;
} run;

static void open_run(run *r, uint64_t granularity, int told) {
    wt_limits limits = device_limits(4000, 0);
    limits.max_memory_allocation_size = heap;
    limits.buffer_image_granularity = granularity;
    r->allocator = (wt_allocator){ 0, NULL };
    r->granularity = granularity;
    r->grants = 0;
    r->told = told;
    for (size_t i = 0; i < BLOCKS; i++) r->blocks[i].key = 0;
    expect(wt_open(&r->allocator, types, LENGTH(types), &heap, 1, &limits, &config) == WT_OK, "it was not opened");
}

static void take(run *r, wt_block *block) {
    wt_request request = WT_REQUEST_INIT;
    questions talk;
    uint32_t flags = draw(2) ? WT_OPTIMAL : 0;
    request.size = 1 + (draw(8) ? draw(20000) : draw(300000));
    request.align_mask = ((uint64_t)1 << draw(12)) - 1;
    request.usage = draw(2) ? WT_USAGE_TRANSIENT | WT_USAGE_FAST_DEVICE_ACCESS : 0;
    request.memory_types = 1 + (uint32_t)draw(3);
    request.dedicated = draw(20) ? WT_SHARED : WT_REQUIRED;
    request.flags = r->told == ALL_OPTIMAL ? WT_OPTIMAL : r->told == UNTOLD ? 0 : flags;
    expect(allocate(&r->allocator, &request, grants, &talk, block) == WT_OK, "a request is refused that is granted");
    expect(block->flags == request.flags && block->asked == request.size && block->size >= request.size,
           "it is told otherwise than asked");
    if (talk.len && talk.asked[0].flags & WT_ALLOCATE_OWN)
        expect(talk.asked[0].size == request.size && block->size == request.size, "an object of its own is rounded");
    r->grants = ((r->grants * 31 + block->object) * 31 + block->offset) * 31 + block->size;
    block->flags = flags; /* what it is for */
}

static size_t shared_pages(const run *r) {
    size_t sum = 0;
    for (size_t i = 0; i < BLOCKS; i++)
        for (size_t j = 0; j < i; j++)
            sum += r->blocks[i].key && r->blocks[j].key && share_a_page(&r->blocks[i], &r->blocks[j], r->granularity);
    return sum;
}

static void free_all(run *r) {
    uint64_t names[16];
    size_t count;
    for (size_t i = 0; i < BLOCKS; i++)
        if (r->blocks[i].key) expect(wt_free(&r->allocator, r->blocks[i].key) == WT_OK, "a block is not taken back");
    expect(wt_cleanup(&r->allocator) == WT_OK, "no cleanup");
    do expect(wt_gone(&r->allocator, names, LENGTH(names), &count) == WT_OK, "no names");
    while (count == LENGTH(names));
    expect(wt_close(&r->allocator) == WT_OK, "it was not closed");
}

/* The same drawn requests and returns for each run of a seed. */
static void draw_run(run *r, uint64_t seed) {
    seed_draws(seed);
    for (current_step = 1; current_step <= STEPS; current_step++) {
        wt_block *place = &r->blocks[draw(BLOCKS)];
        if (place->key) expect(wt_free(&r->allocator, place->key) == WT_OK, "a block is not taken back");
        place->key = 0;
        if (draw(3)) take(r, place);
    }
    current_step = 0;
}

/* The half of an optimal block's last page, as if a linear block were there; and an optimal block as if it were asked
 * for half a page more than its pages, which a linear one has. */
static void find_planted(run *r) {
    uint64_t page = r->granularity, last, asked;
    size_t optimal = 0, empty = 0, before;
    while (optimal < BLOCKS && !(r->blocks[optimal].key && r->blocks[optimal].flags == WT_OPTIMAL)) optimal++;
    while (empty < BLOCKS && r->blocks[empty].key) empty++;
    expect(optimal < BLOCKS && empty < BLOCKS, "there is no optimal block, or no room");
    before = shared_pages(r);
    last = (r->blocks[optimal].offset + r->blocks[optimal].asked - 1) / page * page;
    r->blocks[empty] = r->blocks[optimal];
    r->blocks[empty].flags = 0;
    r->blocks[empty].offset = last + page / 2;
    r->blocks[empty].size = page / 2;
    expect(shared_pages(r) > before, "a planted linear half of a page is not found");
    r->blocks[empty].offset = last + page;
    r->blocks[empty].size = page;
    before = shared_pages(r);
    asked = r->blocks[optimal].asked;
    r->blocks[optimal].asked = last + page + page / 2 - r->blocks[optimal].offset;
    expect(shared_pages(r) > before, "a planted optimal half of a page is not found");
    r->blocks[optimal].asked = asked;
    r->blocks[empty].key = 0;
}

/* A run that says what its requests are, and one that does not, which has shared pages. */
static size_t check_granularity(uint64_t granularity, uint64_t seed) {
    static run told, untold;
    size_t found;
    open_run(&told, granularity, TOLD);
    draw_run(&told, seed);
    expect(shared_pages(&told) == 0, "an optimal block and a linear one share a page");
    if (granularity > 1) find_planted(&told);
    expect(shared_pages(&told) == 0, "a planted page was left");
    free_all(&told);
    open_run(&untold, granularity, UNTOLD);
    draw_run(&untold, seed);
    found = shared_pages(&untold);
    free_all(&untold);
    return found;
}

/* Runs that ask for none of it: the same grants at any granularity, and of any kind at one of 1. */
static void check_as_ever(uint64_t seed) {
    static run ever, other;
    current_case = "as ever";
    open_run(&ever, 0, UNTOLD);
    draw_run(&ever, seed);
    for (size_t i = 0; i < LENGTH(granularities); i++) {
        open_run(&other, granularities[i], UNTOLD);
        draw_run(&other, seed);
        expect(other.grants == ever.grants, "a granularity changes linear grants");
        free_all(&other);
    }
    for (uint64_t granularity = 0; granularity <= 1; granularity++) {
        open_run(&other, granularity, ALL_OPTIMAL);
        draw_run(&other, seed);
        expect(other.grants == ever.grants, "optimal grants are others where the granularity is 1");
        free_all(&other);
    }
    free_all(&ever);
    current_case = "";
}

static size_t check_seeds(void) {
    size_t found = 0;
    for (uint64_t seed = 1; seed <= 3; seed++) {
        for (size_t i = 0; i < LENGTH(granularities); i++) {
            size_t here = check_granularity(granularities[i], seed);
            expect(granularities[i] < 65536 || here > 0, "requests that do not say what they are share no page");
            found += here;
        }
        check_as_ever(seed);
    }
    return found;
}

int main(void) {
    size_t buddy = check_seeds(), fit;
    config.sharing = WT_FIT;
    fit = check_seeds();
    printf("pages: none shared at %u granularities; %lu where nothing is said, and %lu with fit chunks\n",
           (unsigned)LENGTH(granularities), (unsigned long)buddy, (unsigned long)fit);
    return 0;
}
