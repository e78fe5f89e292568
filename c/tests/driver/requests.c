#include "requests.h"

#include "random.h"

/* What is drawn of a request, in percent. */
enum {
    INTENT_PERCENT = 50,
    REQUIRED_PERCENT = 6,
    PREFERRED_PERCENT = 6,
    FEW_TYPES_PERCENT = 4,
    CHAINED_PERCENT = 10,
    MAPPED_PERCENT = 25,
    MAPPED_ALONE_PERCENT = 25, /* of what is mapped: with an object of its own */
    LATER_PERCENT = 15,
    ALIGNED_PERCENT = 15,
    HAS_PROPERTY_PERCENT = 6, /* required */
    HAS_WISH_PERCENT = 15,    /* preferred properties */
};
enum { MOST_SHIFT = 13 /* alignments are up to 4,096 */ };

#define LOCAL VK_MEMORY_PROPERTY_DEVICE_LOCAL_BIT
#define SEEN VK_MEMORY_PROPERTY_HOST_VISIBLE_BIT
#define COHERENT VK_MEMORY_PROPERTY_HOST_COHERENT_BIT
#define CACHED VK_MEMORY_PROPERTY_HOST_CACHED_BIT
#define NEVER_CHOSEN (VK_MEMORY_PROPERTY_LAZILY_ALLOCATED_BIT | VK_MEMORY_PROPERTY_PROTECTED_BIT)
#define UNKNOWN_FROM VK_MEMORY_PROPERTY_DEVICE_COHERENT_BIT_AMD /* the library knows no property from this one on */

/* In the order of a tally. */
static const uint32_t INTENT[INTENTS] = {WTV_USAGE_AUTO, WTV_USAGE_AUTO_PREFER_DEVICE, WTV_USAGE_AUTO_PREFER_HOST};
enum { ALL_INTENTS = WTV_USAGE_AUTO | WTV_USAGE_AUTO_PREFER_DEVICE | WTV_USAGE_AUTO_PREFER_HOST };
static const uint32_t ACCESS[ACCESSES] = {
    0,
    WTV_HOST_ACCESS_SEQUENTIAL_WRITE,
    WTV_HOST_ACCESS_SEQUENTIAL_WRITE | WTV_HOST_ACCESS_ALLOW_TRANSFER_INSTEAD,
    WTV_HOST_ACCESS_RANDOM,
    WTV_HOST_ACCESS_RANDOM | WTV_HOST_ACCESS_ALLOW_TRANSFER_INSTEAD,
};

/* ---- Drawn. ---- */

static uint32_t drawn_usage(worker *w, const resource *r)
{
    static const uint32_t seen[] = {WT_USAGE_HOST_ACCESS, WT_USAGE_UPLOAD, WT_USAGE_DOWNLOAD,
                                    WT_USAGE_HOST_ACCESS | WT_USAGE_FAST_DEVICE_ACCESS};
    return r->reach == BY_COPIES ? random_below(&w->random, 2) : seen[random_below(&w->random, 4)];
}

static uint32_t drawn_access(worker *w, const resource *r)
{
    const uint32_t access = 2 * random_below(&w->random, 2);
    return r->reach == BY_COPIES ? ACCESS[0] : ACCESS[access + (r->reach == ITSELF ? 1 : 2)];
}

static uint32_t drawn_dedicated(worker *w, bool is_mapped)
{
    if (random_in_hundred(&w->random, is_mapped ? MAPPED_ALONE_PERCENT : REQUIRED_PERCENT))
        return WT_REQUIRED;
    return random_in_hundred(&w->random, PREFERRED_PERCENT) ? WT_PREFERRED : WT_SHARED;
}

/* One or two properties, or mostly none. */
static VkMemoryPropertyFlags drawn_properties(worker *w, uint32_t percent)
{
    static const VkMemoryPropertyFlags drawn[] = {LOCAL, SEEN, COHERENT, CACHED, LOCAL | SEEN, SEEN | CACHED};
    return random_in_hundred(&w->random, percent) ? drawn[random_below(&w->random, 6)] : 0;
}

static uint32_t drawn_flags(worker *w)
{
    const uint32_t mapped = random_in_hundred(&w->random, MAPPED_PERCENT) ? WTV_MAPPED : 0;
    return random_in_hundred(&w->random, LATER_PERCENT) ? mapped | WTV_DONT_BIND : mapped;
}

/* What the program chains to a request: an export to nothing. */
static const VkExportMemoryAllocateInfo CHAINED = {.sType = VK_STRUCTURE_TYPE_EXPORT_MEMORY_ALLOCATE_INFO};

/* What only a request has. An import has none of it. */
static void draw_more(worker *w, wtv_request *request)
{
    request->flags = drawn_flags(w);
    request->dedicated = drawn_dedicated(w, (request->flags & WTV_MAPPED) != 0);
    request->next = random_in_hundred(&w->random, CHAINED_PERCENT) ? &CHAINED : NULL;
    request->required = drawn_properties(w, HAS_PROPERTY_PERCENT);
    request->preferred = drawn_properties(w, HAS_WISH_PERCENT);
    if (random_in_hundred(&w->random, ALIGNED_PERCENT))
        request->min_alignment = (VkDeviceSize)1 << random_below(&w->random, MOST_SHIFT);
}

/* Of a resource that the program created, the allocator knows the requirements alone. */
static void add_what_is_known(const resource *r, wtv_request *request)
{
    if (r->kind == OPTIMAL_IMAGE)
        request->flags |= WT_OPTIMAL;
    if (r->has_address)
        request->usage = (request->usage != 0 ? request->usage : WT_USAGE_FAST_DEVICE_ACCESS) | WT_USAGE_DEVICE_ADDRESS;
}

/* The value of the program's says which thread has the block. */
void request_draw(worker *w, resource *r)
{
    const bool has_intent = r->way == CREATED && (r->reach == EITHER || random_in_hundred(&w->random, INTENT_PERCENT));
    wtv_request drawn = {
        .usage = has_intent ? INTENT[random_below(&w->random, INTENTS)] : drawn_usage(w, r),
        .memory_types = random_in_hundred(&w->random, FEW_TYPES_PERCENT) ? random_below(&w->random, 64) : 0,
        .user = (uint64_t)w->number << 32 | w->opened,
    };
    if (random_in_hundred(&w->random, 50))
        drawn.usage |= WT_USAGE_TRANSIENT;
    if (r->way != IMPORTED)
        draw_more(w, &drawn);
    if (has_intent)
        drawn.flags |= drawn_access(w, r);
    if (r->way != CREATED)
        add_what_is_known(r, &drawn);
    r->request = drawn;
}

VkResult request_draw_forbidden(worker *w, resource *r)
{
    static const struct forbidden {
        wtv_request request;
        VkResult error;
    } drawn[] = {
        {{.usage = WTV_USAGE_AUTO_PREFER_DEVICE | WTV_USAGE_AUTO_PREFER_HOST}, VK_ERROR_VALIDATION_FAILED_EXT},
        {{.usage = WTV_USAGE_AUTO | WT_USAGE_UPLOAD}, VK_ERROR_VALIDATION_FAILED_EXT},
        {{.usage = WT_USAGE_UPLOAD, .flags = WTV_HOST_ACCESS_SEQUENTIAL_WRITE}, VK_ERROR_VALIDATION_FAILED_EXT},
        {{.usage = WTV_USAGE_AUTO, .flags = WTV_HOST_ACCESS_SEQUENTIAL_WRITE | WTV_HOST_ACCESS_RANDOM},
         VK_ERROR_VALIDATION_FAILED_EXT},
        {{.usage = WTV_USAGE_AUTO, .flags = WTV_HOST_ACCESS_ALLOW_TRANSFER_INSTEAD}, VK_ERROR_VALIDATION_FAILED_EXT},
        {{.usage = WTV_USAGE_AUTO, .min_alignment = 96}, VK_ERROR_VALIDATION_FAILED_EXT},
        {{.min_alignment = 3}, VK_ERROR_VALIDATION_FAILED_EXT},
        {{.required = VK_MEMORY_PROPERTY_LAZILY_ALLOCATED_BIT}, VK_ERROR_FEATURE_NOT_PRESENT},
        {{.usage = WTV_USAGE_AUTO, .preferred = VK_MEMORY_PROPERTY_PROTECTED_BIT}, VK_ERROR_FEATURE_NOT_PRESENT},
    };
    const struct forbidden *one = &drawn[random_below(&w->random, sizeof drawn / sizeof *drawn)];
    request_draw(w, r);
    if (r->way == CREATED) {
        r->request = one->request;
        return one->error;
    }
    r->request.usage = INTENT[random_below(&w->random, INTENTS)];
    return VK_ERROR_VALIDATION_FAILED_EXT;
}

/* ---- Memory types. ---- */

/* What is asked of the properties of memory types. */
typedef struct wants {
    VkMemoryPropertyFlags required, preferred, unwanted;
} wants;

/* The table at WTV_USAGE_AUTO. */
static wants wants_of_intent(const worker *w, const resource *r)
{
    const uint32_t usage = r->request.usage, flags = r->request.flags;
    const bool is_for_host = (usage & WTV_USAGE_AUTO_PREFER_HOST) != 0, is_used = r->is_used || r->has_address;
    const bool is_for_device = (usage & WTV_USAGE_AUTO_PREFER_DEVICE) != 0;
    const bool is_sequential = (flags & WTV_HOST_ACCESS_SEQUENTIAL_WRITE) != 0;
    const bool may_copy = (flags & WTV_HOST_ACCESS_ALLOW_TRANSFER_INSTEAD) != 0 && !is_for_host && is_used
                          && !w->run->is_integrated;
    const bool is_local = is_sequential && !is_used ? is_for_device : !is_for_host;
    const VkMemoryPropertyFlags local = is_local ? LOCAL : 0, remote = is_local ? 0 : LOCAL;
    if (is_sequential)
        return may_copy ? (wants){0, LOCAL | SEEN, CACHED} : (wants){SEEN, local, CACHED | remote};
    if (flags & WTV_HOST_ACCESS_RANDOM)
        return may_copy ? (wants){0, CACHED | LOCAL, 0} : (wants){SEEN, CACHED, 0};
    return (wants){0, local, remote};
}

static wants wants_of(const worker *w, const resource *r)
{
    const bool has_intent = (r->request.usage & ALL_INTENTS) != 0;
    wants all = has_intent ? wants_of_intent(w, r) : (wants){0, 0, 0};
    all.required |= r->request.required;
    all.preferred |= r->request.preferred;
    return all;
}

static uint32_t count_bits(uint32_t bits)
{
    uint32_t count = 0;
    for (uint32_t bit = 0; bit < 32; bit++)
        count += bits >> bit & 1;
    return count;
}

/* Where each memory type stands in the order of a request. */
typedef struct order {
    uint32_t ranks[VK_MAX_MEMORY_TYPES];
} order;
enum { NOT_ASKED = 1 << 30 };

/* The place of each memory type among those of equal cost: its index, or the library's own order of that usage. */
static order places_of(const worker *w, const resource *r)
{
    const VkPhysicalDeviceMemoryProperties memory = driver_memory();
    uint32_t types[VK_MAX_MEMORY_TYPES], count;
    order places;
    for (uint32_t i = 0; i < VK_MAX_MEMORY_TYPES; i++)
        places.ranks[i] = NOT_ASKED;
    if (r->request.usage & ALL_INTENTS) {
        for (uint32_t i = 0; i < memory.memoryTypeCount; i++)
            places.ranks[i] = i;
        return places;
    }
    wtv_request known = r->request;
    add_what_is_known(r, &known);
    must(wtv_candidates(w->run->allocator, known.usage, UINT32_MAX, types, &count) == VK_SUCCESS, "wtv_candidates");
    for (uint32_t i = 0; i < count; i++)
        places.ranks[types[i]] = i;
    return places;
}

static order order_of(const worker *w, const resource *r)
{
    const VkPhysicalDeviceMemoryProperties memory = driver_memory();
    const uint32_t permitted = r->request.memory_types != 0 ? r->request.memory_types : UINT32_MAX;
    const wants wanted = wants_of(w, r);
    order all = places_of(w, r);
    for (uint32_t i = 0; i < memory.memoryTypeCount; i++) {
        const VkMemoryPropertyFlags has = memory.memoryTypes[i].propertyFlags;
        const bool serves = all.ranks[i] != NOT_ASKED && (permitted >> i & 1) != 0 && has < UNKNOWN_FROM
                            && (has & NEVER_CHOSEN) == 0 && (wanted.required & ~has) == 0;
        const uint32_t cost = count_bits(wanted.preferred & ~has) + count_bits(wanted.unwanted & has);
        all.ranks[i] = serves ? cost * VK_MAX_MEMORY_TYPES + all.ranks[i] : NOT_ASKED;
    }
    return all;
}

bool request_is_ordered(const wtv_request *request)
{
    return (request->usage & ALL_INTENTS) != 0 || request->preferred != 0;
}

/* The rank of the last memory type that was asked for an object. */
static uint32_t last_asked(const order *all)
{
    const met *met = refusing_met();
    uint32_t last = 0;
    for (uint32_t i = 0; i < met->objects; i++) {
        const uint32_t rank = all->ranks[met->types[i]];
        must(rank != NOT_ASKED, "a memory type is asked that does not serve");
        must(rank >= last, "memory types are asked out of their order");
        last = rank;
    }
    return last;
}

void request_check_order(worker *w, const resource *r)
{
    if (!request_is_ordered(&r->request))
        return;
    const order all = order_of(w, r);
    last_asked(&all);
    w->tally.ordered++;
}

static bool is_asked(uint32_t memory_type)
{
    const met *met = refusing_met();
    for (uint32_t i = 0; i < met->objects; i++)
        if (met->types[i] == memory_type)
            return true;
    return false;
}

/* Whether an object of its own could not be asked for: of what is left now, since before it was not less. */
static bool is_out_of_reach(const worker *w, uint32_t memory_type, VkDeviceSize size)
{
    wt_heap_counts heap;
    wt_counts counts;
    const uint32_t index = driver_memory().memoryTypes[memory_type].heapIndex;
    must(wtv_heap(w->run->allocator, index, &heap) == VK_SUCCESS, "wtv_heap");
    must(wtv_count(w->run->allocator, &counts) == VK_SUCCESS, "wtv_count");
    return heap.budget < size || counts.remaining == 0;
}

/* Other threads change what is left. */
void request_check_granted(worker *w, const resource *r, uint32_t bits)
{
    const uint32_t type = r->block.memory_type;
    if (!request_is_ordered(&r->request))
        return;
    const order all = order_of(w, r);
    must(all.ranks[type] != NOT_ASKED, "a block has a memory type that does not serve");
    must(all.ranks[type] >= last_asked(&all), "memory types are asked behind the one that is granted");
    for (uint32_t i = 0; i < driver_memory().memoryTypeCount && w->run->threads == 1; i++)
        must(all.ranks[i] >= all.ranks[type] || (bits >> i & 1) == 0 || is_asked(i)
                 || is_out_of_reach(w, i, r->block.asked),
             "a memory type that comes earlier is passed over");
}

/* ---- Counted. ---- */

static void count_intent(tally *t, const wtv_request *request)
{
    const uint32_t all = WTV_HOST_ACCESS_SEQUENTIAL_WRITE | WTV_HOST_ACCESS_RANDOM
                         | WTV_HOST_ACCESS_ALLOW_TRANSFER_INSTEAD;
    for (uint32_t i = 0; i < INTENTS; i++)
        for (uint32_t j = 0; j < ACCESSES; j++)
            t->intents[i][j] += (request->usage & ALL_INTENTS) == INTENT[i] && (request->flags & all) == ACCESS[j];
}

void request_count(worker *w, const resource *r)
{
    tally *t = &w->tally;
    const bool is_mapped = (r->request.flags & WTV_MAPPED) != 0 && r->block.mapped != NULL;
    count_intent(t, &r->request);
    t->mapped += is_mapped;
    t->mapped_alone += is_mapped && r->block.dedicated;
    t->bound_later += r->way != ALLOCATED && (r->request.flags & WTV_DONT_BIND) != 0;
}
