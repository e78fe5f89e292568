/* Wallthyme over a Vulkan device: buffers and images in drawn order, from several threads over one allocator, with each
   of their bytes compared.

       vulkan SEED RESOURCES REFUSED_PERCENT THREADS [--buddy] [--incoherent] [--integrated] [--report FILE]
              [--shift] [--half-page] [--unflushed] [--unlocked]

   The threads try as many resources, a few hundred of them alive at once. The percent of the driver's calls that may
   fail is refused. Budgets limit the heaps, real ones where the driver reports them. A request has a usage or an intent;
   at times it requires or prefers properties or a larger alignment, has its block mapped for life, or leaves the bind to
   the program. Some blocks have names.
   --buddy has requests share buddy chunks. Else they share fit chunks, as without a configuration.
   --incoherent reports no memory as coherent, so that there are ranges to flush.
   --integrated reports an integrated device: the host itself reaches all that it accesses.
   --report writes what the allocator holds once all resources are tried, as JSON.

   The others plant a fault, and the run has to find it:
   --shift binds each resource one byte off, and does nothing else with it: the validation layer has messages.
   --half-page reports half of bufferImageGranularity: a buffer and an optimal image share a page.
   --unflushed drops each flush: bytes differ, where the host's writes need one.
   --unlocked leaves the allocator's lock out: two threads are inside.

   It ends with 0 where all went well without a message, with 1 where not, and with 2 for other arguments. */
#include "callbacks.h"
#include "random.h"
#include "steps.h"

#include <inttypes.h>
#include <stdio.h>
#include <stdlib.h>
#include <string.h>

enum {
    MOST_THREADS = 16,
    STARTING = 5,             /* milliseconds */
    LEAST_HEAP = 4 << 20,     /* drawn: up to eight times that */
    LEAST_OBJECTS = 24,       /* drawn: up to eight times that */
    ENOUGH_REFUSED = 150,
    ENOUGH_UNMAPPED = 30,
    LEAST_GRANULARITY = 1024, /* taken where the device's is less, so that it matters */
    ENOUGH_CREATED = 2000,    /* for each kind of request to be among them */
};

static const wt_config CONFIG = {
    .dedicated_threshold = 512 << 10,
    .preferred_dedicated_threshold = 32 << 10,
    .transient_dedicated_threshold = 512 << 10,
    .starting_free_list_chunk = 256 << 10,
    .final_free_list_chunk = 1 << 20,
    .minimal_buddy_size = 256,
    .initial_buddy_dedicated_size = 256 << 10,
};

typedef struct arguments {
    uint64_t seed;
    uint32_t resources, refused_percent, threads;
    bool is_buddy, is_incoherent, is_integrated, is_shifted, is_half, is_unflushed, is_unlocked;
    const char *report; /* or null */
} arguments;

/* ---- Arguments. ---- */

static bool number_of(const char *text, uint64_t most, uint64_t *number)
{
    char *end;
    *number = strtoull(text, &end, 10);
    return *text >= '0' && *text <= '9' && *end == '\0' && *number <= most;
}

static bool has_numbers(int count, char **texts, arguments *read)
{
    uint64_t resources, percent, threads;
    if (count < 5 || !number_of(texts[1], UINT64_MAX, &read->seed) || !number_of(texts[2], UINT32_MAX, &resources)
        || !number_of(texts[3], 99, &percent) || !number_of(texts[4], MOST_THREADS, &threads) || threads == 0)
        return false;
    read->resources = (uint32_t)resources;
    read->refused_percent = (uint32_t)percent;
    read->threads = (uint32_t)threads;
    return true;
}

static bool read_arguments(int count, char **texts, arguments *read)
{
    const struct {
        const char *name;
        bool *is_given;
    } flags[] = {
        {"--buddy", &read->is_buddy},       {"--incoherent", &read->is_incoherent},
        {"--shift", &read->is_shifted},     {"--integrated", &read->is_integrated},
        {"--half-page", &read->is_half},    {"--unflushed", &read->is_unflushed},
        {"--unlocked", &read->is_unlocked},
    };
    const size_t flags_count = sizeof flags / sizeof *flags;
    if (!has_numbers(count, texts, read))
        return false;
    for (int i = 5; i < count; i++) {
        size_t flag = 0;
        while (flag < flags_count && strcmp(texts[i], flags[flag].name) != 0)
            flag++;
        if (flag < flags_count)
            *flags[flag].is_given = true;
        else if (strcmp(texts[i], "--report") == 0 && i + 1 < count)
            read->report = texts[++i];
        else
            return false;
    }
    return true;
}

/* ---- The run. ---- */

/* What is reported to the allocator is drawn. */
static void open_driver(run *r, const arguments *given, uint64_t *random)
{
    VkPhysicalDeviceProperties properties;
    vkGetPhysicalDeviceProperties(r->device->physical, &properties);
    const uint64_t offered = properties.limits.bufferImageGranularity;
    const uint64_t granularity = offered > LEAST_GRANULARITY ? offered : LEAST_GRANULARITY;
    const driver_settings settings = {
        .device = r->device,
        .seed = given->seed + 1,
        .heap_size = (uint64_t)LEAST_HEAP << random_below(random, 4),
        .granularity = given->is_half ? granularity / 2 : granularity,
        .max_objects = given->threads + ((uint32_t)LEAST_OBJECTS << random_below(random, 4)),
        .other_objects = given->threads,
        .hides_coherence = given->is_incoherent,
        .is_integrated = given->is_integrated,
        .is_shifted = given->is_shifted,
        .drops_flushes = given->is_unflushed,
        .lingers = given->is_unlocked,
    };
    driver_open(&settings);
    pages_open(&r->pages, granularity);
}

/* With small chunks, or with the usual configuration. */
static void open_allocator(run *r, const arguments *given, bool has_small_chunks)
{
    const device *d = r->device;
    const VkPhysicalDeviceMemoryProperties memory = driver_memory();
    wt_config config = CONFIG;
    if (!has_small_chunks)
        wtv_default_config(&memory, &config);
    config.sharing = given->is_buddy ? WT_BUDDY : WT_FIT;
    const wtv_create_info info = {
        .instance = d->instance,
        .physical_device = d->physical,
        .device = d->handle,
        .flags = WTV_CREATE_MEMORY_BUDGET | (d->has_addresses ? (uint32_t)WTV_CREATE_DEVICE_ADDRESS : 0)
                 | (given->is_unlocked ? (uint32_t)WTV_CREATE_NO_LOCK : 0),
        .api_version = d->api_version,
        .functions = driver_functions(),
        .callbacks = callbacks_of_program(),
        .config = has_small_chunks || given->is_buddy ? &config : NULL,
        .other_objects = given->threads,
    };
    must(wtv_create(&info, &r->allocator) == VK_SUCCESS, "wtv_create");
}

/* Where the lock is left out, a thread is inside before the next one starts: so they meet there, not in the library. */
static void on_all_threads(run *r, share *shares, void *(*work)(void *))
{
    pthread_t threads[MOST_THREADS];
    for (uint32_t i = 0; i < r->threads; i++) {
        must(pthread_create(&threads[i], NULL, work, &shares[i]) == 0, "pthread_create");
        driver_linger(STARTING);
    }
    for (uint32_t i = 0; i < r->threads; i++)
        must(pthread_join(threads[i], NULL) == 0, "pthread_join");
}

static void write_file(const char *name, const char *text)
{
    FILE *file = fopen(name, "wb");
    must(file != NULL && fputs(text, file) >= 0 && fclose(file) == 0, "the report is not written");
}

/* What the allocator holds, with the blocks' names, goes to a file where one is given. */
static void report(run *r, const share *shares, const char *file)
{
    char *text;
    must(wtv_report_text(r->allocator, &text) == VK_SUCCESS, "wtv_report_text");
    for (uint32_t i = 0; i < r->threads; i++)
        share_check_names(&shares[i], text);
    if (file != NULL)
        write_file(file, text);
    wtv_free_text(text);
}

/* An allocator with live blocks stays, and says which they are, by their names too. */
static void check_destroy_refused(run *r, const share *shares)
{
    wtv_block live;
    size_t count, alive = 0;
    for (uint32_t i = 0; i < r->threads; i++)
        alive += shares[i].count + 1;
    must(wtv_destroy(r->allocator, &live, 1, &count) == VK_ERROR_VALIDATION_FAILED_EXT && count == alive,
         "an allocator with live blocks is destroyed, or counts others");
    const share *its = &shares[(live.user >> 32) - 1];
    must(name_is(&share_resource_of(its, live.allocation)->name, live.name), "a live block has another name");
    must(wtv_block_of(r->allocator, live.allocation, &live) == VK_SUCCESS, "a live block is unknown");
}

static void lift_limits(wtv_allocator *a)
{
    for (uint32_t i = 0; i < driver_memory().memoryHeapCount; i++)
        must(wtv_set_heap_limit(a, i, VK_WHOLE_SIZE) == VK_SUCCESS, "wtv_set_heap_limit");
    driver_lifted();
}

static void work(run *r, share *shares, const arguments *given, uint64_t *random)
{
    for (uint32_t i = 0; i < r->threads; i++) {
        uint32_t resources = given->resources / r->threads + (i < given->resources % r->threads ? 1 : 0);
        *random += 1;
        share_open(&shares[i], r, i + 1, random_mixed(*random), resources);
        shares[i].worker.refuser.percent = given->refused_percent;
    }
    on_all_threads(r, shares, share_work);
    driver_compare(r->allocator);
    check_destroy_refused(r, shares);
    report(r, shares, given->report);
    lift_limits(r->allocator);
    on_all_threads(r, shares, share_end);
    must(wtv_cleanup(r->allocator) == VK_SUCCESS, "wtv_cleanup");
    driver_compare(r->allocator);
    must(wtv_destroy(r->allocator, NULL, 0, NULL) == VK_SUCCESS, "wtv_destroy");
}

/* ---- What it came to. ---- */

/* A tally is numbers alone. */
static tally sum_of(const run *r, const share *shares)
{
    tally sum = {0};
    uint64_t *sums = (uint64_t *)&sum;
    for (uint32_t i = 0; i < r->threads; i++) {
        const uint64_t *numbers = (const uint64_t *)&shares[i].worker.tally;
        for (size_t j = 0; j < sizeof sum / sizeof *sums; j++)
            sums[j] += numbers[j];
    }
    return sum;
}

static void print_threads(const run *r, const share *shares)
{
    uint32_t most_alive = 0;
    uint64_t tried = 0;
    for (uint32_t i = 0; i < r->threads; i++) {
        most_alive += shares[i].most_alive;
        tried += shares[i].tried;
    }
    printf("%" PRIu64 " resources from %" PRIu32 " threads, at most %" PRIu32 " alive\n", tried, r->threads,
           most_alive);
}

static void print_tally(const tally *t)
{
    printf("created: %" PRIu64 ", %" PRIu64 " of them imports, %" PRIu64 " bound by hand; after an object was refused"
           " for want of device memory %" PRIu64 ", of objects %" PRIu64 ", or was not mapped %" PRIu64 "\n",
           t->created, t->imports, t->bound_by_hand, t->after_device_memory, t->after_objects, t->after_mapping);
    printf("ended: for device memory %" PRIu64 ", host memory %" PRIu64 ", memory types %" PRIu64 ", objects %" PRIu64
           ", a lost device %" PRIu64 "; %" PRIu64 " unasked for a heap's limit, %" PRIu64 " forbidden; after %" PRIu64
           " all was as before\n",
           t->refused_device_memory, t->refused_host_memory, t->refused_types, t->refused_objects, t->refused_lost,
           t->unasked, t->forbidden, t->unchanged);
}

static uint64_t sum_of_intent(const tally *t, uint32_t intent)
{
    uint64_t sum = 0;
    for (uint32_t i = 0; i < ACCESSES; i++)
        sum += t->intents[intent][i];
    return sum;
}

static uint64_t sum_of_access(const tally *t, uint32_t access)
{
    uint64_t sum = 0;
    for (uint32_t i = 0; i < INTENTS; i++)
        sum += t->intents[i][access];
    return sum;
}

static void print_requests(const tally *t)
{
    printf("intents: %" PRIu64 " automatic, %" PRIu64 " prefer the device, %" PRIu64 " prefer the host; of the host no"
           " access %" PRIu64 ", sequential writes %" PRIu64 ", or a copy %" PRIu64 ", random access %" PRIu64
           ", or a copy %" PRIu64 "\n",
           sum_of_intent(t, 0), sum_of_intent(t, 1), sum_of_intent(t, 2), sum_of_access(t, 0), sum_of_access(t, 1),
           sum_of_access(t, 2), sum_of_access(t, 3), sum_of_access(t, 4));
    printf("where a copy would do: %" PRIu64 " filled by the host, %" PRIu64 " by a copy; memory types asked in order %"
           PRIu64 " times\n",
           t->filled, t->staged, t->ordered);
    printf("mapped for life: %" PRIu64 ", %" PRIu64 " of them alone in an object; %" PRIu64 " accesses by their"
           " pointers\n",
           t->mapped, t->mapped_alone, t->by_pointer);
    printf("%" PRIu64 " bound later, %" PRIu64 " aligned by the request, %" PRIu64 " named, %" PRIu64 " renamed\n",
           t->bound_later, t->aligned, t->named, t->renamed);
}

static void print_refused(void)
{
    printf("refused:");
    for (enum refusable i = 0; i < REFUSABLES; i++)
        printf("%s %s %" PRIu64 " of %" PRIu64, i == 0 ? "" : ",", refusing_name(i), refusing_refused(i),
               refusing_calls(i));
    printf("\n");
}

static void print_driver(const run *r, const tally *t)
{
    const driver_counts counts = driver_counted();
    printf("limits: %" PRIu64 " set, %" PRIu64 " below what was held, %" PRIu64 " taken off; %" PRIu64
           " blocks granted over one\n",
           counts.limits, counts.limits_below, counts.limits_off, t->over_limit);
    printf("pages of %" PRIu64 " bytes: %" PRIu64 " times a linear and an optimal resource in one object; %" PRIu64
           " objects made for one resource\n",
           r->pages.size, r->pages.beside, counts.dedicated);
    printf("%" PRIu64 " mappings, %" PRIu64 " ranges flushed, %" PRIu64 " invalidated, %" PRIu64
           " writes of old and new bytes; %" PRIu64 " pieces of host memory by callbacks\n",
           counts.mapped, counts.flushed, counts.invalidated, t->mixed, callbacks_allocated());
    printf("%" PRIu64 " objects made, %" PRIu64 " freed, %" PRIu64 " copies, %" PRIu64 " bytes compared, ",
           counts.objects_made, counts.objects_freed, t->copies, t->compared);
}

static void print(const run *r, const share *shares, const tally *sum)
{
    if (!r->device->is_validated)
        fprintf(stderr, "vulkan: the validation layer is not installed\n");
    print_threads(r, shares);
    print_tally(sum);
    print_requests(sum);
    print_refused();
    print_driver(r, sum);
    printf("%" PRIu64 " messages\n", r->device->messages);
}

/* Flushes and invalidates are made just where there is memory that is not coherent. After enough refused objects,
   another memory type was tried for each reason. */
static void check_refused(const arguments *given, const tally *sum)
{
    const VkPhysicalDeviceMemoryProperties memory = driver_memory();
    VkMemoryPropertyFlags all = VK_MEMORY_PROPERTY_HOST_COHERENT_BIT;
    for (uint32_t i = 0; i < memory.memoryTypeCount; i++)
        if (memory.memoryTypes[i].propertyFlags & VK_MEMORY_PROPERTY_HOST_VISIBLE_BIT)
            all &= memory.memoryTypes[i].propertyFlags;
    for (enum refusable i = 0; i < REFUSABLES; i++)
        if (all != 0 && (i == FLUSH_RANGES || i == INVALIDATE_RANGES))
            must(refusing_calls(i) == 0, "coherent memory is flushed or invalidated");
        else
            must(given->refused_percent == 0 || refusing_refused(i) > 0, "a function of the driver is never refused");
    if (refusing_refused(ALLOCATE_MEMORY) >= ENOUGH_REFUSED && memory.memoryTypeCount > 1)
        must(sum->after_device_memory > 0 && sum->after_objects > 0, "no other memory type is tried");
}

static bool has_unseen_memory(void)
{
    const VkPhysicalDeviceMemoryProperties memory = driver_memory();
    for (uint32_t i = 0; i < memory.memoryTypeCount; i++)
        if ((memory.memoryTypes[i].propertyFlags & VK_MEMORY_PROPERTY_HOST_VISIBLE_BIT) == 0)
            return true;
    return false;
}

/* Each intent came to pass with each access of the host, and so did all else that a request can have. The host itself
   reaches all that it accesses where all memory is host-visible, or the device is an integrated one. */
static void check_requests(const arguments *given, const tally *t)
{
    const bool may_copy = has_unseen_memory() && !given->is_integrated;
    const uint64_t numbers[] = {t->filled,      t->ordered, t->mapped, t->mapped_alone, t->by_pointer,
                                t->bound_later, t->aligned, t->named,  t->renamed,      t->forbidden};
    must(may_copy || t->staged == 0, "what the host accesses is filled by a copy");
    if (t->created < ENOUGH_CREATED || given->is_shifted)
        return;
    for (uint32_t i = 0; i < INTENTS; i++)
        for (uint32_t j = 0; j < ACCESSES; j++)
            must(t->intents[i][j] > 0, "an intent is never granted with some access of the host");
    for (size_t i = 0; i < sizeof numbers / sizeof *numbers; i++)
        must(numbers[i] > 0, "something that a request can have never comes to pass");
    must(!may_copy || t->staged > 0, "nothing is filled by a copy");
    must(driver_memory().memoryTypeCount == 1 || t->unmapped < ENOUGH_UNMAPPED || t->after_mapping > 0,
         "no other memory type is tried after a mapping is refused");
}

static void check_returned(void)
{
    const driver_counts counts = driver_counted();
    must(counts.objects_made == counts.objects_freed, "a memory object is not freed");
    must(counts.buffers == 0 && counts.images == 0, "a buffer or an image is not destroyed");
    must(callbacks_held() == 0, "the driver holds host memory");
}

int main(int count, char **texts)
{
    static device d;
    arguments given = {0};
    if (!read_arguments(count, texts, &given)) {
        fprintf(stderr, "usage: vulkan SEED RESOURCES REFUSED_PERCENT THREADS [--buddy] [--incoherent]"
                        " [--integrated] [--report FILE] [--shift] [--half-page] [--unflushed] [--unlocked]\n");
        return 2;
    }
    uint64_t random = random_mixed(given.seed);
    device_open(&d);
    static run r;
    r = (run){
        .device = &d,
        .threads = given.threads,
        .is_integrated = given.is_integrated,
        .is_shifted = given.is_shifted,
    };
    share *shares = calloc(r.threads, sizeof *shares);
    must(shares != NULL, "there is no memory for the threads");
    open_driver(&r, &given, &random);
    open_allocator(&r, &given, random_in_hundred(&random, 50));
    work(&r, shares, &given, &random);
    pages_close(&r.pages);
    device_close(&d);
    const tally sum = sum_of(&r, shares);
    print(&r, shares, &sum);
    check_returned();
    check_refused(&given, &sum);
    check_requests(&given, &sum);
    free(shares);
    return d.messages == 0 ? 0 : 1;
}
