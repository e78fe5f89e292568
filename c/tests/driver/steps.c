#include "steps.h"

#include "random.h"
#include <inttypes.h>
#include <stdio.h>
#include <string.h>

enum {
    TURN = 1200,       /* steps */
    FRAME = 50,        /* steps from one look at the budgets to the next */
    CLEANUP = 700,     /* steps from one cleanup, and one look at the report, to the next */
    WALKED = 24,       /* blocks, by one wtv_blocks */
    READER_TRIES = 20, /* some draws permit no memory type that the host sees */
};

/* ---- Steps. ---- */

static content drawn_content(share *s)
{
    uint64_t *random = &s->worker.random;
    content bytes = {.seed = random_mixed(*random)};
    uint32_t most = random_in_hundred(random, 3) ? s->most_bytes : random_in_hundred(random, 40) ? 65536 : 4096;
    bytes.length = 1 + random_below(random, most);
    if (random_in_hundred(random, 50)) {
        uint32_t edge = random_in_hundred(random, 20) ? 160 : 40;
        bytes.width = 1 + random_below(random, edge);
        bytes.height = 1 + random_below(random, edge);
        bytes.length = bytes.width * bytes.height * TEXEL;
    }
    return bytes;
}

static enum kind drawn_kind(share *s, const content *bytes)
{
    return bytes->width == 0 ? BUFFER : (enum kind)random_below(&s->worker.random, 3);
}

/* The host itself reaches each linear image, no optimal one, and a third of the buffers. Of another third it is left to
   the memory. */
static VkResult open_drawn(share *s, resource *r, const content *bytes)
{
    enum kind kind = drawn_kind(s, bytes);
    enum reach reach = kind == LINEAR_IMAGE ? ITSELF : BY_COPIES;
    if (kind == BUFFER)
        reach = (enum reach)random_below(&s->worker.random, 3);
    return resource_open(&s->worker, r, bytes, kind, reach);
}

/* Brings its content to a new resource: from another one, by the host, or by a buffer that exists for this alone. */
static VkResult fill(worker *w, resource *r, resource *from)
{
    resource staging, *filled = &staging;
    if (from != NULL) {
        resource_copy(w, from, r);
        return VK_SUCCESS;
    }
    if (r->is_seen) {
        resources_write(w, &r, 1);
        w->tally.filled += r->reach == EITHER;
        return VK_SUCCESS;
    }
    VkResult result = resource_open(w, &staging, &r->content, BUFFER, ITSELF);
    if (result != VK_SUCCESS)
        return result;
    resources_write(w, &filled, 1);
    resource_copy(w, &staging, r);
    w->tally.staged += r->reach == EITHER;
    resource_close(w, &staging);
    return VK_SUCCESS;
}

static void add(share *s)
{
    worker *w = &s->worker;
    resource *added = &s->live[s->count], *from = NULL;
    if (s->count > 0 && random_in_hundred(&w->random, 30))
        from = &s->live[random_below(&w->random, s->count)];
    content bytes = from != NULL ? from->content : drawn_content(s);
    s->tried++;
    if (open_drawn(s, added, &bytes) != VK_SUCCESS)
        return;
    if (!w->run->is_shifted && fill(w, added, from) != VK_SUCCESS) {
        resource_close(w, added);
        return;
    }
    s->count++;
    s->most_alive = s->count > s->most_alive ? s->count : s->most_alive;
}

static void compare(share *s, resource *r)
{
    worker *w = &s->worker;
    resource *compared = r->is_seen ? r : &s->reader;
    if (w->run->is_shifted)
        return;
    if (!r->is_seen)
        resource_copy(w, r, &s->reader);
    resources_compare(w, &compared, 1);
}

static void take_away(share *s, uint32_t place)
{
    compare(s, &s->live[place]);
    resource_close(&s->worker, &s->live[place]);
    s->live[place] = s->live[--s->count];
}

/* The host gives resources that it sees another content, after the device may have used them. */
static void rewrite(share *s)
{
    worker *w = &s->worker;
    resource *several[MOST_TOGETHER];
    uint32_t count = 0, place = random_below(&w->random, s->count);
    for (uint32_t i = place; i < s->count && count < MOST_TOGETHER; i++)
        if (s->live[i].is_seen)
            several[count++] = &s->live[i];
    if (count == 0 || w->run->is_shifted)
        return;
    resources_compare(w, several, count);
    if (several[0]->kind == BUFFER)
        resource_rewrite_once(w, several[0]);
    for (uint32_t i = 0; i < count; i++)
        several[i]->content.seed = random_mixed(several[i]->content.seed);
    resources_write(w, several, count);
}

/* The host maps no memory that it does not see. */
static void map_in_vain(share *s, const resource *r)
{
    void *host;
    if ((r->block.properties & VK_MEMORY_PROPERTY_HOST_VISIBLE_BIT) == 0)
        must(wtv_map(s->worker.run->allocator, r->allocation, &host) == VK_ERROR_MEMORY_MAP_FAILED,
             "memory that the host does not see is mapped");
}

static void ask_in_vain(share *s)
{
    const content bytes = drawn_content(s);
    resource_ask_in_vain(&s->worker, &bytes, drawn_kind(s, &bytes));
}

/* Steps that mostly add take turns with steps that mostly take away. */
static void step(share *s)
{
    uint64_t *random = &s->worker.random;
    uint32_t drawn = random_below(random, 100), adds = s->steps / TURN % 2 == 0 ? 65 : 30;
    s->steps++;
    if (s->count == 0 || (drawn < adds && s->count < s->most))
        add(s);
    else if (drawn < 92)
        take_away(s, random_below(random, s->count));
    else if (drawn < 97)
        rewrite(s);
    else if (drawn < 98)
        resource_rename(&s->worker, &s->live[random_below(random, s->count)]);
    else if (drawn < 99)
        ask_in_vain(s);
    else
        map_in_vain(s, &s->live[random_below(random, s->count)]);
}

/* ---- Between the steps. ---- */

const resource *share_resource_of(const share *s, wtv_allocation allocation)
{
    if (s->reader.allocation == allocation)
        return &s->reader;
    for (uint32_t i = 0; i < s->count; i++)
        if (s->live[i].allocation == allocation)
            return &s->live[i];
    must(false, "a block of this thread's is live, and no resource has it");
    return NULL;
}

/* Walks over the live blocks, of which each one of this thread's comes once. */
static void walk(share *s)
{
    wtv_block blocks[WALKED];
    wtv_allocation after = 0;
    uint32_t found = 0;
    size_t count;
    do {
        must(wtv_blocks(s->worker.run->allocator, after, blocks, WALKED, &count) == VK_SUCCESS, "wtv_blocks");
        for (size_t i = 0; i < count; i++) {
            must((uint32_t)blocks[i].allocation > (uint32_t)after || after == 0, "blocks are walked over out of order");
            after = blocks[i].allocation;
            if (blocks[i].user >> 32 != s->worker.number)
                continue;
            const resource *r = share_resource_of(s, blocks[i].allocation);
            must(r->block.memory == blocks[i].memory && r->block.offset == blocks[i].offset
                     && r->block.user == blocks[i].user && name_is(&r->name, blocks[i].name),
                 "a block is walked over as another one");
            found++;
        }
    } while (count == WALKED);
    must(found == s->count + 1, "a walk does not come to each block once");
}

static void write_statistics(wtv_allocator *a)
{
    char *text;
    must(wtv_statistics_text(a, &text) == VK_SUCCESS, "wtv_statistics_text");
    size_t length = strlen(text);
    must(strncmp(text, "{\"heaps\":[\n{", 12) == 0 && strcmp(text + length - 4, "\n]}\n") == 0,
         "the statistics are cut");
    wtv_free_text(text);
}

/* A block's place begins with its key. Its name stands directly behind the user's value. */
static void check_reported_name(const char *report, const resource *r)
{
    char key[MOST_NAME], words[2 * MOST_NAME];
    const bool is_named = r->name.text[0] != '\0';
    snprintf(key, sizeof key, "{\"key\":%" PRIu64 ",", r->allocation);
    snprintf(words, sizeof words, "\"user\":%" PRIu64 ",%s%s%s", r->block.user, is_named ? "\"name\":\"" : "",
             r->name.json, is_named ? "\"," : "");
    const char *place = strstr(report, key);
    must(place != NULL, "a block is not reported");
    place += strlen(key);
    must(strncmp(place, words, strlen(words)) == 0, "a block is reported under another name");
    must(strncmp(place + strlen(words), "\"name\"", 6) != 0, "a block is reported under a name that it has not");
}

void share_check_names(const share *s, const char *report)
{
    check_reported_name(report, &s->reader);
    for (uint32_t i = 0; i < s->count; i++)
        check_reported_name(report, &s->live[i]);
}

/* What other threads hold may change, but not what this one does. */
static void read_report(const share *s)
{
    char *text;
    must(wtv_report_text(s->worker.run->allocator, &text) == VK_SUCCESS, "wtv_report_text");
    share_check_names(s, text);
    wtv_free_text(text);
}

static void look_around(share *s)
{
    wtv_allocator *a = s->worker.run->allocator;
    if (s->steps % FRAME == FRAME - 1) {
        must(wtv_update_budget(a) == VK_SUCCESS, "wtv_update_budget");
        walk(s);
        write_statistics(a);
    }
    if (s->steps % CLEANUP == CLEANUP - 1) {
        must(wtv_cleanup(a) == VK_SUCCESS, "wtv_cleanup");
        read_report(s);
    }
    if (s->worker.run->threads == 1)
        driver_compare(a);
}

/* ---- Shares. ---- */

void share_open(share *s, run *r, uint32_t number, uint64_t seed, uint32_t resources)
{
    worker *w = &s->worker;
    w->run = r;
    w->number = number;
    w->random = random_mixed(seed);
    w->refuser.random = random_mixed(seed + 1);
    s->wanted = resources;
    s->most = MOST_ALIVE / r->threads;
    s->most_bytes = MOST_BYTES / r->threads;
    const content most = {.length = s->most_bytes};
    bool is_open = false;
    commands_open(&w->commands, r->device);
    refusing_by(&w->refuser);
    for (int i = 0; i < READER_TRIES && !is_open; i++)
        is_open = resource_open(w, &s->reader, &most, BUFFER, ITSELF) == VK_SUCCESS;
    must(is_open, "there is no memory to read from");
}

void *share_work(void *given)
{
    share *s = given;
    refusing_by(&s->worker.refuser);
    while (s->tried < s->wanted) {
        look_around(s);
        step(s);
    }
    return NULL;
}

void *share_end(void *given)
{
    share *s = given;
    refusing_by(&s->worker.refuser);
    while (s->count > 0)
        take_away(s, s->count - 1);
    resource_close(&s->worker, &s->reader);
    commands_close(&s->worker.commands);
    return NULL;
}
