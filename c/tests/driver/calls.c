#include "calls.h"

#include <string.h>

enum { MOST_RETRIES = 10000 };

bool is_refused(worker *w, VkResult result)
{
    must(result == w->refuser.met.first, "a call returns another error than the driver's");
    w->retries = result == VK_SUCCESS ? 0 : w->retries + 1;
    must(w->retries < MOST_RETRIES, "a call is always refused");
    return result != VK_SUCCESS;
}

/* ---- Requests. ---- */

static bool is_alone(const worker *w)
{
    return w->run->threads == 1;
}

static char *report_of(const worker *w)
{
    char *text;
    must(wtv_report_text(w->run->allocator, &text) == VK_SUCCESS, "wtv_report_text");
    return text;
}

static wt_counts counts_of(const worker *w)
{
    wt_counts counts;
    must(wtv_count(w->run->allocator, &counts) == VK_SUCCESS, "wtv_count");
    return counts;
}

void request_begins(worker *w, const wtv_request *request)
{
    refusing_begins();
    w->request = request;
    if (!is_alone(w))
        return;
    w->report = report_of(w);
    w->counts = counts_of(w);
    w->driver = driver_counted();
}

/* Where a bind is refused, the block was there already, and is freed as any other: its chunk may stay unused, or a chunk
   that was unused before may go with it. */
static void check_unchanged(worker *w)
{
    driver_counts driver = driver_counted();
    wt_counts counts = counts_of(w);
    must(driver.buffers == w->driver.buffers && driver.images == w->driver.images,
         "a refused request left a buffer or an image");
    must(counts.blocks == w->counts.blocks, "a refused request left a block");
    if (w->refuser.met.is_unbound) {
        must(counts.held <= w->counts.held + 1 && counts.held + 1 >= w->counts.held,
             "a refused request left objects, or freed others");
        return;
    }
    char *after = report_of(w);
    must(strcmp(after, w->report) == 0, "a refused request changed what is held");
    wtv_free_text(after);
    w->tally.unchanged++;
}

static bool has_no_object_left(const worker *w)
{
    return !is_alone(w) || counts_of(w).remaining == 0;
}

/* Whether a request asks one memory type after the other, each of them twice. */
static bool goes_on(const wtv_request *request)
{
    const uint32_t intents = WTV_USAGE_AUTO | WTV_USAGE_AUTO_PREFER_DEVICE | WTV_USAGE_AUTO_PREFER_HOST;
    return (request->usage & intents) != 0 || request->preferred != 0 || (request->flags & WTV_MAPPED) != 0;
}

/* A request that lacked device memory is tried once more, alone. An error that ends that try is not returned, but what
   was lacking before: an object, or memory, which a heap's limit may have refused without a call of the driver. Or the
   next memory type is asked, and grants it. */
static bool is_ended_by(const worker *w, VkResult result)
{
    const met *met = &w->refuser.met;
    bool may_be_second = met->objects > 0 && !met->is_unbound && w->request->dedicated != WT_REQUIRED;
    bool was_lacking =
        result == VK_ERROR_OUT_OF_DEVICE_MEMORY || (result == VK_ERROR_TOO_MANY_OBJECTS && met->has_no_object);
    bool is_granted = result == VK_SUCCESS && goes_on(w->request);
    return result == met->ending || (may_be_second && (was_lacking || is_granted));
}

/* An error that the driver did not return has a reason of the allocator's. */
static void check_own_error(worker *w, VkResult result)
{
    const met *met = &w->refuser.met;
    if (result == VK_ERROR_TOO_MANY_OBJECTS)
        must(met->has_no_object || has_no_object_left(w), "objects are left, and none is made");
    else if (result == VK_ERROR_OUT_OF_DEVICE_MEMORY)
        w->tally.unasked += met->objects == 0;
    else
        must(result == VK_ERROR_FEATURE_NOT_PRESENT && met->objects == 0, "a request has an error of its own");
}

static void count_error(tally *t, VkResult result)
{
    t->refused_device_memory += result == VK_ERROR_OUT_OF_DEVICE_MEMORY;
    t->refused_host_memory += result == VK_ERROR_OUT_OF_HOST_MEMORY || result == VK_ERROR_MEMORY_MAP_FAILED;
    t->refused_types += result == VK_ERROR_FEATURE_NOT_PRESENT;
    t->refused_objects += result == VK_ERROR_TOO_MANY_OBJECTS;
    t->refused_lost += result == VK_ERROR_DEVICE_LOST;
}

/* The next memory type was tried. */
static void count_granted(worker *w)
{
    w->tally.after_device_memory += w->refuser.met.first == VK_ERROR_OUT_OF_DEVICE_MEMORY;
    w->tally.after_objects += w->refuser.met.first == VK_ERROR_TOO_MANY_OBJECTS;
    w->tally.after_mapping += w->refuser.met.left_out != 0;
}

/* In a run of one thread: what was held before is not needed any more. */
static void forget_before(worker *w)
{
    if (is_alone(w))
        wtv_free_text(w->report);
}

VkResult request_ends(worker *w, VkResult result)
{
    VkResult ending = w->refuser.met.ending;
    if (ending != VK_SUCCESS)
        must(is_ended_by(w, result), "a request does not return the error that ended it");
    else if (result != VK_SUCCESS)
        check_own_error(w, result);
    if (result == VK_SUCCESS)
        count_granted(w);
    else if (is_alone(w))
        check_unchanged(w);
    w->tally.unmapped += w->refuser.met.left_out != 0;
    count_error(&w->tally, result);
    forget_before(w);
    return result;
}

void request_is_forbidden(worker *w, VkResult result, VkResult error)
{
    must(result == error, "a forbidden request has another result");
    must(w->refuser.met.calls == 0, "a forbidden request calls the driver");
    if (is_alone(w))
        check_unchanged(w);
    w->tally.forbidden++;
    forget_before(w);
}
