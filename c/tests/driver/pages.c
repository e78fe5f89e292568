#include "pages.h"

static bool meet(uint64_t first, uint64_t last, uint64_t other_first, uint64_t other_last)
{
    return first <= other_last && other_first <= last;
}

static void compare(pages *p, const bound *one, const bound *other)
{
    uint64_t first = one->first, last = first + one->length - 1;
    uint64_t other_first = other->first, other_last = other_first + other->length - 1;
    must(!one->is_dedicated && !other->is_dedicated, "a dedicated object holds a second block");
    must(!meet(first, last, other_first, other_last), "a byte is bound twice");
    if (one->is_optimal == other->is_optimal)
        return;
    p->beside++;
    must(!meet(first / p->size, last / p->size, other_first / p->size, other_last / p->size),
         "a linear and an optimal resource share a page");
}

void pages_open(pages *p, uint64_t size)
{
    must(pthread_mutex_init(&p->lock, NULL) == 0, "pthread_mutex_init");
    p->size = size;
}

void pages_bind(pages *p, const bound *added)
{
    pthread_mutex_lock(&p->lock);
    for (uint32_t i = 0; i < p->count; i++)
        if (p->live[i].object == added->object)
            compare(p, added, &p->live[i]);
    must(p->count < MOST_BOUND, "too many resources are bound");
    p->live[p->count++] = *added;
    pthread_mutex_unlock(&p->lock);
}

void pages_unbind(pages *p, VkDeviceMemory object, uint64_t first)
{
    bool is_found = false;
    pthread_mutex_lock(&p->lock);
    for (uint32_t i = 0; i < p->count && !is_found; i++) {
        is_found = p->live[i].object == object && p->live[i].first == first;
        if (is_found)
            p->live[i] = p->live[--p->count];
    }
    pthread_mutex_unlock(&p->lock);
    must(is_found, "nothing is bound there");
}

void pages_close(pages *p)
{
    must(p->count == 0, "a resource is still bound");
    pthread_mutex_destroy(&p->lock);
}
