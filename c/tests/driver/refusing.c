#include "refusing.h"

#include "random.h"

enum { MOST_ERRORS = 6 };

#define DEVICE_MEMORY VK_ERROR_OUT_OF_DEVICE_MEMORY
#define HOST_MEMORY VK_ERROR_OUT_OF_HOST_MEMORY
#define OBJECTS VK_ERROR_TOO_MANY_OBJECTS
#define LOST VK_ERROR_DEVICE_LOST

/* Each function with the errors that it is refused with: one of them is drawn. */
static const struct refused_function {
    const char *name;
    uint32_t count;
    VkResult errors[MOST_ERRORS];
} FUNCTIONS[REFUSABLES] = {
    [ALLOCATE_MEMORY] = {"allocate", 6, {DEVICE_MEMORY, DEVICE_MEMORY, OBJECTS, OBJECTS, HOST_MEMORY, LOST}},
    [MAP_MEMORY] = {"map", 3, {DEVICE_MEMORY, HOST_MEMORY, VK_ERROR_MEMORY_MAP_FAILED}},
    [FLUSH_RANGES] = {"flush", 2, {DEVICE_MEMORY, HOST_MEMORY}},
    [INVALIDATE_RANGES] = {"invalidate", 2, {DEVICE_MEMORY, HOST_MEMORY}},
    [CREATE_BUFFER] = {"create buffer", 2, {DEVICE_MEMORY, HOST_MEMORY}},
    [CREATE_IMAGE] = {"create image", 2, {DEVICE_MEMORY, HOST_MEMORY}},
    [BIND_BUFFER] = {"bind buffer", 2, {DEVICE_MEMORY, HOST_MEMORY}},
    [BIND_IMAGE] = {"bind image", 2, {DEVICE_MEMORY, HOST_MEMORY}},
};

static uint64_t calls[REFUSABLES], refused[REFUSABLES];
static __thread refuser *by;

void refusing_by(refuser *r)
{
    by = r;
}

void refusing_begins(void)
{
    by->met = (met){.first = VK_SUCCESS, .ending = VK_SUCCESS};
}

met *refusing_met(void)
{
    return &by->met;
}

VkResult refusing_draw(enum refusable function)
{
    const struct refused_function *drawn = &FUNCTIONS[function];
    __atomic_add_fetch(&calls[function], 1, __ATOMIC_RELAXED);
    by->met.calls++;
    if (!random_in_hundred(&by->random, by->percent))
        return VK_SUCCESS;
    __atomic_add_fetch(&refused[function], 1, __ATOMIC_RELAXED);
    return drawn->errors[random_below(&by->random, drawn->count)];
}

bool refusing_has_next(VkResult result)
{
    return result == VK_ERROR_OUT_OF_DEVICE_MEMORY || result == VK_ERROR_TOO_MANY_OBJECTS;
}

VkResult refusing_noted(enum refusable function, VkResult result)
{
    met *met = &by->met;
    met->objects += function == ALLOCATE_MEMORY;
    if (result == VK_SUCCESS)
        return result;
    if (met->first == VK_SUCCESS)
        met->first = result;
    if ((function != ALLOCATE_MEMORY && function != MAP_MEMORY) || !refusing_has_next(result))
        met->ending = result;
    met->has_no_object = met->has_no_object || result == VK_ERROR_TOO_MANY_OBJECTS;
    met->is_unbound = met->is_unbound || function == BIND_BUFFER || function == BIND_IMAGE;
    return result;
}

const char *refusing_name(enum refusable function)
{
    return FUNCTIONS[function].name;
}

uint64_t refusing_calls(enum refusable function)
{
    return __atomic_load_n(&calls[function], __ATOMIC_RELAXED);
}

uint64_t refusing_refused(enum refusable function)
{
    return __atomic_load_n(&refused[function], __ATOMIC_RELAXED);
}
