#include "callbacks.h"

#include <stdlib.h>
#include <string.h>

enum { LEAST_ALIGNMENT = 16 };

/* It lies before the bytes of a piece. */
typedef struct head {
    void *whole; /* what malloc returned */
    size_t size;
} head;

static uint64_t allocated, freed;

static void *VKAPI_CALL allocate(void *user, size_t size, size_t alignment, VkSystemAllocationScope scope)
{
    size_t mask = (alignment > LEAST_ALIGNMENT ? alignment : LEAST_ALIGNMENT) - 1;
    unsigned char *whole = malloc(size + mask + sizeof(head));
    (void)user;
    (void)scope;
    if (whole == NULL)
        return NULL;
    unsigned char *bytes = (unsigned char *)(((uintptr_t)whole + sizeof(head) + mask) & ~(uintptr_t)mask);
    ((head *)bytes)[-1] = (head){whole, size};
    __atomic_add_fetch(&allocated, 1, __ATOMIC_RELAXED);
    return bytes;
}

static void VKAPI_CALL release(void *user, void *bytes)
{
    (void)user;
    if (bytes == NULL)
        return;
    free(((head *)bytes)[-1].whole);
    __atomic_add_fetch(&freed, 1, __ATOMIC_RELAXED);
}

static void *VKAPI_CALL reallocate(void *user, void *bytes, size_t size, size_t alignment,
                                   VkSystemAllocationScope scope)
{
    if (bytes == NULL)
        return allocate(user, size, alignment, scope);
    if (size == 0) {
        release(user, bytes);
        return NULL;
    }
    size_t kept = ((head *)bytes)[-1].size;
    void *moved = allocate(user, size, alignment, scope);
    if (moved != NULL) {
        memcpy(moved, bytes, kept < size ? kept : size);
        release(user, bytes);
    }
    return moved;
}

static const VkAllocationCallbacks CALLBACKS = {
    .pUserData = &allocated,
    .pfnAllocation = allocate,
    .pfnReallocation = reallocate,
    .pfnFree = release,
};

const VkAllocationCallbacks *callbacks_of_program(void)
{
    return &CALLBACKS;
}

bool callbacks_are_of_program(const VkAllocationCallbacks *callbacks)
{
    return callbacks != NULL && callbacks->pUserData == CALLBACKS.pUserData && callbacks->pfnAllocation == allocate
           && callbacks->pfnReallocation == reallocate && callbacks->pfnFree == release;
}

uint64_t callbacks_allocated(void)
{
    return __atomic_load_n(&allocated, __ATOMIC_RELAXED);
}

uint64_t callbacks_held(void)
{
    return callbacks_allocated() - __atomic_load_n(&freed, __ATOMIC_RELAXED);
}
