/* Which bytes of which memory objects are bound, and to what. No byte is bound twice, and no page of
   bufferImageGranularity holds bytes of a linear resource (a buffer, a linear image) and of an optimal one. The
   validation layer checks neither. */
#ifndef PAGES_H
#define PAGES_H

#include "device.h"
#include <pthread.h>

enum { MOST_BOUND = 512 };

typedef struct bound {
    VkDeviceMemory object;
    uint64_t first, length; /* bytes of the object */
    bool is_optimal;
    bool is_dedicated; /* the object was made for this resource alone */
} bound;

typedef struct pages {
    pthread_mutex_t lock;
    uint64_t size; /* of a page, in bytes */
    uint32_t count;
    bound live[MOST_BOUND];
    uint64_t beside; /* how often a linear and an optimal resource were bound to one object, and compared */
} pages;

void pages_open(pages *p, uint64_t size);

/* Ends the program where the new resource shares a byte, a page, or a dedicated object with another one. */
void pages_bind(pages *p, const bound *added);

/* Takes out the resource that begins at that byte of the object. It is called before the block is freed. */
void pages_unbind(pages *p, VkDeviceMemory object, uint64_t first);

void pages_close(pages *p);

#endif
