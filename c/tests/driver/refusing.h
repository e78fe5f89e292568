/* The driver's functions that may fail: whether each call of them is refused, drawn for each thread by itself; and what
   the driver returned during one call of the allocator. */
#ifndef REFUSING_H
#define REFUSING_H

#include "device.h"

enum refusable {
    ALLOCATE_MEMORY,
    MAP_MEMORY,
    FLUSH_RANGES,
    INVALIDATE_RANGES,
    CREATE_BUFFER,
    CREATE_IMAGE,
    BIND_BUFFER,
    BIND_IMAGE,
    REFUSABLES /* how many there are */
};

enum { MOST_ASKED = 128 /* objects, by one call of the allocator */ };

/* What the driver returned during a call of the allocator. */
typedef struct met {
    uint32_t calls;             /* of the functions that may fail */
    uint32_t objects;           /* asked for */
    uint32_t types[MOST_ASKED]; /* of each of them: its memory type */
    uint32_t left_out;          /* bit i: an object for one resource, of memory type i, was not mapped, and another
                                   memory type may do */
    VkResult first;             /* the first error, or VK_SUCCESS */
    VkResult ending;            /* the last error that ends a try to get memory, or VK_SUCCESS */
    bool has_no_object;         /* an object was refused, as one too many */
    bool is_unbound;            /* a bind was refused */
    VkDeviceMemory made;        /* the object that was made last, or null */
    VkBuffer buffer;            /* the one resource that it was made for, or none */
    VkImage image;
    bool is_chained;            /* it has what the program chains to its requests */
} met;

/* A thread's draws. */
typedef struct refuser {
    uint64_t random;
    uint32_t percent; /* of the calls that are refused */
    met met;
} refuser;

/* The calling thread draws by this one from now on. */
void refusing_by(refuser *r);

/* A call of the allocator begins in this thread. */
void refusing_begins(void);

/* What the thread's current call of the allocator met. */
met *refusing_met(void);

/* The error with which a call is refused, or VK_SUCCESS. */
VkResult refusing_draw(enum refusable function);

/* Whether a request goes on to the next memory type after that result, of an object or of its mapping. */
bool refusing_has_next(VkResult result);

/* Notes what a call came to, and returns it. */
VkResult refusing_noted(enum refusable function, VkResult result);

const char *refusing_name(enum refusable function);
uint64_t refusing_calls(enum refusable function);
uint64_t refusing_refused(enum refusable function);

#endif
