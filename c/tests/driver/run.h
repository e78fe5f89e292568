/* A run of the program, and its threads. */
#ifndef RUN_H
#define RUN_H

#include "commands.h"
#include "driver.h"
#include "pages.h"
#include "refusing.h"
#include "wallthyme_vulkan.h"

enum {
    MOST_BYTES = 1 << 20, /* of a resource's content */
    MOST_RANGES = 1024,   /* of one flush */
};

/* What all threads share. */
typedef struct run {
    device *device;
    wtv_allocator *allocator;
    pages pages;
    uint32_t threads;
    bool is_integrated; /* the device is reported as an integrated one */
    bool is_shifted;    /* resources are bound one byte off, and nothing else is done with them */
} run;

enum {
    INTENTS = 3,
    ACCESSES = 5, /* of the host: none; sequential writes; those or a copy; random access; that or a copy */
};

/* What one thread counts. */
typedef struct tally {
    uint64_t created, bound_by_hand, imports; /* resources, by how they got their memory */
    uint64_t copies, compared;                /* by the device; bytes, by the host */
    uint64_t unchanged;                       /* refused requests after which all was compared with what was before */
    uint64_t unasked;                         /* requests that ended for a heap's limit, and asked the driver nothing */
    uint64_t after_device_memory, after_objects; /* granted after the driver refused an object for want of these */
    uint64_t unmapped, after_mapping;         /* requests of which the driver did not map an object; granted later */
    uint64_t over_limit;                      /* blocks in held objects of a heap over its limit */
    uint64_t intents[INTENTS][ACCESSES];      /* created with an intent, by the host's access */
    uint64_t filled, staged;                  /* where a copy will do: filled by the host itself, or by a copy */
    uint64_t ordered;                         /* requests that asked memory types in the order of their properties */
    uint64_t mapped, mapped_alone;            /* blocks that are mapped for life; those of a dedicated object */
    uint64_t by_pointer;                      /* times the host wrote or read one of them without another mapping */
    uint64_t bound_later;                     /* resources that the program bound after it had allocated for them */
    uint64_t aligned;                         /* blocks at a multiple that the request alone asked for, other than 0 */
    uint64_t named, renamed;                  /* blocks; names that were replaced or taken away */
    uint64_t forbidden;                       /* requests, and names, that the allocator refused */
    uint64_t mixed;                           /* refused writes after which each byte was the old or the new one */
    uint64_t refused_device_memory, refused_host_memory, refused_types, refused_objects, refused_lost;
} tally;

/* A thread. It has its own resources, command buffer and draws. */
typedef struct worker {
    run *run;
    uint32_t number;
    uint64_t random;
    refuser refuser;
    commands commands;
    tally tally;
    uint64_t opened;   /* resources */
    uint32_t retries;  /* of the current call */
    const wtv_request *request; /* the current one */
    char *report;      /* what the allocator held before the current request, in a run of one thread */
    wt_counts counts;  /* the same */
    driver_counts driver; /* the same */
    wtv_range ranges[MOST_RANGES];
    unsigned char bytes[MOST_BYTES];
} worker;

#endif
