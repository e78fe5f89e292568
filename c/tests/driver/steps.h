/* What one thread does: it creates resources, copies between them, compares them and frees them, in drawn order. */
#ifndef STEPS_H
#define STEPS_H

#include "resources.h"

enum { MOST_ALIVE = 320 /* of all threads together */ };

typedef struct share {
    worker worker;
    resource live[MOST_ALIVE];
    uint32_t count, most; /* how many are alive, and how many may be */
    uint32_t most_alive;
    uint32_t wanted, tried; /* resources */
    uint32_t most_bytes;    /* of a content */
    uint64_t steps;
    resource reader; /* where the device copies what the host compares */
} share;

/* Opens a zeroed share of the run, for the thread of that number, from 1 on. Nothing is refused yet. */
void share_open(share *s, run *r, uint32_t number, uint64_t seed, uint32_t resources);

/* A thread: tries as many resources as are wanted. */
void *share_work(void *s);

/* Ends the program where the report has another name for a block of the share's than its resource has. */
void share_check_names(const share *s, const char *report);

/* The live resource of an allocation, which has to be there. */
const resource *share_resource_of(const share *s, wtv_allocation allocation);

/* A thread: frees what is left. */
void *share_end(void *s);

#endif
