/* What bench/peers measures: an allocator over the counting device. wallthyme.c and vma.cc are the two sides, and a
   program has one of them. Each ends the program where a call is refused. */
#ifndef WALLTHYME_BENCH_SIDE_H
#define WALLTHYME_BENCH_SIDE_H

#include "device.h"

#ifdef __cplusplus
extern "C" {
#endif

/* A resource to create. Buffer or image, the other one is null. */
typedef struct side_wish {
    const VkBufferCreateInfo *buffer;
    const VkImageCreateInfo *image;
    uint32_t memory_types; /* bit i permits memory type i */
} side_wish;

/* A resource with its memory. */
typedef struct side_resource {
    VkBuffer buffer; /* one of the two */
    VkImage image;
    uint64_t allocation; /* the allocator's name for its memory */
} side_resource;

/* Creates the allocator. The way is a word that the side's own file lists. */
void side_open(const char *way);

side_resource side_create(const side_wish *wish);
void side_destroy(const side_resource *resource);

/* Destroys the allocator, which holds no resource then. */
void side_close(void);

#ifdef __cplusplus
}
#endif

#endif
