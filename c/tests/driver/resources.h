/* Buffers and images with memory of the allocator, each with bytes of its own that are compared as long as it lives. */
#ifndef RESOURCES_H
#define RESOURCES_H

#include "names.h"
#include "run.h"

enum { TEXEL = 4 /* bytes */, MOST_TOGETHER = 4 };

/* Bytes that are drawn from a seed. Those of an image are its rows, without gaps; others have a width of 0. */
typedef struct content {
    uint64_t seed;
    uint32_t width, height; /* texels */
    uint32_t length;        /* bytes */
} content;

enum kind { BUFFER, LINEAR_IMAGE, OPTIMAL_IMAGE };

/* How the host reaches the bytes of a resource: by the device's copies, itself, or as its memory allows. */
enum reach { BY_COPIES, ITSELF, EITHER };

/* How a resource comes to its memory. The program itself creates it for all ways but the first: the allocator allocates
   for it, or by its requirements, or imports an object of the program's. */
enum way { CREATED, ALLOCATED_FOR, ALLOCATED, IMPORTED };

typedef struct resource {
    content content;
    enum kind kind;
    enum reach reach;
    enum way way;
    bool is_seen; /* the host writes and reads it */
    bool has_address;
    bool is_used; /* by the device, for more than copies */
    VkBuffer buffer;
    VkImage image;
    VkImageLayout layout;
    uint64_t first, pitch; /* where the rows of a linear image lie, counted from its start */
    wtv_request request;
    wtv_allocation allocation;
    wtv_block block;
    name name; /* of the block */
} resource;

/* ---- resources.c ---- */

/* Creates a resource with its memory, in one of several ways. After an error there is no resource. */
VkResult resource_open(worker *w, resource *r, const content *bytes, enum kind kind, enum reach reach);

/* Asks for a resource of that content by a request that the allocator has to refuse. */
void resource_ask_in_vain(worker *w, const content *bytes, enum kind kind);

/* Gives its block another name, or none, or tries that with bytes that are no text. */
void resource_rename(worker *w, resource *r);

/* Destroys it and frees its memory. */
void resource_close(worker *w, resource *r);

/* ---- host.c ---- */

/* Maps a resource's block: its first byte. A mapping that is refused is asked for again. */
unsigned char *resource_map(worker *w, const resource *r);

/* The host writes the content of resources that it sees, at most MOST_TOGETHER. Where it writes through pointers, one
   call flushes them all. */
void resources_write(worker *w, resource *const *several, uint32_t count);

/* The host compares their content. The program ends where a byte differs. */
void resources_compare(worker *w, resource *const *several, uint32_t count);

/* The host gives a buffer that it sees another content, and tries that once. After an error each byte is the old one or
   the new one, and the old content is written again. */
void resource_rewrite_once(worker *w, resource *r);

/* ---- copies.c ---- */

/* The device copies the content of one resource into another, and is done with it. */
void resource_copy(worker *w, resource *from, resource *to);

#endif
