/* What resources ask the allocator for, and which memory types serve it. */
#ifndef REQUESTS_H
#define REQUESTS_H

#include "resources.h"

/* Draws the request of a resource, by the way in which it comes to its memory and by how the host reaches it. */
void request_draw(worker *w, resource *r);

/* Draws a request for it that has to be refused, and returns the error that is due. Where the way is not CREATED, the
   request has an intent. */
VkResult request_draw_forbidden(worker *w, resource *r);

/* Whether the request's properties order the memory types. */
bool request_is_ordered(const wtv_request *request);

/* Ends the program where such a request has asked memory types that do not serve it, or in another order. */
void request_check_order(worker *w, const resource *r);

/* Ends the program where the block that such a request was granted has a memory type that does not serve it, or where
   one before it was passed over. bits are the memory types of the requirements. */
void request_check_granted(worker *w, const resource *r, uint32_t bits);

/* Counts what the granted request asked for. */
void request_count(worker *w, const resource *r);

#endif
