/* Calls of the allocator, checked against what the driver returned during them. */
#ifndef CALLS_H
#define CALLS_H

#include "run.h"

/* Before and after a call that allocates memory. An error has to be the driver's, or the allocator's for a limit; and,
   in a run of one thread, all has to be as before. The result is returned. */
void request_begins(worker *w, const wtv_request *request);
VkResult request_ends(worker *w, VkResult result);

/* Instead of the second one, where the allocator has to refuse the request with that error without a call of the
   driver. */
void request_is_forbidden(worker *w, VkResult result, VkResult error);

/* After another call that the driver may refuse: it returns the driver's error, and is made again. The program ends
   where a call is refused too often.

       do
           refusing_begins();
       while (is_refused(w, wtv_flush(..))); */
bool is_refused(worker *w, VkResult result);

#endif
