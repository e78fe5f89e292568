/* What the benches over the library share: a device that grants all. */
#ifndef WALLTHYME_BENCH_GRANTING_H
#define WALLTHYME_BENCH_GRANTING_H

#include "must.h"
#include "wallthyme.h"

/* A block as asked, where each question is granted. */
static wt_block allocate(wt_allocator *a, const wt_request *request)
{
    wt_question asked[WT_MAX_QUESTIONS + 1];
    wt_block block;
    size_t n = 0;
    uint32_t status;
    while ((status = wt_alloc(a, request, asked, n, &block, &asked[n])) == WT_ASK)
        asked[n++].answer = WT_GRANTED;
    must(status == WT_OK, wt_text(status));
    return block;
}

#endif
