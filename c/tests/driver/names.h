/* Names of blocks, as the program has them and as JSON writes them. */
#ifndef NAMES_H
#define NAMES_H

#include <stdbool.h>
#include <stdint.h>

enum { MOST_NAME = 64 /* bytes, with the 0 at the end */ };

/* Two empty texts: no name. */
typedef struct name {
    char text[MOST_NAME]; /* UTF-8 */
    char json[MOST_NAME]; /* the same between JSON's quotes */
} name;

/* A drawn name with that number in it, so that it is no other block's. */
name name_drawn(uint64_t *random, uint64_t number);

/* A drawn text that is not UTF-8. */
const char *name_malformed(uint64_t *random);

/* Whether the allocator has a block under this name: a null text is no name. */
bool name_is(const name *n, const char *text);

#endif
