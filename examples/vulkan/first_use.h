/* The first use: from a VkDevice to a buffer with its memory and bytes in it, and its end. In C and in C++. */
#ifndef FIRST_USE_H
#define FIRST_USE_H

#include "device.h"

#ifdef __cplusplus
extern "C" {
#endif

void use_first(const device *d);

#ifdef __cplusplus
}
#endif
#endif
