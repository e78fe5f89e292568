/* Host memory for the driver by callbacks of the program, which count what the driver holds. */
#ifndef CALLBACKS_H
#define CALLBACKS_H

#include "device.h"

const VkAllocationCallbacks *callbacks_of_program(void);

/* Whether a call of the driver has these callbacks, or a copy of them. */
bool callbacks_are_of_program(const VkAllocationCallbacks *callbacks);

/* How many pieces were allocated in all, and how many of them are not freed. */
uint64_t callbacks_allocated(void);
uint64_t callbacks_held(void);

#endif
