/* Wallthyme over the first Vulkan device. It ends with 0 where the validation layer has no message, and else with 1. */
#include "first_use.h"

#include <inttypes.h>
#include <stdio.h>

int main(void)
{
    static device d;
    device_open(&d);
    use_first(&d);
    device_close(&d);
    if (!d.is_validated)
        fprintf(stderr, "vulkan: the validation layer is not installed\n");
    printf("a buffer was created, filled and destroyed, %" PRIu64 " messages\n", d.messages);
    return d.messages == 0 ? 0 : 1;
}
