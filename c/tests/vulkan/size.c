/* A million allocations and returns leave the process as large as a thousand: the same ones come again and again, so
 * that what the device holds, which is memory of the process here, is never more than in the first round. */
#include "stub.h"

#include <string.h>

enum { ROUND = 1000, ROUNDS = 1000, LIVE = 64 };
/* What malloc may take more until its free pieces fit. Where one allocation in 16 loses a piece, it is 2 MiB. */
enum { MOST_KIBIBYTES = 512 };

typedef struct held {
    VkBuffer buffer;
    wtv_allocation allocation;
} held;

/* The most memory that the process ever had since it began, or -1 where the system does not say. */
static long peak_kibibytes(void)
{
    char line[256];
    long peak = -1;
    FILE *status = fopen("/proc/self/status", "r");
    if (status == NULL)
        return -1;
    while (peak < 0 && fgets(line, sizeof line, status) != NULL)
        if (sscanf(line, "VmHWM: %ld kB", &peak) != 1)
            peak = -1;
    fclose(status);
    return peak;
}

/* One of them in sixteen has an object of its own, half of these stay mapped, and all are mapped when they are freed;
   another one has a buffer. One in five has a name. */
static void exchange(wtv_allocator *a, held *h, uint64_t number)
{
    const VkMemoryRequirements needs = {1 + mixed(number) % 3000, 64, STUB_ALL_TYPES};
    const VkBufferCreateInfo info = stub_buffer_info(needs.size);
    wtv_request request = {.usage = number % 2 == 0 ? WT_USAGE_UPLOAD : WT_USAGE_FAST_DEVICE_ACCESS};
    void *bytes;
    must(wtv_destroy_buffer(a, h->buffer, h->allocation) == VK_SUCCESS, "a block is not taken back");
    *h = (held){0};
    if (number % 3 == 0)
        request.usage |= WT_USAGE_TRANSIENT;
    if (number % 16 == 0)
        request.dedicated = WT_REQUIRED;
    if (number % 32 == 0)
        request.flags = WTV_MAPPED;
    if (number % 16 == 1)
        must(wtv_create_buffer(a, &info, &request, &h->buffer, &h->allocation, NULL) == VK_SUCCESS, "no buffer");
    else
        must(wtv_allocate(a, &needs, &request, &h->allocation, NULL) == VK_SUCCESS, "no block");
    if (number % 2 == 0)
        must(wtv_map(a, h->allocation, &bytes) == VK_SUCCESS, "a block is not mapped");
    if (number % 5 == 0)
        must(wtv_set_name(a, h->allocation, "one in five") == VK_SUCCESS, "a block is not named");
}

/* Each round ends with nothing live. */
static void exchange_all(wtv_allocator *a, held *live)
{
    for (uint64_t i = 0; i < ROUND; i++)
        exchange(a, &live[mixed(i) % LIVE], i);
    for (size_t i = 0; i < LIVE; i++) {
        must(wtv_destroy_buffer(a, live[i].buffer, live[i].allocation) == VK_SUCCESS, "a block is not taken back");
        live[i] = (held){0};
    }
}

int main(void)
{
    static held live[LIVE];
    stub_plan plan = stub_usual_plan();
    stub *driver = stub_open(&plan);
    wtv_create_info info = stub_info(driver);
    wtv_allocator *a;
    must(wtv_create(&info, &a) == VK_SUCCESS, "no allocator is created");
    exchange_all(a, live);
    long few = peak_kibibytes();
    for (int i = 1; i < ROUNDS; i++)
        exchange_all(a, live);
    long many = peak_kibibytes();
    must(wtv_destroy(a, NULL, 0, NULL) == VK_SUCCESS, "an allocator is not destroyed");
    must(stub_close(driver) == 0, "the stub found failures");
    if (few < 0) {
        printf("size: left out, since /proc/self/status does not say it here\n");
        return 0;
    }
    printf("size: %ld KiB after %d allocations and returns, %ld KiB after %d\n", few, ROUND, many, ROUND * ROUNDS);
    must(many - few <= MOST_KIBIBYTES, "the process grows");
    return 0;
}
