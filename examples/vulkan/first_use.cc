#include "first_use.h"

#include "wallthyme.hpp"

using namespace wallthyme;

static const char GREETING[] = "hello block";

// Buffer and allocator end with the function.
static void fill_buffer(const device &d) {
    const Allocator memory =
        Allocator::create(create_info(d.instance, d.physical, d.handle, vkGetInstanceProcAddr, d.api_version));

    VkBufferCreateInfo info = {};
    info.sType = VK_STRUCTURE_TYPE_BUFFER_CREATE_INFO;
    info.size = sizeof GREETING;
    info.usage = VK_BUFFER_USAGE_TRANSFER_SRC_BIT;
    const Buffer buffer = memory.create_buffer(info, request(WT_USAGE_UPLOAD));
    buffer.write(0, GREETING, sizeof GREETING);
}

void use_first(const device *d) {
    try {
        fill_buffer(*d);
    } catch (const std::exception &error) {
        must(false, error.what());
    }
}
