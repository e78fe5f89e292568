// The same triangle as main.c draws, with its memory in C++. What it prints and returns is the same too.
#include "triangle.h"
#include "wallthyme.hpp"

#include <cstdio>
#include <vector>

using namespace wallthyme;

// All of it ends with the function, in the right order; or before, where something is thrown.
static void draw_picture(device &d) {
    const Allocator memory =
        Allocator::create(create_info(d.instance, d.physical, d.handle, vkGetInstanceProcAddr, d.api_version));
    const Buffer vertices = memory.create_buffer(
        buffer_info(sizeof VERTICES, VK_BUFFER_USAGE_VERTEX_BUFFER_BIT | VK_BUFFER_USAGE_TRANSFER_DST_BIT),
        request(WT_USAGE_FAST_DEVICE_ACCESS));
    const Image texture = memory.create_image(
        image_info(TEXTURE_SIDE, VK_IMAGE_USAGE_SAMPLED_BIT | VK_IMAGE_USAGE_TRANSFER_DST_BIT),
        request(WT_USAGE_FAST_DEVICE_ACCESS));
    const Image target = memory.create_image(
        image_info(TARGET_SIDE, VK_IMAGE_USAGE_COLOR_ATTACHMENT_BIT | VK_IMAGE_USAGE_TRANSFER_SRC_BIT),
        request(WT_USAGE_FAST_DEVICE_ACCESS));
    // An intent: the buffer's own usage and what the host does choose the memory. It stays mapped as long as it lives.
    wtv_request written_in_order = request(WTV_USAGE_AUTO | WT_USAGE_TRANSIENT);
    written_in_order.flags = WTV_HOST_ACCESS_SEQUENTIAL_WRITE | WTV_MAPPED;
    const Buffer staging = memory.create_buffer(
        buffer_info(STAGED_VERTICES + sizeof VERTICES, VK_BUFFER_USAGE_TRANSFER_SRC_BIT), written_in_order);
    const Buffer read_back = memory.create_buffer(buffer_info(TARGET_BYTES, VK_BUFFER_USAGE_TRANSFER_DST_BIT),
                                                  request(WT_USAGE_DOWNLOAD));
    vertices.set_name("vertices");
    texture.set_name("texture");
    target.set_name("target");
    staging.set_name("staging");
    read_back.set_name("read back");

    std::vector<unsigned char> pixels(TARGET_BYTES);
    fill_checkerboard(static_cast<unsigned char *>(staging.info().mapped));
    const wtv_range texels = staging.range(0, TEXTURE_BYTES);
    memory.flush(&texels, 1);
    staging.write(STAGED_VERTICES, VERTICES, sizeof VERTICES);
    const resources handles = {vertices.get(), texture.get(), target.get(), staging.get(), read_back.get()};
    draw(&d, &handles);
    read_back.read(0, pixels.data(), pixels.size());
    write_png("triangle.png", pixels.data());
    std::puts(memory.report_text().get());
}

int main() {
    device d;
    bool is_drawn = false;
    device_open(&d);
    try {
        draw_picture(d);
        is_drawn = true;
    } catch (const std::exception &error) {
        std::fprintf(stderr, "triangle: %s\n", error.what());
    }
    device_close(&d);
    return is_drawn && d.messages == 0 ? 0 : 1;
}
