// wallthyme.hpp beside vulkan.hpp: its handles and infos go in and come out, over a stub of a driver.
#include <vulkan/vulkan.hpp>

#include "wallthyme.hpp"

#include <stdbool.h>
#include <stdio.h>
#include <stdlib.h>

extern "C" {
#include "stub.h"
}

using wallthyme::request;

static void use(stub *driver) {
    const wtv_create_info offered = stub_info(driver);
    const vk::Instance instance(offered.instance);
    const vk::PhysicalDevice physical(offered.physical_device);
    const vk::Device device(offered.device);
    const wallthyme::Allocator memory = wallthyme::Allocator::create(
        wallthyme::create_info(instance, physical, device, stub_get_instance_proc_addr, VK_API_VERSION_1_1));

    const vk::BufferCreateInfo buffer_info({}, 100, vk::BufferUsageFlagBits::eTransferSrc);
    const wallthyme::Buffer buffer = memory.create_buffer(buffer_info, request(WT_USAGE_UPLOAD));
    const vk::Buffer buffer_handle = buffer.get();
    must(bool(buffer_handle) && stub_buffer_bytes(driver, buffer_handle) != nullptr, "a buffer is not bound");

    const vk::ImageCreateInfo image_info({}, vk::ImageType::e2D, vk::Format::eR8G8B8A8Unorm, {8, 8, 1}, 1, 1,
                                         vk::SampleCountFlagBits::e1, vk::ImageTiling::eOptimal,
                                         vk::ImageUsageFlagBits::eSampled);
    const wallthyme::Image image = memory.create_image(image_info);
    const vk::Image image_handle = image.get();
    must(stub_image_bytes(driver, image_handle) != nullptr, "an image is not bound");

    const vk::MemoryRequirements needs = stub_needs_of_buffer(driver, buffer_handle);
    const wallthyme::Block block = memory.allocate(needs, request(WT_USAGE_UPLOAD));
    must(block.info().size >= needs.size, "a block is too small");
    try {
        memory.heap(STUB_HEAPS);
        must(false, "a heap is there that is not");
    } catch (const wallthyme::Error &error) {
        must(static_cast<vk::Result>(error.result()) == vk::Result::eErrorValidationFailedEXT, "another error");
    }
}

int main() {
    const stub_plan plan = stub_usual_plan();
    stub *driver = stub_open(&plan);
    use(driver);
    must(stub_close(driver) == 0, "the driver found failures");
    printf("plus_hpp: handles and infos of vulkan.hpp\n");
    return 0;
}
