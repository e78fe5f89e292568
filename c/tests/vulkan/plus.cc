// wallthyme.hpp over a stub of a driver: moves, ends in each order, containers, wishes, errors in the middle, threads.
//
// It is compiled twice and linked into one program: with exceptions, and without exceptions and RTTI, so that files of
// both forms meet.
#include "wallthyme.hpp"

#include <algorithm>
#include <map>
#include <stdbool.h>
#include <stdio.h>
#include <stdlib.h>
#include <string.h>
#include <thread>
#include <type_traits>
#include <vector>

extern "C" {
#include "stub.h"
}

using namespace wallthyme;

// Whether the next memory that the header asks for lacks.
extern bool memory_lacks;

namespace {

#ifdef WALLTHYME_NO_EXCEPTIONS
const char *const FORM = "results";

template <class T> T got(Result<T> returned) {
    must(returned && returned.result == VK_SUCCESS, "a call that has to serve ended in an error");
    return std::move(returned.value);
}

void done(VkResult result) { must(result == VK_SUCCESS, "a call that has to serve ended in an error"); }

template <class T> VkResult error_of(const Result<T> &returned) {
    must(bool(returned) == (returned.result == VK_SUCCESS), "a result does not say whether it is an error");
    return returned.result;
}

VkResult error_of(VkResult result) { return result; }

#define DONE(call) done(call)
#define ERROR_OF(call) error_of(call)
#else
const char *const FORM = "exceptions";

template <class T> T got(T &&returned) { return std::move(returned); }

template <class Call> VkResult error_of(Call call) {
    try {
        call();
    } catch (const Error &error) {
        must(std::string(error.what()).find(name_of(error.result())) != std::string::npos, "an error has no name");
        return error.result();
    }
    return VK_SUCCESS;
}

#define DONE(call) call
#define ERROR_OF(call) error_of([&] { return call; })
#endif

// A driver, which has to be as it was once the test ends.
class Driver {
public:
    explicit Driver(stub_plan plan = stub_usual_plan()) : stub_(stub_open(&plan)) {}
    ~Driver() { must(stub_close(stub_) == 0, "the driver found failures"); }
    Driver(const Driver &) = delete;
    Driver &operator=(const Driver &) = delete;
    stub *get() const { return stub_; }
    Allocator allocator() const { return got(Allocator::create(stub_info(stub_))); }
    stub_held held() const { return stub_held_now(stub_); }
    bool is_empty() const {
        const stub_held now = held();
        return now.objects == 0 && now.mapped == 0 && now.buffers == 0 && now.images == 0 && now.bound == 0;
    }

private:
    stub *stub_;
};

wtv_request visible(uint32_t memory_type) {
    wtv_request made = request(WT_USAGE_HOST_ACCESS | WT_USAGE_TRANSIENT);
    made.memory_types = 1u << memory_type;
    return made;
}

wtv_request own() {
    wtv_request made = request(WT_USAGE_FAST_DEVICE_ACCESS);
    made.dedicated = WT_REQUIRED;
    return made;
}

VkMemoryRequirements needs_of(VkDeviceSize size) {
    const VkMemoryRequirements needs = {size, 16, STUB_ALL_TYPES};
    return needs;
}

Buffer buffer_of(const Allocator &memory, VkDeviceSize size = 1000) {
    return got(memory.create_buffer(stub_buffer_info(size), visible(STUB_CACHED)));
}

Image image_of(const Allocator &memory) { return got(memory.create_image(stub_image_info(16, 16, true))); }

Block block_of(const Allocator &memory) { return got(memory.allocate(needs_of(500), request(WT_USAGE_UPLOAD))); }

uint64_t live(const Allocator &memory) { return got(memory.count()).blocks; }

// ---- What the types promise. ----

template <class T> void promises() {
    static_assert(std::is_nothrow_default_constructible<T>::value, "an empty object costs nothing");
    static_assert(std::is_nothrow_move_constructible<T>::value, "vectors move");
    static_assert(std::is_nothrow_move_assignable<T>::value, "vectors move");
    static_assert(std::is_nothrow_destructible<T>::value, "an end does not fail");
    static_assert(!std::is_copy_constructible<T>::value && !std::is_copy_assignable<T>::value, "none is copied");
}

void test_types() {
    promises<Allocator>();
    promises<Buffer>();
    promises<Image>();
    promises<Block>();
    promises<Mapping>();
    static_assert(sizeof(Buffer) == 3 * sizeof(void *), "a pointer beside the handle and the allocation");
}

// ---- Moves. ----

template <class T> void assign_itself(T &object) {
    T &same = object;
    object = std::move(same);
}

// Objects that own a block.
template <class T, class Make> void test_moves_of(const Driver &driver, const Allocator &memory, Make make) {
    const stub_held before = driver.held();
    {
        T first = make();
        const wtv_allocation name = first.allocation();
        must(first && name != 0 && live(memory) == 1, "a new object is not live");
        T second(std::move(first));
        must(!first && first.allocation() == 0, "an object that was moved from is not empty");
        must(second && second.allocation() == name && live(memory) == 1, "a moved object is not what it was");
        first.reset();
        assign_itself(first);
        assign_itself(second);
        must(!first && second.allocation() == name && live(memory) == 1, "assigning to itself changed an object");
        first = make();
        must(first && first.allocation() != name && live(memory) == 2, "an object that was moved from is not assigned");
        first = std::move(second);
        must(first.allocation() == name && !second && live(memory) == 1, "what was assigned over did not end");
        std::swap(first, second);
        must(!first && second.allocation() == name && live(memory) == 1, "objects are not exchanged");
        second.reset();
        must(!second && live(memory) == 0, "a reset object is live");
        first = make();
    }
    must(live(memory) == 0, "an object did not end");
    const stub_held after = driver.held();
    must(after.buffers == before.buffers && after.images == before.images, "a resource did not end");
}

void test_moves_of_mappings(const Driver &driver, const Allocator &memory) {
    wtv_request alone = visible(STUB_CACHED); // the driver maps it when it is asked
    alone.dedicated = WT_REQUIRED;
    DONE(memory.cleanup()); // shared objects are mapped
    const Buffer buffer = got(memory.create_buffer(stub_buffer_info(100), alone));
    must(driver.held().mapped == 0, "a block of its own object is mapped");
    Mapping first = got(buffer.map());
    void *bytes = first.get();
    must(first && bytes != nullptr && first.as<char>() == bytes && driver.held().mapped == 1, "it is not mapped");
    Mapping second(std::move(first));
    must(!first && first.get() == nullptr && second.get() == bytes, "a mapping is not moved");
    assign_itself(second);
    assign_itself(first);
    must(!first && second.get() == bytes && driver.held().mapped == 1, "assigning to itself changed a mapping");
    first = got(buffer.map());
    must(first.get() == bytes && driver.held().mapped == 1, "mappings do not nest");
    second.reset();
    must(!second && driver.held().mapped == 1, "a mapping ended the other one");
    const Buffer other = got(memory.create_buffer(stub_buffer_info(100), alone));
    second = got(other.map());
    must(driver.held().mapped == 2, "another buffer is not mapped");
    second = std::move(first);
    must(second.get() == bytes && driver.held().mapped == 1, "a mapping that was assigned over did not end");
    second = Mapping();
    must(driver.held().mapped == 0, "the last mapping did not end");
}

void test_moves_of_allocators(const Driver &driver) {
    Allocator first = driver.allocator();
    wtv_allocator *handle = first.get();
    Allocator second(std::move(first));
    must(!first && first.get() == nullptr && second.get() == handle, "an allocator is not moved");
    assign_itself(second);
    assign_itself(first);
    must(!first && second && second.get() == handle, "assigning to itself changed an allocator");
    const Buffer buffer = buffer_of(second);
    second = driver.allocator(); // the first one lives on for the buffer
    must(second && second.get() != handle && live(second) == 0, "an allocator is not assigned over");
    DONE(buffer.write(0, "abc", 3));
    first = std::move(second);
    must(first && !second, "an allocator that was moved from is not assigned");
}

void test_moves() {
    const Driver driver;
    {
        const Allocator memory = driver.allocator();
        test_moves_of<Buffer>(driver, memory, [&] { return buffer_of(memory); });
        test_moves_of<Image>(driver, memory, [&] { return image_of(memory); });
        test_moves_of<Block>(driver, memory, [&] { return block_of(memory); });
        test_moves_of_mappings(driver, memory);
    }
    test_moves_of_allocators(driver);
    must(driver.is_empty(), "something is held");
}

// ---- Ends. ----

enum part { ALLOCATOR, BUFFER, IMAGE, BLOCK, MAPPING, OTHER_MAPPING, PARTS };

struct Parts {
    Allocator memory;
    Buffer buffer;
    Image image;
    Block block;
    Mapping mapping, other_mapping;

    explicit Parts(const Driver &driver)
        : memory(driver.allocator()), buffer(buffer_of(memory)), image(image_of(memory)), block(block_of(memory)),
          mapping(got(buffer.map())), other_mapping(got(block.map())) {}

    void end(int which) {
        switch (which) {
        case ALLOCATOR: memory.reset(); break;
        case BUFFER: buffer.reset(); break;
        case IMAGE: image.reset(); break;
        case BLOCK: block.reset(); break;
        case MAPPING: mapping.reset(); break;
        default: other_mapping.reset();
        }
    }
};

void end_in_order(const int *order) {
    const Driver driver;
    Parts parts(driver);
    bool has_ended[PARTS] = {false};
    for (int i = 0; i < PARTS; i++) {
        parts.end(order[i]);
        has_ended[order[i]] = true;
        const stub_held held = driver.held();
        must(held.buffers == (has_ended[BUFFER] ? 0u : 1u) && held.images == (has_ended[IMAGE] ? 0u : 1u),
             "another resource ended than the one that was to end");
    }
    must(driver.is_empty(), "something is held after the last end");
}

void test_ends() {
    int order[PARTS] = {ALLOCATOR, BUFFER, IMAGE, BLOCK, MAPPING, OTHER_MAPPING}, orders = 0;
    do {
        end_in_order(order);
        orders++;
    } while (std::next_permutation(order, order + PARTS));
    must(orders == 720, "not each order");
}

// ---- Containers. ----

void test_vectors(const Driver &driver, const Allocator &memory) {
    std::vector<Buffer> buffers;
    for (unsigned i = 0; i < 100; i++) {
        const unsigned char byte = static_cast<unsigned char>(i);
        buffers.push_back(buffer_of(memory));
        DONE(buffers.back().write(0, &byte, 1));
    }
    buffers.erase(buffers.begin() + 10, buffers.begin() + 40);
    std::sort(buffers.begin(), buffers.end(), [](const Buffer &one, const Buffer &other) {
        unsigned char bytes[2];
        DONE(one.read(0, &bytes[0], 1));
        DONE(other.read(0, &bytes[1], 1));
        return bytes[0] > bytes[1];
    });
    must(buffers.size() == 70 && live(memory) == 70 && driver.held().buffers == 70, "not the buffers that were left");
    for (unsigned i = 0; i < 70; i++) {
        const unsigned char byte = *stub_buffer_bytes(driver.get(), buffers[i].get());
        must(byte == (i < 60 ? 99 - i : 69 - i), "a buffer is not its own");
    }
}

void test_containers() {
    const Driver driver;
    {
        const Allocator memory = driver.allocator();
        test_vectors(driver, memory);
        std::map<int, Image> images;
        for (int i = 0; i < 20; i++)
            images[i % 7] = image_of(memory);
        must(images.size() == 7 && live(memory) == 7 && driver.held().images == 7, "not one image for each key");
        images.erase(3);
        must(live(memory) == 6, "an erased image did not end");
    }
    must(driver.is_empty(), "something is held");
}

// ---- Bytes. ----

void test_bytes() {
    const Driver driver;
    const Allocator memory = driver.allocator();
    const Buffer buffer = buffer_of(memory), other = buffer_of(memory);
    unsigned char *device = stub_buffer_bytes(driver.get(), buffer.get());
    unsigned char *other_device = stub_buffer_bytes(driver.get(), other.get());
    char read[4] = "";
    DONE(buffer.write(10, "abc", 3));
    must(memcmp(device + 10, "abc", 3) == 0, "written bytes are not the device's");
    memcpy(device + 20, "xyz", 3);
    DONE(buffer.read(20, read, 3));
    must(strcmp(read, "xyz") == 0, "read bytes are not the device's");

    const Mapping mapping = got(buffer.map()), other_mapping = got(other.map());
    memcpy(mapping.as<char>() + 10, "def", 3);
    must(memcmp(device + 10, "abc", 3) == 0, "the stub's memory is coherent, so that this test finds nothing");
    DONE(mapping.flush(10, 3));
    must(memcmp(device + 10, "def", 3) == 0, "a mapping is not flushed");
    memcpy(mapping.get(), "ghi", 3);
    memcpy(other_mapping.get(), "jkl", 3);
    memcpy(other_mapping.as<char>() + 300, "jkl", 3); // in the next atom
    const wtv_range ranges[] = {buffer.range(), other.range(0, 3)};
    const uint64_t calls = stub_calls(driver.get(), STUB_FLUSH);
    DONE(memory.flush(ranges, 2));
    must(memcmp(device, "ghi", 3) == 0 && memcmp(other_device, "jkl", 3) == 0, "ranges are not flushed");
    must(memcmp(other_device + 300, "jkl", 3) != 0, "more than the range is flushed");
    must(stub_calls(driver.get(), STUB_FLUSH) == calls + 1, "two ranges are not flushed by one call");
    memcpy(device, "mno", 3);
    memcpy(other_device, "pqr", 3);
    DONE(mapping.invalidate());
    must(memcmp(mapping.get(), "mno", 3) == 0 && memcmp(other_mapping.get(), "jkl", 3) == 0, "more is invalidated");
    DONE(memory.invalidate(ranges, 2));
    must(memcmp(other_mapping.get(), "pqr", 3) == 0, "ranges are not invalidated");
}

// ---- Blocks for what the program creates, and what it takes over. ----

void test_blocks() {
    const Driver driver;
    const VkDevice device = stub_info(driver.get()).device;
    const VkBufferCreateInfo buffer_info = stub_buffer_info(300);
    const VkImageCreateInfo image_info = stub_image_info(16, 8, true);
    VkBuffer buffer = VkBuffer(), other = VkBuffer();
    VkImage image = VkImage();
    must(stub_table.create_buffer(device, &buffer_info, nullptr, &buffer) == VK_SUCCESS
             && stub_table.create_buffer(device, &buffer_info, nullptr, &other) == VK_SUCCESS
             && stub_table.create_image(device, &image_info, nullptr, &image) == VK_SUCCESS,
         "the stub refused");
    const Allocator memory = driver.allocator();
    wtv_request for_image = request(WT_USAGE_FAST_DEVICE_ACCESS);
    for_image.flags = WT_OPTIMAL;
    const Block first = got(memory.allocate_for_buffer(buffer, visible(STUB_CACHED)));
    const Block second = got(memory.allocate_for_image(image, for_image));
    const VkMemoryRequirements needs = stub_needs_of_buffer(driver.get(), other);
    const Block third = got(memory.allocate(needs, visible(STUB_CACHED)));
    DONE(third.bind_buffer(other));
    DONE(third.write(0, "abc", 3));
    must(memcmp(stub_buffer_bytes(driver.get(), other), "abc", 3) == 0, "a buffer is bound elsewhere");
    must(driver.held().bound == 3 && live(memory) == 3, "not all is bound");

    const VkDeviceMemory object = stub_make_object(driver.get(), STUB_COHERENT, 4096);
    Block imported = got(memory.import_memory(object, STUB_COHERENT, 4096, 1024, 2048));
    const wtv_block told = got(imported.info());
    must(told.memory == object && told.offset == 1024 && told.size == 2048, "an imported block lies elsewhere");
    DONE(imported.set_user(77));
    must(got(imported.info()).user == 77, "a value is not set");
    stub_table.destroy_buffer(device, buffer, nullptr);
    stub_table.destroy_buffer(device, other, nullptr);
    stub_table.destroy_image(device, image, nullptr);
}

// ---- Intents, mappings that last, binds by the program, names. ----

wtv_request staging(uint32_t flags) {
    wtv_request made = request(WTV_USAGE_AUTO);
    made.flags = WTV_MAPPED | WTV_HOST_ACCESS_SEQUENTIAL_WRITE | flags;
    made.dedicated = WT_REQUIRED;
    return made;
}

void test_mapped(const Driver &driver, const Allocator &memory) {
    const Buffer buffer = got(memory.create_buffer(stub_buffer_info(100), staging(0)));
    const wtv_block block = got(buffer.info());
    must(block.memory_type == STUB_COHERENT && block.mapped != nullptr, "a staging buffer is not mapped");
    memcpy(block.mapped, "abc", 3);
    must(memcmp(stub_buffer_bytes(driver.get(), buffer.get()), "abc", 3) == 0, "a pointer is another block's");
    const Mapping mapping = got(buffer.map());
    must(mapping.get() == block.mapped && driver.held().mapped == 1, "a mapping is another pointer");
    const Buffer moved(got(memory.create_buffer(stub_buffer_info(100), staging(0))));
    must(got(moved.info()).mapped != nullptr && driver.held().mapped == 2, "a moved buffer is not mapped");
}

void test_bound_later(const Driver &driver, const Allocator &memory) {
    wtv_request unbound = request(WTV_USAGE_AUTO_PREFER_DEVICE);
    unbound.flags = WTV_DONT_BIND;
    const uint64_t bound = driver.held().bound;
    const Buffer buffer = got(memory.create_buffer(stub_buffer_info(100), unbound));
    const Image image = got(memory.create_image(stub_image_info(16, 16, true), unbound));
    must(driver.held().bound == bound, "what the program binds is bound");
    DONE(buffer.bind());
    DONE(image.bind());
    const wtv_block block = got(buffer.info()), of_image = got(image.info());
    must(driver.held().bound == bound + 2, "what the program binds is not bound");
    must(stub_buffer_bytes(driver.get(), buffer.get())
             == stub_memory_bytes(driver.get(), block.memory, block.offset, block.asked),
         "a buffer is bound elsewhere");
    must(stub_image_bytes(driver.get(), image.get())
             == stub_memory_bytes(driver.get(), of_image.memory, of_image.offset, of_image.asked),
         "an image is bound elsewhere");
}

void test_names(const Allocator &memory) {
    const Buffer buffer = buffer_of(memory);
    const Block block = block_of(memory);
    DONE(buffer.set_name("mesh"));
    DONE(block.set_name("a block"));
    must(strcmp(got(buffer.info()).name, "mesh") == 0 && strcmp(got(block.info()).name, "a block") == 0, "no name");
    must(strstr(got(memory.report_text()).get(), ",\"name\":\"mesh\"") != nullptr, "a report lacks a name");
    must(ERROR_OF(buffer.set_name("\xff")) == VK_ERROR_VALIDATION_FAILED_EXT, "a name is not UTF-8");
    must(strcmp(got(buffer.info()).name, "mesh") == 0, "a name that is refused takes the place of another one");
    DONE(buffer.set_name(nullptr));
    DONE(block.set_name(""));
    must(got(buffer.info()).name == nullptr && got(block.info()).name == nullptr, "a name is not taken away");
    DONE(buffer.set_name("freed with its block"));
}

void test_wishes() {
    const Driver driver;
    {
        const Allocator memory = driver.allocator();
        test_mapped(driver, memory);
        test_bound_later(driver, memory);
        test_names(memory);
        must(ERROR_OF(memory.allocate(needs_of(100), request(WTV_USAGE_AUTO))) == VK_ERROR_VALIDATION_FAILED_EXT,
             "an intent is for a block alone");
        must(ERROR_OF(memory.create_buffer(stub_buffer_info(100), staging(WTV_HOST_ACCESS_RANDOM)))
                 == VK_ERROR_VALIDATION_FAILED_EXT,
             "two kinds of access go together");
        must(live(memory) == 0, "an error left a block behind");
    }
    must(driver.is_empty(), "something is held");
}

void test_release() {
    const Driver driver;
    const Allocator memory = driver.allocator();
    Buffer buffer = buffer_of(memory);
    Block block = block_of(memory);
    const VkBuffer handle = buffer.get();
    const wtv_allocation name = buffer.allocation(), block_name = block.allocation();
    buffer.release();
    block.release();
    must(!buffer && !block && buffer.get() == VkBuffer(), "a released object is not empty");
    must(live(memory) == 2 && driver.held().buffers == 1, "a released resource ended");
    must(wtv_destroy_buffer(memory.get(), handle, name) == VK_SUCCESS, "a released buffer is not the program's");
    must(wtv_free(memory.get(), block_name) == VK_SUCCESS, "a released block is not the program's");
}

// ---- Blocks that are live at the end. ----

struct AtEnd {
    unsigned calls;
    wtv_allocator *allocator;
    std::size_t live;
} at_end;

void note_end(wtv_allocator *allocator, std::size_t live) {
    at_end.calls++;
    at_end.allocator = allocator;
    at_end.live = live;
}

// Leaves a buffer and a block, and ends the allocator. Both stay, until they are freed here.
void leave_live(const Driver &driver) {
    const VkMemoryRequirements needs = needs_of(700);
    wtv_allocation block = 0;
    Buffer released;
    wtv_allocator *left = nullptr;
    VkBuffer handle = VkBuffer();
    wtv_allocation name = 0;
    {
        const Allocator memory = driver.allocator();
        released = buffer_of(memory);
        handle = released.get();
        name = released.allocation();
        left = memory.get();
        must(wtv_allocate(left, &needs, nullptr, &block, nullptr) == VK_SUCCESS, "no block");
    }
    const unsigned before = at_end.calls;
    released.release(); // the last one
    must(at_end.calls == before || (at_end.allocator == left && at_end.live == 2), "another end is told");
    must(wtv_destroy_buffer(left, handle, name) == VK_SUCCESS && wtv_free(left, block) == VK_SUCCESS,
         "a live block did not stay");
    must(wtv_destroy(left, nullptr, 0, nullptr) == VK_SUCCESS, "a C allocator did not stay");
}

void test_live_at_end() {
    const Driver driver;
    const LiveHandler usual = set_live_handler(note_end);
    must(usual == print_live, "a debug build prints nothing");
    at_end.calls = 0;
    leave_live(driver);
    must(at_end.calls == 1, "live blocks are left in silence");
    driver.allocator().reset();
    buffer_of(driver.allocator()).reset();
    must(at_end.calls == 1, "an allocator without live blocks has a handler called");
    must(set_live_handler(nullptr) == note_end, "another handler was set");
    leave_live(driver);
    must(at_end.calls == 1, "a handler is called that was taken off");
    must(set_live_handler(usual) == nullptr && driver.is_empty(), "something is held");
}

// ---- What is held. ----

void test_counts() {
    stub_plan plan = stub_usual_plan();
    plan.flags = WTV_CREATE_MEMORY_BUDGET;
    const Driver driver(plan);
    const Allocator memory = driver.allocator();
    const Buffer buffer = buffer_of(memory);
    const wtv_block block = got(buffer.info());
    must(block.memory_type == STUB_CACHED && block.asked >= 1000 && block.allocation == buffer.allocation(),
         "a block is not what was asked for");
    must(got(memory.count()).held == 1 && got(memory.heap(STUB_HOST_HEAP)).used > 0, "nothing is counted");
    must(got(memory.statistics(STUB_CACHED)).free_list.blocks == 1, "a memory type has no block");
    const Candidates found = got(memory.candidates(WT_USAGE_UPLOAD, STUB_ALL_TYPES));
    std::vector<uint32_t> types(found.begin(), found.end());
    must(!types.empty() && types.size() == found.count && types[0] == found.types[0], "no memory type serves");
    must(got(memory.statistics_text()).get()[0] == '{' && strstr(got(memory.report_text()).get(), "key") != nullptr,
         "a text is not written");
    stub_set_budget(driver.get(), STUB_HOST_HEAP, 1 << 20, 0);
    DONE(memory.update_budget());
    must(got(memory.heap(STUB_HOST_HEAP)).limit == 1 << 20, "a budget is not followed");
    DONE(memory.set_heap_limit(STUB_HOST_HEAP, 2 << 20));
    must(got(memory.heap(STUB_HOST_HEAP)).limit == 2 << 20, "a limit is not set");
    got(memory.create_buffer(stub_buffer_info(64), visible(STUB_COHERENT))).reset();
    const uint64_t held = driver.held().objects;
    DONE(memory.cleanup());
    must(driver.held().objects == held - 1, "what no block needs is not freed");
}

// ---- Errors. ----

void test_errors_of_calls() {
    const Driver driver;
    const Allocator memory = driver.allocator();
    VkBufferCreateInfo sparse = stub_buffer_info(100);
    sparse.flags = VK_BUFFER_CREATE_SPARSE_BINDING_BIT;
    const Buffer buffer = buffer_of(memory);
    const Block local = got(memory.allocate(needs_of(100), own()));
    char byte = 0;
    must(ERROR_OF(memory.create_buffer(sparse)) == VK_ERROR_FEATURE_NOT_PRESENT, "a sparse buffer is created");
    must(ERROR_OF(local.map()) == VK_ERROR_MEMORY_MAP_FAILED, "memory that the host does not see is mapped");
    must(ERROR_OF(buffer.write(1 << 20, &byte, 1)) == VK_ERROR_VALIDATION_FAILED_EXT, "bytes past the end are written");
    must(ERROR_OF(buffer.read(1 << 20, &byte, 1)) == VK_ERROR_VALIDATION_FAILED_EXT, "bytes past the end are read");
    must(ERROR_OF(memory.update_budget()) == VK_ERROR_EXTENSION_NOT_PRESENT, "budgets are there");
    must(ERROR_OF(memory.heap(STUB_HEAPS)) == VK_ERROR_VALIDATION_FAILED_EXT, "a heap is there that is not");
    must(ERROR_OF(memory.allocate(needs_of(1 << 30))) == VK_ERROR_OUT_OF_DEVICE_MEMORY, "a heap has more than it has");
    must(ERROR_OF(memory.allocate(needs_of(64), visible(STUB_PROTECTED))) == VK_ERROR_FEATURE_NOT_PRESENT,
         "a memory type serves that must not");
    const wtv_range range = local.range();
    must(ERROR_OF(memory.flush(&range, 1)) != VK_SUCCESS && ERROR_OF(memory.invalidate(&range, 1)) != VK_SUCCESS,
         "a block that is not mapped is flushed");
    must(live(memory) == 2, "an error left a block behind");
}

void test_errors_of_creation() {
    const Driver driver;
    must(ERROR_OF(Allocator::create(wtv_create_info())) == VK_ERROR_INITIALIZATION_FAILED, "nothing is needed");
    memory_lacks = true;
    must(ERROR_OF(Allocator::create(stub_info(driver.get()))) == VK_ERROR_OUT_OF_HOST_MEMORY, "memory does not lack");
    must(!memory_lacks, "the header asked for no memory");
    stub_hide(driver.get(), STUB_BIND_IMAGE);
    must(ERROR_OF(Allocator::create(stub_info(driver.get()))) == VK_ERROR_INITIALIZATION_FAILED, "a function is there");
}

void test_errors_of_empty_objects() {
    const VkResult refused = VK_ERROR_VALIDATION_FAILED_EXT;
    const Allocator memory;
    const Buffer buffer;
    const Block block;
    const Mapping mapping;
    char byte = 0;
    must(!memory && !buffer && !Image() && !block && !mapping, "an object without a creation is not empty");
    must(ERROR_OF(memory.create_buffer(stub_buffer_info(1))) == refused, "an empty allocator creates a buffer");
    must(ERROR_OF(memory.create_image(stub_image_info(1, 1, true))) == refused, "an empty allocator creates an image");
    must(ERROR_OF(memory.allocate(needs_of(1))) == refused, "an empty allocator allocates");
    must(ERROR_OF(memory.allocate_for_buffer(VkBuffer())) == refused, "an empty allocator allocates for a buffer");
    must(ERROR_OF(memory.allocate_for_image(VkImage())) == refused, "an empty allocator allocates for an image");
    must(ERROR_OF(memory.import_memory(VkDeviceMemory(), 0, 1, 0, 1)) == refused, "an empty allocator imports");
    must(ERROR_OF(memory.candidates(WT_USAGE_UPLOAD, 1)) == refused, "an empty allocator has memory types");
    must(ERROR_OF(memory.flush(nullptr, 0)) == refused, "an empty allocator flushes");
    must(ERROR_OF(memory.invalidate(nullptr, 0)) == refused, "an empty allocator invalidates");
    must(ERROR_OF(memory.update_budget()) == refused, "an empty allocator has budgets");
    must(ERROR_OF(memory.set_heap_limit(0, 1)) == refused, "an empty allocator has limits");
    must(ERROR_OF(memory.heap(0)) == refused && ERROR_OF(memory.count()) == refused, "an empty allocator counts");
    must(ERROR_OF(memory.statistics(0)) == refused, "an empty allocator has sums");
    must(ERROR_OF(memory.statistics_text()) == refused, "an empty allocator has sums as a text");
    must(ERROR_OF(memory.report_text()) == refused, "an empty allocator has a report");
    must(ERROR_OF(memory.cleanup()) == refused, "an empty allocator cleans up");
    must(ERROR_OF(buffer.info()) == refused && ERROR_OF(buffer.map()) == refused, "an empty buffer lies somewhere");
    must(ERROR_OF(buffer.write(0, &byte, 1)) == refused, "an empty buffer is written");
    must(ERROR_OF(buffer.read(0, &byte, 1)) == refused, "an empty buffer is read");
    must(ERROR_OF(buffer.set_user(1)) == refused, "an empty buffer has a value");
    must(ERROR_OF(buffer.set_name("none")) == refused, "an empty buffer has a name");
    must(ERROR_OF(buffer.bind()) == refused && ERROR_OF(Image().bind()) == refused, "nothing is bound");
    must(ERROR_OF(block.bind_buffer(VkBuffer())) == refused, "a buffer is bound to an empty block");
    must(ERROR_OF(block.bind_image(VkImage())) == refused, "an image is bound to an empty block");
    must(ERROR_OF(mapping.flush()) == refused, "an empty mapping is flushed");
    must(ERROR_OF(mapping.invalidate()) == refused, "an empty mapping is invalidated");
}

// A mapping and what was moved from are harmless after the block has ended.
void test_errors_after_ends() {
    const Driver driver;
    const Allocator memory = driver.allocator();
    Buffer buffer = buffer_of(memory);
    Mapping mapping = got(buffer.map());
    buffer.reset();
    const Buffer next = buffer_of(memory); // mostly in the same place
    const Mapping next_mapping = got(next.map());
    must(ERROR_OF(mapping.flush()) == VK_ERROR_VALIDATION_FAILED_EXT, "a mapping of a freed block is flushed");
    mapping.reset();
    DONE(next_mapping.flush());
}

// ---- Errors in the middle. ----

struct Three {
    Buffer buffer;
    Image image;
    Block block;
#ifndef WALLTHYME_NO_EXCEPTIONS
    explicit Three(const Allocator &memory)
        : buffer(memory.create_buffer(stub_buffer_info(100), own())),
          image(memory.create_image(stub_image_info(8, 8, true), own())), block(memory.allocate(needs_of(64), own())) {}
#endif
};

#ifdef WALLTHYME_NO_EXCEPTIONS
Result<Three> three(const Allocator &memory) {
    Result<Three> made = Result<Three>();
    Result<Buffer> buffer = memory.create_buffer(stub_buffer_info(100), own());
    if (!buffer) {
        made.result = buffer.result;
        return made;
    }
    Result<Image> image = memory.create_image(stub_image_info(8, 8, true), own());
    if (!image) {
        made.result = image.result;
        return made;
    }
    Result<Block> block = memory.allocate(needs_of(64), own());
    made.result = block.result;
    if (block) {
        made.value.buffer = std::move(buffer.value);
        made.value.image = std::move(image.value);
        made.value.block = std::move(block.value);
    }
    return made;
}
#else
Three three(const Allocator &memory) { return Three(memory); }
#endif

// Refuses the function's first call, then its second one, and so on, until all three are made. Returns how many times
// they were not.
unsigned refuse_each(const Driver &driver, const Allocator &memory, stub_function refused) {
    for (unsigned skip = 0;; skip++) {
        stub_refuse(driver.get(), refused, VK_ERROR_OUT_OF_HOST_MEMORY, skip, false);
        const VkResult result = ERROR_OF(three(memory));
        stub_refuse(driver.get(), STUB_FUNCTIONS, VK_SUCCESS, 0, false);
        must(live(memory) == 0 && driver.is_empty(), "an error in the middle left something behind");
        if (result == VK_SUCCESS)
            return skip;
        must(result == VK_ERROR_OUT_OF_HOST_MEMORY, "another error than the driver's");
    }
}

void test_middle() {
    const Driver driver;
    const Allocator memory = driver.allocator();
    must(refuse_each(driver, memory, STUB_ALLOCATE) == 3, "not three objects are asked for");
    must(refuse_each(driver, memory, STUB_CREATE_BUFFER) == 1, "not one buffer is created");
    must(refuse_each(driver, memory, STUB_CREATE_IMAGE) == 1, "not one image is created");
    must(refuse_each(driver, memory, STUB_BIND_BUFFER) == 1, "not one buffer is bound");
    must(refuse_each(driver, memory, STUB_BIND_IMAGE) == 1, "not one image is bound");
}

// A container that cannot grow keeps what it has.
void test_growth() {
    stub_plan plan = stub_usual_plan();
    plan.max_objects = 10;
    const Driver driver(plan);
    const Allocator memory = driver.allocator();
    std::vector<Buffer> buffers;
    VkResult result = VK_SUCCESS;
    while (result == VK_SUCCESS) {
#ifdef WALLTHYME_NO_EXCEPTIONS
        Result<Buffer> next = memory.create_buffer(stub_buffer_info(100), own());
        result = next.result;
        if (next)
            buffers.push_back(std::move(next.value));
#else
        result = error_of([&] { buffers.push_back(memory.create_buffer(stub_buffer_info(100), own())); });
#endif
    }
    must(result == VK_ERROR_TOO_MANY_OBJECTS && buffers.size() == 10 && live(memory) == 10, "not ten objects");
    buffers.erase(buffers.begin());
    must(driver.held().objects == 9, "a buffer did not end");
}

#ifndef WALLTHYME_NO_EXCEPTIONS
// From a device to a bound and filled buffer: four statements.
void first_use(VkInstance instance, VkPhysicalDevice physical_device, VkDevice device, stub *driver) {
    const Allocator memory = Allocator::create(
        create_info(instance, physical_device, device, stub_get_instance_proc_addr, VK_API_VERSION_1_1));
    const VkBufferCreateInfo info = {VK_STRUCTURE_TYPE_BUFFER_CREATE_INFO, nullptr, 0, 12,
                                     VK_BUFFER_USAGE_TRANSFER_SRC_BIT, VK_SHARING_MODE_EXCLUSIVE, 0, nullptr};
    const Buffer buffer = memory.create_buffer(info, request(WT_USAGE_UPLOAD));
    buffer.write(0, "hello block", 12);

    must(memcmp(stub_buffer_bytes(driver, buffer.get()), "hello block", 12) == 0, "the buffer is not filled");
}

void test_first_use() {
    const Driver driver;
    const wtv_create_info offered = stub_info(driver.get());
    first_use(offered.instance, offered.physical_device, offered.device, driver.get());
}

struct Odd {};

// What the program throws ends the members that were made.
struct Throwing {
    Buffer buffer;
    Mapping mapping;
    explicit Throwing(const Allocator &memory) : buffer(buffer_of(memory)), mapping(buffer.map()) { throw Odd(); }
};

void test_throwing() {
    const Driver driver;
    bool has_come = false;
    try {
        const Allocator memory = driver.allocator();
        const Throwing never(memory);
    } catch (const Odd &) {
        has_come = true;
    }
    must(has_come && driver.is_empty(), "something is held after a throw");
}

void test_texts() {
    try {
        Buffer().set_user(1);
        must(false, "an empty buffer has a value");
    } catch (const std::runtime_error &error) {
        must(strcmp(error.what(), "wallthyme: set_user: VK_ERROR_VALIDATION_FAILED_EXT") == 0, "an error has no text");
    }
}
#else
void test_texts() {
    const Result<Buffer> refused = Allocator().create_buffer(stub_buffer_info(1));
    must(!refused && !refused.value && refused.result == VK_ERROR_VALIDATION_FAILED_EXT, "an error has a value");
}
#endif

// ---- Threads. ----

// Each works with the allocator for a while; the last buffers end after it.
void test_threads() {
    const Driver driver;
    {
        Allocator memory = driver.allocator();
        std::vector<std::vector<Buffer>> kept(4);
        std::vector<std::thread> threads;
        for (auto &mine : kept)
            threads.emplace_back([&mine, &memory] {
                for (int i = 0; i < 200; i++) {
                    mine.push_back(buffer_of(memory, 64));
                    DONE(mine.back().write(0, &i, sizeof i));
                    if (mine.size() > 10)
                        mine.erase(mine.begin());
                }
            });
        for (auto &thread : threads)
            thread.join();
        must(live(memory) == 40, "not ten buffers of each thread");
        threads.clear();
        memory.reset();
        for (auto &mine : kept)
            threads.emplace_back([&mine] { mine.clear(); });
        for (auto &thread : threads)
            thread.join();
    }
    must(driver.is_empty(), "something is held");
}

void test_all() {
    test_types();
    test_moves();
    test_ends();
    test_containers();
    test_bytes();
    test_blocks();
    test_wishes();
    test_release();
    test_live_at_end();
    test_counts();
    test_errors_of_calls();
    test_errors_of_creation();
    test_errors_of_empty_objects();
    test_errors_after_ends();
    test_middle();
    test_growth();
    test_texts();
    test_threads();
    printf("plus: moves, ends in 720 orders, containers, wishes, errors in the middle, threads, with %s\n", FORM);
}

} // namespace

#ifdef WALLTHYME_NO_EXCEPTIONS
void test_with_results();
void test_with_results() { test_all(); }
#else
void test_with_results(); // of this file, compiled without exceptions

bool memory_lacks;

// What the header asks for.
void *operator new(std::size_t size, const std::nothrow_t &) noexcept {
    if (memory_lacks) {
        memory_lacks = false;
        return nullptr;
    }
    return ::operator new(size);
}

int main() {
    test_all();
    test_first_use();
    test_throwing();
    test_with_results();
    return 0;
}
#endif
