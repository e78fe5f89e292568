/* Wallthyme over Vulkan, for C++ (C++11 and later): objects that own their memory and free it themselves. It needs only
 * this header and wallthyme_vulkan.h, whose structs, rules and results it shares.
 *
 *     wallthyme::Allocator memory = wallthyme::Allocator::create(info);
 *     wallthyme::Buffer buffer = memory.create_buffer(buffer_info, wallthyme::request(WT_USAGE_UPLOAD));
 *     buffer.write(0, bytes, size);
 *
 * Errors. A call that fails throws wallthyme::Error, which carries the VkResult, and nothing has changed. The results
 * are listed at the call of wallthyme_vulkan.h that is named; each call of an empty object adds
 * VK_ERROR_VALIDATION_FAILED_EXT. Where exceptions are off, or with WALLTHYME_NO_EXCEPTIONS, a call returns its result:
 * Returned<T> is a Result<T> then, with a value and a VkResult, and Done is a VkResult. Files of both forms may be
 * linked into one program. Moves and destructors never fail.
 *
 * Ownership. Each object can be moved, and not copied. One that was moved from is empty, like one that was created
 * without arguments: it may be assigned, reset or destroyed. Objects may end in any order: each keeps the C
 * allocator alive, which ends with the last one. That costs 8 bytes per object, and an atomic operation at its start
 * and its end. The program must make sure of this:
 * - The VkDevice ends after all of them.
 * - The device is done with a buffer, image or block before it ends; what was bound to a Block is destroyed first.
 * - What it makes by calls of wallthyme_vulkan.h with get(), or takes by release(), it frees before the last object
 *   ends. Otherwise the C allocator stays as it is, with its memory objects, and a debug build prints the live blocks:
 *   see set_live_handler.
 *
 * Threads. As in wallthyme_vulkan.h: different threads may use different objects at once, unless the allocator has
 * WTV_CREATE_NO_LOCK. While an object is moved, assigned, reset or destroyed, only one thread may use it.
 *
 * Handles are Vulkan's own, so those of vulkan.hpp go in and come out by its conversions. Sizes and offsets are bytes.
 */
#ifndef WALLTHYME_HPP
#define WALLTHYME_HPP

#include "wallthyme_vulkan.h"

#include <atomic>
#include <cstddef>
#include <cstdio>
#include <memory>
#include <new>
#include <utility>

#if !defined(WALLTHYME_NO_EXCEPTIONS) && !defined(__cpp_exceptions) && !defined(__EXCEPTIONS) && !defined(_CPPUNWIND)
#define WALLTHYME_NO_EXCEPTIONS
#endif
#ifndef WALLTHYME_NO_EXCEPTIONS
#include <stdexcept>
#include <string>
#endif

#if __cplusplus >= 201703L || (defined(_MSVC_LANG) && _MSVC_LANG >= 201703L)
#define WALLTHYME_NODISCARD [[nodiscard]]
#elif defined(__GNUC__)
#define WALLTHYME_NODISCARD __attribute__((warn_unused_result))
#else
#define WALLTHYME_NODISCARD
#endif
#ifdef WALLTHYME_NO_EXCEPTIONS
#define WALLTHYME_DONE WALLTHYME_NODISCARD Done
#else
#define WALLTHYME_DONE Done
#endif

namespace wallthyme {

/* The name of a result, such as "VK_ERROR_DEVICE_LOST", where wallthyme_vulkan.h names it or drivers return it from the
   calls that are made; for any other "a VkResult". */
inline const char *name_of(VkResult result) noexcept {
    switch (result) {
    case VK_SUCCESS: return "VK_SUCCESS";
    case VK_ERROR_OUT_OF_HOST_MEMORY: return "VK_ERROR_OUT_OF_HOST_MEMORY";
    case VK_ERROR_OUT_OF_DEVICE_MEMORY: return "VK_ERROR_OUT_OF_DEVICE_MEMORY";
    case VK_ERROR_INITIALIZATION_FAILED: return "VK_ERROR_INITIALIZATION_FAILED";
    case VK_ERROR_DEVICE_LOST: return "VK_ERROR_DEVICE_LOST";
    case VK_ERROR_MEMORY_MAP_FAILED: return "VK_ERROR_MEMORY_MAP_FAILED";
    case VK_ERROR_EXTENSION_NOT_PRESENT: return "VK_ERROR_EXTENSION_NOT_PRESENT";
    case VK_ERROR_FEATURE_NOT_PRESENT: return "VK_ERROR_FEATURE_NOT_PRESENT";
    case VK_ERROR_TOO_MANY_OBJECTS: return "VK_ERROR_TOO_MANY_OBJECTS";
    case VK_ERROR_INVALID_EXTERNAL_HANDLE: return "VK_ERROR_INVALID_EXTERNAL_HANDLE";
    case VK_ERROR_INVALID_OPAQUE_CAPTURE_ADDRESS: return "VK_ERROR_INVALID_OPAQUE_CAPTURE_ADDRESS";
    case VK_ERROR_VALIDATION_FAILED_EXT: return "VK_ERROR_VALIDATION_FAILED_EXT";
    default: return "a VkResult";
    }
}

/* A request for memory of a usage (WT_USAGE_..), with the program's own value; its other fields are defaults. */
inline wtv_request request(uint32_t usage, uint64_t user = 0) noexcept {
    wtv_request made = wtv_request();
    made.usage = usage;
    made.user = user;
    return made;
}

/* The parameters of an allocator; its other fields are defaults. */
inline wtv_create_info create_info(VkInstance instance, VkPhysicalDevice physical_device, VkDevice device,
                                   PFN_vkGetInstanceProcAddr get_instance_proc_addr, uint32_t api_version) noexcept {
    wtv_create_info made = wtv_create_info();
    made.instance = instance;
    made.physical_device = physical_device;
    made.device = device;
    made.get_instance_proc_addr = get_instance_proc_addr;
    made.api_version = api_version;
    return made;
}

/* What is called where the last object over an allocator ends while blocks of it are live: live is their number. The C
   allocator is the handler's then, with these blocks: it may look at them (wtv_blocks), free them and destroy the
   allocator (wtv_destroy), at once or later. It must not throw, and each thread may call it. */
using LiveHandler = void (*)(wtv_allocator *allocator, std::size_t live);

/* Prints the size, the key, the program's own value and the name, if any, of each live block to standard error. */
inline void print_live(wtv_allocator *allocator, std::size_t live) {
    const std::size_t room = 16;
    wtv_block blocks[room];
    wtv_allocation after = 0;
    std::size_t count = 0;
    std::fprintf(stderr, "wallthyme: %llu blocks are live at the end of their allocator\n",
                 static_cast<unsigned long long>(live));
    do {
        if (wtv_blocks(allocator, after, blocks, room, &count) != VK_SUCCESS)
            return;
        for (std::size_t i = 0; i < count; i++) {
            after = blocks[i].allocation;
            const bool has_name = blocks[i].name != nullptr;
            std::fprintf(stderr, "wallthyme: live block: size %llu, key %llu, user %llu%s%s\n",
                         static_cast<unsigned long long>(blocks[i].size), static_cast<unsigned long long>(after),
                         static_cast<unsigned long long>(blocks[i].user), has_name ? ", name " : "",
                         has_name ? blocks[i].name : "");
        }
    } while (count == room);
}

/* Where the handler of all allocators is kept: null, or what is called. */
inline std::atomic<LiveHandler> &live_handler() noexcept {
#ifdef NDEBUG
    static std::atomic<LiveHandler> handler(nullptr);
#else
    static std::atomic<LiveHandler> handler(print_live);
#endif
    return handler;
}

/* Sets the handler of all allocators, and returns the one before. Null: nothing is called. At first it is print_live,
   and null with NDEBUG; in a program of files with and without NDEBUG it is either of them. */
inline LiveHandler set_live_handler(LiveHandler handler) noexcept { return live_handler().exchange(handler); }

/* Memory types that serve a usage, the best one first. */
struct Candidates {
    uint32_t types[32];
    uint32_t count;
    const uint32_t *begin() const noexcept { return types; }
    const uint32_t *end() const noexcept { return types + count; }
};

/* Files with and without exceptions have different types of the same names. */
#ifdef WALLTHYME_NO_EXCEPTIONS
inline namespace with_results {

/* What a call returns: its value, empty or zero where the result is not VK_SUCCESS. */
template <class T> struct Result {
    VkResult result;
    T value;
    explicit operator bool() const noexcept { return result == VK_SUCCESS; }
};

template <class T> using Returned = Result<T>;
using Done = VkResult;

namespace detail {
inline Done done(VkResult result, const char *) noexcept { return result; }
template <class T> Returned<T> returned(VkResult result, T &value, const char *) noexcept {
    return Returned<T>{result, std::move(value)};
}
} // namespace detail
#else
inline namespace with_exceptions {

/* What a call throws. Where there is no memory for its text, std::bad_alloc is thrown in its place. */
class Error : public std::runtime_error {
public:
    Error(VkResult result, const char *call)
        : std::runtime_error(std::string("wallthyme: ") + call + ": " + name_of(result)), result_(result) {}
    VkResult result() const noexcept { return result_; }

private:
    VkResult result_;
};

template <class T> using Returned = T;
using Done = void;

namespace detail {
inline Done done(VkResult result, const char *call) {
    if (result != VK_SUCCESS)
        throw Error(result, call);
}
template <class T> Returned<T> returned(VkResult result, T &value, const char *call) {
    done(result, call);
    return std::move(value);
}
} // namespace detail
#endif

namespace detail {

/* Keeps a C allocator alive, if it has one. */
class Keeper {
public:
    Keeper() noexcept : kept_(nullptr) {}
    Keeper(const Keeper &other) noexcept : kept_(other.kept_) {
        if (kept_ != nullptr)
            kept_->owners.fetch_add(1, std::memory_order_relaxed);
    }
    Keeper(Keeper &&other) noexcept : kept_(other.kept_) { other.kept_ = nullptr; }
    Keeper &operator=(Keeper other) noexcept {
        std::swap(kept_, other.kept_);
        return *this;
    }
    ~Keeper() {
        if (kept_ != nullptr && kept_->owners.fetch_sub(1, std::memory_order_acq_rel) == 1) {
            std::size_t live = 0;
            const VkResult result = wtv_destroy(kept_->allocator, nullptr, 0, &live);
            const LiveHandler handler = result != VK_SUCCESS ? live_handler().load() : nullptr;
            if (handler != nullptr)
                handler(kept_->allocator, live);
            delete kept_;
        }
    }

    VkResult create(const wtv_create_info &info) noexcept {
        std::unique_ptr<Kept> kept(new (std::nothrow) Kept());
        if (!kept)
            return VK_ERROR_OUT_OF_HOST_MEMORY;
        VkResult result = wtv_create(&info, &kept->allocator);
        if (result == VK_SUCCESS) {
            *this = Keeper();
            kept_ = kept.release();
        }
        return result;
    }
    wtv_allocator *get() const noexcept { return kept_ != nullptr ? kept_->allocator : nullptr; }

private:
    struct Kept {
        std::atomic<std::size_t> owners;
        wtv_allocator *allocator;
        Kept() noexcept : owners(1), allocator(nullptr) {}
    };
    Kept *kept_;
};

/* A call of the C interface, if there is an allocator to make it with. */
template <class... Parameters, class... Arguments>
VkResult call(VkResult (*function)(wtv_allocator *, Parameters...), const Keeper &keeper, Arguments... arguments) {
    return keeper.get() != nullptr ? function(keeper.get(), arguments...) : VK_ERROR_VALIDATION_FAILED_EXT;
}

struct FreeText {
    void operator()(char *text) const noexcept { wtv_free_text(text); }
};

} // namespace detail

/* A text that ends in a 0: get(). */
using Text = std::unique_ptr<char, detail::FreeText>;

/* A mapping of a block. Mappings of one block nest, and all have the same bytes. */
class Mapping {
public:
    Mapping() noexcept : allocation_(0), bytes_(nullptr) {}
    Mapping(Mapping &&other) noexcept : Mapping() { swap(other); }
    Mapping &operator=(Mapping &&other) noexcept {
        Mapping taken(std::move(other));
        swap(taken);
        return *this;
    }
    /* wtv_unmap, which flushes nothing. Where the block was freed meanwhile, it does nothing. */
    ~Mapping() { detail::call(wtv_unmap, keeper_, allocation_); }
    void reset() noexcept { *this = Mapping(); }

    explicit operator bool() const noexcept { return bytes_ != nullptr; }

    /* The block's first byte, as long as block and mapping live; null for an empty mapping. */
    void *get() const noexcept { return bytes_; }
    template <class T> T *as() const noexcept { return static_cast<T *>(bytes_); }

    /* wtv_flush after the host wrote, and wtv_invalidate before it reads, from offset on; VK_WHOLE_SIZE: to the end. */
    WALLTHYME_DONE flush(VkDeviceSize offset = 0, VkDeviceSize size = VK_WHOLE_SIZE) const {
        const wtv_range range = {allocation_, offset, size};
        return detail::done(detail::call(wtv_flush, keeper_, &range, std::size_t(1)), "flush");
    }
    WALLTHYME_DONE invalidate(VkDeviceSize offset = 0, VkDeviceSize size = VK_WHOLE_SIZE) const {
        const wtv_range range = {allocation_, offset, size};
        return detail::done(detail::call(wtv_invalidate, keeper_, &range, std::size_t(1)), "invalidate");
    }

private:
    friend class Allocation;
    void swap(Mapping &other) noexcept {
        std::swap(keeper_, other.keeper_);
        std::swap(allocation_, other.allocation_);
        std::swap(bytes_, other.bytes_);
    }
    detail::Keeper keeper_;
    wtv_allocation allocation_;
    void *bytes_;
};

class Allocator;

/* What Buffer, Image and Block have in common: the block that they own. */
class Allocation {
public:
    Allocation(const Allocation &) = delete;
    Allocation &operator=(const Allocation &) = delete;

    /* Whether it is not empty. */
    explicit operator bool() const noexcept { return allocation_ != 0; }

    /* Its name for calls of wallthyme_vulkan.h; 0 for an empty one. */
    wtv_allocation allocation() const noexcept { return allocation_; }

    /* Reports the block: wtv_block_of. With WTV_MAPPED its mapped is a pointer that lasts as long as the block, and its
       name is valid until it gets another one or ends. */
    Returned<wtv_block> info() const {
        wtv_block block = wtv_block();
        const VkResult result = detail::call(wtv_block_of, keeper_, allocation_, &block);
        return detail::returned(result, block, "info");
    }

    /* wtv_map. The mapping must end before the block does. */
    WALLTHYME_NODISCARD Returned<Mapping> map() const {
        Mapping made;
        const VkResult result = detail::call(wtv_map, keeper_, allocation_, &made.bytes_);
        if (result == VK_SUCCESS) {
            made.keeper_ = keeper_;
            made.allocation_ = allocation_;
        }
        return detail::returned(result, made, "map");
    }

    /* Copies bytes in from offset on, and flushes them: wtv_write; or invalidates, and copies out: wtv_read. */
    WALLTHYME_DONE write(VkDeviceSize offset, const void *bytes, std::size_t size) const {
        return detail::done(detail::call(wtv_write, keeper_, allocation_, offset, bytes, size), "write");
    }
    WALLTHYME_DONE read(VkDeviceSize offset, void *bytes, std::size_t size) const {
        return detail::done(detail::call(wtv_read, keeper_, allocation_, offset, bytes, size), "read");
    }

    /* Sets the program's own value of the block: wtv_set_user. */
    WALLTHYME_DONE set_user(uint64_t user) const {
        return detail::done(detail::call(wtv_set_user, keeper_, allocation_, user), "set_user");
    }

    /* Gives the block a name, which is copied; null or an empty one takes it away: wtv_set_name. */
    WALLTHYME_DONE set_name(const char *name) const {
        return detail::done(detail::call(wtv_set_name, keeper_, allocation_, name), "set_name");
    }

    /* A range of the block for Allocator::flush and invalidate, from offset on; VK_WHOLE_SIZE: to its end. */
    wtv_range range(VkDeviceSize offset = 0, VkDeviceSize size = VK_WHOLE_SIZE) const noexcept {
        const wtv_range made = {allocation_, offset, size};
        return made;
    }

protected:
    Allocation() noexcept : allocation_(0) {}
    ~Allocation() = default;
    void swap(Allocation &other) noexcept {
        std::swap(keeper_, other.keeper_);
        std::swap(allocation_, other.allocation_);
    }
    detail::Keeper keeper_;
    wtv_allocation allocation_;
};

namespace detail {

/* A buffer or an image with its block. */
template <class Handle, VkResult (*destroy)(wtv_allocator *, Handle, wtv_allocation),
          VkResult (*bind_at)(wtv_allocator *, wtv_allocation, VkDeviceSize, Handle)>
class Resource : public Allocation {
public:
    Resource() noexcept : handle_() {}
    Resource(Resource &&other) noexcept : Resource() { swap(other); }
    Resource &operator=(Resource &&other) noexcept {
        Resource taken(std::move(other));
        swap(taken);
        return *this;
    }
    ~Resource() { call(destroy, keeper_, handle_, allocation_); }

    /* Vulkan's handle; null for an empty one. */
    Handle get() const noexcept { return handle_; }

    /* Binds the resource to its block, where it was created with WTV_DONT_BIND: wtv_bind_buffer, wtv_bind_image. */
    WALLTHYME_DONE bind() const {
        return done(call(bind_at, keeper_, allocation_, VkDeviceSize(0), handle_), "bind");
    }

    /* Ends it now: destroys the resource and frees its block. */
    void reset() noexcept { *this = Resource(); }

    /* Leaves resource and block to the program, which destroys them by the C interface with the earlier get() and
       allocation(). The object is empty then. */
    void release() noexcept {
        allocation_ = 0;
        handle_ = Handle();
        keeper_ = Keeper();
    }

private:
    friend class wallthyme::Allocator;
    void swap(Resource &other) noexcept {
        Allocation::swap(other);
        std::swap(handle_, other.handle_);
    }
    Handle handle_;
};

} // namespace detail

/* A buffer with its memory. */
class Buffer : public detail::Resource<VkBuffer, wtv_destroy_buffer, wtv_bind_buffer> {};

/* An image with its memory. */
class Image : public detail::Resource<VkImage, wtv_destroy_image, wtv_bind_image> {};

/* Memory without a resource of its own. What is bound to it is the program's, to be destroyed before the block ends. */
class Block : public Allocation {
public:
    Block() noexcept {}
    Block(Block &&other) noexcept : Block() { swap(other); }
    Block &operator=(Block &&other) noexcept {
        Block taken(std::move(other));
        swap(taken);
        return *this;
    }
    ~Block() { detail::call(wtv_free, keeper_, allocation_); }

    /* Frees it now. */
    void reset() noexcept { *this = Block(); }

    /* Leaves the block to the program, which frees it by wtv_free with the earlier allocation(). */
    void release() noexcept {
        allocation_ = 0;
        keeper_ = detail::Keeper();
    }

    /* Binds the program's own resource to the block, from offset on: wtv_bind_buffer, wtv_bind_image. */
    WALLTHYME_DONE bind_buffer(VkBuffer buffer, VkDeviceSize offset = 0) const {
        return detail::done(detail::call(wtv_bind_buffer, keeper_, allocation_, offset, buffer), "bind_buffer");
    }
    WALLTHYME_DONE bind_image(VkImage image, VkDeviceSize offset = 0) const {
        return detail::done(detail::call(wtv_bind_image, keeper_, allocation_, offset, image), "bind_image");
    }

private:
    friend class Allocator;
};

/* An allocator over a device. It may end before what it made. */
class Allocator {
public:
    Allocator() noexcept {}
    Allocator(Allocator &&other) noexcept = default;
    Allocator &operator=(Allocator &&other) noexcept = default;
    Allocator(const Allocator &) = delete;
    Allocator &operator=(const Allocator &) = delete;

    /* Creates an allocator: wtv_create. */
    WALLTHYME_NODISCARD static Returned<Allocator> create(const wtv_create_info &info) {
        Allocator made;
        const VkResult result = made.keeper_.create(info);
        return detail::returned(result, made, "create");
    }

    explicit operator bool() const noexcept { return get() != nullptr; }

    /* The C allocator, for calls of wallthyme_vulkan.h; null for an empty one. It lives as long as objects over it. */
    wtv_allocator *get() const noexcept { return keeper_.get(); }

    /* Gives up its share: what it made lives on. */
    void reset() noexcept { keeper_ = detail::Keeper(); }

    /* Creates a buffer or an image, allocates memory for it and, without WTV_DONT_BIND, binds it: wtv_create_buffer,
       wtv_create_image. */
    WALLTHYME_NODISCARD Returned<Buffer> create_buffer(const VkBufferCreateInfo &info,
                                                       const wtv_request &request = wtv_request()) const {
        return resource<Buffer>(wtv_create_buffer, info, request, "create_buffer");
    }
    WALLTHYME_NODISCARD Returned<Image> create_image(const VkImageCreateInfo &info,
                                                     const wtv_request &request = wtv_request()) const {
        return resource<Image>(wtv_create_image, info, request, "create_image");
    }

    /* Allocates memory: wtv_allocate. The second and third do so for the program's own resource and, without
       WTV_DONT_BIND, bind it: wtv_allocate_for_buffer, wtv_allocate_for_image. */
    WALLTHYME_NODISCARD Returned<Block> allocate(const VkMemoryRequirements &requirements,
                                                 const wtv_request &request = wtv_request()) const {
        return block("allocate", wtv_allocate, &requirements, &request);
    }
    WALLTHYME_NODISCARD Returned<Block> allocate_for_buffer(VkBuffer buffer,
                                                            const wtv_request &request = wtv_request()) const {
        return block("allocate_for_buffer", wtv_allocate_for_buffer, buffer, &request);
    }
    WALLTHYME_NODISCARD Returned<Block> allocate_for_image(VkImage image,
                                                           const wtv_request &request = wtv_request()) const {
        return block("allocate_for_image", wtv_allocate_for_image, image, &request);
    }

    /* Imports a range of the program's own memory object as a block: wtv_import. */
    WALLTHYME_NODISCARD Returned<Block> import_memory(VkDeviceMemory memory, uint32_t memory_type,
                                                      VkDeviceSize object_size, VkDeviceSize offset,
                                                      VkDeviceSize size) const {
        return block("import_memory", wtv_import, memory, memory_type, object_size, offset, size);
    }

    /* The memory types that serve a usage (WT_USAGE_..): wtv_candidates. */
    Returned<Candidates> candidates(uint32_t usage, uint32_t memory_type_bits) const {
        Candidates found = Candidates();
        const VkResult result =
            detail::call(wtv_candidates, keeper_, usage, memory_type_bits, &found.types[0], &found.count);
        return detail::returned(result, found, "candidates");
    }

    /* Flushes or invalidates ranges of mapped blocks in at most one call of the driver: wtv_flush, wtv_invalidate. */
    WALLTHYME_DONE flush(const wtv_range *ranges, std::size_t count) const {
        return detail::done(detail::call(wtv_flush, keeper_, ranges, count), "flush");
    }
    WALLTHYME_DONE invalidate(const wtv_range *ranges, std::size_t count) const {
        return detail::done(detail::call(wtv_invalidate, keeper_, ranges, count), "invalidate");
    }

    /* Limits each heap by the budget that the driver reports, or one heap by hand: wtv_update_budget and
       wtv_set_heap_limit. */
    WALLTHYME_DONE update_budget() const {
        return detail::done(detail::call(wtv_update_budget, keeper_), "update_budget");
    }
    WALLTHYME_DONE set_heap_limit(uint32_t heap, VkDeviceSize limit) const {
        return detail::done(detail::call(wtv_set_heap_limit, keeper_, heap, limit), "set_heap_limit");
    }

    /* What is held: of one heap (wtv_heap), in all (wtv_count), of one memory type (wtv_statistics). */
    Returned<wt_heap_counts> heap(uint32_t index) const {
        wt_heap_counts counts = wt_heap_counts();
        const VkResult result = detail::call(wtv_heap, keeper_, index, &counts);
        return detail::returned(result, counts, "heap");
    }
    Returned<wt_counts> count() const {
        wt_counts counts = wt_counts();
        const VkResult result = detail::call(wtv_count, keeper_, &counts);
        return detail::returned(result, counts, "count");
    }
    Returned<wt_type_statistics> statistics(uint32_t memory_type) const {
        wt_type_statistics sums = wt_type_statistics();
        const VkResult result = detail::call(wtv_statistics, keeper_, memory_type, &sums);
        return detail::returned(result, sums, "statistics");
    }

    /* The sums of each heap and memory type as JSON (wtv_statistics_text); with each object too (wtv_report_text). */
    Returned<Text> statistics_text() const { return text(wtv_statistics_text, "statistics_text"); }
    Returned<Text> report_text() const { return text(wtv_report_text, "report_text"); }

    /* Frees the memory objects that no block needs: wtv_cleanup. */
    WALLTHYME_DONE cleanup() const { return detail::done(detail::call(wtv_cleanup, keeper_), "cleanup"); }

private:
    template <class Made, class Info, class Handle>
    Returned<Made> resource(VkResult (*function)(wtv_allocator *, const Info *, const wtv_request *, Handle *,
                                                 wtv_allocation *, wtv_block *),
                            const Info &info, const wtv_request &request, const char *name) const {
        Made made;
        const VkResult result =
            detail::call(function, keeper_, &info, &request, &made.handle_, &made.allocation_, nullptr);
        if (result == VK_SUCCESS)
            made.keeper_ = keeper_;
        return detail::returned(result, made, name);
    }

    template <class Function, class... Arguments>
    Returned<Block> block(const char *name, Function function, Arguments... arguments) const {
        Block made;
        const VkResult result = detail::call(function, keeper_, arguments..., &made.allocation_, nullptr);
        if (result == VK_SUCCESS)
            made.keeper_ = keeper_;
        return detail::returned(result, made, name);
    }

    Returned<Text> text(VkResult (*function)(wtv_allocator *, char **), const char *name) const {
        char *written = nullptr;
        const VkResult result = detail::call(function, keeper_, &written);
        Text made(written);
        return detail::returned(result, made, name);
    }

    detail::Keeper keeper_;
};

} // inline namespace
} // namespace wallthyme

#undef WALLTHYME_NODISCARD
#undef WALLTHYME_DONE

#endif
