/* Wallthyme: a proved GPU memory allocator, for C (C99 and later) and C++ (C++11 and later). It is a port of
 * gpu-alloc 0.6.0 to Rattle (Rust with contracts).
 *
 * It never calls back, and never touches a device. A call that needs the device returns WT_ASK with a question. The
 * caller asks its device, writes the answer into the question, and makes the same call again with the questions so far:
 *
 *     wt_question asked[WT_MAX_QUESTIONS + 1];
 *     size_t n = 0;
 *     while ((status = wt_alloc(&a, &request, asked, n, &block, &asked[n])) == WT_ASK) {
 *         asked[n].answer = my_device_answers(&asked[n]);
 *         n++;
 *     }
 *
 * What is proved of the calls (the contracts of the crates gpu_desk and wallthyme):
 * - Each live block is a range of a memory object, inside it, aligned as asked and at least as large. No two share a
 *   byte. In shared objects of memory that is not coherent, blocks begin and end at whole atoms, so none share one.
 * - A call that does not end in WT_OK changes nothing, and writes nothing to its pointers, but for *question at WT_ASK.
 * - Past what a call writes to an array, the array stays as it is.
 * - WT_OK comes only where there is no misuse. Each call but wt_open reports a misuse before WT_OUT_OF_HOST_MEMORY.
 * - Names of objects rise, and no name comes twice. Each object is reported once to be freed, when no block needs it.
 * - After all blocks are freed and wt_cleanup, no object is held.
 * - The requested bytes of an optimal block share no page with a linear one (WT_OPTIMAL).
 * - No question exceeds a heap's limit. WT_ALLOCATE_OWN is set exactly where an object will hold one block, of its
 *   size.
 * - A request with WT_HELD_ONLY asks nothing. It is served wherever its size is within the limit and a permitted memory
 *   type that serves its usage has a place for it, unless host memory runs out.
 *
 * What the caller owes, and nothing checks:
 * - Pointers are valid; one to 0 elements may be null. Nothing that a call writes overlaps anything else that the call
 *   gets, except that *question may stand right after the asked ones in their array.
 * - A wt_allocator is zeroed before its first use, and then written only by these calls. Between two calls it may be
 *   moved: its bytes are copied to another place, and the old place is not used again. While it is open, it is not
 *   copied in any other way.
 * - Answers are true.
 * - Threads: one call at a time for each allocator. A lock, or the start or join of a thread, orders each call before
 *   the next; different threads may make them. (It is proved that all that lies behind a wt_allocator may cross to
 *   another thread: the bound Send in crates/wallthyme/src/handle.rt.) The library has no lock inside. Hold yours from
 *   the first call of a request (or of wt_map) until its last call has returned and the object stands under its name in
 *   your table. Hold it too from wt_free or wt_cleanup until you have freed what wt_gone reports. Two allocators share
 *   nothing but the device.
 * - The library takes memory by malloc, realloc and free, which align to 16 bytes and return null on failure. A program
 *   that replaces one of them replaces all three. No call is made from a signal handler, nor in a child process between
 *   fork and exec.
 * - wt_open takes less than 96 KiB of the thread's stack, and each other call less than 12.
 *
 * What else to know:
 * - An object whose name wt_gone reports counts as free already. Free it before you make another one, or the device may
 *   hold more objects and bytes than the allocator counts.
 * - A shared object of a host-visible type is mapped whole when it is made (WT_MAP_MADE), and stays mapped until it is
 *   freed. Any other object is mapped while its block is (from wt_map to wt_unmap or wt_free).
 * - Sizes cost. A block in a buddy chunk is a power of two; one of a free list reaches from its start to the end of a
 *   free range, so a large alignment costs. With WT_CONFIG_PROTOTYPING 1,000 requests like a renderer's hold 1.5
 *   times what they ask, and 1.7 times after many exchanges; as WT_USAGE_TRANSIENT ones 1.0 to 1.1, and 1.5 times.
 *   In fit chunks (WT_FIT) a block is as long as asked, in whole grains: 1.13 to 1.14 times (COSTS.md).
 * - WT_OUT_OF_DEVICE_MEMORY may come while memory is free, since a chunk is mostly larger than the request. Whoever
 *   writes a device asks once more then, unless the request has WT_REQUIRED or WT_HELD_ONLY: with no question so far,
 *   for an object of its own, of the memory types for which none was refused.
 *
 *       for (const wt_question *q = asked; q < asked + n; q++)
 *           if (q->flags & WT_ALLOCATE_OWN && q->answer != WT_GRANTED) request.memory_types &= ~(1u << q->memory_type);
 *       request.dedicated = WT_REQUIRED;
 *
 *   So every memory type is tried shared before any is tried alone, and each such block costs an object. Where the
 *   second try fails too, the first status says why.
 * - A block may be used for several resources, one after the other or at once: the library knows only blocks. But where
 *   a block's object was made for one resource (VkMemoryDedicatedAllocateInfo, see WT_ALLOCATE_OWN), bind no other one
 *   to it (VUID-vkBindBufferMemory-memory-01508, VUID-vkBindImageMemory-memory-02628).
 * - Without a device it is a virtual allocator: grant every question, and use the ranges for whatever you like.
 *
 * Sizes, offsets and alignments are bytes. Each status has a text: wt_text.
 */
#ifndef WALLTHYME_H
#define WALLTHYME_H

#include <stddef.h>
#include <stdint.h>

#if UINTPTR_MAX < 0xffffffffffffffffu
#error "wallthyme.h is for platforms with 64-bit pointers"
#endif

/* What each call is declared with. On Windows a program that links the DLLs may define WT_DLL, which spares each call a
   jump; one that links the static libraries must not. */
#if defined(_WIN32) && defined(WT_DLL)
#define WT_API __declspec(dllimport)
#else
#define WT_API
#endif

#ifdef __cplusplus
extern "C" {
#endif

/* The version of header and library, their own: 0xMMmmpp. While MM is 0, those of another mm do not fit together. */
#define WT_VERSION 0x000a00u

/* What a call answers. */
enum {
    WT_OK = 0,
    WT_ASK = 1,                        /* a question has no answer yet: nothing has changed */

    /* Refusals. Nothing has changed. */
    WT_OUT_OF_DEVICE_MEMORY = 2,       /* the device's, or a heap's budget; or the size is over the limit */
    WT_OUT_OF_HOST_MEMORY = 3,         /* the device's or the library's, or a new shared object could not be mapped */
    WT_NO_COMPATIBLE_MEMORY_TYPES = 4, /* no permitted memory type serves the usage */
    WT_TOO_MANY_OBJECTS = 5,           /* as many objects are held as the device allows */
    WT_NON_HOST_VISIBLE = 6,           /* the block's memory is not host-visible */
    WT_ALREADY_MAPPED = 7,             /* the block is mapped */
    WT_MAP_FAILED = 8,                 /* the device failed to map for a reason of its own */

    /* Misuses. Nothing has changed. */
    WT_NOT_OPEN = 9,                   /* the allocator is closed */
    WT_ALREADY_OPEN = 10,              /* the allocator is open */
    WT_BAD_PROPERTIES = 11,            /* over 32 memory types, one of a missing heap, 2^32 heaps or more, an
                                          atom that is not a power of two of at most 2^62, a granularity that is
                                          neither 0 nor a power of two of at most 2^32, or a sharing that is neither
                                          WT_BUDDY nor WT_FIT */
    WT_UNKNOWN_KEY = 12,               /* no live block has this key: it was freed, or is another allocator's. (Keys of
                                          two allocators may be equal.) */
    WT_OTHER_QUESTION = 13,            /* an answer is to another question than the one asked in its place */
    WT_BAD_ANSWER = 14,                /* an answer is not one of the four below, or its question is invalid */
    WT_BAD_SIZE = 15,                  /* a size of 0 */
    WT_BAD_ALIGNMENT = 16,             /* align_mask + 1 is not a power of two of at most 2^63 */
    WT_BAD_USAGE = 17,                 /* usage bits without a name */
    WT_BAD_DEDICATED = 18,             /* not WT_SHARED, WT_PREFERRED or WT_REQUIRED */
    WT_NO_DEVICE_ADDRESS = 19,         /* WT_USAGE_DEVICE_ADDRESS without the device's feature */
    WT_BAD_RANGE = 20,                 /* a range ends past its block or object */
    WT_BAD_MEMORY_TYPE = 21,           /* there is no such memory type */
    WT_BAD_HEAP = 22,                  /* there is no such heap */
    WT_BAD_IMPORT_END = 23,            /* an import of memory that is host-visible and not coherent ends neither on the
                                          atom nor at its object's end */
    WT_NO_REMAINING = 24,              /* an import, when as many objects are held as the device allows */
    WT_TOO_MANY_REMAINING = 25,        /* together with the held objects not below 2^32 */
    WT_STILL_HELD = 26,                /* an object is held: free all blocks, and call wt_cleanup */
    WT_UNREAD_NAMES = 27,              /* names of objects to free still wait for wt_gone */
    WT_BAD_FLAGS = 28,                 /* wt_request.flags has a bit without a name */

    /* A refusal. Nothing has changed. */
    WT_WOULD_ASK = 29                  /* WT_HELD_ONLY, and no held object has a place for the block */
};

/* How a question was answered: wt_question.answer. After WT_NO_DEVICE_MEMORY an allocation goes on to the next memory
   type; the next two end it. */
enum {
    WT_GRANTED = 0,                    /* it was done */
    WT_NO_DEVICE_MEMORY = 1,           /* VK_ERROR_OUT_OF_DEVICE_MEMORY */
    WT_NO_HOST_MEMORY = 2,             /* VK_ERROR_OUT_OF_HOST_MEMORY */
    WT_DEVICE_MAP_FAILED = 3           /* VK_ERROR_MEMORY_MAP_FAILED; to WT_ALLOCATE it counts as WT_NO_HOST_MEMORY */
};

/* What is asked: wt_question.kind. */
enum {
    WT_ALLOCATE = 1,                   /* make an object of size bytes of memory_type (vkAllocateMemory) */
    WT_MAP_MADE = 2,                   /* map offset .. offset + size of the object made last (vkMapMemory) */
    WT_MAP = 3                         /* map offset .. offset + size of the object of that name (vkMapMemory) */
};

/* wt_question.flags: what an object is made with. */
#define WT_ALLOCATE_DEVICE_ADDRESS 0x01u /* it must have VK_MEMORY_ALLOCATE_DEVICE_ADDRESS_BIT */
/* It will hold only this request's block, and has the request's size: so what belongs to one resource may be chained to
   it, such as VkMemoryDedicatedAllocateInfo, a priority or an export. Set exactly where that is so (proved).
   It is ignored when answers are compared. */
#define WT_ALLOCATE_OWN 0x100u

/* wt_request.usage: what the block is for. It decides which memory types may serve and in which order they are tried; 0
   means WT_USAGE_FAST_DEVICE_ACCESS. With HOST_ACCESS, DOWNLOAD or UPLOAD only host-visible types serve. The order
   depends first on whether a type is device-local: with FAST_DEVICE_ACCESS such types come first, without it last. So
   TRANSIENT or DEVICE_ADDRESS alone takes memory that is not device-local first: add FAST_DEVICE_ACCESS where the
   device works on the block. Next, where the usage does not need the host, come types that are not host-visible. Then
   the order is as below. */
#define WT_USAGE_FAST_DEVICE_ACCESS 0x01u /* the device uses it often: device-local types first */
#define WT_USAGE_HOST_ACCESS 0x02u        /* the host maps it: uncached first, of those not coherent ones first */
#define WT_USAGE_DOWNLOAD 0x04u           /* the host reads what the device wrote: cached first, then coherent ones */
#define WT_USAGE_UPLOAD 0x08u             /* the device reads what the host wrote: uncached first, then coherent ones */
#define WT_USAGE_TRANSIENT 0x10u          /* it lives briefly: served from a free list, and no other shared chunk */
#define WT_USAGE_DEVICE_ADDRESS 0x20u     /* its address is used: bufferDeviceAddress must be enabled */

/* wt_request.dedicated: whether the block must be a whole object of its own. With WT_PREFERRED it gets one from
   wt_config.preferred_dedicated_threshold on. */
enum { WT_SHARED = 0, WT_PREFERRED = 1, WT_REQUIRED = 2 };

/* wt_request.flags, and wt_block.flags: the block is for an optimal resource (an image of VK_IMAGE_TILING_OPTIMAL), not
   for a linear one (a buffer, a linear image). No page of wt_limits.buffer_image_granularity bytes of one object holds
   one of the first wt_block.asked bytes of an optimal block and a byte of a linear one (proved). So bind nothing to an
   optimal block past its first wt_block.asked bytes: a linear block may share that page.
   An optimal request is served as one whose size is rounded up to the granularity and that is aligned to it at least.
   That size decides whether it gets an object of its own, but such an object has exactly the request's size. Where the
   granularity is 1, the flag changes only wt_block.flags. */
#define WT_OPTIMAL 1u

/* wt_request.flags: the device is asked for nothing (proved). Of the permitted memory types that serve the usage, the
   first in rank with a place in a shared object serves, even where a better one would serve by asking. The status is
   WT_WOULD_ASK where no type has a place (proved), as always with WT_REQUIRED: a type that would serve the request by
   an object of its own has none. A size over the limit, and a usage that no permitted type serves, are refused first.
   How many more objects may be held does not matter. */
#define WT_HELD_ONLY 2u

/* wt_memory_type.props: the lower six bits of VkMemoryType::propertyFlags. Other bits are ignored; leave such
   types out of wt_request.memory_types. Lazily allocated and protected types are never chosen. */
#define WT_DEVICE_LOCAL 0x01u
#define WT_HOST_VISIBLE 0x02u
#define WT_HOST_COHERENT 0x04u
#define WT_HOST_CACHED 0x08u
#define WT_LAZILY_ALLOCATED 0x10u
#define WT_PROTECTED 0x20u

/* The most questions that one call asks (proved). wt_alloc asks for an object of each of 32 memory types and for its
   mapping, since a type is also passed over where the mapping lacks device memory. wt_map asks one. So WT_ASK never
   comes with this many answers. The array has one place more, since *question must be writable at every call. */
#define WT_MAX_QUESTIONS 64

/* An allocator. Zeroed, it is closed. Its fields are the library's own. */
typedef struct wt_allocator {
    uint32_t full;
    void *state;
} wt_allocator;

typedef struct wt_memory_type {
    uint32_t heap; /* index of its heap */
    uint32_t props;
} wt_memory_type;

/* What the device offers. */
typedef struct wt_limits {
    uint64_t max_memory_allocation_size;  /* the largest request */
    uint64_t non_coherent_atom_size;
    uint32_t max_memory_allocation_count; /* how many objects may be held, less those that the program makes itself */
    uint32_t buffer_device_address;       /* not 0: the feature is enabled */
    uint64_t buffer_image_granularity;    /* bufferImageGranularity, for WT_OPTIMAL; 0 counts as 1 */
} wt_limits;

/* wt_config.sharing: how requests share objects if they are not WT_USAGE_TRANSIENT and get no object of their own. It
   stays as long as the allocator is open.
   WT_BUDDY: in buddy chunks. Each block is a power of two and starts at a multiple of its size. For each memory type
   that it tries, a call looks at 63 lengths at most (proved of the buddy allocator), however many blocks are live; with
   WT_HELD_ONLY it looks twice at those of the type that serves.
   WT_FIT: in fit chunks. Each block is as long as asked, in whole grains (256 bytes, or the atom where that is larger),
   in a free run that has room. Requests over the first fit chunk's size get an object of their own. (That size is
   starting_free_list_chunk, cut to 1/32 of the heap; where it is less than a grain, all requests do.) Later chunks grow
   up to four times the first, and no larger than a free list's largest. For each memory type at most one fit chunk
   stays without a live block, until wt_cleanup. The same requests hold less memory. For each memory type that it tries,
   a call looks at five free runs at most where one is surely long enough, wherever it starts; otherwise, as before it
   asks for a chunk, at no more than those that may be too short or misaligned. With WT_HELD_ONLY it looks twice at those
   of the type that serves. */
enum { WT_BUDDY = 0, WT_FIT = 1 };

/* The sizes that steer the allocator, in bytes, as in gpu-alloc's Config, and how requests share objects. Any sizes
   will do. Zero it before you fill it, so that each field that you do not know is 0: sharing is then WT_BUDDY, as in an
   initialiser with seven numbers.
   A request gets an object of its own, a block of a buddy or fit chunk, or, with WT_USAGE_TRANSIENT, a block of a free
   list's chunk. From 1/32 of its heap on it always gets an object of its own. Sizes of chunks are cut to 1/32 of their
   heap; a buddy chunk's is then rounded up to a power of two. */
typedef struct wt_config {
    /* From this size on a request gets an object of its own. Lower it to hold fewer bytes in more objects. */
    uint64_t dedicated_threshold;
    /* The same for WT_PREFERRED requests; the lesser of the two counts. */
    uint64_t preferred_dedicated_threshold;
    /* The same for WT_USAGE_TRANSIENT requests; the greater of this and the first counts. */
    uint64_t transient_dedicated_threshold;
    /* The size of a free list's first chunk, in whole atoms. Each later one is twice the one before. With WT_FIT also
       the size of the first fit chunk, in whole grains, and so the largest request that shares one. */
    uint64_t starting_free_list_chunk;
    /* The size at which a free list's chunks stop growing: the greatest of this, the one before and the transient
       threshold. */
    uint64_t final_free_list_chunk;
    /* The smallest block of a buddy chunk: at most 1/1024 of the heap, rounded up to a power of two. Raise it where
       many tiny blocks would leave pieces that nothing else fits; lower it to waste less on them. */
    uint64_t minimal_buddy_size;
    /* The least size of the first buddy chunk, rounded up to a power of two. Each chunk is at least twice as large as
       its first block, and at least as large as the chunk before it. Raise it for fewer objects. */
    uint64_t initial_buddy_dedicated_size;
    uint64_t sharing; /* WT_BUDDY or WT_FIT; any other number is refused (WT_BAD_PROPERTIES) */
} wt_config;

/* gpu-alloc's two configurations as initialisers, which share buddy chunks: one for little device memory, and one to
   start with. */
#define WT_CONFIG_POTATO { 32768, 1024, 131072, 8192, 131072, 1, 8192, WT_BUDDY }
#define WT_CONFIG_PROTOTYPING { 33554432, 1048576, 134217728, 8388608, 134217728, 1024, 8388608, WT_BUDDY }

/* A request for a block. Zero it before you fill it, for instance with WT_REQUEST_INIT, so that each field that you do
   not know is 0: a field of a later version then asks for nothing. */
typedef struct wt_request {
    uint64_t size;         /* at least 1 */
    uint64_t align_mask;   /* the alignment less 1 */
    uint32_t usage;        /* bits WT_USAGE_.. */
    uint32_t memory_types; /* bit i: memory type i is permitted (VkMemoryRequirements::memoryTypeBits) */
    uint32_t dedicated;    /* WT_SHARED, WT_PREFERRED or WT_REQUIRED */
    uint32_t flags;        /* bits: WT_OPTIMAL, WT_HELD_ONLY */
    uint64_t user;         /* the caller's own value, kept with the block: any number, or a pointer */
} wt_request;

/* A zeroed request: wt_request request = WT_REQUEST_INIT; */
#define WT_REQUEST_INIT { 0, 0, 0, 0, WT_SHARED, 0, 0 }

/* A question to the device, with its answer. */
typedef struct wt_question {
    uint64_t object; /* WT_MAP: the name of the object; otherwise 0 */
    uint64_t offset; /* WT_MAP and WT_MAP_MADE; otherwise 0 */
    uint64_t size;
    uint32_t kind;
    uint32_t memory_type; /* WT_ALLOCATE; otherwise 0 */
    uint32_t flags;       /* WT_ALLOCATE: bits WT_ALLOCATE_..; otherwise 0 */
    uint32_t answer;      /* the caller writes it. A question comes with an invalid one, so that none is forgotten */
} wt_question;

/* A block. Its key is never 0. Objects are named by rising numbers, none of them twice. */
typedef struct wt_block {
    uint64_t key;
    uint64_t object;
    uint64_t offset;
    uint64_t size; /* at least wt_block.asked */
    uint32_t memory_type;
    uint32_t fresh; /* wt_alloc: 1 where the object was made for it, otherwise 0. Other calls: 0 */
    uint64_t user;  /* the value of wt_request.user, or of the last wt_set_user. An import's starts as 0 */
    uint64_t asked; /* wt_request.size; for an import its size */
    uint32_t flags; /* WT_OPTIMAL if the request had it, otherwise 0. An import counts as linear */
    uint32_t reserved; /* 0 */
} wt_block;

/* A range of an object. */
typedef struct wt_range {
    uint64_t object;
    uint64_t offset;
    uint64_t size;
} wt_range;

typedef struct wt_counts {
    uint64_t blocks;    /* live blocks */
    uint64_t unread;    /* names of released objects that wt_gone has not read yet */
    uint32_t held;      /* objects */
    uint32_t remaining; /* how many more objects may be held */
} wt_counts;

typedef struct wt_heap_counts {
    uint64_t used;      /* how many bytes the held objects of the heap count: the lower 64 bits */
    uint64_t used_high; /* the upper 64 bits, which only imports can make other than 0 */
    uint64_t budget;    /* how many bytes may still be asked of it: limit less used, or 0 */
    uint64_t limit;     /* the lesser of its size and what wt_set_heap_limit set last */
} wt_heap_counts;

/* Sums over the objects of a memory type that are held for one purpose. A sum of bytes comes as its lower and its upper
   64 bits. Only imports can make the upper ones other than 0. */
typedef struct wt_kind_statistics {
    uint64_t objects;
    uint64_t blocks;          /* live blocks in them */
    uint64_t live_bytes;      /* the sizes of those blocks */
    uint64_t live_bytes_high;
    uint64_t asked_bytes;     /* the bytes asked for of those blocks */
    uint64_t asked_bytes_high;
    uint64_t free_bytes;      /* the sizes of the objects' free ranges */
    uint64_t free_bytes_high;
    uint64_t largest_free;    /* the size of the largest free range, or 0 */
    uint64_t scattered;       /* the share of the free bytes that lie in free ranges shorter than half of the longest
                                 one, in thousandths, rounded down; 0 where nothing is free */
} wt_kind_statistics;

typedef struct wt_type_statistics {
    wt_kind_statistics dedicated; /* objects of one block each, made for it */
    wt_kind_statistics imported;  /* objects of one block each, by wt_import */
    wt_kind_statistics buddy;     /* objects whose blocks are powers of two */
    wt_kind_statistics free_list; /* objects of transient blocks */
    wt_kind_statistics fit;       /* objects whose blocks are as long as asked (WT_FIT) */
} wt_type_statistics;

/* The library's version: WT_VERSION of the header that it was built with. */
WT_API uint32_t wt_version(void);

/* Opens a closed allocator for a device that offers these.
   WT_ALREADY_OPEN, WT_BAD_PROPERTIES, WT_OUT_OF_HOST_MEMORY: it is unchanged. */
WT_API uint32_t wt_open(wt_allocator *a, const wt_memory_type *types, size_t types_len, const uint64_t *heap_sizes,
                        size_t heaps_len, const wt_limits *limits, const wt_config *config);

/* Closes it, and frees all of its memory (tested under valgrind, since no contract can say so).
   WT_NOT_OPEN, WT_STILL_HELD, WT_UNREAD_NAMES: it is unchanged. */
WT_API uint32_t wt_close(wt_allocator *a);

/* Allocates a block.
   WT_OK: *block says where it lies. Where it is fresh, its object was made by the last WT_GRANTED answer to WT_ALLOCATE
   that counts, and has the name block->object from then on. Any other object that was made for this request is the
   caller's to free: its mapping failed, or another call came between and it is no longer needed. Answers that are left
   over do not count, but must be valid.
   WT_ASK: *question is the next one, to be answered and appended. It may stand right after the asked ones in their
   array.
   Any other status ends the request: WT_OUT_OF_DEVICE_MEMORY to WT_TOO_MANY_OBJECTS, WT_WOULD_ASK; WT_NOT_OPEN,
   WT_BAD_SIZE, WT_BAD_ALIGNMENT, WT_BAD_USAGE, WT_BAD_DEDICATED, WT_BAD_FLAGS, WT_NO_DEVICE_ADDRESS, WT_BAD_ANSWER, or
   WT_OTHER_QUESTION, for instance where another call came between and something else is asked now. Nothing is changed
   then, and each object that was made for this request is the caller's to free.
   With WT_HELD_ONLY nothing is asked. WT_ASK, WT_TOO_MANY_OBJECTS and WT_OTHER_QUESTION never come, answers do not
   count, and WT_OUT_OF_DEVICE_MEMORY means that the size is over the limit.
   Of several misuses the first in this order is reported: closed, usage, dedicated, flags, an answer, and then the
   others. */
WT_API uint32_t wt_alloc(wt_allocator *a, const wt_request *request, const wt_question *asked, size_t asked_len,
                         wt_block *block, wt_question *question);

/* Imports a range of the caller's own object as a block. The object has object_size bytes and is not mapped. It is the
   allocator's from then on, under the name block->object, and wt_gone reports it once the block is freed. Its heap
   counts the block's size for it, not the object's.
   WT_NOT_OPEN, WT_BAD_MEMORY_TYPE, WT_BAD_SIZE, WT_BAD_RANGE, WT_BAD_IMPORT_END, WT_NO_REMAINING,
   WT_OUT_OF_HOST_MEMORY: nothing is changed, and the object stays the caller's. */
WT_API uint32_t wt_import(wt_allocator *a, uint32_t memory_type, uint64_t object_size, uint64_t offset, uint64_t size,
                          wt_block *block);

/* Reports again where a block lies. WT_NOT_OPEN, WT_UNKNOWN_KEY. */
WT_API uint32_t wt_block_of(wt_allocator *a, uint64_t key, wt_block *block);

/* Sets the caller's value of a block (wt_block.user), and changes nothing else. WT_NOT_OPEN, WT_UNKNOWN_KEY. */
WT_API uint32_t wt_set_user(wt_allocator *a, uint64_t key, uint64_t user);

/* Walks the live blocks, in the order of their keys' places. It writes as many as there are and as fit in room. *count
   is how many it wrote; where that is less than room, there are no more. after is 0 for the first call, and then the
   key of the last block written. Only its place counts (the lower 32 bits of a key); its block may have been freed
   meanwhile. A walk without other calls between writes each live block exactly once. A walk with calls between writes
   each block that lived all along exactly once. With room 0 nothing is written. WT_NOT_OPEN. */
WT_API uint32_t wt_blocks(wt_allocator *a, uint64_t after, wt_block *blocks, size_t room, size_t *count);

/* The memory types that would serve a request with this usage and these permitted types, the best one first, as many as
   fit in room: for imports and for objects that the program makes. *count is how many there are in all, at most 32, and
   may be 0. WT_NOT_OPEN, WT_BAD_USAGE, WT_NO_DEVICE_ADDRESS, WT_OUT_OF_HOST_MEMORY. */
WT_API uint32_t wt_candidates(wt_allocator *a, uint32_t usage, uint32_t memory_types, uint32_t *types, size_t room,
                              size_t *count);

/* Maps size bytes of a block from offset on, counted from its start.
   WT_OK: *mapped says where they lie in the object. A block of a shared object needs no question, as the object was
   mapped whole when it was made (WT_MAP_MADE). For any other (WT_ASK, as for wt_alloc), the question's range covers
   them; where the memory is not coherent, in whole atoms, cut at the block's end.
   WT_NOT_OPEN, WT_UNKNOWN_KEY, WT_BAD_SIZE, WT_BAD_RANGE, WT_NON_HOST_VISIBLE, WT_ALREADY_MAPPED, WT_BAD_ANSWER,
   WT_OTHER_QUESTION, and the device's answers: nothing is changed, and what was mapped for it is the caller's to
   unmap. */
WT_API uint32_t wt_map(wt_allocator *a, uint64_t key, uint64_t offset, uint64_t size, const wt_question *asked,
                       size_t asked_len, wt_range *mapped, wt_question *question);

/* Unmaps a block. *object is the name of the object to unmap (vkUnmapMemory), or 0 where nothing must be unmapped: the
   block was not mapped, or its object is shared and stays mapped. WT_NOT_OPEN, WT_UNKNOWN_KEY. */
WT_API uint32_t wt_unmap(wt_allocator *a, uint64_t key, uint64_t *object);

/* The range to flush after the host wrote size bytes of a block from offset on, or to invalidate before it reads them:
   whole atoms, cut at the block's end. Its size is 0 where no flush is needed: the memory is coherent, or size is 0.
   The range of an import may begin before the block, by less than an atom. WT_NOT_OPEN, WT_UNKNOWN_KEY, WT_BAD_RANGE,
   WT_NON_HOST_VISIBLE. */
WT_API uint32_t wt_range_of(wt_allocator *a, uint64_t key, uint64_t offset, uint64_t size, wt_range *range);

/* Frees a block, mapped or not. The device must be done with it. Its object is released with it where no other block is
   in it. Only one chunk of a free list, and one fit chunk of a memory type, wait for wt_cleanup. wt_gone reports what
   is released. The key is invalid from then on. WT_NOT_OPEN, WT_UNKNOWN_KEY. */
WT_API uint32_t wt_free(wt_allocator *a, uint64_t key);

/* Releases the last unused chunk of each free list, and of each memory type's fit chunks, too; wt_gone reports them. No
   object is then held without a live block. WT_NOT_OPEN. */
WT_API uint32_t wt_cleanup(wt_allocator *a);

/* Reads names of released objects, which are the caller's to free (vkFreeMemory): as many as there are and as fit in
   room. *count is how many. Each is read once, in no particular order; the others wait. WT_NOT_OPEN. */
WT_API uint32_t wt_gone(wt_allocator *a, uint64_t *names, size_t room, size_t *count);

/* How many blocks, unread names and objects there are. WT_NOT_OPEN. */
WT_API uint32_t wt_count(wt_allocator *a, wt_counts *counts);

/* What is held of a heap, and what may still be asked of it. WT_NOT_OPEN, WT_BAD_HEAP. */
WT_API uint32_t wt_heap(wt_allocator *a, uint32_t heap, wt_heap_counts *counts);

/* Sets a heap's limit, in bytes. From now on no question asks for more of the heap than the limit leaves, given all
   that is held of it: a memory type whose heap has too little left is passed over, not asked. Use it with what
   VK_EXT_memory_budget reports of a heap at run time. It may be set at any time, even between two answers to one
   request. A limit at or above the heap's size removes the limit. One below what is held refuses new objects and takes
   nothing away: blocks stay, and free bytes of held objects are given out. Imports count, and are never refused for it.
   When an object is made, and how large a shared one is, still depends on the heap's size: no smaller one is tried.
   WT_NOT_OPEN, WT_BAD_HEAP. */
WT_API uint32_t wt_set_heap_limit(wt_allocator *a, uint32_t heap, uint64_t limit);

/* Sets how many more objects may be held, on top of those that are. WT_NOT_OPEN, WT_TOO_MANY_REMAINING. */
WT_API uint32_t wt_set_remaining(wt_allocator *a, uint32_t remaining);

/* The free ranges of a memory type's shared objects, sorted by object and offset: from index first on, as many as fit
   in room. *count is how many there are in all. WT_NOT_OPEN, WT_BAD_MEMORY_TYPE, WT_OUT_OF_HOST_MEMORY. */
WT_API uint32_t wt_free_ranges(wt_allocator *a, uint32_t memory_type, size_t first, wt_range *ranges, size_t room,
                               size_t *count);

/* What is held of a memory type, by what it is held for. Like wt_report, it takes memory and time for all that is held.
   WT_NOT_OPEN, WT_BAD_MEMORY_TYPE, WT_OUT_OF_HOST_MEMORY. */
WT_API uint32_t wt_statistics(wt_allocator *a, uint32_t memory_type, wt_type_statistics *statistics);

/* A report of all that is held, as JSON: heaps, memory types, sums by type and kind, and each object with its live
   blocks (by key, with user and asked) and free ranges. wallthyme-picture draws it. At most room bytes are written,
   from the start of the text, without a terminating 0. *length is the length of the whole text, so a call with room 0
   returns how much room is needed. WT_NOT_OPEN, WT_OUT_OF_HOST_MEMORY. */
WT_API uint32_t wt_report(wt_allocator *a, char *text, size_t room, size_t *length);

/* What a status means, in a line without a full stop. */
static inline const char *wt_text(uint32_t status) {
    switch (status) {
    case WT_OK: return "Done";
    case WT_ASK: return "A question to the device has no answer yet";
    case WT_OUT_OF_DEVICE_MEMORY: return "Device memory exhausted";
    case WT_OUT_OF_HOST_MEMORY: return "Host memory exhausted";
    case WT_NO_COMPATIBLE_MEMORY_TYPES:
        return "No compatible memory types from requested types support requested usage";
    case WT_TOO_MANY_OBJECTS: return "Reached limit on allocated memory objects count";
    case WT_NON_HOST_VISIBLE: return "Impossible to map non-host-visible memory";
    case WT_ALREADY_MAPPED: return "Block is already mapped";
    case WT_MAP_FAILED: return "Failed to map memory object";
    case WT_NOT_OPEN: return "The allocator is closed";
    case WT_ALREADY_OPEN: return "The allocator is open";
    case WT_BAD_PROPERTIES: return "No device has such properties, or there is no such way to share objects";
    case WT_UNKNOWN_KEY: return "No live block has this key";
    case WT_OTHER_QUESTION: return "An answer is to another question than is asked in its place";
    case WT_BAD_ANSWER: return "An answer or its question is invalid";
    case WT_BAD_SIZE: return "A size of 0";
    case WT_BAD_ALIGNMENT: return "The alignment is not a power of two of at most 2^63";
    case WT_BAD_USAGE: return "The usage has bits without a name";
    case WT_BAD_DEDICATED: return "No such wish for an object of its own";
    case WT_NO_DEVICE_ADDRESS: return "The device does not offer buffer device addresses";
    case WT_BAD_RANGE: return "The range passes the end of its block or object";
    case WT_BAD_MEMORY_TYPE: return "No such memory type";
    case WT_BAD_HEAP: return "No such heap";
    case WT_BAD_IMPORT_END: return "The import ends neither on the atom nor where its object ends";
    case WT_NO_REMAINING: return "No more objects may be held";
    case WT_TOO_MANY_REMAINING: return "Remaining and held objects together are too many";
    case WT_STILL_HELD: return "Objects are still held";
    case WT_UNREAD_NAMES: return "Names of objects to free are still to be read";
    case WT_BAD_FLAGS: return "The flags have bits without a name";
    case WT_WOULD_ASK: return "No held object has a place, and nothing may be asked";
    default: return "No such status";
    }
}

#ifdef __cplusplus
}
#endif
#endif
