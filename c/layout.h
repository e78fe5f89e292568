/* The sizes, offsets and constants of wallthyme.h, as a plain table: the one list of what C, Rust and the library have
 * in common. tests/layout.c compares each row with what the library answers to its number, and `make check-rows` sees
 * that the header has nothing without a row. The test of rust/src/ffi.rs reads this file, and finds its numbers by the
 * names in it, so a row is one line. Rows are never moved: a new one goes last, with the next number. */
#ifndef WALLTHYME_LAYOUT_H
#define WALLTHYME_LAYOUT_H

#include "wallthyme.h"

/* The value of the row of this number; WT_LAYOUT_END where there is none. It is no call for users, so wallthyme.h does
 * not declare it. */
WT_API uint32_t wt_layout(uint32_t number);

#define WT_LAYOUT_END UINT32_MAX

/* ROW(number, value) */
#define WT_LAYOUT(ROW)                                          \
    ROW(0, WT_VERSION)                                          \
    ROW(1, WT_MAX_QUESTIONS)                                    \
    ROW(2, WT_OK)                                               \
    ROW(3, WT_ASK)                                              \
    ROW(4, WT_OUT_OF_DEVICE_MEMORY)                             \
    ROW(5, WT_OUT_OF_HOST_MEMORY)                               \
    ROW(6, WT_NO_COMPATIBLE_MEMORY_TYPES)                       \
    ROW(7, WT_TOO_MANY_OBJECTS)                                 \
    ROW(8, WT_NON_HOST_VISIBLE)                                 \
    ROW(9, WT_ALREADY_MAPPED)                                   \
    ROW(10, WT_MAP_FAILED)                                      \
    ROW(11, WT_NOT_OPEN)                                        \
    ROW(12, WT_ALREADY_OPEN)                                    \
    ROW(13, WT_BAD_PROPERTIES)                                  \
    ROW(14, WT_UNKNOWN_KEY)                                     \
    ROW(15, WT_OTHER_QUESTION)                                  \
    ROW(16, WT_BAD_ANSWER)                                      \
    ROW(17, WT_BAD_SIZE)                                        \
    ROW(18, WT_BAD_ALIGNMENT)                                   \
    ROW(19, WT_BAD_USAGE)                                       \
    ROW(20, WT_BAD_DEDICATED)                                   \
    ROW(21, WT_NO_DEVICE_ADDRESS)                               \
    ROW(22, WT_BAD_RANGE)                                       \
    ROW(23, WT_BAD_MEMORY_TYPE)                                 \
    ROW(24, WT_BAD_HEAP)                                        \
    ROW(25, WT_BAD_IMPORT_END)                                  \
    ROW(26, WT_NO_REMAINING)                                    \
    ROW(27, WT_TOO_MANY_REMAINING)                              \
    ROW(28, WT_STILL_HELD)                                      \
    ROW(29, WT_UNREAD_NAMES)                                    \
    ROW(30, WT_GRANTED)                                         \
    ROW(31, WT_NO_DEVICE_MEMORY)                                \
    ROW(32, WT_NO_HOST_MEMORY)                                  \
    ROW(33, WT_DEVICE_MAP_FAILED)                               \
    ROW(34, WT_ALLOCATE)                                        \
    ROW(35, WT_MAP_MADE)                                        \
    ROW(36, WT_MAP)                                             \
    ROW(37, WT_SHARED)                                          \
    ROW(38, WT_PREFERRED)                                       \
    ROW(39, WT_REQUIRED)                                        \
    ROW(40, WT_ALLOCATE_DEVICE_ADDRESS)                         \
    ROW(41, WT_USAGE_FAST_DEVICE_ACCESS)                        \
    ROW(42, WT_USAGE_HOST_ACCESS)                               \
    ROW(43, WT_USAGE_DOWNLOAD)                                  \
    ROW(44, WT_USAGE_UPLOAD)                                    \
    ROW(45, WT_USAGE_TRANSIENT)                                 \
    ROW(46, WT_USAGE_DEVICE_ADDRESS)                            \
    ROW(47, WT_DEVICE_LOCAL)                                    \
    ROW(48, WT_HOST_VISIBLE)                                    \
    ROW(49, WT_HOST_COHERENT)                                   \
    ROW(50, WT_HOST_CACHED)                                     \
    ROW(51, WT_LAZILY_ALLOCATED)                                \
    ROW(52, WT_PROTECTED)                                       \
    ROW(53, sizeof(wt_allocator))                               \
    ROW(54, offsetof(wt_allocator, full))                       \
    ROW(55, offsetof(wt_allocator, state))                      \
    ROW(56, sizeof(wt_memory_type))                             \
    ROW(57, offsetof(wt_memory_type, heap))                     \
    ROW(58, offsetof(wt_memory_type, props))                    \
    ROW(59, sizeof(wt_limits))                                  \
    ROW(60, offsetof(wt_limits, max_memory_allocation_size))    \
    ROW(61, offsetof(wt_limits, non_coherent_atom_size))        \
    ROW(62, offsetof(wt_limits, max_memory_allocation_count))   \
    ROW(63, offsetof(wt_limits, buffer_device_address))         \
    ROW(64, sizeof(wt_config))                                  \
    ROW(65, offsetof(wt_config, dedicated_threshold))           \
    ROW(66, offsetof(wt_config, preferred_dedicated_threshold)) \
    ROW(67, offsetof(wt_config, transient_dedicated_threshold)) \
    ROW(68, offsetof(wt_config, starting_free_list_chunk))      \
    ROW(69, offsetof(wt_config, final_free_list_chunk))         \
    ROW(70, offsetof(wt_config, minimal_buddy_size))            \
    ROW(71, offsetof(wt_config, initial_buddy_dedicated_size))  \
    ROW(72, sizeof(wt_request))                                 \
    ROW(73, offsetof(wt_request, size))                         \
    ROW(74, offsetof(wt_request, align_mask))                   \
    ROW(75, offsetof(wt_request, usage))                        \
    ROW(76, offsetof(wt_request, memory_types))                 \
    ROW(77, offsetof(wt_request, dedicated))                    \
    ROW(78, sizeof(wt_question))                                \
    ROW(79, offsetof(wt_question, object))                      \
    ROW(80, offsetof(wt_question, offset))                      \
    ROW(81, offsetof(wt_question, size))                        \
    ROW(82, offsetof(wt_question, kind))                        \
    ROW(83, offsetof(wt_question, memory_type))                 \
    ROW(84, offsetof(wt_question, flags))                       \
    ROW(85, offsetof(wt_question, answer))                      \
    ROW(86, sizeof(wt_block))                                   \
    ROW(87, offsetof(wt_block, key))                            \
    ROW(88, offsetof(wt_block, object))                         \
    ROW(89, offsetof(wt_block, offset))                         \
    ROW(90, offsetof(wt_block, size))                           \
    ROW(91, offsetof(wt_block, memory_type))                    \
    ROW(92, offsetof(wt_block, fresh))                          \
    ROW(93, sizeof(wt_range))                                   \
    ROW(94, offsetof(wt_range, object))                         \
    ROW(95, offsetof(wt_range, offset))                         \
    ROW(96, offsetof(wt_range, size))                           \
    ROW(97, sizeof(wt_counts))                                  \
    ROW(98, offsetof(wt_counts, blocks))                        \
    ROW(99, offsetof(wt_counts, unread))                        \
    ROW(100, offsetof(wt_counts, held))                         \
    ROW(101, offsetof(wt_counts, remaining))                    \
    ROW(102, sizeof(wt_heap_counts))                            \
    ROW(103, offsetof(wt_heap_counts, used))                    \
    ROW(104, offsetof(wt_heap_counts, used_high))               \
    ROW(105, offsetof(wt_heap_counts, budget))                  \
    ROW(106, WT_BAD_FLAGS)                                      \
    ROW(107, WT_ALLOCATE_OWN)                                   \
    ROW(108, WT_OPTIMAL)                                        \
    ROW(109, offsetof(wt_limits, buffer_image_granularity))     \
    ROW(110, offsetof(wt_request, flags))                       \
    ROW(111, offsetof(wt_request, user))                        \
    ROW(112, offsetof(wt_block, user))                          \
    ROW(113, offsetof(wt_block, asked))                         \
    ROW(114, offsetof(wt_block, flags))                         \
    ROW(115, offsetof(wt_block, reserved))                      \
    ROW(116, offsetof(wt_heap_counts, limit))                   \
    ROW(117, sizeof(wt_kind_statistics))                        \
    ROW(118, offsetof(wt_kind_statistics, objects))             \
    ROW(119, offsetof(wt_kind_statistics, blocks))              \
    ROW(120, offsetof(wt_kind_statistics, live_bytes))          \
    ROW(121, offsetof(wt_kind_statistics, live_bytes_high))     \
    ROW(122, offsetof(wt_kind_statistics, free_bytes))          \
    ROW(123, offsetof(wt_kind_statistics, free_bytes_high))     \
    ROW(124, offsetof(wt_kind_statistics, largest_free))        \
    ROW(125, sizeof(wt_type_statistics))                        \
    ROW(126, offsetof(wt_type_statistics, dedicated))           \
    ROW(127, offsetof(wt_type_statistics, imported))            \
    ROW(128, offsetof(wt_type_statistics, buddy))               \
    ROW(129, offsetof(wt_type_statistics, free_list))           \
    ROW(130, WT_WOULD_ASK)                                      \
    ROW(131, WT_HELD_ONLY)                                      \
    ROW(132, WT_BUDDY)                                          \
    ROW(133, WT_FIT)                                            \
    ROW(134, offsetof(wt_config, sharing))                      \
    ROW(135, offsetof(wt_type_statistics, fit))                 \
    ROW(136, offsetof(wt_kind_statistics, asked_bytes))         \
    ROW(137, offsetof(wt_kind_statistics, asked_bytes_high))    \
    ROW(138, offsetof(wt_kind_statistics, scattered))

#endif
