//! The sizes that steer the allocator, and how requests share memory objects.

/// The sizes that steer the allocator, in bytes. Any values serve: the allocator cuts them to what a heap can hold.
#[derive(Clone, Copy, Debug, PartialEq, Eq)]
pub struct Config {
    /// From this size on a request gets a memory object of its own. A smaller value costs more objects, of which a
    /// device allows few, and which are slow to make.
    pub dedicated_threshold: u64,

    /// As `dedicated_threshold`, for requests that prefer an object of their own
    /// ([`Dedicated::Preferred`](crate::Dedicated::Preferred)). The lesser of the two counts.
    pub preferred_dedicated_threshold: u64,

    /// As `dedicated_threshold`, for requests of transient use
    /// ([`UsageFlags::TRANSIENT`](crate::UsageFlags::TRANSIENT)). The greater of the two counts.
    pub transient_dedicated_threshold: u64,

    /// The size of a free list's first memory object. With [`Sharing::Fit`] also that of the first fit chunk, and so of
    /// the largest request that shares one.
    pub starting_free_list_chunk: u64,

    /// The size that the memory objects of a free list grow to.
    pub final_free_list_chunk: u64,

    /// The size of the smallest block of a buddy allocator: at most the 1,024th part of its heap, rounded up to a power
    /// of two.
    pub minimal_buddy_size: u64,

    /// The least size of a buddy allocator's first memory object, rounded up to a power of two. A value below
    /// `minimal_buddy_size` counts as that one.
    pub initial_buddy_dedicated_size: u64,
}

impl Config {
    /// Sizes to start with on a desktop GPU: those of [`i_am_potato`](Config::i_am_potato) 1,024 times.
    ///
    /// Their names say why neither is a `Default`: the right sizes depend on the device and its use, and these may not
    /// serve where heaps are small.
    pub fn i_am_prototyping() -> Self {
        let potato = Config::i_am_potato();
        Config {
            dedicated_threshold: potato.dedicated_threshold << 10,
            preferred_dedicated_threshold: potato.preferred_dedicated_threshold << 10,
            transient_dedicated_threshold: potato.transient_dedicated_threshold << 10,
            starting_free_list_chunk: potato.starting_free_list_chunk << 10,
            final_free_list_chunk: potato.final_free_list_chunk << 10,
            minimal_buddy_size: potato.minimal_buddy_size << 10,
            initial_buddy_dedicated_size: potato.initial_buddy_dedicated_size << 10,
        }
    }

    /// Sizes for the smallest device.
    pub fn i_am_potato() -> Self {
        Config {
            dedicated_threshold: 32 << 10,
            preferred_dedicated_threshold: 1 << 10,
            transient_dedicated_threshold: 128 << 10,
            starting_free_list_chunk: 8 << 10,
            final_free_list_chunk: 128 << 10,
            minimal_buddy_size: 1,
            initial_buddy_dedicated_size: 8 << 10,
        }
    }
}

/// How requests share objects if they are not of transient use
/// ([`UsageFlags::TRANSIENT`](crate::UsageFlags::TRANSIENT)) and get no memory object of their own.
///
/// [`GpuAllocator::with_sharing`](crate::GpuAllocator::with_sharing) and
/// [`vulkan::Allocator::with_sharing`](crate::vulkan::Allocator::with_sharing) take the choice. The other constructors
/// of `GpuAllocator` share buddy chunks, as `gpu-alloc` does; those of `vulkan::Allocator` share fit chunks, as
/// `wtv_create` does without a configuration. The `Default` is `GpuAllocator`'s.
#[derive(Clone, Copy, Debug, Default, PartialEq, Eq, Hash)]
pub enum Sharing {
    /// In buddy chunks, as in `gpu-alloc`: each block has a power of two of bytes and starts at a multiple of its size.
    /// For each memory type that it tries, a call looks at 63 lengths at most, however many blocks are live.
    #[default]
    Buddy,

    /// In fit chunks: each block is as long as asked, in whole grains (256 bytes, or the non-coherent atom where that
    /// is larger). They hold less memory for the same requests. For each memory type that it tries, a call looks at five
    /// free runs at most where one is surely long enough, wherever it starts; otherwise, as before it asks for a chunk,
    /// at no more than those that may be too short or misaligned.
    ///
    /// Requests over the size of the first chunk ([`Config::starting_free_list_chunk`], at most a 32nd of the heap) get
    /// an object of their own; where that is less than a grain, all requests do. Later chunks grow up to four times the
    /// first, and no larger than a free list's largest. Of each memory type at most one fit chunk stays without a live
    /// block, until [`GpuAllocator::cleanup`](crate::GpuAllocator::cleanup).
    Fit,
}
