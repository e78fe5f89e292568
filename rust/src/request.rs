//! Requests for memory.

use crate::ffi;
use crate::usage::UsageFlags;

/// A request for a block.
#[derive(Clone, Copy, Debug, PartialEq, Eq, Hash)]
pub struct Request {
    /// Its least size in bytes; 0 counts as 1. [`MemoryBlock::size`](crate::MemoryBlock::size) gives the actual size.
    pub size: u64,

    /// Its alignment in bytes less 1: one less than a power of two of at most 2^63.
    pub align_mask: u64,

    /// What it is used for.
    pub usage: UsageFlags,

    /// The permitted memory types: bit i for the type of index i (`VkMemoryRequirements::memoryTypeBits`).
    /// [`MemoryBlock::memory_type`](crate::MemoryBlock::memory_type) gives the actual type.
    pub memory_types: u32,
}

impl Request {
    /// The request as the library takes it, with the user value 0.
    pub(crate) fn with(self, dedicated: Option<Dedicated>, optimal: bool) -> ffi::Request {
        ffi::Request {
            size: self.size.max(1),
            align_mask: self.align_mask,
            usage: self.usage.bits().into(),
            memory_types: self.memory_types,
            dedicated: match dedicated {
                None => ffi::SHARED,
                Some(Dedicated::Preferred) => ffi::PREFERRED,
                Some(Dedicated::Required) => ffi::REQUIRED,
            },
            flags: if optimal { ffi::OPTIMAL } else { 0 },
            user: 0,
        }
    }
}

/// Whether a block must be a memory object of its own.
#[derive(Clone, Copy, Debug, PartialEq, Eq, Hash)]
#[non_exhaustive]
pub enum Dedicated {
    /// It must, for instance because what is bound to it requires that. Objects are few, and slow to make.
    Required,

    /// It should, where its size is at least
    /// [`Config::preferred_dedicated_threshold`](crate::Config::preferred_dedicated_threshold).
    Preferred,
}
