//! Intents: what a resource's memory is for, from which its memory types follow, as in Vulkan Memory Allocator 3.

use crate::MemoryPropertyFlags;

/// What the memory of a buffer or an image is for. With the usage of its create-info it decides which memory types
/// serve, and in which order they are tried. A [`MemoryRequest`](super::MemoryRequest) has it, and is made of it by
/// `into`:
///
/// ```
/// # use wallthyme::vulkan::{Intent, MemoryRequest};
/// let uniforms: MemoryRequest = Intent::auto().sequential_write().into();
/// let target: MemoryRequest = Intent::auto().prefer_device().into();
/// ```
///
/// It has the rules of Vulkan Memory Allocator 3 (`VMA_MEMORY_USAGE_AUTO`). A memory type serves if it has the required
/// properties, and is neither lazily allocated nor protected:
///
/// | [`HostAccess`] | Required | Preferred | Unwanted |
/// |---|---|---|---|
/// | `None` | | `DEVICE_LOCAL` (1) | else `DEVICE_LOCAL` |
/// | `SequentialWrite` | `HOST_VISIBLE` | `DEVICE_LOCAL` (2) | `HOST_CACHED`, else `DEVICE_LOCAL` |
/// | `SequentialWriteOrTransfer` (3) | | `DEVICE_LOCAL`, `HOST_VISIBLE` | `HOST_CACHED` |
/// | `Random` | `HOST_VISIBLE` | `HOST_CACHED` | |
/// | `RandomOrTransfer` (3) | | `DEVICE_LOCAL`, `HOST_CACHED` | |
///
/// 1. Without [`Prefer::Host`].
/// 2. Where the device uses the resource for more than transfers, without [`Prefer::Host`]; where for transfers alone,
///    with [`Prefer::Device`].
/// 3. Without [`Prefer::Host`], where the device uses the resource for more than transfers, and is not an integrated
///    one. Otherwise it is the access without the transfer.
///
/// A memory type costs one for each preferred property that it lacks, and one for each unwanted one that it has. The
/// cheapest is tried first, and of equal ones that of the lowest index.
#[derive(Clone, Copy, Debug, Default, PartialEq, Eq, Hash)]
pub struct Intent {
    /// Whose memory is better.
    pub prefer: Prefer,

    /// How the host accesses it.
    pub host: HostAccess,
}

/// Whose memory is better, where both serve.
#[derive(Clone, Copy, Debug, Default, PartialEq, Eq, Hash)]
pub enum Prefer {
    /// What the usage and the host's access call for.
    #[default]
    Auto,

    /// The device's: `DEVICE_LOCAL`.
    Device,

    /// The host's: without `DEVICE_LOCAL`.
    Host,
}

/// How the host accesses a block.
#[derive(Clone, Copy, Debug, Default, PartialEq, Eq, Hash)]
pub enum HostAccess {
    /// It does not.
    #[default]
    None,

    /// It writes in order, and never reads. The memory is host-visible, and rather uncached.
    SequentialWrite,

    /// It reads, or writes anywhere. The memory is host-visible, and rather cached.
    Random,

    /// As `SequentialWrite`, or the program writes by a transfer from another buffer. Whether the block's
    /// [`props`](crate::MemoryBlock::props) have `HOST_VISIBLE` says which.
    SequentialWriteOrTransfer,

    /// As `Random`, or the program reads and writes by transfers. Whether the block's
    /// [`props`](crate::MemoryBlock::props) have `HOST_VISIBLE` says which.
    RandomOrTransfer,
}

impl Intent {
    /// The host does not access it, and the device's memory is better.
    pub const fn auto() -> Self {
        Intent { prefer: Prefer::Auto, host: HostAccess::None }
    }

    /// The same, with [`Prefer::Device`].
    #[must_use]
    pub const fn prefer_device(self) -> Self {
        Intent { prefer: Prefer::Device, ..self }
    }

    /// The same, with [`Prefer::Host`].
    #[must_use]
    pub const fn prefer_host(self) -> Self {
        Intent { prefer: Prefer::Host, ..self }
    }

    /// The same, with [`HostAccess::SequentialWrite`].
    #[must_use]
    pub const fn sequential_write(self) -> Self {
        Intent { host: HostAccess::SequentialWrite, ..self }
    }

    /// The same, with [`HostAccess::Random`].
    #[must_use]
    pub const fn random(self) -> Self {
        Intent { host: HostAccess::Random, ..self }
    }

    /// The same, with [`HostAccess::SequentialWriteOrTransfer`].
    #[must_use]
    pub const fn sequential_write_or_transfer(self) -> Self {
        Intent { host: HostAccess::SequentialWriteOrTransfer, ..self }
    }

    /// The same, with [`HostAccess::RandomOrTransfer`].
    #[must_use]
    pub const fn random_or_transfer(self) -> Self {
        Intent { host: HostAccess::RandomOrTransfer, ..self }
    }
}

/// What is asked of the properties of memory types.
#[derive(Clone, Copy, Debug)]
pub(super) struct Wants {
    pub(super) required: MemoryPropertyFlags,
    pub(super) preferred: MemoryPropertyFlags,
    pub(super) unwanted: MemoryPropertyFlags,
}

impl Wants {
    fn require(self, props: MemoryPropertyFlags) -> Self {
        Wants { required: self.required | props, ..self }
    }

    fn prefer(self, props: MemoryPropertyFlags) -> Self {
        Wants { preferred: self.preferred | props, ..self }
    }

    fn avoid(self, props: MemoryPropertyFlags) -> Self {
        Wants { unwanted: self.unwanted | props, ..self }
    }

    fn prefer_local(self, is_better: bool) -> Self {
        match is_better {
            true => self.prefer(MemoryPropertyFlags::DEVICE_LOCAL),
            false => self.avoid(MemoryPropertyFlags::DEVICE_LOCAL),
        }
    }

    /// Adds what an intent asks, for a resource that the device uses for more than transfers (`device_access`) or not.
    pub(super) fn of(self, intent: Intent, device_access: bool, is_integrated: bool) -> Self {
        const VISIBLE: MemoryPropertyFlags = MemoryPropertyFlags::HOST_VISIBLE;
        const CACHED: MemoryPropertyFlags = MemoryPropertyFlags::HOST_CACHED;
        let transfer_is_better = device_access && !is_integrated && intent.prefer != Prefer::Host;
        match intent.host {
            HostAccess::None => self.prefer_local(intent.prefer != Prefer::Host),
            HostAccess::SequentialWriteOrTransfer if transfer_is_better => {
                self.prefer_local(true).prefer(VISIBLE).avoid(CACHED)
            }
            HostAccess::SequentialWrite | HostAccess::SequentialWriteOrTransfer => {
                let local_is_better = match intent.prefer {
                    Prefer::Auto => device_access,
                    Prefer::Device => true,
                    Prefer::Host => false,
                };
                self.require(VISIBLE).prefer_local(local_is_better).avoid(CACHED)
            }
            HostAccess::RandomOrTransfer if transfer_is_better => self.prefer_local(true).prefer(CACHED),
            HostAccess::Random | HostAccess::RandomOrTransfer => self.require(VISIBLE).prefer(CACHED),
        }
    }

    /// How far a memory type is from what is preferred.
    fn cost(self, props: MemoryPropertyFlags) -> u32 {
        let (lacked, unwanted) = (self.preferred - props, self.unwanted & props);
        lacked.bits().count_ones() + unwanted.bits().count_ones()
    }

    /// Sorts memory types by cost. Of equal ones the first stays first.
    pub(super) fn sort(self, types: &mut [u32], props_of: impl Fn(u32) -> MemoryPropertyFlags) {
        types.sort_by_key(|&index| self.cost(props_of(index)));
    }
}
