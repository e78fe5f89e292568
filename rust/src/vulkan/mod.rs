//! Over Vulkan: a [`MemoryDevice`](crate::MemoryDevice) that calls it, and an allocator that creates, binds and
//! destroys buffers and images with their memory.
//!
//! It needs no binding and works with any: handles are numbers here, and the functions are loaded by the
//! `vkGetInstanceProcAddr` that the program passes in. A device of plain Vulkan 1.0 serves. It uses only what the
//! program *enabled* and names in [`DeviceInfo`]. This module is tested, not proved.
//!
//! - [`Allocator`] is the short way: one call for a buffer or an image and its memory.
//! - [`Device`] with a [`GpuAllocator`](crate::GpuAllocator) is the long one, where a program puts them together
//!   itself.
//!
//! A [`UsageFlags`](crate::UsageFlags) or an [`Intent`] says what a block is for. A [`MemoryRequest`] says what else is
//! asked of its memory.
//!
//! ```
//! # use wallthyme::vulkan::{Allocator, Device, DeviceInfo, Error, ImageCreateInfo, Intent};
//! # unsafe fn show(opened: &DeviceInfo, info: &ImageCreateInfo) -> Result<(), Error> {
//! // SAFETY: `opened` has live handles. The device allows such an image, and is done with it when it is destroyed.
//! unsafe {
//!     let mut allocator = Allocator::new(Device::load(opened)?)?;
//!     let texture = allocator.create_image(info, Intent::auto())?;
//!     // Draw with `texture.handle`, and wait for the fence.
//!     allocator.destroy_image(texture);
//! }
//! # Ok(())
//! # }
//! ```
//!
//! # Threads
//!
//! Vulkan lets each thread use a `VkDevice`. But only one thread at a time may use a memory object, a buffer or an
//! image where a call binds, maps or destroys it ("externally synchronized", chapter Threading Behavior). Here a `&mut`
//! or a value ensures that: `&mut Allocator` where blocks come and go, and `&mut MemoryBlock` where its bytes are used.
//! So [`Device`] and [`Allocator`] are `Send` and `Sync`. A program of several threads keeps its allocator in a
//! `Mutex`, and reads and writes blocks outside of it, by a clone of the device.
//!
//! # What the host writes and reads
//!
//! The host's writes reach the device once they are flushed, where the memory is not host-coherent, and commands are
//! submitted after that. The device's writes reach the host after a barrier to `VK_PIPELINE_STAGE_HOST_BIT` with
//! `VK_ACCESS_HOST_READ_BIT`, a fence, and an invalidate where the memory is not host-coherent. [`Allocator::write`]
//! and [`Allocator::read`] flush and invalidate by themselves. They take whole atoms (`nonCoherentAtomSize`): where the
//! device wrote next to the host's bytes in one block, invalidate before the host writes.

mod allocator;
mod bytes;
mod calls;
mod device;
mod device_for;
mod error;
mod functions;
mod held;
mod info;
mod intent;
pub mod raw;
mod search;
#[cfg(test)]
mod tests;
mod wish;

pub use allocator::{Allocator, Buffer, Image};
pub use calls::Resource;
pub use device::{Device, Requirements};
pub use device_for::DeviceFor;
pub use error::{Error, VkResult};
pub use info::{DeviceInfo, Enabled, MemoryRequest};
pub use intent::{HostAccess, Intent, Prefer};
pub use raw::{AllocationCallbacks, BufferCreateInfo, Extent3D, ImageCreateInfo, Memory, Tiling, API_VERSION_1_1};
