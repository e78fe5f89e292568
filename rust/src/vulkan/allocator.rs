//! Buffers and images with their memory.

use super::calls::Resource;
use super::device::{Device, Requirements};
use super::device_for::DeviceFor;
use super::error::Error;
use super::info::MemoryRequest;
use super::raw::{self, BufferCreateInfo, ImageCreateInfo, Memory, Tiling};
use super::search::{allocate, allocate_and_bind};
use super::wish::Wish;
use crate::{Config, GpuAllocator, MemoryBlock, Sharing, UsageFlags};
use std::mem::forget;

/// A buffer and its memory, to be destroyed by [`Allocator::destroy_buffer`]. One that is dropped is reported by its
/// block ([`Dropped`](crate::Dropped)); buffer and memory stay.
#[derive(Debug)]
#[must_use]
pub struct Buffer {
    /// The buffer, bound to the block's first byte, unless the program binds it ([`MemoryRequest::dont_bind`]).
    pub handle: raw::Buffer,
    /// Its memory.
    pub block: MemoryBlock<Memory>,
}

/// An image and its memory, to be destroyed by [`Allocator::destroy_image`]. One that is dropped is reported by its
/// block ([`Dropped`](crate::Dropped)); image and memory stay.
#[derive(Debug)]
#[must_use]
pub struct Image {
    /// The image, bound to the block's first byte, unless the program binds it ([`MemoryRequest::dont_bind`]).
    pub handle: raw::Image,
    /// Its memory.
    pub block: MemoryBlock<Memory>,
}

/// A resource that was created, and has no memory yet. However the request ends, it is destroyed unless it is kept.
struct Created<'a> {
    device: &'a Device,
    resource: Resource,
}

impl Created<'_> {
    fn keep(self) {
        forget(self);
    }
}

impl Drop for Created<'_> {
    fn drop(&mut self) {
        // SAFETY: it was created here and went to nobody.
        unsafe { self.device.destroy(self.resource) }
    }
}

/// An allocator of buffers and images with their memory, over a [`Device`].
///
/// One that is dropped frees each memory object that no block needs. Where blocks are live, their objects stay, and it
/// is reported with each of them, as for a [`GpuAllocator`] ([`Dropped`](crate::Dropped)). Drop it before the
/// `VkDevice` is destroyed (`vkDestroyDevice` wants each object of the device gone).
///
/// A buffer that stays mapped, which the host writes in order:
///
/// ```
/// # use wallthyme::vulkan::{Allocator, BufferCreateInfo, Error, Intent, MemoryRequest};
/// # unsafe fn show(allocator: &mut Allocator, info: &BufferCreateInfo, matrix: [f32; 16]) -> Result<(), Error> {
/// let request = MemoryRequest { mapped: true, ..Intent::auto().sequential_write().into() };
/// // SAFETY: the device allows such a buffer, and is done with it when it is destroyed.
/// unsafe {
///     let uniforms = allocator.create_buffer(info, request)?;
///     let bytes = uniforms.block.mapped().expect("this intent wants host-visible memory");
///     bytes.cast::<[f32; 16]>().write(matrix);
///     let flushed = allocator.flush(&[(&uniforms.block, 0..64)]);
///     // Commands read `uniforms.handle`.
///     allocator.destroy_buffer(uniforms);
///     flushed
/// }
/// # }
/// ```
#[derive(Debug)]
pub struct Allocator {
    pub(super) device: Device,
    pub(super) core: GpuAllocator<Memory>,
}

impl Allocator {
    /// Makes an allocator with the sizes of [`Device::default_config`]. Its requests share fit chunks
    /// ([`Sharing::Fit`]), as those of `wtv_create` without a configuration.
    ///
    /// # Errors
    ///
    /// [`Error::New`]. Nothing is held then.
    pub fn new(device: Device) -> Result<Self, Error> {
        let config = device.default_config();
        Allocator::with_config(device, config)
    }

    /// As [`new`](Allocator::new), with these sizes.
    ///
    /// # Errors
    ///
    /// [`Error::New`]. Nothing is held then.
    pub fn with_config(device: Device, config: Config) -> Result<Self, Error> {
        Allocator::with_sharing(device, config, Sharing::Fit)
    }

    /// As [`with_config`](Allocator::with_config), with a choice how requests share memory objects: [`Sharing::Fit`],
    /// as the other two have it, or [`Sharing::Buddy`], as `gpu-alloc` does.
    ///
    /// ```
    /// # use wallthyme::vulkan::{Allocator, Device, Error};
    /// # use wallthyme::Sharing;
    /// # fn show(device: Device) -> Result<Allocator, Error> {
    /// let config = device.default_config();
    /// Allocator::with_sharing(device, config, Sharing::Buddy)
    /// # }
    /// ```
    ///
    /// # Errors
    ///
    /// [`Error::New`]. Nothing is held then.
    pub fn with_sharing(device: Device, config: Config, sharing: Sharing) -> Result<Self, Error> {
        let granularity = device.buffer_image_granularity();
        let core = GpuAllocator::with_sharing(config, device.device_properties(), granularity, sharing)?;
        Ok(Allocator { device, core })
    }

    /// Its device. Clones of it serve other threads.
    pub fn device(&self) -> &Device {
        &self.device
    }

    /// Creates a buffer, allocates memory for it and binds it.
    ///
    /// # Errors
    ///
    /// [`Error::SparseBuffer`], [`Error::UsageWithIntent`], [`Error::BadAlignment`], [`Error::ForbiddenProperties`],
    /// [`Error::NoDeviceAddress`], [`Error::Chained`], [`Error::Driver`], [`Error::Allocation`]. Whatever was made is
    /// destroyed then. Only after a refused bind a free chunk of transient blocks, or a free fit chunk, may stay until
    /// [`cleanup`](Allocator::cleanup).
    ///
    /// Where the driver refuses a memory object with `VK_ERROR_OUT_OF_DEVICE_MEMORY` or `VK_ERROR_TOO_MANY_OBJECTS`,
    /// the next memory type is tried. Any other error ends the request.
    ///
    /// A shared object may be refused while there is memory for the buffer alone: a heap is nearly full, its limit is
    /// low, or the driver makes no object that large. Where all memory types were refused for want of device memory, a
    /// request that is not [`Dedicated::Required`](crate::Dedicated::Required) is tried once more with an object of its
    /// own, without the types whose driver refused such an object in it. So each type is tried shared before any is
    /// tried alone, and each block that is served so costs one of the few objects. Where that is refused too, the first
    /// error is returned.
    ///
    /// With an intent ([`MemoryRequest::intent`]) or preferred properties ([`MemoryRequest::preferred`]) memory types
    /// are asked one by one, in their order, and the second try comes before the next type. Where all are refused, the
    /// error of the first one is returned.
    ///
    /// # Panics
    ///
    /// Where a bit of `request.usage` has no name. Nothing is changed.
    ///
    /// # Safety
    ///
    /// * Vulkan allows `info` for a buffer of the device. What it points to lives until the call ends.
    /// * It is not a buffer whose address is captured and replayed
    ///   (`VK_BUFFER_CREATE_DEVICE_ADDRESS_CAPTURE_REPLAY_BIT`): its memory object would have to be made for that
    ///   (`VK_MEMORY_ALLOCATE_DEVICE_ADDRESS_CAPTURE_REPLAY_BIT`), and none here is.
    /// * `request.next` is null, or such a chain as [`DeviceFor::with_next`] asks for.
    pub unsafe fn create_buffer(
        &mut self,
        info: &BufferCreateInfo,
        request: impl Into<MemoryRequest>,
    ) -> Result<Buffer, Error> {
        if info.flags & raw::CREATE_SPARSE != 0 {
            return Err(Error::SparseBuffer);
        }
        // SAFETY: what `info` points to lives, as the caller says.
        let usage = unsafe { info.usage_of_chain() };
        let mut wish = Wish::with_info(request.into(), usage, &self.device)?;
        if usage & raw::USAGE_SHADER_DEVICE_ADDRESS != 0 {
            wish.request.usage |= match wish.request.usage.is_empty() {
                true => UsageFlags::FAST_DEVICE_ACCESS | UsageFlags::DEVICE_ADDRESS,
                false => UsageFlags::DEVICE_ADDRESS,
            };
        }
        // SAFETY: as the caller says.
        let handle = unsafe { self.device.create_buffer(info) }?;
        let created = Created { device: &self.device, resource: Resource::Buffer(handle) };
        // SAFETY: the buffer was created here, and `next` is as the caller says.
        let block = unsafe { allocate_and_bind(&mut self.core, &self.device, created.resource, false, &wish) }?;
        created.keep();
        Ok(Buffer { handle, block })
    }

    /// Creates an image, allocates memory for it and binds it. What is tried after a refusal is as in
    /// [`create_buffer`](Allocator::create_buffer).
    ///
    /// # Errors
    ///
    /// [`Error::SparseImage`], [`Error::DisjointImage`], and those of `create_buffer` but [`Error::SparseBuffer`].
    /// Whatever was made is destroyed then, and what may stay is as for `create_buffer`.
    ///
    /// # Panics
    ///
    /// Where a bit of `request.usage` has no name. Nothing is changed.
    ///
    /// # Safety
    ///
    /// * Vulkan allows `info` for an image of the device. What it points to lives until the call ends.
    /// * `request.next` is null, or such a chain as [`DeviceFor::with_next`] asks for.
    pub unsafe fn create_image(
        &mut self,
        info: &ImageCreateInfo,
        request: impl Into<MemoryRequest>,
    ) -> Result<Image, Error> {
        if info.flags & raw::CREATE_SPARSE != 0 {
            return Err(Error::SparseImage);
        }
        if info.flags & raw::CREATE_DISJOINT != 0 {
            return Err(Error::DisjointImage);
        }
        let wish = Wish::with_info(request.into(), info.usage.into(), &self.device)?;
        let optimal = info.tiling != Tiling::LINEAR;
        // SAFETY: as the caller says.
        let handle = unsafe { self.device.create_image(info) }?;
        let created = Created { device: &self.device, resource: Resource::Image(handle) };
        // SAFETY: the image was created here, and `next` is as the caller says.
        let block = unsafe { allocate_and_bind(&mut self.core, &self.device, created.resource, optimal, &wish) }?;
        created.keep();
        Ok(Image { handle, block })
    }

    /// Destroys a buffer, and frees its block, mapped or not.
    ///
    /// # Panics
    ///
    /// Where the block is another allocator's. The block is dropped, and nothing else changes.
    ///
    /// # Safety
    ///
    /// * The buffer is of this allocator, and has this block. The device is done with both
    ///   (VUID-vkDestroyBuffer-buffer-00922, VUID-vkFreeMemory-memory-00677).
    /// * A buffer that the program created itself was created with callbacks that are compatible with
    ///   [`DeviceInfo::callbacks`](super::DeviceInfo::callbacks), and with none where that is `None`
    ///   (VUID-vkDestroyBuffer-buffer-00923, -00924).
    #[track_caller]
    pub unsafe fn destroy_buffer(&mut self, buffer: Buffer) {
        // SAFETY: as the caller says.
        unsafe { self.destroy(Resource::Buffer(buffer.handle), buffer.block) }
    }

    /// Destroys an image, and frees its block, mapped or not.
    ///
    /// # Panics
    ///
    /// Where the block is another allocator's. The block is dropped, and nothing else changes.
    ///
    /// # Safety
    ///
    /// * The image is of this allocator, and has this block. The device is done with both
    ///   (VUID-vkDestroyImage-image-01000, VUID-vkFreeMemory-memory-00677).
    /// * An image that the program created itself was created with callbacks that are compatible with
    ///   [`DeviceInfo::callbacks`](super::DeviceInfo::callbacks), and with none where that is `None`
    ///   (VUID-vkDestroyImage-image-01001, -01002).
    #[track_caller]
    pub unsafe fn destroy_image(&mut self, image: Image) {
        // SAFETY: as the caller says.
        unsafe { self.destroy(Resource::Image(image.handle), image.block) }
    }

    /// Allocates a block for a buffer that the program created, and binds it. A buffer whose address is used needs
    /// [`UsageFlags::DEVICE_ADDRESS`]. What is tried after a refusal is as in
    /// [`create_buffer`](Allocator::create_buffer).
    ///
    /// # Errors
    ///
    /// [`Error::NoCreateInfo`], [`Error::BadAlignment`], [`Error::ForbiddenProperties`], [`Error::NoDeviceAddress`],
    /// [`Error::Chained`], [`Error::Driver`], [`Error::Allocation`]. The buffer stays, and has no memory. Only after a
    /// refused bind a free chunk of transient blocks, or a free fit chunk, may stay until
    /// [`cleanup`](Allocator::cleanup).
    ///
    /// # Panics
    ///
    /// Where a bit of `request.usage` has no name. Nothing is changed.
    ///
    /// # Safety
    ///
    /// * The buffer is a live one of the device, not sparse, not for capture and replay
    ///   ([`create_buffer`](Allocator::create_buffer)), has no memory, and no other thread uses it.
    /// * Where the block is [`made_for`](MemoryBlock::made_for) it, nothing else is bound to the block.
    /// * `request.next` is null, or such a chain as [`DeviceFor::with_next`] asks for.
    pub unsafe fn allocate_for_buffer(
        &mut self,
        buffer: raw::Buffer,
        request: impl Into<MemoryRequest>,
    ) -> Result<MemoryBlock<Memory>, Error> {
        let (resource, wish) = (Resource::Buffer(buffer), Wish::new(request.into())?);
        // SAFETY: as the caller says.
        unsafe { allocate_and_bind(&mut self.core, &self.device, resource, false, &wish) }
    }

    /// Allocates a block for an image that the program created with this tiling, and binds it. What is tried after a
    /// refusal is as in [`create_buffer`](Allocator::create_buffer).
    ///
    /// # Errors
    ///
    /// [`Error::NoCreateInfo`], [`Error::BadAlignment`], [`Error::ForbiddenProperties`], [`Error::NoDeviceAddress`],
    /// [`Error::Chained`], [`Error::Driver`], [`Error::Allocation`]. The image stays, and has no memory. After a
    /// refused bind a free chunk may stay, as for [`allocate_for_buffer`](Allocator::allocate_for_buffer).
    ///
    /// # Panics
    ///
    /// Where a bit of `request.usage` has no name. Nothing is changed.
    ///
    /// # Safety
    ///
    /// * The image is a live one of the device, neither sparse nor disjoint, has that tiling and no memory, and no
    ///   other thread uses it.
    /// * Where the block is [`made_for`](MemoryBlock::made_for) it, nothing else is bound to the block.
    /// * `request.next` is null, or such a chain as [`DeviceFor::with_next`] asks for.
    pub unsafe fn allocate_for_image(
        &mut self,
        image: raw::Image,
        tiling: Tiling,
        request: impl Into<MemoryRequest>,
    ) -> Result<MemoryBlock<Memory>, Error> {
        let (resource, optimal) = (Resource::Image(image), tiling != Tiling::LINEAR);
        let wish = Wish::new(request.into())?;
        // SAFETY: as the caller says.
        unsafe { allocate_and_bind(&mut self.core, &self.device, resource, optimal, &wish) }
    }

    /// Allocates a block for given requirements, and binds nothing to it: [`Device::bind_buffer`] and
    /// [`Device::bind_image`] say what may be. It is made for no resource. What is tried after a refusal is as in
    /// [`create_buffer`](Allocator::create_buffer).
    ///
    /// # Errors
    ///
    /// [`Error::NoCreateInfo`], [`Error::BadAlignment`], [`Error::ForbiddenProperties`], [`Error::NoDeviceAddress`],
    /// [`Error::Chained`], [`Error::Driver`], [`Error::Allocation`]. Nothing is changed then.
    ///
    /// # Panics
    ///
    /// Where a bit of `request.usage` has no name, or the alignment is not a power of two. Nothing is changed.
    ///
    /// # Safety
    ///
    /// `request.next` is null, or such a chain as [`DeviceFor::with_next`] asks for.
    pub unsafe fn allocate(
        &mut self,
        requirements: &Requirements,
        request: impl Into<MemoryRequest>,
    ) -> Result<MemoryBlock<Memory>, Error> {
        let (asked, wish) = (DeviceFor::none(&self.device), Wish::new(request.into())?);
        // SAFETY: the device is the allocator's, and `next` is as the caller says.
        unsafe { allocate(&mut self.core, &self.device, asked, requirements, &wish) }
    }

    /// The memory types that would serve a request, the first one that is asked first. What a resource's requirements
    /// exclude is not left out: [`MemoryRequest::memory_types`] may do so. An intent takes the usage of the
    /// resource's create-info into account (`VkBufferUsageFlags`, `VkImageUsageFlags`). No other request does.
    ///
    /// # Errors
    ///
    /// [`Error::UsageWithIntent`], [`Error::BadAlignment`], [`Error::ForbiddenProperties`],
    /// [`Error::NoDeviceAddress`], [`Error::Allocation`] where the host has too little memory. Nothing is changed.
    ///
    /// # Panics
    ///
    /// Where a bit of `request.usage` has no name. Nothing is changed.
    pub fn candidates(&mut self, request: impl Into<MemoryRequest>, resource_usage: u64) -> Result<Vec<u32>, Error> {
        let wish = Wish::with_info(request.into(), resource_usage, &self.device)?;
        wish.check_address(&self.device)?;
        wish.order(&mut self.core, &self.device, wish.permitted(&self.device))
    }
}

impl Allocator {
    /// # Safety
    ///
    /// As for `destroy_buffer` and `destroy_image`.
    #[track_caller]
    unsafe fn destroy(&mut self, resource: Resource, block: MemoryBlock<Memory>) {
        self.core.assert_own(&block);
        // SAFETY: as the caller says. What is bound to the block is destroyed before the block's memory may be freed.
        unsafe {
            self.device.destroy(resource);
            self.core.dealloc(&self.device, block);
        }
    }
}

impl Drop for Allocator {
    fn drop(&mut self) {
        // SAFETY: the device outlives this, as the caller of `load` said, and is the allocator's. What is live stays.
        unsafe { self.core.cleanup(&self.device) };
    }
}
