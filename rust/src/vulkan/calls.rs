//! The calls of Vulkan, each with its arguments and its error.

use super::device::{Device, Requirements};
use super::error::{Error, VkResult};
use super::functions::OverRanges;
use super::raw::{self, BufferCreateInfo, ImageCreateInfo, Memory};
use crate::types::{AllocationFlags, MappedMemoryRange};
use crate::{Dedicated, MemoryBlock};
use std::ffi::c_void;
use std::ptr::{from_mut, from_ref, null_mut, NonNull};

/// How many ranges go to one call of the driver.
const RANGES_AT_ONCE: usize = 16;

/// The call that maps, as errors name it.
pub(crate) const MAP_MEMORY: &str = "vkMapMemory";

/// What memory is for.
#[derive(Clone, Copy, Debug, PartialEq, Eq, Hash)]
pub enum Resource {
    /// A buffer.
    Buffer(raw::Buffer),
    /// An image.
    Image(raw::Image),
}

/// What a call returned, as a result.
fn done(call: &'static str, result: VkResult) -> Result<(), Error> {
    match result {
        VkResult::SUCCESS => Ok(()),
        result => Err(Error::Driver { call, result }),
    }
}

impl Device {
    /// Makes a memory object, for a resource alone where there is one (`VkMemoryDedicatedAllocateInfo`).
    ///
    /// # Safety
    ///
    /// As for [`allocate_memory`](crate::MemoryDevice::allocate_memory). The resource is a live one of this device.
    /// `next` is null or a chain that Vulkan allows there, without what is chained here.
    pub(crate) unsafe fn allocate(
        &self,
        size: u64,
        memory_type: u32,
        flags: AllocationFlags,
        resource: Option<Resource>,
        next: *const c_void,
    ) -> Result<Memory, Error> {
        const CALL: &str = "vkAllocateMemory";
        if self.known_types() >> memory_type & 1 == 0 {
            return done(CALL, VkResult::ERROR_OUT_OF_DEVICE_MEMORY).map(|()| Memory(0));
        }
        let mut owner = raw::MemoryDedicatedAllocateInfo { p_next: next, ..Default::default() };
        match resource {
            Some(Resource::Buffer(buffer)) => owner.buffer = buffer,
            Some(Resource::Image(image)) => owner.image = image,
            None => {}
        }
        let mut address = raw::MemoryAllocateFlagsInfo { flags: raw::ALLOCATE_DEVICE_ADDRESS, ..Default::default() };
        let mut info = raw::MemoryAllocateInfo {
            p_next: if resource.is_some() { from_ref(&owner).cast() } else { next },
            allocation_size: size,
            memory_type_index: memory_type,
            ..Default::default()
        };
        if flags.contains(AllocationFlags::DEVICE_ADDRESS) {
            address.p_next = info.p_next;
            info.p_next = from_ref(&address).cast();
        }
        let mut memory = Memory(0);
        // SAFETY: as the caller says; all structs live until the call ends.
        let result = unsafe { (self.call.allocate_memory)(self.handle, &info, self.callbacks(), &mut memory) };
        done(CALL, result).map(|()| memory)
    }

    /// # Safety
    ///
    /// As for [`deallocate_memory`](crate::MemoryDevice::deallocate_memory).
    pub(crate) unsafe fn free(&self, memory: Memory) {
        // SAFETY: as the caller says.
        unsafe { (self.call.free_memory)(self.handle, memory, self.callbacks()) }
    }

    /// # Safety
    ///
    /// As for [`map_memory`](crate::MemoryDevice::map_memory).
    pub(crate) unsafe fn map(&self, memory: Memory, offset: u64, size: u64) -> Result<NonNull<u8>, Error> {
        let mut start = null_mut();
        // SAFETY: as the caller says.
        let result = unsafe { (self.call.map_memory)(self.handle, memory, offset, size, 0, &mut start) };
        done(MAP_MEMORY, result)?;
        NonNull::new(start.cast()).ok_or(Error::Driver { call: MAP_MEMORY, result: VkResult::ERROR_MEMORY_MAP_FAILED })
    }

    /// # Safety
    ///
    /// As for [`unmap_memory`](crate::MemoryDevice::unmap_memory).
    pub(crate) unsafe fn unmap(&self, memory: Memory) {
        // SAFETY: as the caller says.
        unsafe { (self.call.unmap_memory)(self.handle, memory) }
    }

    /// # Safety
    ///
    /// As for [`flush_memory_ranges`](crate::MemoryDevice::flush_memory_ranges).
    pub(crate) unsafe fn flush_all(&self, ranges: &[MappedMemoryRange<'_, Memory>]) -> Result<(), Error> {
        // SAFETY: as the caller says.
        done("vkFlushMappedMemoryRanges", unsafe { self.over_ranges(self.call.flush_ranges, ranges) })
    }

    /// # Safety
    ///
    /// As for [`invalidate_memory_ranges`](crate::MemoryDevice::invalidate_memory_ranges).
    pub(crate) unsafe fn invalidate_all(&self, ranges: &[MappedMemoryRange<'_, Memory>]) -> Result<(), Error> {
        // SAFETY: as the caller says.
        done("vkInvalidateMappedMemoryRanges", unsafe { self.over_ranges(self.call.invalidate_ranges, ranges) })
    }

    /// With no ranges there is no call: Vulkan wants at least one.
    unsafe fn over_ranges(&self, call: OverRanges, ranges: &[MappedMemoryRange<'_, Memory>]) -> VkResult {
        let mut passed = [raw::MappedMemoryRange::default(); RANGES_AT_ONCE];
        for some in ranges.chunks(RANGES_AT_ONCE) {
            for (to, from) in passed.iter_mut().zip(some) {
                (to.memory, to.offset, to.size) = (*from.memory, from.offset, from.size);
            }
            // SAFETY: as the caller says; that many structs live until the call ends.
            let result = unsafe { call(self.handle, some.len() as u32, passed.as_ptr()) };
            if result != VkResult::SUCCESS {
                return result;
            }
        }
        VkResult::SUCCESS
    }

    /// # Safety
    ///
    /// Vulkan allows this info for a buffer of this device.
    pub(crate) unsafe fn create_buffer(&self, info: &BufferCreateInfo) -> Result<raw::Buffer, Error> {
        let mut buffer = raw::Buffer(0);
        // SAFETY: as the caller says.
        let result = unsafe { (self.call.create_buffer)(self.handle, info, self.callbacks(), &mut buffer) };
        done("vkCreateBuffer", result).map(|()| buffer)
    }

    /// # Safety
    ///
    /// Vulkan allows this info for an image of this device.
    pub(crate) unsafe fn create_image(&self, info: &ImageCreateInfo) -> Result<raw::Image, Error> {
        let mut image = raw::Image(0);
        // SAFETY: as the caller says.
        let result = unsafe { (self.call.create_image)(self.handle, info, self.callbacks(), &mut image) };
        done("vkCreateImage", result).map(|()| image)
    }

    /// # Safety
    ///
    /// The resource is a live one of this device, which is done with it, and no other thread uses it.
    pub(crate) unsafe fn destroy(&self, resource: Resource) {
        // SAFETY: as the caller says.
        unsafe {
            match resource {
                Resource::Buffer(buffer) => (self.call.destroy_buffer)(self.handle, buffer, self.callbacks()),
                Resource::Image(image) => (self.call.destroy_image)(self.handle, image, self.callbacks()),
            }
        }
    }

    /// # Errors
    ///
    /// [`Error::OtherResource`], [`Error::Driver`]. Nothing is changed.
    ///
    /// # Safety
    ///
    /// As for [`bind_buffer`](Device::bind_buffer) and [`bind_image`](Device::bind_image).
    pub(crate) unsafe fn bind(
        &self,
        resource: Resource,
        block: &MemoryBlock<Memory>,
        offset: u64,
    ) -> Result<(), Error> {
        if block.made_for().is_some_and(|owner| owner != resource || offset != 0) {
            return Err(Error::OtherResource);
        }
        let (memory, offset) = (*block.memory(), block.offset() + offset);
        // SAFETY: as the caller says.
        unsafe {
            match resource {
                Resource::Buffer(buffer) => {
                    done("vkBindBufferMemory", (self.call.bind_buffer)(self.handle, buffer, memory, offset))
                }
                Resource::Image(image) => {
                    done("vkBindImageMemory", (self.call.bind_image)(self.handle, image, memory, offset))
                }
            }
        }
    }

    /// # Safety
    ///
    /// The resource is a live one of this device, and not a disjoint image.
    pub(crate) unsafe fn requirements(&self, resource: Resource, optimal: bool) -> Requirements {
        let mut own = raw::MemoryDedicatedRequirements::default();
        let mut needs = raw::MemoryRequirements2 { p_next: from_mut(&mut own).cast(), ..Default::default() };
        // SAFETY: as the caller says; all structs live until the calls end.
        unsafe {
            match (resource, self.call.requirements2) {
                (Resource::Buffer(buffer), Some(call)) => {
                    let info = raw::BufferMemoryRequirementsInfo2 { buffer, ..Default::default() };
                    (call.get_buffer_requirements2)(self.handle, &info, &mut needs);
                }
                (Resource::Image(image), Some(call)) => {
                    let info = raw::ImageMemoryRequirementsInfo2 { image, ..Default::default() };
                    (call.get_image_requirements2)(self.handle, &info, &mut needs);
                }
                (Resource::Buffer(buffer), None) => {
                    (self.call.get_buffer_requirements)(self.handle, buffer, &mut needs.memory_requirements);
                }
                (Resource::Image(image), None) => {
                    (self.call.get_image_requirements)(self.handle, image, &mut needs.memory_requirements);
                }
            }
        }
        Requirements {
            size: needs.memory_requirements.size,
            alignment: needs.memory_requirements.alignment,
            memory_types: needs.memory_requirements.memory_type_bits,
            dedicated: match (own.requires_dedicated_allocation != 0, own.prefers_dedicated_allocation != 0) {
                (true, _) => Some(Dedicated::Required),
                (false, true) => Some(Dedicated::Preferred),
                (false, false) => None,
            },
            optimal,
        }
    }
}
