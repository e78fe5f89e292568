//! A device with the resource that it is asked for, and as a `MemoryDevice`.

use super::calls::Resource;
use super::device::Device;
use super::error::{Error, VkResult};
use super::raw::{chain, Memory, MemoryAllocateFlagsInfo, MemoryDedicatedAllocateInfo};
use crate::block::Start;
use crate::types::{
    AllocationFlags, DeviceMapError, MappedMemoryRange, MemoryDevice, MemoryPropertyFlags, OutOfMemory,
};
use std::cell::Cell;
use std::ffi::c_void;
use std::ptr::{null, NonNull};

/// A [`Device`] with one buffer or image, or with a block that is for none. It chains to a memory object what belongs
/// to that resource, exactly where the object will hold only its block
/// ([`allocate_own`](MemoryDevice::allocate_own)). Such an object has the size of the resource's requirements
/// (VUID-VkMemoryDedicatedAllocateInfo-image-02964, -buffer-02965). It also keeps what the driver returned last.
///
/// It is the same device to an allocator: a block that was allocated by one may be used by the other.
#[derive(Debug)]
pub struct DeviceFor<'a> {
    device: &'a Device,
    resource: Option<Resource>,
    next: *const c_void,
    /// Whether an object for one block stays mapped, where it is host-visible.
    stays_mapped: bool,
    /// Where the object for one block that was made last is mapped, if it is.
    start: Cell<Option<Start>>,
    failed: Cell<Option<Error>>,
    /// The memory types of which an object for one block was refused, or its mapping: bit i for the type of index i.
    refused_alone: Cell<u32>,
}

impl<'a> DeviceFor<'a> {
    pub(crate) fn new(device: &'a Device, resource: Resource) -> Self {
        DeviceFor { resource: Some(resource), ..DeviceFor::none(device) }
    }

    /// For a block whose resource is not known.
    pub(crate) fn none(device: &'a Device) -> Self {
        DeviceFor {
            device,
            resource: None,
            next: null(),
            stays_mapped: false,
            start: Cell::new(None),
            failed: Cell::new(None),
            refused_alone: Cell::new(0),
        }
    }

    /// Chains these structs too ([`MemoryRequest::next`](super::MemoryRequest::next)).
    ///
    /// # Errors
    ///
    /// [`Error::Chained`]: this side already chains one of them.
    ///
    /// # Safety
    ///
    /// `next` is null or the first of a chain of structs that may follow `VkMemoryAllocateInfo`, and they live as long
    /// as the value is used.
    pub unsafe fn with_next(self, next: *const c_void) -> Result<Self, Error> {
        // SAFETY: as the caller says.
        for (s_type, _) in unsafe { chain(next) } {
            match s_type {
                MemoryDedicatedAllocateInfo::TYPE => return Err(Error::Chained("VkMemoryDedicatedAllocateInfo")),
                MemoryAllocateFlagsInfo::TYPE => return Err(Error::Chained("VkMemoryAllocateFlagsInfo")),
                _ => {}
            }
        }
        Ok(DeviceFor { next, ..self })
    }

    /// The driver's latest result of a call that it may refuse, where that was an error: [`Error::Driver`].
    pub fn failure(&self) -> Option<Error> {
        self.failed.get()
    }

    /// The same, where an object for one block stays mapped or does not.
    pub(crate) fn mapped(self, stays_mapped: bool) -> Self {
        DeviceFor { stays_mapped, ..self }
    }

    /// Where the object for one block that was made last is mapped, if it stays so.
    pub(crate) fn start(&self) -> Option<Start> {
        self.start.get()
    }

    /// The memory types of which no object for one block was refused.
    pub(crate) fn left_alone(&self) -> u32 {
        !self.refused_alone.get()
    }

    /// Makes an object for one block, and maps all of it where it is to stay mapped. Where that is refused, the object
    /// is freed.
    ///
    /// # Safety
    ///
    /// As for `allocate_own`.
    unsafe fn make_own(&self, size: u64, of: u32, flags: AllocationFlags) -> Result<Memory, Error> {
        // SAFETY: as the caller says.
        let memory = unsafe { self.device.allocate(size, of, flags, self.made_for(), self.next) }?;
        let is_visible = self.device.props_of(of).contains(MemoryPropertyFlags::HOST_VISIBLE);
        let start = if self.stays_mapped && is_visible {
            // SAFETY: the object is host-visible, has that size, and was made just now.
            let mapped = unsafe { self.device.map(memory, 0, size) };
            // SAFETY: as above; nothing else has it.
            Some(mapped.inspect_err(|_| unsafe { self.device.free(memory) })?)
        } else {
            None
        };
        self.start.set(start.map(Start));
        Ok(memory)
    }

    /// Keeps an answer's error, and returns its result.
    fn keep<T>(&self, answer: Result<T, Error>) -> Result<T, VkResult> {
        self.failed.set(answer.as_ref().err().copied());
        answer.map_err(Error::result)
    }
}

/// `VK_ERROR_TOO_MANY_OBJECTS` also lets an allocation go on with its next memory type.
fn out_of_memory(result: VkResult) -> OutOfMemory {
    match result {
        VkResult::ERROR_OUT_OF_DEVICE_MEMORY | VkResult::ERROR_TOO_MANY_OBJECTS => OutOfMemory::OutOfDeviceMemory,
        _ => OutOfMemory::OutOfHostMemory,
    }
}

fn map_error(result: VkResult) -> DeviceMapError {
    match result {
        VkResult::ERROR_MEMORY_MAP_FAILED => DeviceMapError::MapFailed,
        result => match out_of_memory(result) {
            OutOfMemory::OutOfDeviceMemory => DeviceMapError::OutOfDeviceMemory,
            OutOfMemory::OutOfHostMemory => DeviceMapError::OutOfHostMemory,
        },
    }
}

// These functions require of their callers what those of the device require. Whoever made the value promised that the
// resource is live and the chain is one that Vulkan allows.
impl MemoryDevice<Memory> for DeviceFor<'_> {
    unsafe fn allocate_memory(&self, size: u64, of: u32, flags: AllocationFlags) -> Result<Memory, OutOfMemory> {
        // SAFETY: as the caller says.
        self.keep(unsafe { self.device.allocate(size, of, flags, None, null()) }).map_err(out_of_memory)
    }

    unsafe fn allocate_own(&self, size: u64, of: u32, flags: AllocationFlags) -> Result<Memory, OutOfMemory> {
        // SAFETY: as the caller says.
        let answer = unsafe { self.make_own(size, of, flags) };
        if answer.is_err() {
            self.refused_alone.set(self.refused_alone.get() | 1 << of);
        }
        self.keep(answer).map_err(out_of_memory)
    }

    fn made_for(&self) -> Option<Resource> {
        self.resource.filter(|_| self.device.has_owners())
    }

    unsafe fn deallocate_memory(&self, memory: Memory) {
        // SAFETY: as the caller says.
        unsafe { self.device.free(memory) }
    }

    unsafe fn map_memory(&self, memory: &mut Memory, offset: u64, size: u64) -> Result<NonNull<u8>, DeviceMapError> {
        // SAFETY: as the caller says.
        self.keep(unsafe { self.device.map(*memory, offset, size) }).map_err(map_error)
    }

    unsafe fn unmap_memory(&self, memory: &mut Memory) {
        // SAFETY: as the caller says.
        unsafe { self.device.unmap(*memory) }
    }

    unsafe fn invalidate_memory_ranges(&self, ranges: &[MappedMemoryRange<'_, Memory>]) -> Result<(), OutOfMemory> {
        // SAFETY: as the caller says.
        self.keep(unsafe { self.device.invalidate_all(ranges) }).map_err(out_of_memory)
    }

    unsafe fn flush_memory_ranges(&self, ranges: &[MappedMemoryRange<'_, Memory>]) -> Result<(), OutOfMemory> {
        // SAFETY: as the caller says.
        self.keep(unsafe { self.device.flush_all(ranges) }).map_err(out_of_memory)
    }
}

// These functions require of their callers what those above require.
impl MemoryDevice<Memory> for Device {
    unsafe fn allocate_memory(&self, size: u64, of: u32, flags: AllocationFlags) -> Result<Memory, OutOfMemory> {
        // SAFETY: as the caller says.
        unsafe { DeviceFor::none(self).allocate_memory(size, of, flags) }
    }

    unsafe fn deallocate_memory(&self, memory: Memory) {
        // SAFETY: as the caller says.
        unsafe { self.free(memory) }
    }

    unsafe fn map_memory(&self, memory: &mut Memory, offset: u64, size: u64) -> Result<NonNull<u8>, DeviceMapError> {
        // SAFETY: as the caller says.
        unsafe { DeviceFor::none(self).map_memory(memory, offset, size) }
    }

    unsafe fn unmap_memory(&self, memory: &mut Memory) {
        // SAFETY: as the caller says.
        unsafe { self.unmap(*memory) }
    }

    unsafe fn invalidate_memory_ranges(&self, ranges: &[MappedMemoryRange<'_, Memory>]) -> Result<(), OutOfMemory> {
        // SAFETY: as the caller says.
        unsafe { DeviceFor::none(self).invalidate_memory_ranges(ranges) }
    }

    unsafe fn flush_memory_ranges(&self, ranges: &[MappedMemoryRange<'_, Memory>]) -> Result<(), OutOfMemory> {
        // SAFETY: as the caller says.
        unsafe { DeviceFor::none(self).flush_memory_ranges(ranges) }
    }
}
