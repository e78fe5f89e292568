//! What a device offers, and what it is asked for.

use crate::flags::flags;
use crate::vulkan::Resource;
use std::borrow::Cow;
use std::ptr::NonNull;

flags! {
    /// The properties of a memory type, with the bits of `VkMemoryPropertyFlags`. Other bits are ignored.
    pub struct MemoryPropertyFlags {
        /// It lies with the device, which reaches it fastest.
        const DEVICE_LOCAL = 0x01;

        /// The host can map it.
        const HOST_VISIBLE = 0x02;

        /// The host's reads and writes need no flush and no invalidate.
        const HOST_COHERENT = 0x04;

        /// The host's reads and writes go through its cache.
        const HOST_CACHED = 0x08;

        /// The device may back it only when it first writes it. The allocator serves no request from such a type.
        const LAZILY_ALLOCATED = 0x10;

        /// It is for protected content. The allocator serves no request from such a type.
        const PROTECTED = 0x20;
    }
}

flags! {
    /// What a memory object must be made with.
    pub struct AllocationFlags {
        /// The device address of what is bound to it can be queried (`VK_MEMORY_ALLOCATE_DEVICE_ADDRESS_BIT`).
        const DEVICE_ADDRESS = 0x01;
    }
}

/// A memory type of a device.
#[derive(Clone, Copy, Debug, PartialEq, Eq, Hash)]
pub struct MemoryType {
    /// The index of its heap in [`DeviceProperties::memory_heaps`].
    pub heap: u32,

    /// Its properties.
    pub props: MemoryPropertyFlags,
}

/// A memory heap of a device.
#[derive(Clone, Copy, Debug, PartialEq, Eq, Hash)]
pub struct MemoryHeap {
    /// Its size in bytes. The allocator never asks for more than is left of it, or of a limit below it
    /// ([`GpuAllocator::set_heap_limit`](crate::GpuAllocator::set_heap_limit)).
    pub size: u64,
}

/// What a device offers.
#[derive(Clone, Debug)]
pub struct DeviceProperties<'a> {
    /// Its memory types, 32 at most.
    pub memory_types: Cow<'a, [MemoryType]>,

    /// Its memory heaps.
    pub memory_heaps: Cow<'a, [MemoryHeap]>,

    /// How many memory objects the allocator may hold: as many as the device allows
    /// (`VkPhysicalDeviceLimits::maxMemoryAllocationCount`), less those that the program makes itself.
    pub max_memory_allocation_count: u32,

    /// The largest size of a request in bytes (`VkPhysicalDeviceMaintenance3Properties::maxMemoryAllocationSize`).
    pub max_memory_allocation_size: u64,

    /// The alignment in bytes of the ranges that are flushed and invalidated
    /// (`VkPhysicalDeviceLimits::nonCoherentAtomSize`): a power of two of at most 2^62.
    pub non_coherent_atom_size: u64,

    /// Whether the feature `bufferDeviceAddress` is enabled. Each object is then made for it.
    pub buffer_device_address: bool,
}

/// Why a device refused to make a memory object, to flush or to invalidate.
#[derive(Clone, Copy, Debug, PartialEq, Eq, Hash)]
pub enum OutOfMemory {
    /// `VK_ERROR_OUT_OF_DEVICE_MEMORY`. An allocation goes on with the next memory type.
    OutOfDeviceMemory,

    /// `VK_ERROR_OUT_OF_HOST_MEMORY`. An allocation ends.
    OutOfHostMemory,
}

/// Why a device refused to map.
#[derive(Clone, Copy, Debug, PartialEq, Eq, Hash)]
pub enum DeviceMapError {
    /// `VK_ERROR_OUT_OF_DEVICE_MEMORY`.
    OutOfDeviceMemory,

    /// `VK_ERROR_OUT_OF_HOST_MEMORY`.
    OutOfHostMemory,

    /// `VK_ERROR_MEMORY_MAP_FAILED`.
    MapFailed,
}

/// A range of a mapped memory object, in bytes.
#[derive(Debug)]
pub struct MappedMemoryRange<'a, M> {
    /// The object.
    pub memory: &'a M,

    /// Where the range starts, in bytes from the object's start.
    pub offset: u64,

    /// How long it is.
    pub size: u64,
}

/// A device that the allocator takes memory objects from, each a value of `M`.
///
/// The allocator keeps Vulkan's rules for these calls. Ranges lie inside their objects. What is flushed and invalidated
/// is mapped, and has whole atoms or ends where its object ends. An object is mapped once at a time, and freed once. A
/// mapped object may be freed: it needs no `unmap_memory` before.
///
/// A call may panic: the allocator can be used and dropped after that. A panic of
/// [`deallocate_memory`](MemoryDevice::deallocate_memory) loses the object that it was freeing, and no other: the
/// allocator's next `dealloc` or `cleanup` goes on with the others. Where another call panics, what was made for the
/// request is freed.
pub trait MemoryDevice<M> {
    /// Makes a memory object of `size` bytes of a memory type.
    ///
    /// # Safety
    ///
    /// `memory_type` is the index of a memory type of the device, `size` is at least 1, and
    /// [`DEVICE_ADDRESS`](AllocationFlags::DEVICE_ADDRESS) is there only where its feature is enabled.
    unsafe fn allocate_memory(&self, size: u64, memory_type: u32, flags: AllocationFlags) -> Result<M, OutOfMemory>;

    /// Makes a memory object that will hold only the request's block, and has the request's size. So what belongs to
    /// one resource may be chained to it (`VkMemoryDedicatedAllocateInfo`, a priority, an export).
    ///
    /// It does what [`allocate_memory`](MemoryDevice::allocate_memory) does, unless the device has it: one that was
    /// written for `gpu-alloc` needs no change. A device over another one passes it on.
    ///
    /// # Safety
    ///
    /// As for `allocate_memory`.
    unsafe fn allocate_own(&self, size: u64, memory_type: u32, flags: AllocationFlags) -> Result<M, OutOfMemory> {
        // SAFETY: as the caller says.
        unsafe { self.allocate_memory(size, memory_type, flags) }
    }

    /// The resource that is chained to each object of [`allocate_own`](MemoryDevice::allocate_own), if there is one.
    /// The block keeps it ([`MemoryBlock::made_for`](crate::MemoryBlock::made_for)). A device over another one passes
    /// it on.
    fn made_for(&self) -> Option<Resource> {
        None
    }

    /// Frees a memory object, mapped or not.
    ///
    /// # Safety
    ///
    /// It is of this device, which is done with it.
    unsafe fn deallocate_memory(&self, memory: M);

    /// Maps a range of a memory object. The pointer is to the range's start, and valid for reads and writes of all its
    /// bytes until the object is unmapped or freed.
    ///
    /// # Safety
    ///
    /// The object is of this device, host-visible and not mapped, and `offset .. offset + size` lies in it.
    unsafe fn map_memory(&self, memory: &mut M, offset: u64, size: u64) -> Result<NonNull<u8>, DeviceMapError>;

    /// Unmaps a memory object.
    ///
    /// # Safety
    ///
    /// The object is of this device, and mapped.
    unsafe fn unmap_memory(&self, memory: &mut M);

    /// Makes the device's writes to these ranges visible to the host.
    ///
    /// # Safety
    ///
    /// They are in the mapped parts of objects of this device, and have whole atoms or end where the object ends.
    unsafe fn invalidate_memory_ranges(&self, ranges: &[MappedMemoryRange<'_, M>]) -> Result<(), OutOfMemory>;

    /// Makes the host's writes to these ranges visible to the device.
    ///
    /// # Safety
    ///
    /// As for [`invalidate_memory_ranges`](MemoryDevice::invalidate_memory_ranges).
    unsafe fn flush_memory_ranges(&self, ranges: &[MappedMemoryRange<'_, M>]) -> Result<(), OutOfMemory>;
}
