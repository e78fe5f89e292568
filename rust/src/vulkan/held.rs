//! What an allocator holds: freeing blocks, imports, names, limits, and a report.

use super::allocator::Allocator;
use super::error::Error;
use super::raw::Memory;
use crate::{AllocationError, MemoryBlock};

impl Allocator {
    /// Frees a block, mapped or not. Its memory object is freed with it where no other block needs it. Of each memory
    /// type one unused chunk of transient blocks, and one unused fit chunk ([`Sharing::Fit`](crate::Sharing::Fit)),
    /// stay until [`cleanup`](Allocator::cleanup), or until the allocator is dropped.
    ///
    /// # Panics
    ///
    /// Where the block is another allocator's. The block is dropped, and nothing else changes.
    ///
    /// # Safety
    ///
    /// The block is of this allocator. What was bound to it is destroyed, and the device is done with it
    /// (VUID-vkFreeMemory-memory-00677).
    #[track_caller]
    pub unsafe fn free(&mut self, block: MemoryBlock<Memory>) {
        // SAFETY: the device is the allocator's, and done with the block, as the caller says.
        unsafe { self.core.dealloc(&self.device, block) }
    }

    /// Imports `size` bytes of the program's own memory object from `offset` on as a block. The object is the
    /// allocator's from then on, counts as one that it holds, and is freed with its block.
    ///
    /// # Errors
    ///
    /// [`AllocationError::TooManyObjects`] in [`Error::Allocation`]: as many are held as the device allows. The object
    /// stays the program's.
    ///
    /// # Panics
    ///
    /// Where there is no such memory type, `size` is 0, `offset + size` exceeds 64 bits, or the host has too little
    /// memory. The allocator is then unchanged, and the object stays the program's.
    ///
    /// # Safety
    ///
    /// * The object is of this device and of that memory type, not mapped, and nobody else frees it.
    /// * It was made with callbacks that are compatible with [`DeviceInfo::callbacks`](super::DeviceInfo::callbacks),
    ///   and with none where that is `None`: the allocator frees it with those (chapter Host Memory).
    /// * Where it was made for one resource (`VkMemoryDedicatedAllocateInfo`), no other one is bound to the block.
    /// * `offset .. offset + size` lies in it. Where the memory is host-visible and not host-coherent, it ends at a
    ///   multiple of `nonCoherentAtomSize`, or at the object's end.
    #[track_caller]
    pub unsafe fn import(
        &mut self,
        memory: Memory,
        memory_type: u32,
        offset: u64,
        size: u64,
    ) -> Result<MemoryBlock<Memory>, Error> {
        if self.core.remaining_allocations() == 0 {
            return Err(Error::Allocation(AllocationError::TooManyObjects));
        }
        let types = self.device.device_properties().memory_types;
        let props =
            types.get(memory_type as usize).expect("an import's `memory_type` has to be one of the device's").props;
        // SAFETY: as the caller says; `props` are those of the type.
        Ok(unsafe { self.core.import_memory(memory, memory_type, props, offset, size) })
    }

    /// Sets the program's value of a block, which reports have. See
    /// [`GpuAllocator::set_user`](crate::GpuAllocator::set_user).
    ///
    /// # Panics
    ///
    /// Where the block is another allocator's. Nothing is changed.
    #[track_caller]
    pub fn set_user(&mut self, block: &mut MemoryBlock<Memory>, user: u64) {
        self.core.set_user(block, user);
    }

    /// Gives a block a name in place of an earlier one, which reports have. The empty text takes it away. See
    /// [`GpuAllocator::set_name`](crate::GpuAllocator::set_name); [`MemoryBlock::name`] is its name.
    ///
    /// ```
    /// # use wallthyme::vulkan::{Allocator, Error, Image};
    /// # fn show(allocator: &mut Allocator, target: &mut Image) -> Result<(), Error> {
    /// allocator.set_name(&mut target.block, "shadow map")?;
    /// assert!(allocator.report()?.contains("shadow map"));
    /// # Ok(())
    /// # }
    /// ```
    ///
    /// # Errors
    ///
    /// [`AllocationError::OutOfHostMemory`] in [`Error::Allocation`]. Nothing is changed then.
    ///
    /// # Panics
    ///
    /// Where the block is another allocator's. Nothing is changed.
    #[track_caller]
    pub fn set_name(&mut self, block: &mut MemoryBlock<Memory>, name: &str) -> Result<(), Error> {
        self.core.set_name(block, name).map_err(|error| Error::Allocation(error.into()))
    }

    /// Frees the memory objects that no block needs.
    pub fn cleanup(&mut self) {
        // SAFETY: the device is the allocator's, and live, as the caller of `load` says.
        unsafe { self.core.cleanup(&self.device) }
    }

    /// How many more memory objects may be held.
    pub fn remaining_allocations(&self) -> u32 {
        self.core.remaining_allocations()
    }

    /// The limit of a heap in bytes: the lesser of its size and the limit that was set last.
    ///
    /// # Panics
    ///
    /// Where there is no such heap.
    #[track_caller]
    pub fn heap_limit(&self, heap: u32) -> u64 {
        self.core.heap_limit(heap)
    }

    /// Sets a heap's limit in bytes, from now on. See
    /// [`GpuAllocator::set_heap_limit`](crate::GpuAllocator::set_heap_limit).
    ///
    /// # Panics
    ///
    /// Where there is no such heap. Nothing is changed.
    #[track_caller]
    pub fn set_heap_limit(&mut self, heap: u32, limit: u64) {
        self.core.set_heap_limit(heap, limit);
    }

    /// Limits each heap by its budget. Call it about once a frame. See
    /// [`Device::update_budget`](super::Device::update_budget).
    ///
    /// # Errors
    ///
    /// [`Error::NoBudget`], without [`Enabled::MEMORY_BUDGET`](super::Enabled::MEMORY_BUDGET). Each limit is then
    /// unchanged.
    pub fn update_budget(&mut self) -> Result<(), Error> {
        self.device.update_budget(&mut self.core)
    }

    /// A report of all that is held, as JSON. See [`GpuAllocator::report`](crate::GpuAllocator::report).
    ///
    /// # Errors
    ///
    /// [`AllocationError::OutOfHostMemory`] in [`Error::Allocation`]. Nothing is changed then.
    pub fn report(&mut self) -> Result<String, Error> {
        self.core.report().map_err(|error| Error::Allocation(error.into()))
    }
}
