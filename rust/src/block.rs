//! Blocks, and the host's access to their bytes.
//!
//! The library can keep a block's mapping (`wt_map`, `wt_unmap`). But a block of this crate is mapped without its
//! allocator, and on any thread, so it would have to share the allocator under a lock. Here the block keeps its mapping
//! itself. It holds what the calls need: its own memory object, or the address where its shared one was mapped when it
//! was made. To the library each block is then unmapped, which is harmless: it frees mapped and unmapped blocks alike.
//! What is left to this file is the rounding of ranges to atoms, [`MemoryBlock::whole_atoms`]; a test compares it with
//! the library's (`wt_range_of`).

use crate::error::MapError;
use crate::report::{report, Dropped, LiveBlock};
use crate::types::{MappedMemoryRange, MemoryDevice, MemoryPropertyFlags, OutOfMemory};
use crate::vulkan::Resource;
use std::ops::Range;
use std::ptr::{copy_nonoverlapping, NonNull};
use std::sync::Arc;

/// Where a memory object is mapped: the address of its first byte.
#[derive(Clone, Copy, Debug)]
pub(crate) struct Start(pub(crate) NonNull<u8>);

// SAFETY: it is an address. The unsafe calls that use it say what may be reached through it.
unsafe impl Send for Start {}

// SAFETY: as above.
unsafe impl Sync for Start {}

/// A memory object that blocks share.
#[derive(Debug)]
pub(crate) struct Shared<M> {
    pub(crate) memory: Arc<M>,
    /// Where it is mapped, if it is host-visible. It stays mapped as long as it is held.
    pub(crate) start: Option<Start>,
}

impl<M> Clone for Shared<M> {
    fn clone(&self) -> Self {
        Shared { memory: Arc::clone(&self.memory), start: self.start }
    }
}

/// A block's memory object.
#[derive(Debug)]
pub(crate) enum Memory<M> {
    /// No other block is in it. It is mapped where this block is.
    Own(M),
    /// Other blocks may be in it.
    Shared(Shared<M>),
}

/// Reports a block that was dropped.
#[derive(Debug)]
struct Unreturned(LiveBlock);

impl Drop for Unreturned {
    fn drop(&mut self) {
        let name = self.0.name.take();
        report(&Dropped::Block(LiveBlock { name, ..self.0 }));
    }
}

/// A range of a memory object, to be returned by [`GpuAllocator::dealloc`](crate::GpuAllocator::dealloc). One that is
/// dropped is reported ([`Dropped::Block`]), and its memory stays taken.
#[derive(Debug)]
pub struct MemoryBlock<M> {
    allocator: u64,
    /// The alignment less 1 of what is flushed and invalidated; 0 where no flush is needed.
    atom_mask: u64,
    props: MemoryPropertyFlags,
    mapped: bool,
    /// The address of its first byte, where it stays mapped as long as it lives.
    start: Option<Start>,
    memory: Memory<M>,
    made_for: Option<Resource>,
    unreturned: Unreturned,
}

/// What a block is made of, apart from its memory object.
pub(crate) struct Parts {
    /// The number of its allocator.
    pub(crate) allocator: u64,
    pub(crate) place: LiveBlock,
    pub(crate) atom_mask: u64,
    pub(crate) props: MemoryPropertyFlags,
    pub(crate) made_for: Option<Resource>,
}

impl<M> MemoryBlock<M> {
    pub(crate) fn new(parts: Parts, memory: Memory<M>) -> Self {
        MemoryBlock {
            allocator: parts.allocator,
            atom_mask: parts.atom_mask,
            props: parts.props,
            mapped: false,
            start: None,
            memory,
            made_for: parts.made_for,
            unreturned: Unreturned(parts.place),
        }
    }

    /// The number of the block's allocator.
    pub(crate) fn allocator(&self) -> u64 {
        self.allocator
    }

    #[inline]
    fn place(&self) -> &LiveBlock {
        &self.unreturned.0
    }

    pub(crate) fn set_user(&mut self, user: u64) {
        self.unreturned.0.user = user;
    }

    pub(crate) fn set_name(&mut self, name: Option<Box<str>>) {
        self.unreturned.0.name = name;
    }

    /// Whether the block is mapped.
    pub(crate) fn is_mapped(&self) -> bool {
        self.mapped || self.start.is_some()
    }

    /// From now on the block stays mapped as long as it lives, if the host sees it: an object of its own from this
    /// address on, where all of it was mapped, a shared one where it is mapped anyway.
    pub(crate) fn stay_mapped(&mut self, own: Option<Start>) {
        let (base, distance) = match &self.memory {
            Memory::Own(_) => (own, 0),
            Memory::Shared(shared) => (shared.start, self.offset()),
        };
        let distance = usize::try_from(distance).expect("a mapping has to fit the host's memory");
        // SAFETY: the object is mapped from that address on, and the block lies in it that far behind.
        self.start = base.map(|Start(base)| Start(unsafe { base.add(distance) }));
    }

    /// Ends the block, so that its allocator can free it.
    pub(crate) fn into_parts(mut self) -> (u64, Memory<M>) {
        let key = self.key();
        self.set_name(None);
        std::mem::forget(self.unreturned);
        (key, self.memory)
    }

    /// The block's memory object.
    #[inline]
    pub fn memory(&self) -> &M {
        match &self.memory {
            Memory::Own(memory) => memory,
            Memory::Shared(shared) => &shared.memory,
        }
    }

    /// What its allocator knows the block by: no other live block of it has the same, and reports name it
    /// ([`GpuAllocator::report`](crate::GpuAllocator::report), [`Dropped`]).
    #[inline]
    pub fn key(&self) -> u64 {
        self.place().key
    }

    /// The program's value, 0 until [`GpuAllocator::set_user`](crate::GpuAllocator::set_user) sets it.
    #[inline]
    pub fn user(&self) -> u64 {
        self.place().user
    }

    /// The program's name for the block, if [`GpuAllocator::set_name`](crate::GpuAllocator::set_name) gave it one.
    #[inline]
    pub fn name(&self) -> Option<&str> {
        self.place().name.as_deref()
    }

    /// The block's bytes, where they stay mapped as long as it lives
    /// ([`MemoryRequest::mapped`](crate::vulkan::MemoryRequest::mapped), and host-visible memory); `None` otherwise.
    /// The address is valid until the block is freed, for reads and writes that no command of the device conflicts
    /// with. After writes through it flush, and before reads invalidate, as with [`map`](MemoryBlock::map), which may
    /// be called too.
    #[inline]
    pub fn mapped(&self) -> Option<NonNull<[u8]>> {
        let Start(start) = self.start?;
        // It was mapped, so that its size fits.
        Some(NonNull::slice_from_raw_parts(start, self.size() as usize))
    }

    /// Where the block starts, in bytes from the start of its memory object.
    #[inline]
    pub fn offset(&self) -> u64 {
        self.place().offset
    }

    /// The block's size in bytes: at least what was asked for.
    #[inline]
    pub fn size(&self) -> u64 {
        self.place().size
    }

    /// The properties of the block's memory type.
    #[inline]
    pub fn props(&self) -> MemoryPropertyFlags {
        self.props
    }

    /// The index of the block's memory type.
    #[inline]
    pub fn memory_type(&self) -> u32 {
        self.place().memory_type
    }

    /// The buffer or image that the block's memory object was made for, where it is chained to it
    /// (`VkMemoryDedicatedAllocateInfo`): no other one may be bound to the block.
    #[inline]
    pub fn made_for(&self) -> Option<Resource> {
        self.made_for
    }

    /// Maps `size` bytes of the block from `offset` on, both counted in bytes from its start, and returns the address
    /// of the first of them. A `size` of 0 counts as 1. The address is valid until [`unmap`](MemoryBlock::unmap), or
    /// until the block is returned.
    ///
    /// Where the memory is not host-coherent, flush what you wrote, and invalidate before you read, in ranges of whole
    /// atoms that end at the block's end at most. [`write_bytes`](MemoryBlock::write_bytes) and
    /// [`read_bytes`](MemoryBlock::read_bytes) do so.
    ///
    /// # Errors
    ///
    /// [`MapError::NonHostVisible`], [`MapError::AlreadyMapped`], or the device's answer. Whether the block is mapped
    /// is then unchanged.
    ///
    /// # Panics
    ///
    /// Where the range does not lie in the block, or starts at its end. Nothing is changed.
    ///
    /// # Safety
    ///
    /// * `device` is the one that the block was allocated from, or that its memory was imported from.
    /// * Through the address only those bytes are reached, and none that the device may be writing, or, for a write,
    ///   reading: rounded to whole atoms where the memory is not host-coherent.
    #[inline]
    #[track_caller]
    pub unsafe fn map(
        &mut self,
        device: &impl MemoryDevice<M>,
        offset: u64,
        size: usize,
    ) -> Result<NonNull<u8>, MapError> {
        let size = u64::try_from(size).expect("`size` has to fit 64 bits");
        assert!(offset < self.size(), "`offset` has to be less than the block's size");
        assert!(size <= self.size() - offset, "`offset + size` has to be at most the block's size");
        self.may_be_mapped()?;
        if let Some(Start(start)) = self.start {
            self.mapped = true;
            // SAFETY: the whole block is mapped from that address on, and has a byte at `offset`.
            return Ok(unsafe { start.add(offset as usize) });
        }
        let range = self.whole_atoms(offset, size.max(1));
        let base = if let Memory::Own(_) = self.memory { range.start } else { 0 };
        let distance = usize::try_from(self.offset() + offset - base).expect("a mapping has to fit the host's memory");
        let start = match &mut self.memory {
            // SAFETY: the device is the object's, as the caller says. The object is host-visible, and not mapped, as
            // only this block maps it. The range lies in the block, or begins less than an atom before it, inside the
            // object.
            Memory::Own(memory) => unsafe { device.map_memory(memory, range.start, range.end - range.start) }?,
            Memory::Shared(shared) => shared.start.ok_or(MapError::NonHostVisible)?.0,
        };
        self.mapped = true;
        // SAFETY: `start` is the address of the object's byte at `base`, mapped up to `range.end` at least, and the
        // block's byte at `offset` lies at `base` or between the two.
        Ok(unsafe { start.add(distance) })
    }

    /// Unmaps the block, and returns whether it was mapped by [`map`](MemoryBlock::map). One that stays mapped as long
    /// as it lives ([`mapped`](MemoryBlock::mapped)) does so still.
    ///
    /// # Safety
    ///
    /// `device` is the one that the block was allocated from, or that its memory was imported from.
    #[inline]
    pub unsafe fn unmap(&mut self, device: &impl MemoryDevice<M>) -> bool {
        if !self.mapped {
            return false;
        }
        self.mapped = false;
        if let (Memory::Own(memory), None) = (&mut self.memory, self.start) {
            // SAFETY: the device is the object's, as the caller says; the object is mapped, as this block was.
            unsafe { device.unmap_memory(memory) };
        }
        true
    }

    /// Writes bytes into the block from `offset` on, counted in bytes from its start: maps them, copies them, flushes
    /// them where the memory is not host-coherent, and unmaps them. With no bytes the device is not called.
    ///
    /// # Errors
    ///
    /// As for [`map`](MemoryBlock::map), with nothing written; or the device's answer to the flush: the bytes are then
    /// written, but the device may not see them. Whether the block is mapped is unchanged.
    ///
    /// # Panics
    ///
    /// Where the range does not lie in the block. Nothing is written.
    ///
    /// # Safety
    ///
    /// * `device` is the one that the block was allocated from, or that its memory was imported from.
    /// * The device is not reading or writing those bytes, rounded to whole atoms where the memory is not
    ///   host-coherent.
    /// * `data` is none of the block's own bytes ([`mapped`](MemoryBlock::mapped)).
    #[inline]
    #[track_caller]
    pub unsafe fn write_bytes(
        &mut self,
        device: &impl MemoryDevice<M>,
        offset: u64,
        data: &[u8],
    ) -> Result<(), MapError> {
        if data.is_empty() {
            return self.reaches(offset);
        }
        // SAFETY: the device is the block's, as the caller says; the address is used only for `data`'s length below.
        let start = unsafe { self.map(device, offset, data.len()) }?;
        // SAFETY: as many bytes as `data` has were mapped, for writes too. `data` does not overlap them, as the caller
        // says.
        unsafe { copy_nonoverlapping(data.as_ptr(), start.as_ptr(), data.len()) };
        let range = self.to_flush(offset, data.len() as u64);
        // SAFETY: the range is of whole atoms or ends with the block, and is mapped.
        let flushed = range.map_or(Ok(()), |range| unsafe { device.flush_memory_ranges(&[range]) });
        // SAFETY: the device is the block's, as the caller says.
        unsafe { self.unmap(device) };
        flushed.map_err(OutOfMemory::into)
    }

    /// Reads bytes of the block from `offset` on, counted in bytes from its start: maps them, invalidates them where
    /// the memory is not host-coherent, copies them, and unmaps them. With no bytes the device is not called.
    ///
    /// # Errors
    ///
    /// As for [`map`](MemoryBlock::map), or the device's answer to the invalidate. `data` is then unchanged, and so is
    /// whether the block is mapped.
    ///
    /// # Panics
    ///
    /// Where the range does not lie in the block. Nothing is read.
    ///
    /// # Safety
    ///
    /// * `device` is the one that the block was allocated from, or that its memory was imported from.
    /// * The device is not writing those bytes, rounded to whole atoms where the memory is not host-coherent.
    /// * `data` is none of the block's own bytes ([`mapped`](MemoryBlock::mapped)).
    #[inline]
    #[track_caller]
    pub unsafe fn read_bytes(
        &mut self,
        device: &impl MemoryDevice<M>,
        offset: u64,
        data: &mut [u8],
    ) -> Result<(), MapError> {
        if data.is_empty() {
            return self.reaches(offset);
        }
        // SAFETY: the device is the block's, as the caller says; the address is used only for `data`'s length below.
        let start = unsafe { self.map(device, offset, data.len()) }?;
        let range = self.to_flush(offset, data.len() as u64);
        // SAFETY: the range is of whole atoms or ends with the block, and is mapped.
        let seen = range.map_or(Ok(()), |range| unsafe { device.invalidate_memory_ranges(&[range]) });
        if seen.is_ok() {
            // SAFETY: as many bytes as `data` has were mapped, for reads too. `data` does not overlap them, as the
            // caller says.
            unsafe { copy_nonoverlapping(start.as_ptr(), data.as_mut_ptr(), data.len()) };
        }
        // SAFETY: the device is the block's, as the caller says.
        unsafe { self.unmap(device) };
        seen.map_err(OutOfMemory::into)
    }

    /// The result of writing or reading no bytes at `offset`.
    fn reaches(&self, offset: u64) -> Result<(), MapError> {
        assert!(offset <= self.size(), "`offset` has to be at most the block's size");
        self.may_be_mapped()
    }

    fn may_be_mapped(&self) -> Result<(), MapError> {
        if !self.props.contains(MemoryPropertyFlags::HOST_VISIBLE) {
            return Err(MapError::NonHostVisible);
        }
        if self.mapped {
            return Err(MapError::AlreadyMapped);
        }
        Ok(())
    }

    /// The range to flush or to invalidate for these bytes of the block; `None` where the memory is host-coherent.
    pub(crate) fn to_flush(&self, offset: u64, size: u64) -> Option<MappedMemoryRange<'_, M>> {
        if self.props.contains(MemoryPropertyFlags::HOST_COHERENT) {
            return None;
        }
        let range = self.whole_atoms(offset, size);
        Some(MappedMemoryRange { memory: self.memory(), offset: range.start, size: range.end - range.start })
    }

    /// The atoms of the memory object that have these bytes of the block, cut at the block's end. An atom ends there,
    /// except in an object of the block's own, which may end inside one.
    pub(crate) fn whole_atoms(&self, offset: u64, size: u64) -> Range<u64> {
        let start = self.offset() + offset;
        let end = start + size;
        let block_end = self.offset() + self.size();
        let rounded = end.checked_add(self.atom_mask).map_or(block_end, |end| end & !self.atom_mask);
        start & !self.atom_mask..rounded.min(block_end)
    }
}
