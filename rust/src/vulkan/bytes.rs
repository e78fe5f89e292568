//! The host's side of an allocator's blocks: their bytes.

use super::allocator::Allocator;
use super::device_for::DeviceFor;
use super::error::Error;
use super::raw::Memory;
use crate::{MapError, MappedMemoryRange, MemoryBlock};
use std::ops::Range;
use std::ptr::NonNull;

impl Allocator {
    /// Writes bytes into a block from `offset` on, counted in bytes from its start: maps them, copies them, flushes
    /// them where the memory is not host-coherent, and unmaps them. With no bytes the driver is not called.
    ///
    /// # Errors
    ///
    /// [`Error::Map`], [`Error::Driver`]. Nothing was written where the mapping was refused. Where the flush was, each
    /// byte that the device sees is the old one or the new one. Whether the block is mapped is unchanged.
    ///
    /// # Panics
    ///
    /// Where the range does not lie in the block, which may be larger than requested. Nothing is written.
    ///
    /// # Safety
    ///
    /// * The block is of this allocator.
    /// * The device is not reading or writing those bytes, rounded to whole atoms where the memory is not
    ///   host-coherent.
    /// * `data` is none of the block's own bytes ([`MemoryBlock::mapped`]).
    #[track_caller]
    pub unsafe fn write(&self, block: &mut MemoryBlock<Memory>, offset: u64, data: &[u8]) -> Result<(), Error> {
        let asked = DeviceFor::none(&self.device);
        // SAFETY: the device is the block's; else as the caller says.
        unsafe { block.write_bytes(&asked, offset, data) }.map_err(|error| of_mapping(error, &asked))
    }

    /// Reads bytes of a block from `offset` on, counted in bytes from its start: maps them, invalidates them where the
    /// memory is not host-coherent, copies them, and unmaps them. With no bytes the driver is not called.
    ///
    /// # Errors
    ///
    /// [`Error::Map`], [`Error::Driver`]. `data` is then unchanged, and so is whether the block is mapped.
    ///
    /// # Panics
    ///
    /// Where the range does not lie in the block, which may be larger than requested. Nothing is read.
    ///
    /// # Safety
    ///
    /// * The block is of this allocator.
    /// * The device is not writing those bytes, rounded to whole atoms where the memory is not host-coherent.
    /// * `data` is none of the block's own bytes ([`MemoryBlock::mapped`]).
    #[track_caller]
    pub unsafe fn read(&self, block: &mut MemoryBlock<Memory>, offset: u64, data: &mut [u8]) -> Result<(), Error> {
        let asked = DeviceFor::none(&self.device);
        // SAFETY: the device is the block's; else as the caller says.
        unsafe { block.read_bytes(&asked, offset, data) }.map_err(|error| of_mapping(error, &asked))
    }

    /// Maps a whole block. The address is valid until [`unmap`](Allocator::unmap), or until the block is freed. After
    /// writes through it call [`flush`](Allocator::flush), and before reads [`invalidate`](Allocator::invalidate).
    ///
    /// # Errors
    ///
    /// [`Error::Map`], [`Error::Driver`]. Whether the block is mapped is then unchanged.
    ///
    /// # Safety
    ///
    /// * The block is of this allocator.
    /// * Through the address no byte is reached that the device may be writing, or, for a write, reading: rounded to
    ///   whole atoms where the memory is not host-coherent.
    pub unsafe fn map(&self, block: &mut MemoryBlock<Memory>) -> Result<NonNull<[u8]>, Error> {
        let asked = DeviceFor::none(&self.device);
        let size = usize::try_from(block.size()).expect("a mapping has to fit the host's memory");
        // SAFETY: the device is the block's; else as the caller says.
        let start = unsafe { block.map(&asked, 0, size) }.map_err(|error| of_mapping(error, &asked))?;
        Ok(NonNull::slice_from_raw_parts(start, size))
    }

    /// Unmaps a block, and returns whether it was mapped by [`map`](Allocator::map). It flushes nothing. A block that
    /// stays mapped as long as it lives ([`MemoryRequest::mapped`](super::MemoryRequest::mapped)) does so still.
    ///
    /// # Safety
    ///
    /// The block is of this allocator.
    pub unsafe fn unmap(&self, block: &mut MemoryBlock<Memory>) -> bool {
        // SAFETY: the device is the block's, as the caller says.
        unsafe { block.unmap(&self.device) }
    }

    /// Flushes ranges of mapped blocks, counted in bytes from their starts: the host's writes reach the device with the
    /// next submission. The driver gets whole atoms (VUID-VkMappedMemoryRange-offset-00687, -size-01390), at most 16
    /// ranges in one call, and none where the memory is host-coherent.
    ///
    /// # Errors
    ///
    /// [`Error::NotMapped`]: nothing was flushed. [`Error::Driver`]: each byte that the device sees is the old one or
    /// the new one.
    ///
    /// # Panics
    ///
    /// Where a range does not lie in its block. Nothing is flushed.
    ///
    /// # Safety
    ///
    /// The blocks are of this allocator. Those ranges of them are mapped, as by [`map`](Allocator::map) or for life
    /// ([`MemoryBlock::mapped`]).
    pub unsafe fn flush(&self, ranges: &[(&MemoryBlock<Memory>, Range<u64>)]) -> Result<(), Error> {
        // SAFETY: the ranges are of whole atoms or end with their blocks; else as the caller says.
        unsafe { self.device.flush_all(&whole_atoms(ranges)?) }
    }

    /// Invalidates ranges of mapped blocks, counted in bytes from their starts. The host then reads what the device
    /// wrote and a barrier and a fence made available to it. The driver gets at most 16 ranges in one call, and none
    /// where the memory is host-coherent.
    ///
    /// # Errors
    ///
    /// [`Error::NotMapped`]: nothing was invalidated. [`Error::Driver`]: each byte that the host sees is the old one or
    /// the new one.
    ///
    /// # Panics
    ///
    /// Where a range does not lie in its block. Nothing is invalidated.
    ///
    /// # Safety
    ///
    /// The blocks are of this allocator. Those ranges of them are mapped, as by [`map`](Allocator::map) or for life
    /// ([`MemoryBlock::mapped`]).
    pub unsafe fn invalidate(&self, ranges: &[(&MemoryBlock<Memory>, Range<u64>)]) -> Result<(), Error> {
        // SAFETY: the ranges are of whole atoms or end with their blocks; else as the caller says.
        unsafe { self.device.invalidate_all(&whole_atoms(ranges)?) }
    }
}

/// Why a mapping, a flush or an invalidate was refused: the driver's result, if it returned one.
fn of_mapping(error: MapError, asked: &DeviceFor<'_>) -> Error {
    match error {
        MapError::NonHostVisible | MapError::AlreadyMapped => Error::Map(error),
        error => asked.failure().unwrap_or(Error::Map(error)),
    }
}

/// The ranges of memory objects that cover these of blocks, without those that need no flush.
#[track_caller]
fn whole_atoms<'a>(
    ranges: &[(&'a MemoryBlock<Memory>, Range<u64>)],
) -> Result<Vec<MappedMemoryRange<'a, Memory>>, Error> {
    let mut covered = Vec::new();
    for (block, range) in ranges {
        assert!(range.start <= range.end && range.end <= block.size(), "a range has to lie in its block");
        if !block.is_mapped() {
            return Err(Error::NotMapped);
        }
        if !range.is_empty() {
            covered.extend(block.to_flush(range.start, range.end - range.start));
        }
    }
    Ok(covered)
}
