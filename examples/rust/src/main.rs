//! The first use, which `rust/README.md` and the README show. It prints one line.

use std::{borrow::Cow, ptr::NonNull};
use wallthyme::*;

/// Your program has `vulkan::Device` here, or its own device. The memory objects of this one are host memory.
struct Host;

impl MemoryDevice<*mut [u8]> for Host {
    unsafe fn allocate_memory(&self, size: u64, _: u32, _: AllocationFlags) -> Result<*mut [u8], OutOfMemory> {
        Ok(Box::into_raw(vec![0; size as usize].into_boxed_slice()))
    }
    unsafe fn deallocate_memory(&self, memory: *mut [u8]) {
        drop(unsafe { Box::from_raw(memory) });
    }
    unsafe fn map_memory(&self, memory: &mut *mut [u8], offset: u64, _: u64) -> Result<NonNull<u8>, DeviceMapError> {
        NonNull::new(unsafe { memory.cast::<u8>().add(offset as usize) }).ok_or(DeviceMapError::MapFailed)
    }
    unsafe fn unmap_memory(&self, _: &mut *mut [u8]) {}
    unsafe fn invalidate_memory_ranges(&self, _: &[MappedMemoryRange<'_, *mut [u8]>]) -> Result<(), OutOfMemory> {
        Ok(())
    }
    unsafe fn flush_memory_ranges(&self, _: &[MappedMemoryRange<'_, *mut [u8]>]) -> Result<(), OutOfMemory> {
        Ok(())
    }
}

fn main() -> Result<(), Box<dyn std::error::Error>> {
    let props = MemoryPropertyFlags::HOST_VISIBLE | MemoryPropertyFlags::HOST_COHERENT;
    let offered = DeviceProperties {
        memory_types: Cow::Borrowed(&[MemoryType { heap: 0, props }]),
        memory_heaps: Cow::Borrowed(&[MemoryHeap { size: 1 << 26 }]),
        max_memory_allocation_count: 4096,
        max_memory_allocation_size: 1 << 24,
        non_coherent_atom_size: 64,
        buffer_device_address: false,
    };
    let mut allocator = GpuAllocator::try_new(Config::i_am_potato(), offered)?;
    let request = Request { size: 1000, align_mask: 255, usage: UsageFlags::UPLOAD, memory_types: 1 };
    // SAFETY: `Host` has what is `offered`, serves each call, and uses no block.
    unsafe {
        let mut block = allocator.alloc(&Host, request)?;
        println!("a block of {} bytes at offset {}", block.size(), block.offset());
        let written = block.write_bytes(&Host, 0, b"wild thyme");
        allocator.dealloc(&Host, block);
        allocator.cleanup(&Host);
        Ok(written?)
    }
}
