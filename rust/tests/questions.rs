//! As many memory types as there can be, all of which the host sees, and a device that makes each object and maps none,
//! or the last one alone: no request asks it more.

mod common;

use common::{COHERENT, HEAP};
use std::borrow::Cow;
use std::cell::Cell;
use std::collections::BTreeMap;
use std::{cell::RefCell, ptr::NonNull};
use wallthyme::*;

const TYPES: u32 = 32;

/// Maps no object but those of one memory type, and keeps books of what was made.
#[derive(Default)]
struct HardlyMaps {
    mapped_type: Option<u32>,
    /// The memory types of the objects that are there, by their names.
    objects: RefCell<BTreeMap<u64, u32>>,
    made: Cell<u64>,
    mappings: Cell<u32>,
}

impl MemoryDevice<u64> for HardlyMaps {
    unsafe fn allocate_memory(&self, _: u64, memory_type: u32, _: AllocationFlags) -> Result<u64, OutOfMemory> {
        self.made.set(self.made.get() + 1);
        self.objects.borrow_mut().insert(self.made.get(), memory_type);
        assert_eq!(self.objects.borrow().len(), 1, "what was made in vain goes back before more is made");
        Ok(self.made.get())
    }
    unsafe fn deallocate_memory(&self, memory: u64) {
        self.objects.borrow_mut().remove(&memory).expect("an object that is there");
    }
    unsafe fn map_memory(&self, memory: &mut u64, _: u64, _: u64) -> Result<NonNull<u8>, DeviceMapError> {
        self.mappings.set(self.mappings.get() + 1);
        if Some(self.objects.borrow()[memory]) == self.mapped_type {
            Ok(NonNull::dangling())
        } else {
            Err(DeviceMapError::OutOfDeviceMemory)
        }
    }
    unsafe fn unmap_memory(&self, _: &mut u64) {}
    unsafe fn invalidate_memory_ranges(&self, _: &[MappedMemoryRange<'_, u64>]) -> Result<(), OutOfMemory> {
        Ok(())
    }
    unsafe fn flush_memory_ranges(&self, _: &[MappedMemoryRange<'_, u64>]) -> Result<(), OutOfMemory> {
        Ok(())
    }
}

fn allocator() -> GpuAllocator<u64> {
    let memory_type = MemoryType { heap: 0, props: COHERENT };
    let offered = DeviceProperties {
        memory_types: Cow::Owned(vec![memory_type; TYPES as usize]),
        memory_heaps: Cow::Borrowed(&[MemoryHeap { size: HEAP }]),
        max_memory_allocation_count: 64,
        max_memory_allocation_size: HEAP,
        non_coherent_atom_size: 64,
        buffer_device_address: false,
    };
    GpuAllocator::new(Config::i_am_potato(), offered)
}

const TRANSIENT: Request =
    Request { size: 100, align_mask: 0, usage: UsageFlags::UPLOAD.union(UsageFlags::TRANSIENT), memory_types: !0 };

#[test]
fn each_mapping_refused() {
    let device = HardlyMaps::default();
    let mut allocator = allocator();
    // SAFETY: there is one device, which offers what the allocator was made with.
    let answer = unsafe { allocator.alloc(&device, TRANSIENT) };
    assert_eq!(answer.err(), Some(AllocationError::OutOfDeviceMemory));
    assert_eq!((device.made.get(), device.mappings.get()), (TYPES.into(), TYPES));
    assert_eq!((device.objects.borrow().len(), allocator.remaining_allocations()), (0, 64));
}

#[test]
fn the_last_mapping_granted() {
    let device = HardlyMaps { mapped_type: Some(TYPES - 1), ..HardlyMaps::default() };
    let mut allocator = allocator();
    // SAFETY: there is one device, which offers what the allocator was made with.
    let block = unsafe { allocator.alloc(&device, TRANSIENT) }.expect("the last object is mapped");
    assert_eq!((device.made.get(), device.mappings.get()), (TYPES.into(), TYPES));
    assert_eq!((block.memory_type(), *block.memory()), (TYPES - 1, device.made.get()));
    assert_eq!((device.objects.borrow().len(), allocator.remaining_allocations()), (1, 63));
    // SAFETY: the block is this allocator's, and there is one device.
    unsafe {
        allocator.dealloc(&device, block);
        allocator.cleanup(&device);
    }
    assert_eq!((device.objects.borrow().len(), allocator.remaining_allocations()), (0, 64));
}
