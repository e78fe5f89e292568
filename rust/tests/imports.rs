//! Imported memory objects.

mod common;

use common::*;
use wallthyme::*;

/// Imports of each memory type are used as other blocks are, and go back with their block.
#[test]
fn used_and_given_back() {
    let device = Device::new();
    let mut allocator = allocator(3);
    let mut blocks = Vec::new();
    for (memory_type, props) in [(0, LOCAL), (1, COHERENT), (2, CACHED)] {
        let memory = device.make(1000, memory_type);
        let name = memory.0;
        // SAFETY: the object is the device's, of that type, and ends with the range.
        let block = unsafe { allocator.import_memory(memory, memory_type, props, 100, 900) };
        assert_eq!((block.memory().0, block.memory_type(), block.props()), (name, memory_type, props));
        assert_eq!((block.offset(), block.size()), (100, 900));
        blocks.push(block);
    }
    assert_eq!(allocator.remaining_allocations(), 0);
    for block in &mut blocks[1..] {
        let mut read = [0; 900];
        // SAFETY: there is one device, which does not use the block meanwhile.
        unsafe {
            block.write_bytes(&device, 0, &[5; 900]).unwrap();
            block.read_bytes(&device, 0, &mut read).unwrap();
        }
        assert_eq!(read, [5; 900]);
        assert_eq!(device.sees(block), [5; 900]);
    }
    for block in blocks {
        // SAFETY: the block is this allocator's, and there is one device.
        unsafe { allocator.dealloc(&device, block) };
    }
    assert_eq!((device.held(), allocator.remaining_allocations()), (0, 3));
}

/// A range that starts inside an atom, and the flush that starts before it.
#[test]
fn flushed_from_the_atom_before() {
    let device = Device::new();
    let mut allocator = allocator(3);
    let memory = device.make(512, 2);
    // SAFETY: the object is the device's, of that type; the range ends on the atom.
    let mut block = unsafe { allocator.import_memory(memory, 2, CACHED, 100, 156) };
    // SAFETY: there is one device, which does not use the block meanwhile.
    unsafe { block.write_bytes(&device, 0, &[9; 156]) }.unwrap();
    assert_eq!(device.sees(&block), [9; 156]);
    assert_eq!(device.flushes(), 1);
    // SAFETY: the block is this allocator's, and there is one device.
    unsafe { allocator.dealloc(&device, block) };
    assert_eq!(device.held(), 0);
}

/// An import under fewer properties than its type has.
#[test]
fn props_of_the_caller_count() {
    let device = Device::new();
    let mut allocator = allocator(3);
    let memory = device.make(512, 1);
    // SAFETY: the object is the device's, of that type, and ends with the range.
    let mut block = unsafe { allocator.import_memory(memory, 1, MemoryPropertyFlags::empty(), 0, 512) };
    // SAFETY: there is one device.
    unsafe {
        assert_eq!(block.map(&device, 0, 1), Err(MapError::NonHostVisible));
        allocator.dealloc(&device, block);
    }
    assert_eq!(device.held(), 0);
}

/// What is coherent is not flushed, whatever the caller says: such a range need not end on the atom.
#[test]
fn coherent_imports_are_never_flushed() {
    let device = Device::new();
    let mut allocator = allocator(3);
    let memory = device.make(512, 1);
    let seen = MemoryPropertyFlags::HOST_VISIBLE;
    // SAFETY: the object is the device's, of that type, whose properties are these and more.
    let mut block = unsafe { allocator.import_memory(memory, 1, seen, 0, 100) };
    // SAFETY: there is one device, which does not use the block meanwhile.
    unsafe { block.write_bytes(&device, 90, &[9; 10]) }.unwrap();
    assert_eq!(device.flushes(), 0);
    // SAFETY: the block is this allocator's, and there is one device.
    unsafe { allocator.dealloc(&device, block) };
    assert_eq!(device.held(), 0);
}

fn imported(memory_type: u32, offset: u64, size: u64, count: u32) {
    let device = Device::new();
    let memory = device.make(512, 0);
    // SAFETY: no block comes of it.
    drop(unsafe { allocator(count).import_memory(memory, memory_type, LOCAL, offset, size) });
}

#[test]
#[should_panic = "no memory objects remain"]
fn one_too_many_panics() {
    imported(0, 0, 512, 0);
}

#[test]
#[should_panic = "`memory_type` has to be one of the device's"]
fn a_type_that_is_not_there_panics() {
    imported(3, 0, 512, 1);
}

#[test]
#[should_panic = "`size` has to be at least 1"]
fn no_bytes_panic() {
    imported(0, 0, 0, 1);
}

#[test]
#[should_panic = "has to fit 64 bits"]
fn a_range_past_all_panics() {
    imported(0, u64::MAX, 1, 1);
}
