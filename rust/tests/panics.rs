//! A device that panics: what is lost to it, and what goes on.

mod common;

use common::*;
use std::panic::{catch_unwind, AssertUnwindSafe};
use wallthyme::*;

const TRANSIENT: UsageFlags = UsageFlags::HOST_ACCESS.union(UsageFlags::TRANSIENT);

/// Whether a call panics.
fn panics<T>(call: impl FnOnce() -> T) -> bool {
    catch_unwind(AssertUnwindSafe(call)).is_err()
}

/// A block of an object that is shared, and that stays until a cleanup, of each of the three memory types.
fn one_of_each(allocator: &mut GpuAllocator<Memory>, device: &Panics) -> [MemoryBlock<Memory>; 3] {
    [(1, UsageFlags::TRANSIENT), (2, TRANSIENT), (4, TRANSIENT)].map(|(memory_types, usage)| {
        let request = Request { memory_types, ..request(100, usage) };
        // SAFETY: there is one device, which offers what the allocator was made with.
        unsafe { allocator.alloc(device, request) }.expect("the device refuses nothing")
    })
}

fn own(allocator: &mut GpuAllocator<Memory>, device: &Panics) -> MemoryBlock<Memory> {
    let wanted = Request { memory_types: 2, ..request(100, UsageFlags::HOST_ACCESS) };
    // SAFETY: there is one device, which offers what the allocator was made with.
    unsafe { allocator.alloc_with_dedicated(device, wanted, Dedicated::Required) }.expect("the device refuses nothing")
}

/// Three objects go at once, and the device panics over the first and the second.
#[test]
fn only_the_object_of_the_call_is_lost() {
    let device = Panics::default();
    let mut allocator = allocator(64);
    // SAFETY: there is one device, and the blocks are this allocator's.
    unsafe {
        for block in one_of_each(&mut allocator, &device) {
            allocator.dealloc(&device, block);
        }
        assert_eq!(device.device.held(), 3);
        device.returns.set(1);
        assert!(panics(|| allocator.cleanup(&device)));
        assert_eq!((device.device.held(), allocator.remaining_allocations()), (3, 64));
        device.returns.set(1);
        assert!(panics(|| allocator.cleanup(&device)));
        assert_eq!((device.device.held(), allocator.remaining_allocations()), (3, 64));
        allocator.cleanup(&device);
    }
    assert_eq!(device.device.held(), 2, "the two objects that the device panicked over are not given to it again");
}

/// A block comes back while others wait that went before: all of them go, whether blocks shared them or not.
#[test]
fn a_return_goes_on_with_what_waits() {
    let device = Panics::default();
    let mut allocator = allocator(64);
    let (one, other) = (own(&mut allocator, &device), own(&mut allocator, &device));
    // SAFETY: there is one device, and the blocks are this allocator's.
    unsafe {
        for block in one_of_each(&mut allocator, &device) {
            allocator.dealloc(&device, block);
        }
        device.returns.set(1);
        assert!(panics(|| allocator.cleanup(&device)));
        assert_eq!((device.device.held(), allocator.remaining_allocations()), (5, 62));
        device.returns.set(1);
        assert!(panics(|| allocator.dealloc(&device, one)));
        assert_eq!((device.device.held(), allocator.remaining_allocations()), (5, 63));
        allocator.dealloc(&device, other);
        assert_eq!((device.device.held(), allocator.remaining_allocations()), (2, 64));
        let block = own(&mut allocator, &device);
        allocator.dealloc(&device, block);
    }
    assert_eq!(device.device.held(), 2);
}

/// What was made for a request goes back where its mapping panics.
#[test]
fn an_object_whose_mapping_panics_goes_back() {
    let device = Panics::default();
    let mut allocator = allocator(64);
    let wanted = Request { memory_types: 2, ..request(100, TRANSIENT) };
    device.mappings.set(1);
    // SAFETY: there is one device, which offers what the allocator was made with.
    assert!(panics(|| unsafe { allocator.alloc(&device, wanted) }));
    assert_eq!((device.device.held(), allocator.remaining_allocations()), (0, 64));
    // Where its return panics too, that ends no process.
    device.mappings.set(1);
    device.returns.set(1);
    // SAFETY: as above.
    assert!(panics(|| unsafe { allocator.alloc(&device, wanted) }));
    assert_eq!((device.device.held(), allocator.remaining_allocations()), (1, 64));
    // SAFETY: as above, and the block is this allocator's.
    unsafe {
        let block = allocator.alloc(&device, wanted).expect("the device refuses nothing");
        allocator.dealloc(&device, block);
        allocator.cleanup(&device);
    }
    assert_eq!((device.device.held(), allocator.remaining_allocations()), (1, 64));
}

/// An object is made in vain, its return panics, and another memory type has room: the block is not lost.
#[test]
fn a_return_that_panics_loses_no_block() {
    let device = Panics::default();
    let mut allocator = allocator(64);
    let second = Request { memory_types: 4, ..request(100, TRANSIENT | UsageFlags::UPLOAD) };
    let either = Request { memory_types: 6, ..second };
    // SAFETY: there is one device, which offers what the allocator was made with, and the blocks are this allocator's.
    unsafe {
        let block = allocator.alloc(&device, second).expect("the device refuses nothing");
        device.device.refuse(device.device.questions() + 2, Refusal::DeviceMemory);
        device.returns.set(1);
        assert!(panics(|| allocator.alloc(&device, either)));
        assert_eq!((device.device.held(), allocator.remaining_allocations()), (2, 63));
        device.device.refuse(device.device.questions() + 2, Refusal::DeviceMemory);
        let other = allocator.alloc(&device, either).expect("the second memory type has room");
        assert_eq!((other.memory_type(), device.device.held()), (2, 2));
        allocator.dealloc(&device, block);
        allocator.dealloc(&device, other);
        allocator.cleanup(&device);
    }
    assert_eq!((device.device.held(), allocator.remaining_allocations()), (1, 64));
}
