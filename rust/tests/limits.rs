//! Limits of heaps.

mod common;

use common::*;
use std::panic::{catch_unwind, AssertUnwindSafe};
use wallthyme::*;

#[test]
fn a_limit_at_or_over_the_size_is_none() {
    let mut allocator = allocator(10);
    assert_eq!((allocator.heap_limit(0), allocator.heap_limit(1)), (HEAP, HEAP));
    allocator.set_heap_limit(1, 1000);
    assert_eq!((allocator.heap_limit(0), allocator.heap_limit(1)), (HEAP, 1000));
    allocator.set_heap_limit(1, HEAP);
    assert_eq!(allocator.heap_limit(1), HEAP);
    allocator.set_heap_limit(1, u64::MAX);
    assert_eq!((allocator.heap_limit(0), allocator.heap_limit(1)), (HEAP, HEAP));
}

#[test]
fn a_heap_that_there_is_not() {
    let mut allocator = allocator(10);
    for heap in [2, u32::MAX] {
        assert!(catch_unwind(AssertUnwindSafe(|| allocator.set_heap_limit(heap, 1))).is_err());
        assert!(catch_unwind(AssertUnwindSafe(|| allocator.heap_limit(heap))).is_err());
    }
    assert_eq!((allocator.heap_limit(0), allocator.heap_limit(1)), (HEAP, HEAP));
}

/// A type over its heap's limit is passed: the next one serves.
#[test]
fn a_type_over_the_limit_is_passed() {
    let device = Device::new();
    let mut allocator = allocator(100);
    let request = request(1000, UsageFlags::FAST_DEVICE_ACCESS);
    allocator.set_heap_limit(0, 999);
    // SAFETY: there is one device, which offers what the allocator was made with.
    let block = unsafe { allocator.alloc_with_dedicated(&device, request, Dedicated::Required) }.unwrap();
    assert_ne!(block.memory_type(), 0);
    assert_eq!((device.used(0), device.questions()), (0, 1));
    end(allocator, &device, [block]);
}
