//! Optimal blocks beside linear ones, and what objects are asked for with.

mod common;

use common::*;
use wallthyme::*;

const PAGE: u64 = 4096;

/// Where an optimal block lies beside a linear one, of 100 bytes each. (`c/tests/pages.c` draws such blocks.)
fn offsets(granularity: u64) -> [u64; 2] {
    let device = Device::new();
    let mut allocator = GpuAllocator::with_granularity(Config::i_am_potato(), offer(1000), granularity).unwrap();
    let transient = request(100, UsageFlags::TRANSIENT);
    // SAFETY: there is one device, which offers what the allocator was made with.
    let blocks = unsafe {
        let linear = allocator.alloc(&device, transient).unwrap();
        [linear, allocator.alloc_optimal(&device, transient, None).unwrap()]
    };
    assert_eq!(blocks[0].memory(), blocks[1].memory());
    let offsets = [blocks[0].offset(), blocks[1].offset()];
    assert_eq!(end(allocator, &device, blocks), 1000);
    offsets
}

#[test]
fn no_page_is_shared() {
    let [linear, optimal] = offsets(PAGE);
    assert_ne!(linear / PAGE, optimal / PAGE);
    let [linear, optimal] = offsets(1);
    assert_eq!((linear / PAGE, [linear, optimal]), (optimal / PAGE, offsets(0)));
}

#[test]
fn granularities_that_there_are_not() {
    for wrong in [3, 96, (1 << 32) + 1, 1 << 33, u64::MAX] {
        let refused = GpuAllocator::<Memory>::with_granularity(Config::i_am_potato(), offer(1), wrong);
        assert_eq!(refused.err(), Some(NewError::BadProperties), "{wrong}");
    }
    for right in [0, 1, 2, 1 << 32] {
        assert!(GpuAllocator::<Memory>::with_granularity(Config::i_am_potato(), offer(1), right).is_ok(), "{right}");
    }
}

/// An object is asked for as a block's own exactly where it is, with the size of the request.
#[test]
fn an_object_of_its_own_says_so() {
    let device = Device::new();
    let mut allocator = GpuAllocator::with_granularity(Config::i_am_potato(), offer(100), PAGE).unwrap();
    for (usage, dedicated, optimal, own) in [
        (UsageFlags::FAST_DEVICE_ACCESS, Some(Dedicated::Required), false, true),
        (UsageFlags::UPLOAD, Some(Dedicated::Required), true, true),
        (UsageFlags::FAST_DEVICE_ACCESS, None, false, false),
        (UsageFlags::TRANSIENT, None, true, false),
        (UsageFlags::UPLOAD, Some(Dedicated::Preferred), true, true),
    ] {
        let asked = device.owns().len();
        let request = request(1025, usage);
        // SAFETY: there is one device, which offers what the allocator was made with. The block is this allocator's.
        let block = unsafe {
            match (dedicated, optimal) {
                (_, true) => allocator.alloc_optimal(&device, request, dedicated).unwrap(),
                (Some(dedicated), false) => allocator.alloc_with_dedicated(&device, request, dedicated).unwrap(),
                (None, false) => allocator.alloc(&device, request).unwrap(),
            }
        };
        assert_eq!(device.owns()[asked..], [own], "{usage:?} {dedicated:?} {optimal}");
        assert_eq!(device.size_of(block.memory()) == 1025, own);
        // SAFETY: as above.
        unsafe {
            allocator.dealloc(&device, block);
            allocator.cleanup(&device);
        }
    }
    assert_eq!(device.held(), 0);
}
