//! Requests that no shared object can be made for, while there is memory for objects of their own.

use super::*;
use crate::{AllocationError, AllocationFlags, GpuAllocator, Request};
use std::ptr::null;

const MIB: u64 = 1 << 20;

/// The heaps of a device whose shared objects have 8 MiB at least.
const LARGE: u64 = 8 << 30;

/// How often the driver was asked for an object.
fn asked(stub: &Stub) -> u64 {
    stub.calls_of("vkAllocateMemory")
}

/// Each kind of request is served by an object of its own size, and counts as one.
fn served_alone(stub: Stub, mut allocator: Allocator) {
    let device = allocator.device().clone();
    for usage in [LOCAL, UPLOAD, DOWNLOAD, UPLOAD | UsageFlags::TRANSIENT] {
        for wish in [None, Some(Dedicated::Preferred)] {
            let request = MemoryRequest { dedicated: wish, ..usage.into() };
            let remaining = allocator.remaining_allocations();
            let made = buffer(&mut allocator, 4096, request);
            let other = image(&mut allocator, 32, request);
            let size = |block: &MemoryBlock<Memory>| object(&stub, block).size;
            assert_eq!((size(&made.block), size(&other.block)), (4096, 4096));
            assert_eq!(made.block.made_for(), Some(Resource::Buffer(made.handle)));
            assert_eq!(other.block.made_for(), Some(Resource::Image(other.handle)));
            // SAFETY: they are this allocator's and the stub's, and no device uses them.
            unsafe {
                let needs = device.buffer_requirements(made.handle);
                let block = allocator.allocate(&needs, request).unwrap();
                assert_eq!((size(&block), block.made_for()), (4096, None));
                assert_eq!(allocator.remaining_allocations(), remaining - 3);
                allocator.free(block);
                allocator.destroy_buffer(made);
                allocator.destroy_image(other);
            }
            assert_eq!(allocator.remaining_allocations(), remaining);
        }
    }
    end(stub, allocator, vec![], vec![]);
}

#[test]
fn a_low_limit() {
    for sharing in [Sharing::Fit, Sharing::Buddy] {
        let stub = stub!(LARGE, [1, 0]);
        let mut allocator = allocator_with(&stub, sharing);
        [0, 1].into_iter().for_each(|heap| allocator.set_heap_limit(heap, MIB));
        served_alone(stub, allocator);
    }
}

#[test]
fn a_driver_that_refuses_large_objects() {
    for sharing in [Sharing::Fit, Sharing::Buddy] {
        let stub = stub!(LARGE, [1, 0]);
        stub.plan().granted = MIB;
        let allocator = allocator_with(&stub, sharing);
        served_alone(stub, allocator);
    }
}

#[test]
fn heaps_with_little_left() {
    for sharing in [Sharing::Fit, Sharing::Buddy] {
        let stub = stub!(LARGE, [1, 0]);
        let mut allocator = allocator_with(&stub, sharing);
        let held = LARGE - 3 * MIB;
        let device = allocator.device().clone();
        let none = AllocationFlags::empty();
        // SAFETY: the objects are of those types. They are only said to have that much, and nobody uses them.
        let imports = [0, 1].map(|memory_type| unsafe {
            let memory = device.allocate(64, memory_type, none, None, null()).unwrap();
            allocator.import(memory, memory_type, 0, held).unwrap()
        });
        let made = buffer(&mut allocator, 4096, LOCAL);
        assert_eq!(object(&stub, &made.block).size, 4096);
        // SAFETY: they are this allocator's, and no device uses them.
        imports.into_iter().for_each(|block| unsafe { allocator.free(block) });
        end(stub, allocator, vec![made], vec![]);
    }
}

/// Each memory type is tried shared before any is tried alone.
#[test]
fn shared_first() {
    let stub = stub!(LARGE, [1, 0]);
    let mut allocator = allocator(&stub);
    allocator.set_heap_limit(0, MIB);
    let made = buffer(&mut allocator, 4096, LOCAL);
    assert_eq!((made.block.memory_type(), made.block.made_for()), (1, None));
    let own = buffer(&mut allocator, 4096, MemoryRequest { memory_types: 1, ..LOCAL.into() });
    assert_eq!((own.block.memory_type(), own.block.made_for()), (0, Some(Resource::Buffer(own.handle))));
    end(stub, allocator, vec![made, own], vec![]);
}

/// A memory type whose driver refused an object for one block is not asked again, and a request that wants one is not
/// either.
#[test]
fn no_object_is_asked_for_twice() {
    let own = |usage| dedicated(usage, Dedicated::Required);
    let preferred = |usage| dedicated(usage, Dedicated::Preferred);
    for (request, size, limit, times) in [
        (own(LOCAL), 4096, u64::MAX, 3),
        (preferred(LOCAL), 2 * MIB, u64::MAX, 3),
        (LOCAL.into(), 16 * MIB, u64::MAX, 3),
        (LOCAL.into(), 4096, u64::MAX, 6),
        (preferred(LOCAL), 4096, u64::MAX, 6),
        // Nothing of the other heap is asked for.
        (preferred(LOCAL), 2 * MIB, MIB, 1),
        (LOCAL.into(), 4096, MIB, 4),
        (LOCAL.into(), 4096, 100, 2),
        // Over the largest size of a request.
        (LOCAL.into(), driver::LARGEST + 1, u64::MAX, 0),
    ] {
        let stub = stub!(LARGE, [1, 0]);
        stub.plan().granted = 0;
        let mut allocator = allocator(&stub);
        allocator.set_heap_limit(1, limit);
        // SAFETY: the stub allows it.
        let refused = unsafe { allocator.create_buffer(&buffer_info(size), request) }.map(drop).map_err(Error::result);
        assert_eq!(refused, Err(VkResult::ERROR_OUT_OF_DEVICE_MEMORY));
        assert_eq!(asked(&stub), times, "{request:?} {size} {limit}");
        assert_eq!((stub.held(), allocator.remaining_allocations()), ((0, 0, 0), 100));
        end(stub, allocator, vec![], vec![]);
    }
}

/// A shared object that cannot be mapped goes back, and is no reason to refuse.
#[test]
fn a_mapping_that_is_refused() {
    let stub = stub!(LARGE, [1, 0]);
    let mut allocator = allocator(&stub);
    stub.refuse_one(3, VkResult::ERROR_OUT_OF_DEVICE_MEMORY);
    let made = buffer(&mut allocator, 4096, MemoryRequest { memory_types: 2, ..UPLOAD.into() });
    assert_eq!((made.block.made_for(), stub.held()), (Some(Resource::Buffer(made.handle)), (1, 1, 0)));
    assert_eq!(stub.calls_of("vkMapMemory"), 1);
    end(stub, allocator, vec![made], vec![]);
}

/// Where an object of its own is refused too, the first result comes back.
#[test]
fn the_first_result() {
    let permitted = MemoryRequest { memory_types: 1, ..LOCAL.into() };
    for (limit, granted, number, first) in [
        // The buffer is made, the shared object refused by the driver, and then the object of its own.
        (
            u64::MAX,
            MIB - 1,
            3,
            Error::Driver { call: "vkAllocateMemory", result: VkResult::ERROR_OUT_OF_DEVICE_MEMORY },
        ),
        (MIB, u64::MAX, 2, Error::Allocation(AllocationError::OutOfDeviceMemory)),
    ] {
        let stub = stub!(LARGE, [1, 0]);
        stub.plan().granted = granted;
        let mut allocator = allocator(&stub);
        allocator.set_heap_limit(0, limit);
        stub.refuse_one(number, VkResult::ERROR_DEVICE_LOST);
        // SAFETY: the stub allows it.
        let refused = unsafe { allocator.create_buffer(&buffer_info(4096), permitted) }.map(drop);
        assert_eq!((refused, stub.asked()), (Err(first), number));
        let made = buffer(&mut allocator, 4096, permitted);
        end(stub, allocator, vec![made], vec![]);
    }
}

/// Want of host memory, and too many objects, are no reason to ask again.
#[test]
fn other_results_end_a_request() {
    for result in [VkResult::ERROR_OUT_OF_HOST_MEMORY, VkResult::ERROR_DEVICE_LOST] {
        let stub = stub!(LARGE, [1, 0]);
        let mut allocator = allocator(&stub);
        stub.refuse_one(2, result);
        // SAFETY: the stub allows it.
        let refused = unsafe { allocator.create_buffer(&buffer_info(4096), LOCAL) }.map(drop);
        assert_eq!((refused.map_err(Error::result), asked(&stub)), (Err(result), 1));
        end(stub, allocator, vec![], vec![]);
    }
    let stub = stub!(LARGE, [1, 0]);
    let mut allocator = Allocator::new(stub.device_of(&DeviceInfo { other_objects: 100, ..stub.info() })).unwrap();
    // SAFETY: the stub allows it.
    let refused = unsafe { allocator.create_buffer(&buffer_info(4096), LOCAL) }.map(drop);
    assert_eq!((refused, asked(&stub)), (Err(Error::Allocation(AllocationError::TooManyObjects)), 0));
    end(stub, allocator, vec![], vec![]);
}

/// The allocator without the Vulkan side does not ask again, as `gpu-alloc` does not. Its documents say how to.
#[test]
fn a_plain_allocator_does_not_ask_again() {
    let stub = stub!(LARGE, [1, 0]);
    let device = stub.device();
    let mut allocator = GpuAllocator::new(device.default_config(), device.device_properties());
    allocator.set_heap_limit(0, MIB);
    let request = Request { size: 4096, align_mask: 0, usage: LOCAL, memory_types: 1 };
    // SAFETY: the device is the allocator's.
    unsafe {
        assert_eq!(allocator.alloc(&device, request).err(), Some(AllocationError::OutOfDeviceMemory));
        let block = match allocator.alloc(&device, request) {
            Err(AllocationError::OutOfDeviceMemory) => {
                allocator.alloc_with_dedicated(&device, request, Dedicated::Required)
            }
            granted => granted,
        };
        allocator.dealloc(&device, block.unwrap());
        allocator.cleanup(&device);
    }
    drop(allocator);
    stub.end();
}
