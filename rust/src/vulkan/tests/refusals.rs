//! Each call of the driver that may fail does so: its result comes back, and nothing is lost.

use super::*;
use crate::{AllocationError, Config, MapError, NewError};
use std::error::Error as _;

const RESULTS: [VkResult; 7] = [
    VkResult::ERROR_OUT_OF_HOST_MEMORY,
    VkResult::ERROR_OUT_OF_DEVICE_MEMORY,
    VkResult::ERROR_DEVICE_LOST,
    VkResult::ERROR_MEMORY_MAP_FAILED,
    VkResult::ERROR_TOO_MANY_OBJECTS,
    VkResult::ERROR_UNKNOWN,
    VkResult(-1_000_161_000),
];

/// A run of all that may be refused. What was made by then is kept.
fn steps(allocator: &mut Allocator, kept: &mut (Vec<Buffer>, Vec<Image>)) -> Result<(), Error> {
    let permitted = |usage: UsageFlags, memory_types| MemoryRequest { memory_types, ..usage.into() };
    let own = MemoryRequest { dedicated: Some(Dedicated::Required), ..permitted(DOWNLOAD, 0b0100) };
    // SAFETY: the stub allows it, and no device uses the blocks. What is flushed is mapped.
    unsafe {
        kept.1.push(allocator.create_image(&image_info(10), permitted(LOCAL, 1))?);
        kept.0.push(allocator.create_buffer(&buffer_info(100), permitted(UPLOAD, 2))?);
        kept.0.push(allocator.create_buffer(&buffer_info(100), own)?);
        let block = &mut kept.0[1].block;
        allocator.write(block, 0, &[1; 100])?;
        allocator.read(block, 0, &mut [0; 100])?;
        allocator.map(block)?;
        allocator.flush(&[(block, 0..1)])?;
        allocator.invalidate(&[(block, 0..1)])
    }
}

#[test]
fn each_call_is_refused() {
    let calls = {
        let stub = stub!();
        let mut allocator = allocator(&stub);
        let mut kept = (vec![], vec![]);
        steps(&mut allocator, &mut kept).expect("nothing is refused");
        let calls = stub.heard();
        end(stub, allocator, kept.0, kept.1);
        calls.into_iter().filter(|call| driver::may_be_refused(call)).collect::<Vec<_>>()
    };
    let mut seen: Vec<_> = calls.clone();
    seen.sort_unstable();
    seen.dedup();
    assert_eq!(
        seen,
        [
            "vkAllocateMemory",
            "vkBindBufferMemory",
            "vkBindImageMemory",
            "vkCreateBuffer",
            "vkCreateImage",
            "vkFlushMappedMemoryRanges",
            "vkInvalidateMappedMemoryRanges",
            "vkMapMemory",
        ]
    );
    for (result, sharing) in RESULTS.iter().flat_map(|&result| [(result, Sharing::Buddy), (result, Sharing::Fit)]) {
        for (number, call) in (1..).zip(&calls) {
            let stub = stub!();
            let mut allocator = allocator_with(&stub, sharing);
            let mut kept = (vec![], vec![]);
            // The calls after it too: where a shared object is refused, one of the block's own is asked for.
            stub.refuse_from(number, result);
            let error = steps(&mut allocator, &mut kept).expect_err("a call is refused");
            assert_eq!(error, Error::Driver { call, result }, "{number}");
            assert_eq!(error.result(), result);
            // What was granted before is all that there is, but that a free fit chunk may stay.
            let (objects, buffers, images) = stub.held();
            assert_eq!((buffers as usize, images as usize), (kept.0.len(), kept.1.len()), "{number} {call} {result}");
            assert_eq!(u64::from(allocator.remaining_allocations()), 100 - objects);
            let free = objects - (buffers + images);
            assert!(free <= u64::from(sharing == Sharing::Fit), "{number} {call} {result}: {free} objects too many");
            end(stub, allocator, kept.0, kept.1);
        }
    }
}

/// Lack of device memory, and too many objects, go on to the next memory type; other errors end the request.
#[test]
fn the_next_memory_type() {
    for result in RESULTS {
        let goes_on = [VkResult::ERROR_OUT_OF_DEVICE_MEMORY, VkResult::ERROR_TOO_MANY_OBJECTS].contains(&result);
        let stub = stub!();
        let mut allocator = allocator(&stub);
        stub.refuse_one(2, result);
        // SAFETY: the stub allows it.
        let granted = unsafe { allocator.create_buffer(&buffer_info(100), dedicated(LOCAL, Dedicated::Required)) };
        let made = match granted {
            Ok(made) => {
                assert!(goes_on && made.block.memory_type() != 0, "{result}");
                vec![made]
            }
            Err(error) => {
                assert_eq!((error, goes_on), (Error::Driver { call: "vkAllocateMemory", result }, false));
                vec![]
            }
        };
        end(stub, allocator, made, vec![]);
    }
}

/// Where another reason than the driver's ends a request, an earlier result of the driver is not returned.
#[test]
fn reasons_that_are_not_the_drivers() {
    let stub = stub!();
    let mut allocator = allocator(&stub);
    let request = MemoryRequest { memory_types: 1, ..LOCAL.into() };
    // SAFETY: the stub allows it.
    let refused = unsafe { allocator.create_buffer(&buffer_info(driver::LARGEST + 1), request) }.err();
    assert_eq!(refused, Some(Error::Allocation(AllocationError::OutOfDeviceMemory)));
    assert_eq!(refused.map(Error::result), Some(VkResult::ERROR_OUT_OF_DEVICE_MEMORY));
    // SAFETY: the stub allows it.
    let refused = unsafe { allocator.create_buffer(&buffer_info(1), MemoryRequest { usage: UPLOAD, ..request }) }.err();
    assert_eq!(refused, Some(Error::Allocation(AllocationError::NoCompatibleMemoryTypes)));
    assert_eq!(stub.held(), (0, 0, 0));
    end(stub, allocator, vec![], vec![]);
}

#[test]
fn as_many_objects_as_the_device_allows() {
    let stub = stub!();
    let device = stub.device_of(&DeviceInfo { other_objects: 99, ..stub.info() });
    let mut allocator = Allocator::with_config(device, Config::i_am_potato()).unwrap();
    let first = buffer(&mut allocator, 100, dedicated(LOCAL, Dedicated::Required));
    // SAFETY: the stub allows it.
    let refused = unsafe { allocator.create_buffer(&buffer_info(100), UPLOAD) }.err();
    assert_eq!(refused, Some(Error::Allocation(AllocationError::TooManyObjects)));
    end(stub, allocator, vec![first], vec![]);
}

/// A panic in the middle destroys what was created.
#[test]
fn a_usage_without_a_name() {
    let stub = stub!();
    let mut allocator = allocator(&stub);
    let usage = UsageFlags::from_bits_retain(0x40);
    // SAFETY: it is refused.
    let misused = std::panic::AssertUnwindSafe(|| unsafe { allocator.create_buffer(&buffer_info(1), usage) });
    assert!(std::panic::catch_unwind(misused).is_err());
    assert_eq!(stub.held(), (0, 0, 0));
    let made = buffer(&mut allocator, 1, LOCAL);
    end(stub, allocator, vec![made], vec![]);
}

/// The program's buffer and image stay where they get no memory.
#[test]
fn the_programs_own_resources_stay() {
    let stub = stub!();
    // No buddy chunk stays without a block, so that each time one is asked for.
    let mut allocator = allocator_with(&stub, Sharing::Buddy);
    let device = allocator.device().clone();
    for number in [1, 2] {
        // SAFETY: the resources are the stub's, and nobody uses them.
        unsafe {
            let buffer = device.create_buffer(&buffer_info(100)).unwrap();
            let image = device.create_image(&image_info(10)).unwrap();
            stub.refuse_one(number, VkResult::ERROR_DEVICE_LOST);
            let refused = allocator.allocate_for_buffer(buffer, LOCAL).err();
            assert_eq!(refused.map(Error::result), Some(VkResult::ERROR_DEVICE_LOST));
            stub.refuse_one(number, VkResult::ERROR_DEVICE_LOST);
            let refused = allocator.allocate_for_image(image, Tiling::OPTIMAL, LOCAL).err();
            assert_eq!(refused.map(Error::result), Some(VkResult::ERROR_DEVICE_LOST));
            assert_eq!(stub.held(), (0, 1, 1));
            let blocks = [
                allocator.allocate_for_buffer(buffer, LOCAL).unwrap(),
                allocator.allocate_for_image(image, Tiling::OPTIMAL, LOCAL).unwrap(),
            ];
            assert_eq!(stub.held_now().bound, 2);
            device.destroy(calls::Resource::Buffer(buffer));
            device.destroy(calls::Resource::Image(image));
            blocks.into_iter().for_each(|block| allocator.free(block));
        }
    }
    end(stub, allocator, vec![], vec![]);
}

/// The program's callbacks go to each call that takes them, also where it made the resource or the object itself.
#[test]
fn callbacks_are_passed_on() {
    for has_callbacks in [false, true] {
        let stub = stub!();
        let callbacks = has_callbacks.then(|| stub.callbacks());
        let mut allocator = Allocator::new(stub.device_of(&DeviceInfo { callbacks, ..stub.info() })).unwrap();
        let made = buffer(&mut allocator, 100, LOCAL);
        let other = image(&mut allocator, 10, dedicated(LOCAL, Dedicated::Required));
        // SAFETY: they are this allocator's, and no device uses them. The object has that size and type.
        unsafe {
            let device = allocator.device().clone();
            let handle = device.create_buffer(&buffer_info(100)).unwrap();
            let block = allocator.allocate_for_buffer(handle, LOCAL).unwrap();
            let memory = device.allocate(64, 0, crate::AllocationFlags::empty(), None, std::ptr::null()).unwrap();
            let import = allocator.import(memory, 0, 0, 64).unwrap();
            allocator.destroy_buffer(Buffer { handle, block });
            allocator.free(import);
            allocator.destroy_buffer(made);
            allocator.destroy_image(other);
        }
        drop(allocator);
        // Two buffers, an image, and three objects.
        assert_eq!(stub.pieces(), if has_callbacks { [6, 6] } else { [0, 0] });
        stub.end();
    }
}

#[test]
fn texts_and_results() {
    let driver = Error::Driver { call: "vkMapMemory", result: VkResult::ERROR_MEMORY_MAP_FAILED };
    for (error, text, result) in [
        (driver, "vkMapMemory returned VK_ERROR_MEMORY_MAP_FAILED", VkResult::ERROR_MEMORY_MAP_FAILED),
        (
            Error::Driver { call: "vkCreateImage", result: VkResult(-77) },
            "vkCreateImage returned VkResult -77",
            VkResult(-77),
        ),
        (AllocationError::OutOfHostMemory.into(), "Host memory exhausted", VkResult::ERROR_OUT_OF_HOST_MEMORY),
        (
            AllocationError::TooManyObjects.into(),
            "Reached limit on allocated memory objects count",
            VkResult::ERROR_TOO_MANY_OBJECTS,
        ),
        (MapError::OutOfDeviceMemory.into(), "Device memory exhausted", VkResult::ERROR_OUT_OF_DEVICE_MEMORY),
        (MapError::AlreadyMapped.into(), "Block is already mapped", VkResult::ERROR_VALIDATION_FAILED_EXT),
        (
            NewError::OtherVersion.into(),
            "libwallthyme.a is of another version than the crate wallthyme",
            VkResult::ERROR_INITIALIZATION_FAILED,
        ),
        (NewError::OutOfHostMemory.into(), "Host memory exhausted", VkResult::ERROR_OUT_OF_HOST_MEMORY),
        (Error::Missing("vkFreeMemory"), "vkFreeMemory is missing", VkResult::ERROR_INITIALIZATION_FAILED),
        (Error::Version, "`api_version` is no version of Vulkan", VkResult::ERROR_INITIALIZATION_FAILED),
        (Error::SparseBuffer, "Sparse buffers get no memory here", VkResult::ERROR_FEATURE_NOT_PRESENT),
        (
            Error::OtherResource,
            "Memory object was made for another resource or another place",
            VkResult::ERROR_VALIDATION_FAILED_EXT,
        ),
        (Error::NotMapped, "Block is not mapped", VkResult::ERROR_VALIDATION_FAILED_EXT),
        (
            Error::NoDeviceAddress,
            "The feature bufferDeviceAddress is not enabled",
            VkResult::ERROR_VALIDATION_FAILED_EXT,
        ),
    ] {
        assert_eq!((error.to_string().as_str(), error.result()), (text, result));
        assert!(error.source().is_none());
    }
}
