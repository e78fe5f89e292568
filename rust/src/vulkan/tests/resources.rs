//! Buffers and images with their memory, what is chained to it, and what is dropped.

use super::*;
use crate::{AllocationError, Config, GpuAllocator, Request};
use std::ptr::{from_ref, null};

/// How a struct of a chain begins: a `VkMemoryPriorityAllocateInfoEXT` of 0.
const PRIORITY: raw::MemoryAllocateFlagsInfo =
    raw::MemoryAllocateFlagsInfo { s_type: 1_000_238_001, p_next: null(), flags: 0, device_mask: 0 };

/// What belongs to one resource is chained exactly where the object holds one block, and the address where enabled.
#[test]
fn chained_where_an_object_is_for_one_block() {
    for (enabled, wishes_known) in [
        (Enabled::empty(), true),
        (Enabled::DEVICE_ADDRESS, true),
        (Enabled::empty(), false),
        (Enabled::DEVICE_ADDRESS, false),
    ] {
        let stub = stub!();
        let api_version = if wishes_known { API_VERSION_1_1 } else { 0 };
        let device = stub.device_of(&DeviceInfo { enabled, api_version, ..stub.info() });
        let mut allocator = Allocator::with_config(device, Config::i_am_potato()).unwrap();
        let (mut buffers, mut images) = (vec![], vec![]);
        for (wish, next, own) in [
            (None, false, false),
            (None, true, false),
            (Some(Dedicated::Required), false, true),
            (Some(Dedicated::Required), true, true),
            (Some(Dedicated::Preferred), true, true),
        ] {
            let next = if next { from_ref(&PRIORITY).cast() } else { null() };
            let request = MemoryRequest { dedicated: wish, next, ..LOCAL.into() };
            let check = |block: &MemoryBlock<Memory>, owner| {
                let made = object(&stub, block);
                assert_eq!(made.owner, if own && wishes_known { owner } else { 0 }, "{request:?}");
                assert_eq!(made.has_address, enabled.contains(Enabled::DEVICE_ADDRESS), "{request:?}");
                assert_eq!(made.priority, if own && !next.is_null() { 0.0 } else { -1.0 }, "{request:?}");
            };
            let made = buffer(&mut allocator, 4000, request);
            check(&made.block, made.handle.0);
            buffers.push(made);
            let made = image(&mut allocator, 40, request);
            check(&made.block, made.handle.0);
            images.push(made);
            // A block of no resource has no owner.
            // SAFETY: the stub allows it, and `next` is a chain or null.
            unsafe {
                let requirements =
                    Requirements { size: 5000, alignment: 1, memory_types: 7, dedicated: None, optimal: false };
                let block = allocator.allocate(&requirements, request).unwrap();
                check(&block, 0);
                allocator.free(block);
            }
        }
        end(stub, allocator, buffers, images);
    }
}

/// What the driver asks for raises what the program asked for, and lowers nothing.
#[test]
fn the_driver_wants_an_object_of_its_own() {
    for (own, wish, size, is_own) in [
        ((0, 0), None, 40_000, false),
        ((1, 0), None, 40_000, true),
        ((1, 0), None, 100, false),
        ((1, 0), Some(Dedicated::Required), 100, true),
        ((0, 1), None, 100, true),
        ((1, 1), Some(Dedicated::Preferred), 100, true),
        ((0, 0), Some(Dedicated::Preferred), 40_000, true),
    ] {
        let stub = stub!();
        (stub.plan().prefers_own, stub.plan().requires_own) = own;
        let mut allocator = allocator(&stub);
        let made = buffer(&mut allocator, size, MemoryRequest { dedicated: wish, ..LOCAL.into() });
        let of = object(&stub, &made.block);
        assert_eq!((of.owner != 0, of.size == size), (is_own, is_own), "{own:?} {wish:?} {size}");
        end(stub, allocator, vec![made], vec![]);
    }
}

#[test]
fn bound_to_the_block() {
    let stub = stub!();
    let mut allocator = allocator(&stub);
    let (mut buffers, mut images) = (vec![], vec![]);
    for turn in 0..20 {
        buffers.push(buffer(&mut allocator, 100 + turn, [LOCAL, UPLOAD, DOWNLOAD][turn as usize % 3]));
        images.push(image(&mut allocator, 10 + turn as u32, LOCAL));
    }
    for made in &buffers {
        assert!(is_bound(&stub, stub.buffer_bytes(made.handle), &made.block, 0));
    }
    for made in &images {
        assert!(is_bound(&stub, stub.image_bytes(made.handle), &made.block, 0));
    }
    let shared = buffers.iter().filter(|one| images.iter().any(|other| one.block.memory() == other.block.memory()));
    assert!(shared.count() > 1, "no buffer is beside an image");
    // Images and buffers of one object are a page apart.
    for (one, other) in buffers.iter().flat_map(|one| images.iter().map(move |other| (&one.block, &other.block))) {
        let pages = [one, other].map(|of| of.offset() / driver::PAGE);
        assert!(one.memory() != other.memory() || pages[0] != pages[1], "{one:?} {other:?}");
    }
    end(stub, allocator, buffers, images);
}

/// An object that was made for one resource takes no other one, and that one at its start alone.
#[test]
fn a_dedicated_object_keeps_its_resource() {
    let stub = stub!();
    let mut allocator = allocator(&stub);
    let device = allocator.device().clone();
    let own = dedicated(UPLOAD, Dedicated::Required);
    let mut core = GpuAllocator::new(device.default_config(), device.device_properties());
    // SAFETY: the resources are the stub's, of 400 bytes, and nobody uses them. What may not be bound is refused.
    unsafe {
        let [one, other] = [(); 2].map(|()| device.create_buffer(&buffer_info(400)).unwrap());
        let [first, second] = [(); 2].map(|()| device.create_image(&image_info(10)).unwrap());
        let of_one = allocator.allocate_for_buffer(one, own).unwrap();
        let of_first = allocator.allocate_for_image(first, Tiling::OPTIMAL, own).unwrap();
        let request = Request { size: 400, align_mask: 255, usage: UPLOAD, memory_types: 7 };
        let of_other = core.alloc_with_dedicated(&device.for_buffer(other), request, Dedicated::Required).unwrap();
        let of_second = core.alloc_optimal(&device.for_image(second), request, Some(Dedicated::Required)).unwrap();
        let asked = stub.asked();
        for (block, buffer, image) in [
            (&of_one, Some(one), None),
            (&of_first, None, Some(first)),
            (&of_other, Some(other), None),
            (&of_second, None, Some(second)),
        ] {
            // An image's handle may be the number of a buffer's.
            for handle in [one.0, other.0, first.0, second.0] {
                for offset in [0, 256].into_iter().skip(usize::from(buffer == Some(raw::Buffer(handle)))) {
                    let refused = device.bind_buffer(raw::Buffer(handle), block, offset).map_err(Error::result);
                    assert_eq!(refused, Err(VkResult::ERROR_VALIDATION_FAILED_EXT), "{handle} {offset}");
                }
                for offset in [0, 256].into_iter().skip(usize::from(image == Some(raw::Image(handle)))) {
                    let refused = device.bind_image(raw::Image(handle), block, offset).map_err(Error::result);
                    assert_eq!(refused, Err(VkResult::ERROR_VALIDATION_FAILED_EXT), "{handle} {offset}");
                }
            }
        }
        assert_eq!(stub.asked(), asked);
        device.bind_buffer(other, &of_other, 0).unwrap();
        device.bind_image(second, &of_second, 0).unwrap();
        [one, other].into_iter().for_each(|buffer| device.destroy(calls::Resource::Buffer(buffer)));
        [first, second].into_iter().for_each(|image| device.destroy(calls::Resource::Image(image)));
        [of_one, of_first].into_iter().for_each(|block| allocator.free(block));
        [of_other, of_second].into_iter().for_each(|block| core.dealloc(&device, block));
        core.cleanup(&device);
    }
    end(stub, allocator, vec![], vec![]);
}

/// One that was made for no resource takes several: without the extension, and for given requirements.
#[test]
fn an_object_for_no_resource_takes_several() {
    for api_version in [0, API_VERSION_1_1] {
        let stub = stub!();
        let device = stub.device_of(&DeviceInfo { api_version, ..stub.info() });
        let mut allocator = Allocator::new(device.clone()).unwrap();
        let own = dedicated(UPLOAD, Dedicated::Required);
        // SAFETY: the buffers are the stub's, of 100 bytes, and nobody uses them. The blocks have room for them.
        unsafe {
            let buffers = [(); 4].map(|()| device.create_buffer(&buffer_info(100)).unwrap());
            let needs = Requirements { size: 1024, ..device.buffer_requirements(buffers[0]) };
            let block = allocator.allocate(&needs, own).unwrap();
            let asked = device.for_buffer(buffers[2]);
            let request = Request { size: 1024, align_mask: 255, usage: UPLOAD, memory_types: 7 };
            let mut core = GpuAllocator::new(device.default_config(), device.device_properties());
            let shared = core.alloc(&asked, request).unwrap();
            for (buffer, block, offset) in [(0, &block, 0), (1, &block, 512), (3, &shared, 0), (2, &shared, 512)] {
                device.bind_buffer(buffers[buffer], block, offset).unwrap();
            }
            buffers.into_iter().for_each(|buffer| device.destroy(calls::Resource::Buffer(buffer)));
            allocator.free(block);
            core.dealloc(&device, shared);
            core.cleanup(&device);
        }
        end(stub, allocator, vec![], vec![]);
    }
}

/// Each constructor shares fit chunks, as `wtv_create` does without a configuration, unless buddy chunks are named.
#[test]
fn constructors_share_alike() {
    let stub = stub!();
    let device = stub.device();
    let config = device.default_config();
    for (made, size) in [
        (Allocator::new(device.clone()), 256),
        (Allocator::with_config(device.clone(), config), 256),
        (Allocator::with_config(device.clone(), Config::i_am_potato()), 256),
        (Allocator::with_sharing(device.clone(), config, Sharing::Fit), 256),
        (Allocator::with_sharing(device.clone(), config, Sharing::Buddy), 1024),
    ] {
        let mut allocator = made.expect("the stub has good properties");
        let first = buffer(&mut allocator, 100, LOCAL);
        let second = buffer(&mut allocator, 3000, LOCAL);
        let is_fit = size == 256;
        assert_eq!((first.block.size(), second.block.size()), (size, if is_fit { 3072 } else { 4096 }));
        // SAFETY: they are this allocator's, and no device uses them.
        unsafe {
            allocator.destroy_buffer(first);
            allocator.destroy_buffer(second);
        }
        // One fit chunk stays, and no buddy chunk.
        assert_eq!(stub.held().0, u64::from(is_fit));
    }
    stub.end();
}

/// A linear image lies beside buffers.
#[test]
fn a_linear_image_is_no_optimal_block() {
    a_linear_image_lies_beside(Sharing::Buddy, 1024);
    a_linear_image_lies_beside(Sharing::Fit, 256);
}

/// The blocks of 100 bytes then have this size.
fn a_linear_image_lies_beside(sharing: Sharing, size: u64) {
    let stub = stub!();
    let mut allocator = allocator_with(&stub, sharing);
    let first = buffer(&mut allocator, 100, LOCAL);
    let info = ImageCreateInfo { tiling: Tiling::LINEAR, ..image_info(5) };
    // SAFETY: the stub allows it.
    let linear = unsafe { allocator.create_image(&info, LOCAL) }.unwrap();
    let optimal = image(&mut allocator, 5, LOCAL);
    assert_eq!((first.block.size(), linear.block.size()), (size, size));
    assert_eq!(optimal.block.offset() % driver::PAGE, 0);
    // SAFETY: as above.
    unsafe {
        let made = allocator.device().create_image(&info).unwrap();
        let block = allocator.allocate_for_image(made, Tiling::LINEAR, LOCAL).unwrap();
        assert!(is_bound(&stub, stub.image_bytes(made), &block, 0));
        allocator.device().destroy(calls::Resource::Image(made));
        allocator.free(block);
    }
    end(stub, allocator, vec![first], vec![linear, optimal]);
}

#[test]
fn sparse_and_disjoint_are_refused_by_name() {
    let stub = stub!();
    let mut allocator = allocator(&stub);
    let asked = stub.asked();
    // SAFETY: all is refused.
    unsafe {
        for flags in [1, 2, 4, 7] {
            let refused = allocator.create_buffer(&BufferCreateInfo { flags, ..buffer_info(1) }, LOCAL).err();
            assert_eq!(refused, Some(Error::SparseBuffer));
            let refused = allocator.create_image(&ImageCreateInfo { flags, ..image_info(1) }, LOCAL).err();
            assert_eq!(refused, Some(Error::SparseImage));
        }
        let refused = allocator.create_image(&ImageCreateInfo { flags: 0x200, ..image_info(1) }, LOCAL).err();
        assert_eq!(refused, Some(Error::DisjointImage));
    }
    for error in [Error::SparseBuffer, Error::SparseImage, Error::DisjointImage] {
        assert_eq!(error.result(), VkResult::ERROR_FEATURE_NOT_PRESENT);
    }
    assert_eq!(stub.asked(), asked);
    end(stub, allocator, vec![], vec![]);
}

/// Types with a property that has no name here serve nothing.
#[test]
fn unknown_types_are_left_out() {
    let stub = stub!();
    stub.plan().permitted = 0b1000;
    let mut allocator = allocator(&stub);
    // SAFETY: the stub allows it.
    let refused = unsafe { allocator.create_buffer(&buffer_info(100), UPLOAD) }.err();
    assert_eq!(refused, Some(Error::Allocation(AllocationError::NoCompatibleMemoryTypes)));
    stub.plan().permitted = 0b1110;
    let made = buffer(&mut allocator, 100, UPLOAD);
    assert_eq!(made.block.memory_type(), 1);
    let cached = buffer(&mut allocator, 100, MemoryRequest { memory_types: 0b1100, ..UPLOAD.into() });
    assert_eq!(cached.block.memory_type(), 2);
    end(stub, allocator, vec![made, cached], vec![]);
}

/// A buffer whose own usage says so gets an address by itself.
#[test]
fn device_addresses() {
    let stub = stub!();
    let info = BufferCreateInfo { usage: 0x20000, ..buffer_info(100) };
    let mut without = allocator(&stub);
    stub.plan().is_quiet = true;
    // SAFETY: the stub allows what Vulkan does not, and counts it.
    unsafe {
        for request in [LOCAL, UsageFlags::DEVICE_ADDRESS] {
            let refused = without.create_buffer(&info, request).err();
            assert_eq!(refused, Some(Error::NoDeviceAddress));
        }
        assert_eq!(
            without.create_image(&image_info(1), UsageFlags::DEVICE_ADDRESS).err(),
            Some(Error::NoDeviceAddress)
        );
    }
    drop(without);
    // Two buffers with addresses were created, and destroyed.
    assert_eq!((stub.held(), stub.close()), ((0, 0, 0), 2));
    let stub = stub!();
    let device = stub.device_of(&DeviceInfo { enabled: Enabled::DEVICE_ADDRESS, ..stub.info() });
    let mut with = Allocator::new(device).unwrap();
    // SAFETY: the stub allows it.
    let made = unsafe { with.create_buffer(&info, UsageFlags::empty()) }.unwrap();
    assert_eq!((made.block.memory_type(), object(&stub, &made.block).has_address), (0, true));
    end(stub, with, vec![made], vec![]);
}

/// What is chained by itself may not be in `next`.
#[test]
fn chains_that_are_refused() {
    let stub = stub!();
    let mut allocator = allocator(&stub);
    let owner = raw::MemoryDedicatedAllocateInfo::default();
    let behind = raw::MemoryAllocateFlagsInfo { p_next: from_ref(&owner).cast(), ..PRIORITY };
    let flags = raw::MemoryAllocateFlagsInfo::default();
    for (next, name) in [
        (from_ref(&owner).cast(), "VkMemoryDedicatedAllocateInfo"),
        (from_ref(&behind).cast(), "VkMemoryDedicatedAllocateInfo"),
        (from_ref(&flags).cast(), "VkMemoryAllocateFlagsInfo"),
    ] {
        // SAFETY: it is refused.
        let refused = unsafe { allocator.create_buffer(&buffer_info(1), MemoryRequest { next, ..LOCAL.into() }) }.err();
        assert_eq!(refused, Some(Error::Chained(name)));
    }
    end(stub, allocator, vec![], vec![]);
}

#[test]
fn a_drop_frees_what_no_block_needs() {
    let stub = stub!();
    let mut first = allocator(&stub);
    let made = buffer(&mut first, 100, UPLOAD | UsageFlags::TRANSIENT);
    let other = buffer(&mut first, 100, LOCAL);
    // SAFETY: it is this allocator's. Its object waits for `cleanup`, or a drop.
    unsafe { first.destroy_buffer(made) };
    assert_eq!(stub.held(), (2, 1, 0));
    drop(first);
    // What is live stays, as its block may be used.
    assert_eq!(stub.held(), (1, 1, 0));
    // SAFETY: the stub has it, and nobody uses it.
    unsafe {
        stub.device().destroy(calls::Resource::Buffer(other.handle));
        stub.device().free(*other.block.memory());
    }
    std::mem::forget(other);
    stub.end();
}

/// What is live is reported with its place, and then what is dropped.
#[test]
fn a_drop_reports_what_is_live() {
    keep_dropped();
    let stub = stub!();
    let mut allocator = allocator(&stub);
    let made = buffer(&mut allocator, 100, LOCAL);
    let mut other = image(&mut allocator, 10, dedicated(LOCAL, Dedicated::Required));
    allocator.set_user(&mut other.block, 77);
    assert_eq!((made.block.user(), other.block.user()), (0, 77));
    assert!(allocator.report().unwrap().contains(&format!(r#""key":{},"user":77"#, other.block.key())));
    drop(allocator);
    let told = DROPPED.take();
    let [Dropped::Allocator { blocks: 2 }, Dropped::BlockOfAllocator(one), Dropped::BlockOfAllocator(two)] = &told[..]
    else {
        panic!("{told:?}")
    };
    assert_eq!((one.key, one.user, one.size, one.offset), (made.block.key(), 0, 256, made.block.offset()));
    assert_eq!((two.key, two.user, two.size, two.offset), (other.block.key(), 77, 400, 0));
    assert_eq!((one.memory_type, two.memory_type, one.object != two.object), (0, 0, true));
    let device = stub.device();
    // SAFETY: the stub has them, and nobody uses them.
    unsafe {
        device.destroy(calls::Resource::Buffer(made.handle));
        device.destroy(calls::Resource::Image(other.handle));
        [&made.block, &other.block].into_iter().for_each(|block| device.free(*block.memory()));
    }
    drop((made, other));
    assert_eq!(DROPPED.take(), [Dropped::Block(one.clone()), Dropped::Block(two.clone())]);
    stub.end();
}

#[test]
fn cleanup_frees_what_no_block_needs() {
    let stub = stub!();
    let mut allocator = allocator(&stub);
    let made = buffer(&mut allocator, 100, UPLOAD | UsageFlags::TRANSIENT);
    assert_eq!(allocator.remaining_allocations(), 99);
    // SAFETY: it is this allocator's.
    unsafe { allocator.destroy_buffer(made) };
    assert_eq!((stub.held(), allocator.remaining_allocations()), ((1, 0, 0), 99));
    allocator.cleanup();
    assert_eq!((stub.held(), allocator.remaining_allocations()), ((0, 0, 0), 100));
    end(stub, allocator, vec![], vec![]);
}

/// Another allocator's buffer is refused before it is destroyed.
#[test]
fn anothers_buffer() {
    let stub = stub!();
    let (mut one, mut other) = (allocator(&stub), allocator(&stub));
    let made = buffer(&mut one, 100, LOCAL);
    let (handle, memory) = (made.handle, *made.block.memory());
    // SAFETY: it is refused.
    let misused = std::panic::AssertUnwindSafe(|| unsafe { other.destroy_buffer(made) });
    assert!(std::panic::catch_unwind(misused).is_err());
    assert_eq!(stub.held(), (1, 1, 0));
    drop((one, other));
    // SAFETY: the stub has them, and nobody uses them.
    unsafe {
        stub.device().destroy(calls::Resource::Buffer(handle));
        stub.device().free(memory);
    }
    stub.end();
}

/// An allocator goes to another thread, and a clone of its device serves a third one.
#[test]
fn from_thread_to_thread() {
    let stub = stub!();
    let mut allocator = allocator(&stub);
    let mut made = buffer(&mut allocator, 100, UPLOAD);
    let device = allocator.device().clone();
    std::thread::scope(|scope| {
        let block = &mut made.block;
        // SAFETY: no device uses the block.
        scope.spawn(move || unsafe { block.write_bytes(&device, 0, &[7; 100]) }.unwrap());
        scope.spawn(|| {
            let image = image(&mut allocator, 10, LOCAL);
            // SAFETY: it is this allocator's.
            unsafe { allocator.destroy_image(image) };
        });
    });
    let mut read = [0; 100];
    // SAFETY: no device uses the block.
    unsafe { allocator.read(&mut made.block, 0, &mut read) }.unwrap();
    assert_eq!(read, [7; 100]);
    end(stub, allocator, vec![made], vec![]);
}
