//! Requests: which fields go together, alignments, and resources that the program binds.

use super::memory;
use super::*;
use crate::MemoryPropertyFlags;

const MIB: u64 = 1 << 20;

/// What is refused by name, and by which calls: those that see a create-info, and those that do not.
#[test]
fn fields_that_do_not_go_together() {
    let intent = Intent::auto().random();
    let with_intent = |usage| MemoryRequest { usage, ..intent.into() };
    let aligned = |min_alignment| MemoryRequest { min_alignment, ..UPLOAD.into() };
    let requires = |letters| MemoryRequest { required: memory::flags(letters), ..LOCAL.into() };
    let prefers = |letters| MemoryRequest { preferred: memory::flags(letters), ..intent.into() };
    let forbidden = Some(Error::ForbiddenProperties);
    let no_info = Some(Error::NoCreateInfo);
    for (request, with_info, without) in [
        (intent.into(), None, no_info),
        (with_intent(UsageFlags::TRANSIENT), None, no_info),
        (with_intent(LOCAL), Some(Error::UsageWithIntent), no_info),
        (with_intent(UPLOAD | UsageFlags::TRANSIENT), Some(Error::UsageWithIntent), no_info),
        (with_intent(UsageFlags::from_bits_retain(0x40)), Some(Error::UsageWithIntent), no_info),
        (aligned(3), Some(Error::BadAlignment), Some(Error::BadAlignment)),
        (aligned(u64::MAX), Some(Error::BadAlignment), Some(Error::BadAlignment)),
        (MemoryRequest { min_alignment: 6, ..intent.into() }, Some(Error::BadAlignment), no_info),
        (requires("Z"), forbidden, forbidden),
        (requires("LP"), forbidden, forbidden),
        (prefers("P"), forbidden, no_info),
        (MemoryRequest { preferred: memory::flags("LZ"), ..UPLOAD.into() }, forbidden, forbidden),
    ] {
        let stub = stub!();
        let mut allocator = allocator(&stub);
        let device = allocator.device().clone();
        // SAFETY: the resources are the stub's, and no device uses them.
        unsafe {
            let (buffer, image) =
                (device.create_buffer(&buffer_info(100)).unwrap(), device.create_image(&image_info(10)).unwrap());
            let needs = device.buffer_requirements(buffer);
            let before = (stub.asked(), stub.held());
            let without_info = [
                allocator.allocate_for_buffer(buffer, request).err(),
                allocator.allocate_for_image(image, Tiling::OPTIMAL, request).err(),
                allocator.allocate(&needs, request).err(),
            ];
            assert_eq!(without_info, [without; 3], "{request:?}");
            assert_eq!(allocator.candidates(request, 3).err(), with_info, "{request:?}");
            if with_info.is_some() {
                let refused = allocator.create_buffer(&buffer_info(100), request).map(drop).err();
                assert_eq!(refused, with_info, "{request:?}");
                let refused = allocator.create_image(&image_info(10), request).map(drop).err();
                assert_eq!(refused, with_info, "{request:?}");
            }
            assert_eq!((stub.asked(), stub.held()), before, "{request:?}");
            device.destroy(calls::Resource::Buffer(buffer));
            device.destroy(calls::Resource::Image(image));
        }
        end(stub, allocator, vec![], vec![]);
    }
}

/// With the permitted types and their properties none is left.
#[test]
fn properties_that_no_type_has() {
    let stub = stub!();
    let mut allocator = allocator(&stub);
    for (required, memory_types) in [("LV", 0), ("H", 0b0011), ("LC", 0b1000)] {
        let required = memory::flags(required);
        for request in [
            MemoryRequest { required, memory_types, ..LOCAL.into() },
            MemoryRequest { required, memory_types, preferred: MemoryPropertyFlags::HOST_VISIBLE, ..UPLOAD.into() },
            MemoryRequest { required, memory_types, ..Intent::auto().into() },
        ] {
            // SAFETY: it is refused.
            let refused = unsafe { allocator.create_buffer(&buffer_info(100), request) }.map(drop);
            assert_eq!(refused.map_err(Error::result), Err(VkResult::ERROR_FEATURE_NOT_PRESENT), "{request:?}");
            assert_eq!((stub.types_asked(), stub.held()), (vec![], (0, 0, 0)));
            assert_eq!(allocator.candidates(request, 3), Ok(vec![]));
        }
    }
    end(stub, allocator, vec![], vec![]);
}

/// A property without a name is one that no known type has.
#[test]
fn properties_without_a_name() {
    let stub = stub!();
    let mut allocator = allocator(&stub);
    let unknown = MemoryPropertyFlags::from_bits_retain(0x40);
    let required = MemoryRequest { required: unknown, ..LOCAL.into() };
    let preferred = MemoryRequest { preferred: unknown, ..Intent::auto().into() };
    assert_eq!(allocator.candidates(required, 3), Ok(vec![]));
    assert_eq!(allocator.candidates(preferred, 3), allocator.candidates(Intent::auto(), 3));
    end(stub, allocator, vec![], vec![]);
}

/// The offset is a multiple of the greater alignment.
#[test]
fn alignments() {
    for sharing in [Sharing::Fit, Sharing::Buddy] {
        let stub = stub!();
        let mut allocator = allocator_with(&stub, sharing);
        let mut buffers = vec![];
        let mut images = vec![];
        for min_alignment in [1, 16, 256, 512, 4096, 1 << 16, MIB, 1 << 40, 1 << 63] {
            for usage in [LOCAL, UPLOAD | UsageFlags::TRANSIENT] {
                let request = MemoryRequest { min_alignment, ..usage.into() };
                let own = MemoryRequest { dedicated: Some(Dedicated::Required), ..request };
                for request in [request, own] {
                    // What lies before is not as aligned.
                    buffers.push(buffer(&mut allocator, 100, usage));
                    buffers.push(buffer(&mut allocator, 100, request));
                    images.push(image(&mut allocator, 5, request));
                    let blocks = [&buffers[buffers.len() - 1].block, &images[images.len() - 1].block];
                    for block in blocks {
                        assert_eq!(block.offset() % min_alignment.max(256), 0, "{request:?}");
                    }
                }
            }
        }
        let request = MemoryRequest { min_alignment: 4096, ..Intent::auto().into() };
        let made = buffer(&mut allocator, 100, request);
        assert_eq!(made.block.offset() % 4096, 0);
        buffers.push(made);
        end(stub, allocator, buffers, images);
    }
}

/// A bad alignment of requirements is not hidden by a good one.
#[test]
fn a_bad_alignment_of_requirements() {
    let stub = stub!();
    let mut allocator = allocator(&stub);
    let needs = Requirements { size: 100, alignment: 3, memory_types: 7, dedicated: None, optimal: false };
    let request = MemoryRequest { min_alignment: 4, ..UPLOAD.into() };
    // SAFETY: it is refused.
    let misused = std::panic::AssertUnwindSafe(|| unsafe { allocator.allocate(&needs, request) });
    assert!(std::panic::catch_unwind(misused).is_err());
    assert_eq!(stub.held(), (0, 0, 0));
    end(stub, allocator, vec![], vec![]);
}

/// Nothing is bound, and the program binds at offset 0.
#[test]
fn bound_by_the_program() {
    for wish in [None, Some(Dedicated::Required)] {
        let stub = stub!();
        let mut allocator = allocator(&stub);
        let device = allocator.device().clone();
        for request in [MemoryRequest::from(LOCAL), Intent::auto().into()] {
            let request = MemoryRequest { dedicated: wish, dont_bind: true, ..request };
            let made = buffer(&mut allocator, 100, request);
            let other = image(&mut allocator, 10, request);
            assert_eq!(stub.held_now().bound, 0);
            let is_own = wish.is_some();
            assert_eq!(made.block.made_for(), is_own.then_some(Resource::Buffer(made.handle)));
            assert_eq!(other.block.made_for(), is_own.then_some(Resource::Image(other.handle)));
            // SAFETY: the blocks serve them, and no device uses them.
            unsafe {
                device.bind_buffer(made.handle, &made.block, 0).unwrap();
                device.bind_image(other.handle, &other.block, 0).unwrap();
                assert!(is_bound(&stub, stub.buffer_bytes(made.handle), &made.block, 0));
                assert!(is_bound(&stub, stub.image_bytes(other.handle), &other.block, 0));
                allocator.destroy_buffer(made);
                allocator.destroy_image(other);
            }
        }
        end(stub, allocator, vec![], vec![]);
    }
}

/// The program's own resources stay unbound too. A call that binds nothing ignores it.
#[test]
fn the_programs_own_are_not_bound() {
    let stub = stub!();
    let mut allocator = allocator(&stub);
    let device = allocator.device().clone();
    let request = MemoryRequest { dont_bind: true, ..LOCAL.into() };
    // SAFETY: the resources are the stub's, and no device uses them.
    unsafe {
        let buffer = device.create_buffer(&buffer_info(100)).unwrap();
        let image = device.create_image(&image_info(10)).unwrap();
        let needs = device.buffer_requirements(buffer);
        let blocks = [
            allocator.allocate_for_buffer(buffer, request).unwrap(),
            allocator.allocate_for_image(image, Tiling::OPTIMAL, request).unwrap(),
            allocator.allocate(&needs, request).unwrap(),
        ];
        assert_eq!(stub.held_now().bound, 0);
        device.bind_buffer(buffer, &blocks[0], 0).unwrap();
        device.bind_image(image, &blocks[1], 0).unwrap();
        device.destroy(calls::Resource::Buffer(buffer));
        device.destroy(calls::Resource::Image(image));
        blocks.into_iter().for_each(|block| allocator.free(block));
    }
    end(stub, allocator, vec![], vec![]);
}

#[test]
fn texts_and_results() {
    for (error, text, result) in [
        (
            Error::NoCreateInfo,
            "An intent needs the create-info of its buffer or image",
            VkResult::ERROR_VALIDATION_FAILED_EXT,
        ),
        (
            Error::UsageWithIntent,
            "Of usages only TRANSIENT and DEVICE_ADDRESS go with an intent",
            VkResult::ERROR_VALIDATION_FAILED_EXT,
        ),
        (Error::BadAlignment, "`min_alignment` is neither 0 nor a power of two", VkResult::ERROR_VALIDATION_FAILED_EXT),
        (
            Error::ForbiddenProperties,
            "Lazily allocated and protected memory is never allocated",
            VkResult::ERROR_FEATURE_NOT_PRESENT,
        ),
    ] {
        assert_eq!((error.to_string().as_str(), error.result()), (text, result));
    }
}
