//! Blocks that stay mapped as long as they live.

use super::driver::ATOM;
use super::memory::{self, Drawn};
use super::*;
use crate::{MapError, MemoryPropertyFlags};

const MAP: &str = "vkMapMemory";
const UNMAP: &str = "vkUnmapMemory";

fn mapped(request: impl Into<MemoryRequest>) -> MemoryRequest {
    MemoryRequest { mapped: true, ..request.into() }
}

fn own(request: impl Into<MemoryRequest>) -> MemoryRequest {
    MemoryRequest { dedicated: Some(Dedicated::Required), ..request.into() }
}

/// The address of a block's bytes; they are not read.
fn address(block: &MemoryBlock<Memory>) -> Option<(*mut u8, usize)> {
    block.mapped().map(|bytes| (bytes.as_ptr().cast(), bytes.len()))
}

/// What the host writes through the address reaches the device by a flush, and what the device writes the host by an
/// invalidate.
#[test]
fn bytes_through_the_address() {
    let stub = stub!();
    let mut allocator = allocator(&stub);
    let mut buffers = vec![buffer(&mut allocator, 1000, UPLOAD), buffer(&mut allocator, 1000, DOWNLOAD)];
    for request in [mapped(UPLOAD), mapped(DOWNLOAD), mapped(own(UPLOAD)), mapped(own(DOWNLOAD))] {
        let made = buffer(&mut allocator, 1000, request);
        let mut bytes = made.block.mapped().expect("the host sees it");
        assert_eq!(bytes.len() as u64, made.block.size());
        let device = stub.memory_bytes(*made.block.memory(), made.block.offset(), 1000).cast_mut();
        // SAFETY: no device uses the block, and its bytes are reached one way at a time.
        unsafe {
            bytes.as_mut()[..1000].fill(7);
            allocator.flush(&[(&made.block, 0..1000)]).unwrap();
            assert_eq!(std::slice::from_raw_parts(device, 1000), [7; 1000], "{request:?}");
            device.write_bytes(9, 1000);
            allocator.invalidate(&[(&made.block, 0..1000)]).unwrap();
            assert_eq!(bytes.as_ref()[..1000], [9; 1000], "{request:?}");
        }
        buffers.push(made);
    }
    end(stub, allocator, buffers, vec![]);
}

/// A shared object is mapped anyway. One for the block alone is mapped once, and the free of the memory ends that.
#[test]
fn what_it_costs() {
    let stub = stub!();
    let mut allocator = allocator(&stub);
    let neighbours = [UPLOAD, DOWNLOAD].map(|usage| buffer(&mut allocator, 100, usage));
    for (request, maps) in [
        (mapped(UPLOAD), 0),
        (mapped(DOWNLOAD), 0),
        (mapped(own(UPLOAD)), 1),
        (mapped(own(DOWNLOAD)), 1),
        // What the host does not see.
        (mapped(LOCAL), 0),
        (mapped(own(LOCAL)), 0),
        (mapped(own(Intent::auto())), 0),
    ] {
        let before = stub.calls_of(MAP);
        let made = buffer(&mut allocator, 1000, request);
        let is_visible = made.block.props().contains(MemoryPropertyFlags::HOST_VISIBLE);
        assert_eq!(made.block.mapped().is_some(), is_visible, "{request:?}");
        assert_eq!(stub.calls_of(MAP) - before, maps, "{request:?}");
        assert_eq!(object(&stub, &made.block).is_mapped, is_visible, "{request:?}");
        // SAFETY: it is this allocator's, and no device uses it.
        unsafe { allocator.destroy_buffer(made) };
        assert_eq!((stub.calls_of(MAP) - before, stub.calls_of(UNMAP)), (maps, 0), "{request:?}");
    }
    end(stub, allocator, neighbours.into(), vec![]);
}

/// A block that was not asked to stay mapped has no such address, though its object may be mapped.
#[test]
fn only_where_it_is_asked() {
    let stub = stub!();
    let mut allocator = allocator(&stub);
    let mut made = [UPLOAD.into(), own(UPLOAD), LOCAL.into()].map(|request| buffer(&mut allocator, 100, request));
    for made in &mut made {
        assert_eq!(made.block.mapped(), None);
    }
    // SAFETY: no device uses the blocks.
    unsafe {
        allocator.map(&mut made[1].block).unwrap();
        assert_eq!(made[1].block.mapped(), None);
    }
    end(stub, allocator, made.into(), vec![]);
}

/// `map` and `unmap` nest on top of it, and an `unmap` without its `map` changes nothing.
#[test]
fn map_and_unmap_nest() {
    let stub = stub!();
    let mut allocator = allocator(&stub);
    let mut buffers = vec![];
    for request in [mapped(UPLOAD), mapped(own(UPLOAD)), mapped(DOWNLOAD), mapped(own(DOWNLOAD))] {
        let mut made = buffer(&mut allocator, 1000, request);
        let start = address(&made.block);
        stub.heard();
        // SAFETY: no device uses the block, and its bytes are reached one way at a time.
        unsafe {
            let block = &mut made.block;
            assert!(!allocator.unmap(block));
            for _ in 0..2 {
                let bytes = allocator.map(block).unwrap();
                assert_eq!(Some((bytes.as_ptr().cast(), bytes.len())), start);
                assert_eq!(allocator.map(block).err(), Some(Error::Map(MapError::AlreadyMapped)));
                assert_eq!(allocator.write(block, 0, &[1]), Err(Error::Map(MapError::AlreadyMapped)));
                assert!(allocator.unmap(block) && !allocator.unmap(block));
            }
            let device = allocator.device().clone();
            let part = block.map(&device, 900, 100).unwrap();
            assert_eq!(Some(part.as_ptr()), start.map(|(start, _)| start.add(900)));
            assert!(block.unmap(&device));
            assert_eq!(stub.heard(), [""; 0], "{request:?}");
            assert_eq!(address(block), start);
            block.mapped().unwrap().as_mut()[0] = 5;
        }
        buffers.push(made);
    }
    end(stub, allocator, buffers, vec![]);
}

/// Writes and reads are as for others, but need no mapping.
#[test]
fn written_and_read() {
    let stub = stub!();
    let mut allocator = allocator(&stub);
    let mut buffers = vec![];
    for request in [mapped(UPLOAD), mapped(own(UPLOAD)), mapped(DOWNLOAD), mapped(own(DOWNLOAD))] {
        let mut made = buffer(&mut allocator, 1000, request);
        let is_coherent = made.block.props().contains(MemoryPropertyFlags::HOST_COHERENT);
        let atoms = (made.block.offset() + ATOM, ATOM);
        stub.heard();
        // SAFETY: no device uses the block, and its bytes are reached one way at a time.
        unsafe {
            allocator.write(&mut made.block, 70, b"thyme").unwrap();
            assert_eq!(made.block.mapped().unwrap().as_ref()[70..75], *b"thyme");
            let mut read = [0; 5];
            allocator.read(&mut made.block, 70, &mut read).unwrap();
            assert_eq!(&read, b"thyme");
        }
        let (calls, ranges) = (stub.heard(), stub.ranges());
        if is_coherent {
            assert_eq!((calls, ranges), (vec![], vec![]));
        } else {
            assert_eq!(calls, ["vkFlushMappedMemoryRanges", "vkInvalidateMappedMemoryRanges"]);
            assert_eq!(ranges, [[atoms], [atoms]]);
        }
        buffers.push(made);
    }
    end(stub, allocator, buffers, vec![]);
}

/// The memory types that are asked for an object while its mapping is refused, and what comes of it.
fn refused_mapping(
    memory: &Drawn,
    request: MemoryRequest,
    number: u64,
    result: VkResult,
) -> Option<(Vec<u32>, Result<u32, Error>)> {
    let stub = memory.stub()?;
    let mut allocator = allocator(&stub);
    stub.refuse_one(number, result);
    // SAFETY: the stub allows it, and no device uses it.
    let granted = unsafe { allocator.create_buffer(&buffer_info(1 << 20), request) };
    let held = (stub.held(), allocator.remaining_allocations());
    let asked = stub.types_asked();
    let memory_type = match granted {
        Ok(made) => {
            assert_eq!((held, made.block.mapped().is_some()), (((1, 1, 0), 99), true));
            let memory_type = made.block.memory_type();
            // SAFETY: as above.
            unsafe { allocator.destroy_buffer(made) };
            Ok(memory_type)
        }
        Err(error) => {
            assert_eq!(held, ((0, 0, 0), 100));
            Err(error)
        }
    };
    end(stub, allocator, vec![], vec![]);
    Some((asked, memory_type))
}

/// A mapping that is refused for want of device memory, or of objects, leaves its memory type out; another error ends
/// the request. Nothing is kept of either.
#[test]
fn a_refused_mapping() {
    let writes = Intent::auto().sequential_write();
    for (result, goes_on) in [
        (VkResult::ERROR_OUT_OF_DEVICE_MEMORY, true),
        (VkResult::ERROR_TOO_MANY_OBJECTS, true),
        (VkResult::ERROR_OUT_OF_HOST_MEMORY, false),
        (VkResult::ERROR_MEMORY_MAP_FAILED, false),
        (VkResult::ERROR_DEVICE_LOST, false),
    ] {
        // In each the first type is asked for an object, which is made; then its mapping is refused.
        for (request, first, next) in [
            (own(writes), 1, 2),
            (own(UPLOAD), 1, 2),
            (MemoryRequest { preferred: memory::flags("H"), ..own(UPLOAD) }, 2, 1),
        ] {
            let Some((asked, granted)) = refused_mapping(&memory::discrete(), mapped(request), 3, result) else {
                return;
            };
            let refusal = Error::Driver { call: MAP, result };
            let expected = if goes_on { (vec![first, next], Ok(next)) } else { (vec![first], Err(refusal)) };
            assert_eq!((asked, granted), expected, "{request:?} {result}");
        }
    }
}

/// Where no other memory type is left, the mapping's result comes back, and nothing is asked for again.
#[test]
fn a_refused_mapping_of_the_only_type() {
    let result = VkResult::ERROR_OUT_OF_DEVICE_MEMORY;
    for request in [
        own(Intent::auto().random()),
        own(UPLOAD),
        MemoryRequest { memory_types: 1, ..own(DOWNLOAD) },
        // So large that they get an object of their own.
        dedicated(UPLOAD, Dedicated::Preferred),
        MemoryRequest { dedicated: Some(Dedicated::Preferred), ..Intent::auto().random().into() },
    ] {
        let Some((asked, granted)) = refused_mapping(&memory::software(), mapped(request), 3, result) else { return };
        assert_eq!((asked, granted), (vec![0], Err(Error::Driver { call: MAP, result })), "{request:?}");
    }
}

/// So it is where a block gets an object of its own only since no shared one is to be had.
#[test]
fn a_refused_mapping_of_a_second_try() {
    let (lack, lost) = (VkResult::ERROR_OUT_OF_DEVICE_MEMORY, VkResult::ERROR_DEVICE_LOST);
    let by_intent = mapped(Intent::auto().sequential_write());
    for (request, result, asked, granted) in [
        (by_intent, lack, vec![1, 1, 2, 2], Ok(2)),
        (by_intent, lost, vec![1, 1], Err(lost)),
        (mapped(UPLOAD), lack, vec![1, 2, 3, 1, 2], Ok(2)),
        (mapped(UPLOAD), lost, vec![1, 2, 3, 1], Err(lost)),
    ] {
        let Some(stub) = memory::discrete().stub() else { return };
        // No shared object is that small.
        stub.plan().granted = 8192;
        let mut allocator = allocator(&stub);
        stub.refuse_next(MAP, result);
        // SAFETY: the stub allows it, and no device uses it.
        let made = unsafe { allocator.create_buffer(&buffer_info(4096), request) };
        let memory_type = made.as_ref().map(|made| made.block.memory_type()).map_err(|error| error.result());
        assert_eq!((stub.types_asked(), memory_type), (asked, granted), "{request:?}");
        let made = Vec::from_iter(made);
        let count = made.len() as u64;
        assert_eq!(stub.held(), (count, count, 0));
        assert!(made.iter().all(|made| made.block.made_for() == Some(Resource::Buffer(made.handle))));
        assert!(made.iter().all(|made| made.block.mapped().is_some()));
        end(stub, allocator, made, vec![]);
    }
}

/// Images, blocks for given requirements, and blocks for the program's own resources stay mapped too.
#[test]
fn each_way_to_allocate() {
    let stub = stub!();
    let mut allocator = allocator(&stub);
    let device = allocator.device().clone();
    let linear = ImageCreateInfo { tiling: Tiling::LINEAR, ..image_info(10) };
    for request in [mapped(UPLOAD), mapped(own(UPLOAD))] {
        // SAFETY: the resources are the stub's, and no device uses them.
        unsafe {
            let made = allocator.create_image(&linear, request).unwrap();
            assert!(made.block.mapped().is_some());
            let buffer = device.create_buffer(&buffer_info(100)).unwrap();
            let image = device.create_image(&linear).unwrap();
            let needs = device.buffer_requirements(buffer);
            let blocks = [
                allocator.allocate_for_buffer(buffer, request).unwrap(),
                allocator.allocate_for_image(image, Tiling::LINEAR, request).unwrap(),
                allocator.allocate(&needs, request).unwrap(),
            ];
            assert!(blocks.iter().all(|block| block.mapped().is_some()));
            device.destroy(calls::Resource::Buffer(buffer));
            device.destroy(calls::Resource::Image(image));
            blocks.into_iter().for_each(|block| allocator.free(block));
            allocator.destroy_image(made);
        }
    }
    end(stub, allocator, vec![], vec![]);
}
