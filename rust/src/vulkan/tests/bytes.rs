//! Bytes of blocks, imports, and reports.

use super::*;
use crate::{AllocationError, MapError};
use driver::ATOM;
use std::panic::{catch_unwind, AssertUnwindSafe};

#[test]
fn written_and_read_back() {
    let stub = stub!();
    let mut allocator = allocator(&stub);
    let mut buffers = vec![];
    for (usage, wish) in
        [(UPLOAD, None), (UPLOAD, Some(Dedicated::Required)), (DOWNLOAD, None), (DOWNLOAD, Some(Dedicated::Required))]
    {
        let mut made = buffer(&mut allocator, 1000, MemoryRequest { dedicated: wish, ..usage.into() });
        let block = &mut made.block;
        let data: Vec<u8> = (0..500).map(|at| at as u8).collect();
        let mut read = vec![0; 500];
        // SAFETY: no device uses the block, and its bytes are reached one way at a time.
        unsafe {
            allocator.write(block, 301, &data).unwrap();
            allocator.read(block, 301, &mut read).unwrap();
            assert_eq!(read, data);
            let bytes = allocator.map(block).unwrap();
            assert_eq!(bytes.len() as u64, block.size());
            assert_eq!(&bytes.as_ref()[301..801], data);
            assert_eq!(allocator.map(block).err(), Some(Error::Map(MapError::AlreadyMapped)));
            assert_eq!(allocator.write(block, 0, &[1]), Err(Error::Map(MapError::AlreadyMapped)));
            assert!(allocator.unmap(block) && !allocator.unmap(block));
        }
        buffers.push(made);
    }
    let mut local = buffer(&mut allocator, 10, LOCAL);
    // SAFETY: no device uses the block.
    let refused = unsafe { allocator.map(&mut local.block) }.err();
    assert_eq!(refused, Some(Error::Map(MapError::NonHostVisible)));
    buffers.push(local);
    end(stub, allocator, buffers, vec![]);
}

#[test]
fn flushed_where_it_has_to_be() {
    let stub = stub!();
    let mut allocator = allocator(&stub);
    let mut coherent = buffer(&mut allocator, 1000, UPLOAD);
    let mut cached = buffer(&mut allocator, 1000, dedicated(DOWNLOAD, Dedicated::Required));
    let mut beside = [(); 2].map(|()| buffer(&mut allocator, 1000, DOWNLOAD));
    let all = |block: &MemoryBlock<Memory>| 0..block.size();
    // SAFETY: no device uses the blocks. What is flushed is mapped.
    unsafe {
        allocator.write(&mut coherent.block, 0, &[1; 1000]).unwrap();
        assert_eq!(stub.ranges(), [[]; 0]);
        allocator.write(&mut cached.block, 100, &[1; 100]).unwrap();
        assert_eq!(stub.ranges(), [[(ATOM, 3 * ATOM)]]);
        allocator.read(&mut cached.block, 990, &mut [0; 10]).unwrap();
        assert_eq!(stub.ranges(), [[(15 * ATOM, 1000 - 15 * ATOM)]]);
        for block in [&coherent.block, &cached.block] {
            assert_eq!(allocator.flush(&[(block, 0..1)]), Err(Error::NotMapped));
            assert_eq!(allocator.invalidate(&[(block, all(block))]), Err(Error::NotMapped));
        }
        allocator.map(&mut coherent.block).unwrap();
        allocator.map(&mut cached.block).unwrap();
        let both = [(&coherent.block, all(&coherent.block)), (&cached.block, 1..65), (&cached.block, 0..0)];
        allocator.flush(&both).unwrap();
        assert_eq!(stub.ranges(), [[(0, 2 * ATOM)]]);
        allocator.invalidate(&both).unwrap();
        assert_eq!(stub.ranges(), [[(0, 2 * ATOM)]]);
        allocator.flush(&both[..1]).unwrap();
        allocator.flush(&[]).unwrap();
        assert_eq!(stub.ranges(), [[]; 0]);
        // Each range is of its own object: here one behind the end of the other's.
        allocator.map(&mut beside[1].block).unwrap();
        let behind = beside[1].block.offset();
        allocator.flush(&[(&cached.block, 0..1), (&beside[1].block, 0..1)]).unwrap();
        assert!(behind >= cached.block.size() && stub.ranges() == [[(0, ATOM), (behind, ATOM)]]);
        // At most 16 ranges go to one call.
        allocator.flush(&vec![(&cached.block, 0..1); 35]).unwrap();
        assert_eq!(stub.ranges().iter().map(Vec::len).collect::<Vec<_>>(), [16, 16, 3]);
        let past = cached.block.size() + 1;
        for range in [0..past, past..past] {
            let misused = AssertUnwindSafe(|| allocator.flush(&[(&cached.block, 0..1), (&cached.block, range)]));
            assert!(catch_unwind(misused).is_err());
        }
        assert_eq!(stub.ranges(), [[]; 0]);
    }
    let [one, other] = beside;
    end(stub, allocator, vec![coherent, cached, one, other], vec![]);
}

/// A write or a read is one mapping at most, and one flush or invalidate. It needs no allocator: another thread may use
/// that meanwhile.
#[test]
fn no_call_is_made_twice() {
    const MAP: &str = "vkMapMemory";
    const UNMAP: &str = "vkUnmapMemory";
    const FLUSH: &str = "vkFlushMappedMemoryRanges";
    const INVALIDATE: &str = "vkInvalidateMappedMemoryRanges";
    let stub = stub!();
    let mut allocator = allocator(&stub);
    let own = |usage| dedicated(usage, Dedicated::Required);
    let mut buffers = vec![];
    for (request, written, read) in [
        (UPLOAD.into(), &[][..], &[][..]),
        (DOWNLOAD.into(), &[FLUSH], &[INVALIDATE]),
        (own(UPLOAD), &[MAP, UNMAP], &[MAP, UNMAP]),
        (own(DOWNLOAD), &[MAP, FLUSH, UNMAP], &[MAP, INVALIDATE, UNMAP]),
    ] {
        let mut made = buffer(&mut allocator, 1000, request);
        let device = allocator.device().clone();
        stub.heard();
        // SAFETY: no device uses the block.
        unsafe {
            made.block.write_bytes(&device, 1, &[1; 500]).unwrap();
            assert_eq!(stub.heard(), written);
            made.block.read_bytes(&device, 1, &mut [0; 500]).unwrap();
            assert_eq!(stub.heard(), read);
            allocator.write(&mut made.block, 1, &[1; 500]).unwrap();
            assert_eq!(stub.heard(), written);
            allocator.read(&mut made.block, 1, &mut [0; 500]).unwrap();
            assert_eq!(stub.heard(), read);
            allocator.write(&mut made.block, 1000, &[]).unwrap();
            assert_eq!(stub.heard(), [""; 0]);
        }
        buffers.push(made);
    }
    end(stub, allocator, buffers, vec![]);
}

#[test]
fn imports() {
    let stub = stub!();
    let device = stub.device_of(&DeviceInfo { other_objects: 98, ..stub.info() });
    let mut allocator = Allocator::new(device.clone()).unwrap();
    let nothing = std::ptr::null();
    // SAFETY: the objects are the stub's, of that type and size; no device uses them.
    unsafe {
        let make = || device.allocate(1000, 2, crate::AllocationFlags::empty(), None, nothing).unwrap();
        let mut first = allocator.import(make(), 2, 64, 936).unwrap();
        assert_eq!((first.offset(), first.size(), first.memory_type()), (64, 936, 2));
        allocator.write(&mut first, 900, &[5; 36]).unwrap();
        assert_eq!(stub.ranges(), [[(64 + 896, 40)]]);
        let second = allocator.import(make(), 2, 0, 1000).unwrap();
        let third = make();
        let refused = allocator.import(third, 2, 0, 1000).err();
        assert_eq!(refused, Some(Error::Allocation(AllocationError::TooManyObjects)));
        assert_eq!(refused.map(Error::result), Some(VkResult::ERROR_TOO_MANY_OBJECTS));
        device.free(third);
        allocator.free(second);
        assert_eq!((stub.held().0, allocator.remaining_allocations()), (1, 1));
        let fourth = make();
        let misused = AssertUnwindSafe(|| allocator.import(fourth, 4, 0, 1000));
        assert!(catch_unwind(misused).is_err());
        device.free(fourth);
        allocator.free(first);
    }
    end(stub, allocator, vec![], vec![]);
}

/// A block that several resources are bound to.
#[test]
fn two_resources_in_one_block() {
    let stub = stub!();
    let mut allocator = allocator(&stub);
    let device = allocator.device().clone();
    // SAFETY: the block serves both buffers, which are the stub's.
    unsafe {
        let [one, other] = [(); 2].map(|()| device.create_buffer(&buffer_info(100)).unwrap());
        let requirements = Requirements { size: 1000, ..device.buffer_requirements(one) };
        let block = allocator.allocate(&requirements, UPLOAD).unwrap();
        device.bind_buffer(one, &block, 0).unwrap();
        device.bind_buffer(other, &block, 512).unwrap();
        assert!(is_bound(&stub, stub.buffer_bytes(other), &block, 512));
        [one, other].iter().for_each(|buffer| device.destroy(calls::Resource::Buffer(*buffer)));
        allocator.free(block);
    }
    end(stub, allocator, vec![], vec![]);
}

/// A report has each object and each live block.
#[test]
fn a_report() {
    let stub = stub!();
    let mut allocator = allocator(&stub);
    let empty = allocator.report().unwrap();
    let made = buffer(&mut allocator, 12_345, dedicated(LOCAL, Dedicated::Required));
    let full = allocator.report().unwrap();
    assert!(empty.starts_with("{\"heaps\":[") && empty.ends_with("]}\n") && !empty.contains("12345"), "{empty}");
    assert!(full.starts_with("{\"heaps\":[") && full.ends_with("]}\n") && full.contains("12345"), "{full}");
    end(stub, allocator, vec![made], vec![]);
}
