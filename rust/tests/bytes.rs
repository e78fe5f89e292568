//! Bytes of blocks, over memory that needs flushes and invalidates.

mod common;

use common::*;
use wallthyme::*;

/// A block of the memory type that is not coherent, and one of the type that is.
fn two_kinds(allocator: &mut GpuAllocator<Memory>, device: &Device, size: u64) -> [MemoryBlock<Memory>; 2] {
    [4, 2].map(|memory_types| {
        let request = Request { size, align_mask: 0, usage: UsageFlags::HOST_ACCESS, memory_types };
        // SAFETY: there is one device, which offers what the allocator was made with.
        unsafe { allocator.alloc(device, request) }.expect("the device refuses nothing")
    })
}

/// What one side writes the other one sees, over shared and own objects, from any offset.
#[test]
fn written_and_read_back() {
    let device = Device::new();
    let mut allocator = allocator(64);
    let mut blocks = Vec::new();
    for size in [1, 63, 64, 65, 1000, 100_001] {
        blocks.extend(two_kinds(&mut allocator, &device, size));
    }
    let mut random = Random(3);
    for block in &mut blocks {
        let mut bytes = device.sees(block);
        for _ in 0..20 {
            let start = random.below(bytes.len() as u64) as usize;
            let len = random.below(200).min((bytes.len() - start) as u64) as usize;
            let data = random.bytes(len);
            bytes[start..start + len].copy_from_slice(&data);
            // SAFETY: there is one device, which does not use the block meanwhile.
            unsafe { block.write_bytes(&device, start as u64, &data) }.unwrap();
            assert_eq!(device.sees(block), bytes);
            bytes = random.bytes(bytes.len());
            device.writes(block, &bytes);
            let mut read = vec![0; bytes.len()];
            // SAFETY: as above.
            unsafe { block.read_bytes(&device, 0, &mut read) }.unwrap();
            assert_eq!(read, bytes);
        }
    }
    assert!(device.flushes() > 0 && device.invalidates() > 0);
    end(allocator, &device, blocks);
}

/// Coherent memory is neither flushed nor invalidated; other memory is for each call.
#[test]
fn flushed_where_it_has_to_be() {
    let device = Device::new();
    let mut allocator = allocator(64);
    let [mut cached, mut coherent] = two_kinds(&mut allocator, &device, 300);
    // SAFETY: there is one device, which does not use the blocks meanwhile.
    unsafe {
        coherent.write_bytes(&device, 0, &[1; 300]).unwrap();
        coherent.read_bytes(&device, 0, &mut [0; 300]).unwrap();
        assert_eq!((device.flushes(), device.invalidates()), (0, 0));
        cached.write_bytes(&device, 0, &[1; 300]).unwrap();
        assert_eq!((device.flushes(), device.invalidates()), (1, 0));
        cached.read_bytes(&device, 0, &mut [0; 300]).unwrap();
        assert_eq!((device.flushes(), device.invalidates()), (1, 1));
    }
    end(allocator, &device, [cached, coherent]);
}

#[test]
fn no_bytes_ask_nothing() {
    let device = Device::new();
    let mut allocator = allocator(64);
    let mut blocks = two_kinds(&mut allocator, &device, 100_000);
    let questions = device.questions();
    for block in &mut blocks {
        // SAFETY: there is one device.
        unsafe {
            assert_eq!(block.write_bytes(&device, block.size(), &[]), Ok(()));
            assert_eq!(block.read_bytes(&device, 0, &mut []), Ok(()));
        }
    }
    assert_eq!(device.questions(), questions);
    end(allocator, &device, blocks);
}

/// Mapped blocks: bytes through the address, one mapping at a time, shared objects that stay mapped.
#[test]
fn mapped_by_the_caller() {
    let device = Device::new();
    let mut allocator = allocator(64);
    let mut blocks = Vec::from(two_kinds(&mut allocator, &device, 200_000));
    let transient = UsageFlags::UPLOAD | UsageFlags::TRANSIENT;
    for _ in 0..3 {
        // SAFETY: there is one device, which offers what the allocator was made with.
        blocks.push(unsafe { allocator.alloc(&device, request(500, transient)) }.unwrap());
    }
    let before = device.objects();
    for (index, block) in blocks.iter_mut().enumerate() {
        let value = index as u8 + 1;
        // SAFETY: there is one device. The address is used for the mapped bytes, while they are mapped.
        unsafe {
            let start = block.map(&device, 70, 100).unwrap();
            start.as_ptr().write_bytes(value, 100);
            assert_eq!(block.map(&device, 0, 1), Err(MapError::AlreadyMapped));
            assert_eq!(block.write_bytes(&device, 0, &[1]), Err(MapError::AlreadyMapped));
            assert_eq!(block.read_bytes(&device, 0, &mut [1]), Err(MapError::AlreadyMapped));
            assert!(block.unmap(&device));
            assert!(!block.unmap(&device));
            let mut read = [0; 102];
            if block.props().contains(MemoryPropertyFlags::HOST_COHERENT) {
                block.read_bytes(&device, 69, &mut read).unwrap();
                assert_eq!(read[1..101], [value; 100]);
                assert_eq!((read[0], read[101]), (0, 0));
            }
        }
    }
    assert_eq!(device.objects(), before);
    end(allocator, &device, blocks);
}

/// A mapping of 0 bytes is one of 1.
#[test]
fn nothing_mapped() {
    let device = Device::new();
    let mut allocator = allocator(64);
    let mut blocks = two_kinds(&mut allocator, &device, 200_000);
    for block in &mut blocks {
        // SAFETY: there is one device.
        unsafe {
            let first = block.map(&device, 0, 0).unwrap();
            block.unmap(&device);
            assert_eq!(first, block.map(&device, 0, 1).unwrap());
            block.unmap(&device);
        }
    }
    end(allocator, &device, blocks);
}

fn misused(call: impl FnOnce(&Device, &mut MemoryBlock<Memory>)) {
    let device = Device::new();
    let mut allocator = allocator(64);
    let [mut block, _other] = two_kinds(&mut allocator, &device, 4096);
    call(&device, &mut block);
}

#[test]
#[should_panic = "`offset` has to be less than"]
fn a_map_at_the_end_panics() {
    // SAFETY: there is one device.
    misused(|device, block| _ = unsafe { block.map(device, block.size(), 0) });
}

#[test]
#[should_panic = "`offset + size` has to be at most"]
fn a_write_past_the_end_panics() {
    // SAFETY: there is one device.
    misused(|device, block| _ = unsafe { block.write_bytes(device, block.size() - 1, &[0; 2]) });
}

#[test]
#[should_panic = "`offset` has to be less than"]
fn a_read_past_the_end_panics() {
    // SAFETY: there is one device.
    misused(|device, block| _ = unsafe { block.read_bytes(device, u64::MAX, &mut [0]) });
}
