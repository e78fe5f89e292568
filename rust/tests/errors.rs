//! Each refusal, and each misuse that panics.

mod common;

use common::*;
use std::borrow::Cow;
use wallthyme::*;

fn asked(allocator: &mut GpuAllocator<Memory>, device: &Device, request: Request) -> Result<(), AllocationError> {
    // SAFETY: there is one device, which offers what the allocator was made with. The block is this allocator's.
    unsafe {
        let block = allocator.alloc(device, request)?;
        allocator.dealloc(device, block);
    }
    Ok(())
}

#[test]
fn out_of_device_memory() {
    let device = Device::new();
    let mut allocator = allocator(64);
    let none = Err(AllocationError::OutOfDeviceMemory);
    assert_eq!(asked(&mut allocator, &device, request(LARGEST + 1, UsageFlags::empty())), none);
    assert_eq!(device.questions(), 0);
    // One memory type alone, which the device refuses.
    let one = Request { memory_types: 1, ..request(1 << 20, UsageFlags::empty()) };
    device.refuse_next(Refusal::DeviceMemory);
    assert_eq!(asked(&mut allocator, &device, one), none);
    assert_eq!(device.questions(), 1);
    // What is left of the heap is too little, so that the device is not asked.
    let blocks = [(); 4].map(|()| unsafe {
        // SAFETY: there is one device, which offers what the allocator was made with.
        allocator.alloc(&device, Request { size: LARGEST, ..one }).unwrap()
    });
    let questions = device.questions();
    assert_eq!(asked(&mut allocator, &device, one), none);
    assert_eq!(device.questions(), questions);
    for block in blocks {
        // SAFETY: the block is this allocator's.
        unsafe { allocator.dealloc(&device, block) };
    }
    assert_eq!(asked(&mut allocator, &device, one), Ok(()));
    assert_eq!(device.held(), 0);
}

#[test]
fn out_of_host_memory() {
    let device = Device::new();
    let mut allocator = allocator(64);
    let none = Err(AllocationError::OutOfHostMemory);
    device.refuse_next(Refusal::HostMemory);
    assert_eq!(asked(&mut allocator, &device, request(1 << 20, UsageFlags::empty())), none);
    // A new shared object that could not be mapped.
    for refusal in [Refusal::HostMemory, Refusal::MapFailed] {
        device.refuse(device.questions() + 2, refusal);
        let transient = request(100, UsageFlags::UPLOAD | UsageFlags::TRANSIENT);
        assert_eq!(asked(&mut allocator, &device, transient), none);
        assert_eq!((device.held(), allocator.remaining_allocations()), (0, 64));
    }
}

#[test]
fn no_compatible_memory_types() {
    let device = Device::new();
    let mut allocator = allocator(64);
    let none = Err(AllocationError::NoCompatibleMemoryTypes);
    let hidden = Request { memory_types: 1, ..request(100, UsageFlags::DOWNLOAD) };
    assert_eq!(asked(&mut allocator, &device, hidden), none);
    let nowhere = Request { memory_types: 0, ..request(100, UsageFlags::empty()) };
    assert_eq!(asked(&mut allocator, &device, nowhere), none);
}

#[test]
fn too_many_objects() {
    let device = Device::new();
    let mut allocator = allocator(1);
    let large = request(1 << 20, UsageFlags::empty());
    // SAFETY: there is one device, which offers what the allocator was made with, and allows two objects.
    unsafe {
        let block = allocator.alloc_with_dedicated(&device, large, Dedicated::Required).unwrap();
        assert_eq!(allocator.remaining_allocations(), 0);
        assert_eq!(asked(&mut allocator, &device, large), Err(AllocationError::TooManyObjects));
        allocator.set_remaining_allocations(1);
        assert_eq!(allocator.remaining_allocations(), 1);
        assert_eq!(asked(&mut allocator, &device, large), Ok(()));
        allocator.dealloc(&device, block);
        assert_eq!(allocator.remaining_allocations(), 2);
    }
}

#[test]
fn what_the_device_answers_to_a_map() {
    let device = Device::new();
    let mut allocator = allocator(64);
    let own = Request { memory_types: 4, ..request(1 << 20, UsageFlags::HOST_ACCESS) };
    // SAFETY: there is one device, which offers what the allocator was made with.
    let mut block = unsafe { allocator.alloc(&device, own) }.unwrap();
    let answers = [
        (Refusal::DeviceMemory, MapError::OutOfDeviceMemory),
        (Refusal::HostMemory, MapError::OutOfHostMemory),
        (Refusal::MapFailed, MapError::MapFailed),
    ];
    for (refusal, error) in answers {
        device.refuse_next(refusal);
        // SAFETY: as above.
        assert_eq!(unsafe { block.map(&device, 0, 1) }, Err(error));
    }
    for (refusal, error) in [answers[0], answers[1]] {
        // The second question of a write or a read is the flush or the invalidate.
        device.refuse(device.questions() + 2, refusal);
        // SAFETY: as above.
        assert_eq!(unsafe { block.write_bytes(&device, 0, &[1]) }, Err(error));
        device.refuse(device.questions() + 2, refusal);
        // SAFETY: as above.
        assert_eq!(unsafe { block.read_bytes(&device, 0, &mut [1]) }, Err(error));
    }
    // SAFETY: the block is this allocator's.
    unsafe { allocator.dealloc(&device, block) };
    assert_eq!(device.held(), 0);
}

/// An allocation of no bytes gives one.
#[test]
fn a_request_of_no_bytes() {
    let device = Device::new();
    let mut allocator = allocator(64);
    // SAFETY: there is one device, which offers what the allocator was made with.
    let block = unsafe { allocator.alloc(&device, request(0, UsageFlags::empty())) }.unwrap();
    assert!(block.size() >= 1);
    end(allocator, &device, [block]);
}

#[test]
fn device_addresses() {
    let device = Device::new();
    let props = DeviceProperties { buffer_device_address: true, ..offer(64) };
    let mut allocator = GpuAllocator::new(Config::i_am_prototyping(), props);
    for size in [100, 1 << 20] {
        assert_eq!(asked(&mut allocator, &device, request(size, UsageFlags::DEVICE_ADDRESS)), Ok(()));
    }
    assert!(device.all_with_address());
}

#[test]
fn properties_that_do_not_fit() {
    let types = |heap, count| vec![MemoryType { heap, props: LOCAL }; count];
    let refused = [
        DeviceProperties { non_coherent_atom_size: 0, ..offer(1) },
        DeviceProperties { non_coherent_atom_size: 3, ..offer(1) },
        DeviceProperties { non_coherent_atom_size: 1 << 63, ..offer(1) },
        DeviceProperties { memory_types: Cow::Owned(types(2, 1)), ..offer(1) },
        DeviceProperties { memory_types: Cow::Owned(types(0, 33)), ..offer(1) },
    ];
    for props in refused {
        let answer = GpuAllocator::<Memory>::try_new(Config::i_am_potato(), props);
        assert_eq!(answer.err(), Some(NewError::BadProperties));
    }
    for count in [0, 1, 32] {
        let props = DeviceProperties { memory_types: Cow::Owned(types(1, count)), ..offer(1) };
        assert!(GpuAllocator::<Memory>::try_new(Config::i_am_potato(), props).is_ok());
    }
}

#[test]
#[should_panic = "no `GpuAllocator` can be made"]
fn new_panics_where_try_new_refuses() {
    let props = DeviceProperties { non_coherent_atom_size: 0, ..offer(1) };
    drop(GpuAllocator::<Memory>::new(Config::i_am_potato(), props));
}

#[test]
#[should_panic = "`align_mask` has to be"]
fn a_mask_that_is_none_panics() {
    let _ = asked(&mut allocator(1), &Device::new(), Request { align_mask: 2, ..request(1, UsageFlags::empty()) });
}

#[test]
#[should_panic = "each bit of `usage`"]
fn a_usage_without_a_name_panics() {
    let _ = asked(&mut allocator(1), &Device::new(), request(1, UsageFlags::from_bits_retain(0x40)));
}

#[test]
#[should_panic = "`DEVICE_ADDRESS` needs"]
fn an_address_without_the_feature_panics() {
    let _ = asked(&mut allocator(1), &Device::new(), request(1, UsageFlags::DEVICE_ADDRESS));
}

#[test]
#[should_panic = "the allocator that it came from"]
fn another_allocators_block_panics() {
    let device = Device::new();
    // SAFETY: there is one device, which offers what the allocators were made with. That the block is of another
    // allocator is what is tested.
    unsafe {
        let block = allocator(1).alloc(&device, request(1 << 20, UsageFlags::empty())).unwrap();
        allocator(1).dealloc(&device, block);
    }
}

#[test]
#[should_panic = "`remaining` has to be below 2^32"]
fn too_many_remaining_panic() {
    let device = Device::new();
    let mut allocator = allocator(1);
    // SAFETY: there is one device, which offers what the allocator was made with. The count is what is tested.
    unsafe {
        let block = allocator.alloc(&device, request(1 << 20, UsageFlags::empty())).unwrap();
        allocator.set_remaining_allocations(u32::MAX);
        allocator.dealloc(&device, block);
    }
}

/// The texts are gpu-alloc's, which the proved program prints too.
#[test]
fn texts() {
    use AllocationError as A;
    use MapError as M;
    let types = "No compatible memory types from requested types support requested usage";
    let texts: [(&dyn std::error::Error, &str); 10] = [
        (&A::OutOfDeviceMemory, "Device memory exhausted"),
        (&A::OutOfHostMemory, "Host memory exhausted"),
        (&A::NoCompatibleMemoryTypes, types),
        (&A::TooManyObjects, "Reached limit on allocated memory objects count"),
        (&M::OutOfDeviceMemory, "Device memory exhausted"),
        (&M::OutOfHostMemory, "Host memory exhausted"),
        (&M::MapFailed, "Failed to map memory object"),
        (&M::NonHostVisible, "Impossible to map non-host-visible memory"),
        (&M::AlreadyMapped, "Block is already mapped"),
        (&NewError::OutOfHostMemory, "Host memory exhausted"),
    ];
    for (error, text) in &texts {
        assert_eq!(error.to_string(), *text);
    }
    if std::fs::exists(concat!(env!("CARGO_MANIFEST_DIR"), "/lib")).unwrap() {
        return println!("left out: that the proved program prints them too. A released archive has no texts of that");
    }
    let proved = concat!(env!("CARGO_MANIFEST_DIR"), "/../crates/gpu_alloc_base/src/error.rt");
    let proved = std::fs::read_to_string(proved).expect("the proved texts are in Wallthyme's repository");
    for (_, text) in texts {
        assert!(proved.contains(&format!("{text:?}")), "the proved program does not print {text:?}");
    }
}

#[test]
fn causes() {
    assert_eq!(AllocationError::from(OutOfMemory::OutOfDeviceMemory), AllocationError::OutOfDeviceMemory);
    assert_eq!(AllocationError::from(OutOfMemory::OutOfHostMemory), AllocationError::OutOfHostMemory);
    assert_eq!(MapError::from(OutOfMemory::OutOfDeviceMemory), MapError::OutOfDeviceMemory);
    assert_eq!(MapError::from(OutOfMemory::OutOfHostMemory), MapError::OutOfHostMemory);
    assert_eq!(MapError::from(DeviceMapError::OutOfDeviceMemory), MapError::OutOfDeviceMemory);
    assert_eq!(MapError::from(DeviceMapError::OutOfHostMemory), MapError::OutOfHostMemory);
    assert_eq!(MapError::from(DeviceMapError::MapFailed), MapError::MapFailed);
}
