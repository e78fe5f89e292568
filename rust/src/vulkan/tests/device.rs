//! What is loaded and read of a device, and budgets.

use super::*;
use crate::{Config, GpuAllocator, MemoryPropertyFlags};
use driver::{ATOM, HEAP, LARGEST, PAGE};

#[test]
fn what_a_device_offers() {
    let stub = stub!();
    let device = stub.device_of(&DeviceInfo { other_objects: 30, enabled: Enabled::DEVICE_ADDRESS, ..stub.info() });
    let offered = device.device_properties();
    let props: Vec<_> = offered.memory_types.iter().map(|of| (of.heap, of.props.bits())).collect();
    assert_eq!(props, [(0, 0x01), (1, 0x06), (1, 0x0a), (1, 0x07)]);
    assert_eq!(offered.memory_heaps.iter().map(|of| of.size).collect::<Vec<_>>(), [HEAP, HEAP]);
    assert_eq!((offered.max_memory_allocation_count, offered.non_coherent_atom_size), (70, ATOM));
    assert_eq!((offered.max_memory_allocation_size, offered.buffer_device_address), (LARGEST, true));
    assert_eq!((device.buffer_image_granularity(), device.known_types()), (PAGE, 0b0111));
    assert_eq!(device.enabled(), Enabled::DEVICE_ADDRESS);
    assert!(format!("{device:?}").starts_with("Device { handle: "));
    let over = DeviceInfo { other_objects: 101, ..stub.info() };
    assert_eq!(stub.device_of(&over).device_properties().max_memory_allocation_count, 0);
    stub.end();
}

/// What is not enabled is not used, and the extensions' functions are loaded under their names.
#[test]
fn what_was_enabled() {
    let stub = stub!();
    let plain = DeviceInfo { api_version: 0, ..stub.info() };
    let both = Enabled::PROPERTIES2 | Enabled::DEDICATED_ALLOCATION;
    for (info, largest, asks_wishes) in [
        (plain, u64::MAX, false),
        (DeviceInfo { enabled: Enabled::PROPERTIES2, ..plain }, LARGEST, false),
        (DeviceInfo { enabled: Enabled::DEDICATED_ALLOCATION, ..plain }, u64::MAX, true),
        (DeviceInfo { enabled: both, api_version: API_VERSION_1_1 - 1, ..plain }, LARGEST, true),
        (stub.info(), LARGEST, true),
        // A higher version than the device may have: nothing above 1.1 is loaded.
        (DeviceInfo { api_version: 1 << 22 | 4 << 12, ..plain }, LARGEST, true),
    ] {
        stub.plan().requires_own = 1;
        let device = stub.device_of(&info);
        assert_eq!(device.device_properties().max_memory_allocation_size, largest, "{info:?}");
        let mut allocator = Allocator::new(device).unwrap();
        let made = buffer(&mut allocator, 100, LOCAL);
        let owner = if asks_wishes { made.handle.0 } else { 0 };
        assert_eq!(object(&stub, &made.block).owner, owner, "{info:?}");
        // SAFETY: it is this allocator's.
        unsafe { allocator.destroy_buffer(made) };
    }
    stub.end();
}

#[test]
fn each_function_that_is_missing_is_named() {
    let stub = stub!();
    let core = stub.names().into_iter().map(|name| (name, API_VERSION_1_1));
    let plain = stub.names().into_iter().filter(|name| !name.ends_with('2')).map(|name| (name, 0));
    for (name, api_version) in core.chain(plain).chain([("vkGetDeviceProcAddr", 0)]) {
        stub.hide_named(name);
        let refused = stub.load(&DeviceInfo { api_version, ..stub.info() });
        assert_eq!(refused.err(), Some(Error::Missing(name)));
    }
    for name in [
        "vkGetPhysicalDeviceProperties2KHR",
        "vkGetPhysicalDeviceMemoryProperties2KHR",
        "vkGetBufferMemoryRequirements2KHR",
        "vkGetImageMemoryRequirements2KHR",
    ] {
        stub.hide_named(&name[..name.len() - 3]);
        let info = DeviceInfo { api_version: 0, ..stub.info() };
        assert!(stub.load(&info).is_ok());
        let enabled = Enabled::PROPERTIES2 | Enabled::DEDICATED_ALLOCATION;
        assert_eq!(stub.load(&DeviceInfo { enabled, ..info }).err(), Some(Error::Missing(name)));
    }
    stub.end();
}

#[test]
fn handles_and_extensions_that_are_missing() {
    let stub = stub!();
    let good = stub.info();
    for (info, error) in [
        (DeviceInfo::default(), Error::Missing("instance")),
        (DeviceInfo { physical_device: raw::PhysicalDevice(0), ..good }, Error::Missing("physical_device")),
        (DeviceInfo { device: raw::Device(0), ..good }, Error::Missing("device")),
        (DeviceInfo { get_instance_proc_addr: None, ..good }, Error::Missing("get_instance_proc_addr")),
        (DeviceInfo { api_version: 11, ..good }, Error::Version),
        (DeviceInfo { api_version: 1 << 29 | 1 << 22, ..good }, Error::Version),
        (DeviceInfo { api_version: 0, enabled: Enabled::MEMORY_BUDGET, ..good }, Error::NoBudget),
    ] {
        // SAFETY: it is refused before anything is called.
        assert_eq!(unsafe { Device::load(&info) }.err(), Some(error));
    }
    assert_eq!(stub.heard(), [""; 0]);
    stub.end();
}

/// As `wtv_default_config` has it.
#[test]
fn sizes_by_the_heap() {
    for (size, unit) in [
        (0, 64 << 10),
        (1 << 20, 64 << 10),
        (100 << 20, 64 << 10),
        (128 << 20, 128 << 10),
        ((1 << 30) - 1, 512 << 10),
        (1 << 30, 1 << 20),
        (8 << 30, 8 << 20),
        (1 << 40, 8 << 20),
    ] {
        let stub = stub!(size, [1, 0]);
        let config = stub.device().default_config();
        let own = [config.preferred_dedicated_threshold, config.dedicated_threshold];
        assert_eq!((own, config.transient_dedicated_threshold), ([unit / 8, 4 * unit], 16 * unit), "{size}");
        let chunks = [config.starting_free_list_chunk, config.final_free_list_chunk];
        assert_eq!((chunks, config.initial_buddy_dedicated_size), ([unit, 16 * unit], unit), "{size}");
        assert_eq!(config.minimal_buddy_size, 1024);
        assert_eq!(config == Config::i_am_prototyping(), size >= 8 << 30);
        stub.end();
    }
    // The host's heap counts where no other is there.
    let stub = stub!(1 << 40, [0, 0]);
    assert_eq!(stub.device().default_config(), Config::i_am_prototyping());
    stub.end();
}

#[test]
fn budgets_set_limits() {
    let stub = stub!();
    let info = DeviceInfo { enabled: Enabled::MEMORY_BUDGET, ..stub.info() };
    let mut allocator = Allocator::new(stub.device_of(&info)).unwrap();
    let own = |size| (buffer_info(size), dedicated(LOCAL, Dedicated::Required));
    let (info, request) = own(1 << 20);
    // SAFETY: the stub allows it.
    let first = unsafe { allocator.create_buffer(&info, request) }.unwrap();
    // What is held has 1 MiB.
    let tell = |usage: u64, budget| stub.set_budget(0, budget, usage.wrapping_sub(stub.held_now().bytes[0]));
    let set = |allocator: &mut Allocator, usage, budget| {
        tell(usage, budget);
        allocator.update_budget().unwrap();
        allocator.heap_limit(0)
    };
    // Others hold 1 MiB; then nothing, as the driver counts less than is held; then more than the budget.
    assert_eq!(set(&mut allocator, 2 << 20, 16 << 20), 15 << 20);
    assert_eq!(set(&mut allocator, 0, 16 << 20), 16 << 20);
    assert_eq!(set(&mut allocator, 9 << 20, 4 << 20), 0);
    assert_eq!(set(&mut allocator, 1 << 20, u64::MAX), HEAP);
    // A driver without the extension leaves all as it was.
    stub.set_budget(1, 0, 0);
    tell(0, 0);
    assert_eq!(allocator.update_budget(), Err(Error::NoBudget));
    assert_eq!(allocator.heap_limit(0), HEAP);
    // Below what is held: new objects are refused, without a call, and nothing is freed.
    assert_eq!(set(&mut allocator, 1 << 20, 1 << 10), 1 << 10);
    let calls = stub.calls_of("vkAllocateMemory");
    let request = MemoryRequest { memory_types: 1, ..request };
    // SAFETY: the stub allows it.
    let refused = unsafe { allocator.create_buffer(&buffer_info(1), request) }.err();
    assert_eq!(refused, Some(Error::Allocation(crate::AllocationError::OutOfDeviceMemory)));
    assert_eq!(stub.calls_of("vkAllocateMemory"), calls);
    assert_eq!(stub.held(), (1, 1, 0));
    allocator.set_heap_limit(0, u64::MAX);
    tell(1 << 20, u64::MAX);
    assert_eq!(allocator.heap_limit(0), HEAP);
    let second = buffer(&mut allocator, 1, request);
    end(stub, allocator, vec![first, second], vec![]);
}

#[test]
fn no_budgets_without_the_extension() {
    let stub = stub!();
    let mut allocator = allocator(&stub);
    assert_eq!(allocator.update_budget(), Err(Error::NoBudget));
    assert_eq!(Error::NoBudget.result(), VkResult::ERROR_EXTENSION_NOT_PRESENT);
    end(stub, allocator, vec![], vec![]);
}

/// A program's own allocator over the device: the long way.
#[test]
fn a_gpu_allocator_over_the_device() {
    let stub = stub!();
    let device = stub.device();
    let (config, granularity) = (Config::i_am_potato(), device.buffer_image_granularity());
    let mut allocator = GpuAllocator::with_granularity(config, device.device_properties(), granularity).unwrap();
    let request = crate::Request { size: 100, align_mask: 255, usage: DOWNLOAD, memory_types: 0b1111 };
    // SAFETY: there is one device, whose properties the allocator has. The block is the allocator's.
    unsafe {
        let made = device.create_buffer(&buffer_info(100)).unwrap();
        let requirements = device.buffer_requirements(made);
        assert_eq!((requirements.size, requirements.alignment, requirements.optimal), (100, 256, false));
        let asked = device.for_buffer(made);
        let mut block = allocator.alloc_with_dedicated(&asked, request, Dedicated::Required).unwrap();
        assert_eq!(asked.failure(), None);
        assert_eq!(object(&stub, &block).owner, made.0);
        assert!(block.props().contains(MemoryPropertyFlags::HOST_CACHED));
        device.bind_buffer(made, &block, 0).unwrap();
        block.write_bytes(&device, 3, b"thyme").unwrap();
        let mut read = [0; 5];
        block.read_bytes(&device, 3, &mut read).unwrap();
        assert_eq!(&read, b"thyme");
        device.destroy(calls::Resource::Buffer(made));
        allocator.dealloc(&device, block);
        // A type with a property that has no name here is not asked for, and goes on to the next one.
        let made = device.create_image(&image_info(10)).unwrap();
        let requirements = device.image_requirements(made, Tiling::OPTIMAL);
        assert_eq!((requirements.size, requirements.memory_types, requirements.optimal), (400, 0b1111, true));
        let block = allocator.alloc_optimal(&device.for_image(made), request, None).unwrap();
        device.bind_image(made, &block, 0).unwrap();
        let unknown = crate::Request { memory_types: 0b1000, usage: LOCAL, ..request };
        assert_eq!(allocator.alloc(&device, unknown).err(), Some(crate::AllocationError::OutOfDeviceMemory));
        device.destroy(calls::Resource::Image(made));
        allocator.dealloc(&device, block);
        allocator.cleanup(&device);
    }
    drop(allocator);
    stub.end();
}
