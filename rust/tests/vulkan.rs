//! Over a Vulkan device, which is left out where there is no library, no driver or no validation layer.

mod common;
mod driver;
#[allow(dead_code, reason = "its `main` is the example's")]
#[path = "../examples/triangle.rs"]
mod triangle;

use driver::pretend::{self, plan};
use driver::vk;
use driver::world::{buffer_info, image_info, World};
use std::ffi::c_void;
use std::ptr::{copy_nonoverlapping, from_ref, null_mut};
use std::sync::atomic::{AtomicI64, Ordering};
use wallthyme::vulkan::{
    AllocationCallbacks, Allocator, Device, DeviceInfo, Enabled, Error, MemoryRequest, Resource, Tiling, VkResult,
};
use wallthyme::{Config, Dedicated, Sharing, UsageFlags};

/// An allocator over this thread's plan, whose requests share memory objects so.
fn allocator_with(device: &vk::device::Device, sharing: Sharing) -> Allocator {
    let mut info = DeviceInfo { get_instance_proc_addr: Some(pretend::over(device.get)), ..device.info() };
    info.enabled.set(Enabled::MEMORY_BUDGET, plan(|plan| plan.budget.is_some()));
    // SAFETY: the device outlives the allocator in each test, and offers what it says.
    let loaded = unsafe { Device::load(&info) }.expect("the driver has all functions");
    Allocator::with_sharing(loaded, Config::i_am_potato(), sharing).expect("a driver has good properties")
}

fn allocator(device: &vk::device::Device) -> Allocator {
    allocator_with(device, Sharing::Buddy)
}

#[test]
fn drawn_resources() {
    let Some(device) = driver::open("drawn resources over Vulkan") else { return };
    for sharing in [Sharing::Fit, Sharing::Buddy] {
        let mut world = World::new(&device, allocator_with(&device, sharing), 1);
        world.run(300);
        let counts = &world.counts;
        assert!(counts.compared > 1 << 20 && counts.own > 10 && counts.refused == 0, "{sharing:?} {counts:?}");
        assert!(counts.intents > 50 && counts.mapped > 50 && counts.named > 50, "{sharing:?} {counts:?}");
    }
    assert_eq!(device.close(), 0);
}

/// The same over a device that refuses some calls, is said to have no coherent memory, large pages, and budgets.
#[test]
fn drawn_resources_and_refusals() {
    let Some(device) = driver::open("drawn resources and refusals over Vulkan") else { return };
    for (percent, sharing) in [(5, Sharing::Fit), (30, Sharing::Fit), (5, Sharing::Buddy), (30, Sharing::Buddy)] {
        plan(|plan| (plan.incoherent, plan.granularity, plan.percent) = (true, 1 << 16, percent));
        plan(|plan| plan.budget = Some([1 << 30, 0]));
        let mut world = World::new(&device, allocator_with(&device, sharing), percent);
        world.run(150);
        let counts = &world.counts;
        assert!(counts.compared > 1 << 19 && counts.refused > 5 && counts.beside > 0, "{sharing:?} {counts:?}");
        assert!(counts.limits > 5 && counts.below > 5 && counts.limited > 5, "{sharing:?} {counts:?}");
        assert!(counts.intents > 20 && counts.mapped > 20 && counts.named > 20, "{sharing:?} {counts:?}");
    }
    let refused = plan(|plan| plan.refused.clone());
    assert!(pretend::refusing_names().all(|call| refused.contains_key(call)), "{refused:?}");
    assert_eq!(device.close(), 0);
}

/// That the layer would report a fault: resources bound one byte off.
#[test]
fn a_bind_one_byte_off_is_reported() {
    let Some(device) = driver::open("that the validation layer reports a fault") else { return };
    plan(|plan| plan.shift = 1);
    let mut allocator = allocator(&device);
    let own = MemoryRequest { dedicated: Some(Dedicated::Required), ..UsageFlags::UPLOAD.into() };
    // SAFETY: the device does not use it. That it is bound wrongly is what is tested.
    unsafe {
        let buffer = allocator.create_buffer(&buffer_info(100), own).expect("the driver refuses nothing");
        allocator.destroy_buffer(buffer);
    }
    drop(allocator);
    assert!(device.messages() > 0);
}

/// The driver's own budgets: limits stay within heaps.
#[test]
fn budgets_of_the_driver() {
    let Some(device) = driver::open("budgets of a Vulkan device") else { return };
    if !device.enabled.contains(Enabled::MEMORY_BUDGET) {
        return driver::leave_out("budgets of a Vulkan device", "the driver has no VK_EXT_memory_budget");
    }
    // SAFETY: the device outlives the allocator, and offers what it says.
    let loaded = unsafe { Device::load(&device.info()) }.expect("the driver has all functions");
    let mut allocator = Allocator::new(loaded).expect("a driver has good properties");
    allocator.update_budget().expect("the extension is enabled");
    let limit = allocator.heap_limit(0);
    assert!(limit > 0 && limit <= allocator.device().device_properties().memory_heaps[0].size);
    drop(allocator);
    assert_eq!(device.close(), 0);
}

/// A function that is refused: its result comes back, and what was made is destroyed, as the layer sees.
#[test]
fn each_function_is_refused() {
    let Some(device) = driver::open("refusals of each function over Vulkan") else { return };
    plan(|plan| plan.incoherent = true);
    let own = MemoryRequest { dedicated: Some(Dedicated::Required), ..UsageFlags::UPLOAD.into() };
    for (call, result) in pretend::refusing_names().flat_map(|call| [-1, -4, -13].map(|result| (call, result))) {
        let mut allocator = allocator(&device);
        // SAFETY: the device allows them, and does not use them.
        unsafe {
            let mut buffer = allocator.create_buffer(&buffer_info(100), own).expect("the driver refuses nothing");
            plan(|plan| plan.only = Some((call, result)));
            let refused = match call {
                "vkCreateImage" | "vkBindImageMemory" => {
                    allocator.create_image(&image_info(4, Tiling::OPTIMAL), UsageFlags::empty()).err()
                }
                "vkMapMemory" | "vkFlushMappedMemoryRanges" => allocator.write(&mut buffer.block, 0, &[1]).err(),
                "vkInvalidateMappedMemoryRanges" => allocator.read(&mut buffer.block, 0, &mut [1]).err(),
                _ => allocator.create_buffer(&buffer_info(100), own).err(),
            };
            assert_eq!(refused, Some(Error::Driver { call, result: VkResult(result) }));
            plan(|plan| plan.only = None);
            allocator.write(&mut buffer.block, 0, &[1; 100]).expect("the driver refuses nothing");
            allocator.destroy_buffer(buffer);
        }
    }
    assert_eq!(device.close(), 0);
}

/// Below the size of a shared object, a buffer and an image get objects of their own, which take nothing else.
#[test]
fn a_low_limit() {
    let Some(device) = driver::open("a low limit over Vulkan") else { return };
    // SAFETY: the device outlives the allocator, and offers what it says.
    let loaded = unsafe { Device::load(&device.info()) }.expect("the driver has all functions");
    let mut allocator = Allocator::new(loaded).expect("a driver has good properties");
    let chunk = allocator.device().default_config().starting_free_list_chunk;
    for (heap, of) in (0..).zip(allocator.device().clone().device_properties().memory_heaps.iter()) {
        allocator.set_heap_limit(heap, chunk.min(of.size / 32) - 1);
    }
    // SAFETY: the device allows them, and does not use them. What may not be bound is refused.
    unsafe {
        let mut buffer = allocator.create_buffer(&buffer_info(4096), UsageFlags::UPLOAD).expect("there is room");
        let image = allocator.create_image(&image_info(4, Tiling::OPTIMAL), UsageFlags::empty()).expect("as above");
        assert_eq!(buffer.block.made_for(), Some(Resource::Buffer(buffer.handle)));
        assert_eq!(image.block.made_for(), Some(Resource::Image(image.handle)));
        let device = allocator.device().clone();
        assert_eq!(device.bind_image(image.handle, &buffer.block, 0), Err(Error::OtherResource));
        assert_eq!(device.bind_buffer(buffer.handle, &image.block, 0), Err(Error::OtherResource));
        assert_eq!(device.bind_buffer(buffer.handle, &buffer.block, 64), Err(Error::OtherResource));
        allocator.write(&mut buffer.block, 0, &[1; 4096]).expect("it is mapped");
        allocator.destroy_buffer(buffer);
        allocator.destroy_image(image);
    }
    drop(allocator);
    assert_eq!(device.close(), 0);
}

extern "C" {
    fn aligned_alloc(alignment: usize, size: usize) -> *mut c_void;
    fn malloc_usable_size(block: *mut c_void) -> usize;
    fn free(block: *mut c_void);
}

unsafe extern "system" fn take(taken: *mut c_void, size: usize, alignment: usize, _: i32) -> *mut c_void {
    // SAFETY: the driver hands over what the callbacks have.
    unsafe {
        (*taken.cast::<AtomicI64>()).fetch_add(1, Ordering::Relaxed);
        let alignment = alignment.max(16);
        aligned_alloc(alignment, size.next_multiple_of(alignment))
    }
}

unsafe extern "system" fn retake(
    taken: *mut c_void,
    old: *mut c_void,
    size: usize,
    alignment: usize,
    scope: i32,
) -> *mut c_void {
    // SAFETY: the driver hands over what the callbacks have, and a block that they gave, or null.
    unsafe {
        let new = if size == 0 { null_mut() } else { take(taken, size, alignment, scope) };
        if !new.is_null() && !old.is_null() {
            copy_nonoverlapping(old.cast::<u8>(), new.cast(), malloc_usable_size(old).min(size));
        }
        give(taken, old);
        new
    }
}

unsafe extern "system" fn give(taken: *mut c_void, block: *mut c_void) {
    if !block.is_null() {
        // SAFETY: as for `retake`.
        unsafe {
            (*taken.cast::<AtomicI64>()).fetch_sub(1, Ordering::Relaxed);
            free(block);
        }
    }
}

/// The driver takes host memory by the program's callbacks, and gives all of it back.
#[test]
fn callbacks_of_the_program() {
    // Live blocks of host memory that the driver took by them.
    let taken = AtomicI64::new(0);
    let Some(device) = driver::open("callbacks over Vulkan") else { return };
    let callbacks = AllocationCallbacks {
        p_user_data: from_ref(&taken).cast_mut().cast(),
        pfn_allocation: Some(take),
        pfn_reallocation: Some(retake),
        pfn_free: Some(give),
        ..Default::default()
    };
    let info = DeviceInfo { callbacks: Some(callbacks), ..device.info() };
    // SAFETY: the device outlives the allocator. It allows the buffers and images, and does not use them.
    unsafe {
        let mut allocator = Allocator::new(Device::load(&info).expect("nothing is missing")).expect("it is good");
        let buffer = allocator.create_buffer(&buffer_info(100), UsageFlags::UPLOAD).expect("nothing is refused");
        let image = allocator.create_image(&image_info(4, Tiling::OPTIMAL), UsageFlags::empty());
        assert!(taken.load(Ordering::Relaxed) > 0);
        allocator.destroy_buffer(buffer);
        allocator.destroy_image(image.expect("nothing is refused"));
    }
    assert_eq!((taken.load(Ordering::Relaxed), device.close()), (0, 0));
}
