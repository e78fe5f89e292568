//! Over a stub in place of a driver.

/// A stub of a driver; where none can be built, the test ends.
macro_rules! stub {
    () => {
        stub!(driver::HEAP, [1, 0])
    };
    ($size:expr, $flags:expr) => {
        match Stub::with_heaps($size, $flags) {
            Some(stub) => stub,
            None => return,
        }
    };
}

mod alone;
mod bytes;
mod device;
mod driver;
mod intents;
mod mapped;
mod memory;
mod named;
mod refusals;
mod requests;
mod resources;

use super::*;
use crate::{set_drop_handler, Dedicated, Dropped, MemoryBlock, Sharing, UsageFlags};
use driver::Stub;
use std::cell::RefCell;

const fn is_send_and_sync<T: Send + Sync>() {}

// Seen when this is compiled.
const _: () = {
    is_send_and_sync::<Device>();
    is_send_and_sync::<Allocator>();
    is_send_and_sync::<Buffer>();
    is_send_and_sync::<Image>();
};

/// The usage of each kind of memory type: device-local, coherent, and cached.
const LOCAL: UsageFlags = UsageFlags::FAST_DEVICE_ACCESS;
const UPLOAD: UsageFlags = UsageFlags::UPLOAD;
const DOWNLOAD: UsageFlags = UsageFlags::DOWNLOAD;

fn buffer_info(size: u64) -> BufferCreateInfo {
    BufferCreateInfo { size, usage: 3, ..Default::default() }
}

/// An image of 4 `side`^2 bytes.
fn image_info(side: u32) -> ImageCreateInfo {
    let extent = Extent3D { width: side, height: side, depth: 1 };
    ImageCreateInfo { image_type: 1, extent, usage: 3, ..Default::default() }
}

fn allocator(stub: &Stub) -> Allocator {
    Allocator::new(stub.device()).expect("the stub has good properties")
}

/// One with the usual sizes, whose requests share memory objects so.
fn allocator_with(stub: &Stub, sharing: Sharing) -> Allocator {
    let device = stub.device();
    let config = device.default_config();
    Allocator::with_sharing(device, config, sharing).expect("the stub has good properties")
}

fn dedicated(usage: UsageFlags, dedicated: Dedicated) -> MemoryRequest {
    MemoryRequest { dedicated: Some(dedicated), ..usage.into() }
}

/// A buffer that is not refused.
fn buffer(allocator: &mut Allocator, size: u64, request: impl Into<MemoryRequest>) -> Buffer {
    // SAFETY: the stub allows it.
    unsafe { allocator.create_buffer(&buffer_info(size), request) }.expect("the stub refuses nothing")
}

/// An image that is not refused.
fn image(allocator: &mut Allocator, side: u32, request: impl Into<MemoryRequest>) -> Image {
    // SAFETY: the stub allows it.
    unsafe { allocator.create_image(&image_info(side), request) }.expect("the stub refuses nothing")
}

/// A block's object.
fn object(stub: &Stub, block: &MemoryBlock<Memory>) -> driver::Object {
    stub.object_of(*block.memory())
}

/// Whether a resource, whose first byte this is, was bound where the block is, and so many bytes behind.
fn is_bound(stub: &Stub, first: *const u8, block: &MemoryBlock<Memory>, behind: u64) -> bool {
    first == stub.memory_bytes(*block.memory(), block.offset() + behind, 1)
}

thread_local! {
    /// What this thread dropped and should have returned.
    static DROPPED: RefCell<Vec<Dropped>> = const { RefCell::new(vec![]) };
}

/// Keeps what each thread drops from now on. The handler is the same for all tests.
fn keep_dropped() {
    set_drop_handler(|dropped| DROPPED.with_borrow_mut(|all| all.push(dropped.clone())));
}

/// Destroys what is there, and the allocator.
fn end(stub: Stub, mut allocator: Allocator, buffers: Vec<Buffer>, images: Vec<Image>) {
    // SAFETY: they are this allocator's, and no device uses them.
    unsafe {
        buffers.into_iter().for_each(|buffer| allocator.destroy_buffer(buffer));
        images.into_iter().for_each(|image| allocator.destroy_image(image));
    }
    drop(allocator);
    stub.end();
}
