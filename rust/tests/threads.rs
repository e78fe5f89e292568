//! Allocators and blocks go from thread to thread.

mod common;

use common::*;
use std::cell::Cell;
use std::sync::Mutex;
use std::thread;
use wallthyme::*;

const fn is_send<T: Send>() {}
const fn is_sync<T: Sync>() {}

// Seen when this is compiled.
const _: () = {
    is_send::<GpuAllocator<Memory>>();
    is_sync::<GpuAllocator<Memory>>();
    is_send::<MemoryBlock<Memory>>();
    is_sync::<MemoryBlock<Memory>>();
};

/// Tells by which of two functions is found whether a type is `Send`.
struct Asked<T>(std::marker::PhantomData<T>);

trait Otherwise {
    const SEND: bool = false;
}

impl<T> Otherwise for Asked<T> {}

impl<T: Send> Asked<T> {
    const SEND: bool = true;
}

/// Blocks of one object share its handle. So they stay in one thread where a handle must not be shared.
#[test]
fn handles_that_stay_in_a_thread() {
    const { assert!(Asked::<MemoryBlock<Memory>>::SEND) };
    const { assert!(!Asked::<MemoryBlock<Cell<u64>>>::SEND) };
    const { assert!(!Asked::<GpuAllocator<Cell<u64>>>::SEND) };
}

#[test]
fn many_threads_share_one_allocator() {
    let device = Device::new();
    let allocator = Mutex::new(allocator(64));
    thread::scope(|scope| {
        for seed in 0..4 {
            let (device, allocator) = (&device, &allocator);
            scope.spawn(move || {
                let mut random = Random(seed);
                for _ in 0..200 {
                    let usage = UsageFlags::UPLOAD | UsageFlags::TRANSIENT;
                    let len = 1 + random.below(300) as usize;
                    // SAFETY: there is one device, which offers what the allocator was made with, and uses no block.
                    unsafe {
                        let granted = allocator.lock().unwrap().alloc(device, request(len as u64, usage));
                        let mut block = granted.unwrap();
                        let data = random.bytes(len);
                        block.write_bytes(device, 0, &data).unwrap();
                        assert_eq!(device.sees(&block)[..len], data);
                        allocator.lock().unwrap().dealloc(device, block);
                    }
                }
            });
        }
    });
    let mut allocator = allocator.into_inner().unwrap();
    // SAFETY: there is one device.
    unsafe { allocator.cleanup(&device) };
    assert_eq!(device.held(), 0);
}
