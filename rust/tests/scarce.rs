//! Host memory that runs out: a name or a report is refused, and nothing is changed. And that none is lost.

mod common;

use common::*;
use std::alloc::{GlobalAlloc, Layout, System};
use std::cell::Cell;
use std::ptr::null_mut;
use wallthyme::*;

thread_local! {
    /// How many more pieces this thread gets, where they are counted.
    static LEFT: Cell<Option<u32>> = const { Cell::new(None) };
    /// How many pieces this thread has taken and not given back.
    static HELD: Cell<i64> = const { Cell::new(0) };
}

struct Scarce;

// SAFETY: it is the system's, but that it refuses some pieces.
unsafe impl GlobalAlloc for Scarce {
    unsafe fn alloc(&self, layout: Layout) -> *mut u8 {
        if LEFT.get() == Some(0) {
            return null_mut();
        }
        LEFT.set(LEFT.get().map(|left| left - 1));
        HELD.set(HELD.get() + 1);
        // SAFETY: as the caller says.
        unsafe { System.alloc(layout) }
    }

    unsafe fn dealloc(&self, piece: *mut u8, layout: Layout) {
        HELD.set(HELD.get() - 1);
        // SAFETY: as the caller says.
        unsafe { System.dealloc(piece, layout) }
    }
}

#[global_allocator]
static MEMORY: Scarce = Scarce;

/// Makes a call with so many pieces of memory.
fn with<T>(pieces: u32, call: impl FnOnce() -> T) -> T {
    LEFT.set(Some(pieces));
    let done = call();
    LEFT.set(None);
    done
}

#[test]
fn names_and_reports() {
    let device = Device::new();
    let mut allocator = allocator(64);
    // SAFETY: there is one device, which offers what the allocator was made with.
    let mut block = unsafe { allocator.alloc(&device, request(100, UsageFlags::UPLOAD)) }.unwrap();
    let mut before = String::new();
    // Refused are two copies and the place in the books, and then two copies; no memory is needed to take a name away.
    for (name, refusals) in [("thyme", 3), ("sage and onion", 2), ("", 0)] {
        let told = allocator.report().unwrap();
        for pieces in 0..refusals {
            let refused = with(pieces, || allocator.set_name(&mut block, name));
            assert_eq!(refused, Err(OutOfMemory::OutOfHostMemory));
            assert_eq!((block.name().unwrap_or_default(), allocator.report().unwrap()), (&*before, told.clone()));
        }
        with(refusals, || allocator.set_name(&mut block, name)).unwrap();
        assert_eq!(block.name().unwrap_or_default(), name);
        name.clone_into(&mut before);
    }
    allocator.set_name(&mut block, "thyme").unwrap();
    // The library's text, and the one with names.
    for pieces in 0..2 {
        assert_eq!(with(pieces, || allocator.report()), Err(OutOfMemory::OutOfHostMemory));
    }
    assert!(with(2, || allocator.report()).unwrap().contains(r#","name":"thyme""#));
    // SAFETY: the block is this allocator's, and there is one device, which does not use it.
    unsafe {
        allocator.dealloc(&device, block);
        allocator.cleanup(&device);
    }
}

/// A name's memory goes back when its block does, or when the name is replaced.
#[test]
fn names_go_with_their_blocks() {
    let device = Device::new();
    let mut allocator = allocator(64);
    let request = request(100, UsageFlags::UPLOAD);
    // SAFETY: there is one device, which offers what the allocator was made with.
    let kept = unsafe { allocator.alloc(&device, request) }.unwrap();
    let mut named = |count| {
        for number in 0..count {
            // SAFETY: as above; the block is this allocator's, and the device does not use it.
            unsafe {
                let mut block = allocator.alloc(&device, request).unwrap();
                allocator.set_name(&mut block, "thyme").unwrap();
                if number % 2 == 0 {
                    allocator.set_name(&mut block, "sage").unwrap();
                }
                allocator.dealloc(&device, block);
            }
        }
        HELD.get()
    };
    // The first ones leave room in the books.
    assert_eq!(named(10), named(100));
    // SAFETY: as above.
    unsafe {
        allocator.dealloc(&device, kept);
        allocator.cleanup(&device);
    }
}
