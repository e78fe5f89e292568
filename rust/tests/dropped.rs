//! What is dropped and should have been given back is reported: to a handler, or else on standard error in a debug
//! build. Each case runs in processes of its own, whose standard error is read.

mod common;

use common::*;
use std::process::Command;
use wallthyme::*;

const CASE: &str = "WALLTHYME_TEST_CASE";
/// Whether a handler writes what it gets.
const HANDLED: &str = "WALLTHYME_TEST_HANDLED";
/// The block of each case, at the end of its chunk. The lower half of the first key is 0, and its upper one 1.
const PLACE: &str = "100 bytes at byte 8092 of object 2, memory type 1, key 4294967296, user 7";

/// What the process of a case writes on standard error that is of this crate, which is the same with a handler and
/// without one; but without one a release build writes nothing.
fn told(case: &str) -> Vec<String> {
    let [handled, by_itself] = [true, false].map(|handled| written(case, handled));
    assert_eq!(by_itself, if cfg!(debug_assertions) { &*handled } else { &[] });
    handled
}

fn written(case: &str, handled: bool) -> Vec<String> {
    let program = std::env::current_exe().expect("the test has a file");
    let mut command = Command::new(program);
    command.args(["--exact", "one_case", "--nocapture"]).env(CASE, case);
    if handled {
        command.env(HANDLED, "1");
    }
    let ran = command.output().expect("the test can be run");
    assert!(ran.status.success(), "{case}");
    let text = String::from_utf8(ran.stderr).expect("what is told is text");
    text.lines().filter(|line| line.starts_with("wallthyme:")).map(str::to_owned).collect()
}

/// In a process of its own: a case. Else nothing.
#[test]
fn one_case() {
    let Ok(case) = std::env::var(CASE) else { return };
    if std::env::var_os(HANDLED).is_some() {
        set_drop_handler(|_| panic!("it is replaced"));
        set_drop_handler(|dropped| eprintln!("wallthyme: {dropped}"));
    }
    let device = Device::new();
    let mut allocator = allocator(64);
    let transient = request(100, UsageFlags::UPLOAD | UsageFlags::TRANSIENT);
    // SAFETY: there is one device, which offers what the allocator was made with.
    let mut block = unsafe { allocator.alloc(&device, transient) }.unwrap();
    allocator.set_user(&mut block, 7);
    assert_eq!(block.user(), 7);
    match &*case {
        "block" => {
            drop(block);
            std::mem::forget(allocator);
        }
        "named" => {
            allocator.set_name(&mut block, "wild\n\"thyme\"").unwrap();
            drop(allocator);
            drop(block);
        }
        "both" => {
            drop(allocator);
            drop(block);
        }
        "objects" => {
            // SAFETY: the block is this allocator's.
            unsafe { allocator.dealloc(&device, block) };
            drop(allocator);
        }
        "nothing" => {
            // SAFETY: the block is this allocator's.
            unsafe {
                allocator.dealloc(&device, block);
                allocator.cleanup(&device);
            }
            drop(allocator);
        }
        "waiting" => {
            let device = Panics { device, ..Panics::default() };
            let lasting = Request { memory_types: 1, ..request(100, UsageFlags::TRANSIENT) };
            // SAFETY: there is one device, and the blocks are this allocator's.
            unsafe {
                let other = allocator.alloc(&device, lasting).unwrap();
                allocator.dealloc(&device, block);
                allocator.dealloc(&device, other);
            }
            device.returns.set(1);
            // SAFETY: as above.
            let cleanup = std::panic::AssertUnwindSafe(|| unsafe { allocator.cleanup(&device) });
            assert!(std::panic::catch_unwind(cleanup).is_err());
            drop(allocator);
        }
        "many" => {
            let request = request(100, UsageFlags::UPLOAD);
            // SAFETY: there is one device, which offers what the allocator was made with.
            let blocks: Vec<_> = (0..99).map(|_| unsafe { allocator.alloc(&device, request) }.unwrap()).collect();
            drop(allocator);
            std::mem::forget((block, blocks));
        }
        "nested" => {
            // A handler may drop what is reported.
            let kept = std::sync::Mutex::new(Some(block));
            set_drop_handler(move |dropped| {
                let taken = kept.lock().unwrap().take();
                drop(taken);
                eprintln!("wallthyme: {dropped}");
            });
            drop(allocator);
        }
        "panic" => {
            let unwound = std::panic::catch_unwind(std::panic::AssertUnwindSafe(|| {
                let _held = (block, allocator);
                panic!("for the test");
            }));
            assert!(unwound.is_err());
        }
        case => panic!("no case {case}"),
    }
}

#[test]
fn a_dropped_block_is_reported() {
    let told = told("block");
    assert_eq!(told.len(), 1, "{told:?}");
    assert!(told[0].contains("a memory block was dropped") && told[0].contains(PLACE), "{told:?}");
}

#[test]
fn an_allocator_with_a_live_block_is_reported() {
    let told = told("both");
    assert_eq!(told.len(), 3, "{told:?}");
    assert!(told[0].contains("with blocks that were not given back: 1"));
    assert!(told[1].contains("a block was not given back") && told[1].contains(PLACE), "{told:?}");
    assert!(told[2].contains("a memory block was dropped") && told[2].contains(PLACE), "{told:?}");
}

/// A name is reported with its block, in the same line.
#[test]
fn a_name_is_reported() {
    let told = told("named");
    let ends = format!(r#"{PLACE}, name "wild\n\"thyme\"""#);
    assert_eq!(told.len(), 3, "{told:?}");
    assert!(told[1].ends_with(&ends) && told[2].ends_with(&ends), "{told:?}");
}

/// More than are read at once: each is reported once.
#[test]
fn many_live_blocks_are_reported() {
    let mut told = told("many");
    assert_eq!(told.len(), 101);
    assert!(told[0].ends_with("with blocks that were not given back: 100"), "{}", told[0]);
    assert!(told[1].contains(PLACE) && told[1..].iter().all(|line| line.contains(" bytes at byte ")));
    told.sort();
    told.dedup();
    assert_eq!(told.len(), 101);
}

#[test]
fn a_handler_may_drop() {
    let lines = written("nested", true);
    assert_eq!(lines.len(), 3, "{lines:?}");
    assert!(lines[0].contains("a memory block was dropped") && lines[1].contains("an allocator was dropped"));
}

#[test]
fn an_allocator_without_cleanup_is_reported() {
    let told = told("objects");
    assert_eq!(told.len(), 1, "{told:?}");
    assert!(told[0].contains("with memory objects: 1"));
}

/// One that went, and waited since the device panicked over another.
#[test]
fn an_allocator_with_objects_that_wait_is_reported() {
    let told = told("waiting");
    assert_eq!(told.len(), 1, "{told:?}");
    assert!(told[0].contains("with memory objects: 1"));
}

#[test]
fn what_was_given_back_is_not_reported() {
    assert_eq!(told("nothing"), [""; 0]);
}

#[test]
fn nothing_is_reported_while_unwinding() {
    assert_eq!(told("panic"), [""; 0]);
}

/// A block outlives its allocator: its memory can still be used, and no call of it reaches the library.
#[test]
fn a_block_without_its_allocator() {
    let device = Device::new();
    // SAFETY: there is one device, which offers what the allocator was made with.
    unsafe {
        let mut allocator = allocator(64);
        let transient = request(100, UsageFlags::UPLOAD | UsageFlags::TRANSIENT);
        let mut shared = allocator.alloc(&device, transient).unwrap();
        let mut own = allocator.alloc_with_dedicated(&device, transient, Dedicated::Required).unwrap();
        drop(allocator);
        for block in [&mut shared, &mut own] {
            block.write_bytes(&device, 0, &[3; 100]).unwrap();
            assert_eq!(device.sees(block)[..100], [3; 100]);
        }
    }
}
