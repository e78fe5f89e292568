//! Objects of one block, and shared ones.

mod common;

use common::*;
use wallthyme::*;

/// How many objects two equal requests make.
fn objects_of_two(size: u64, dedicated: Option<Dedicated>) -> usize {
    let device = Device::new();
    let mut allocator = allocator(64);
    let request = request(size, UsageFlags::UPLOAD | UsageFlags::TRANSIENT);
    // SAFETY: there is one device, which offers what the allocator was made with.
    let blocks = [(); 2].map(|()| unsafe {
        match dedicated {
            None => allocator.alloc(&device, request).unwrap(),
            Some(dedicated) => allocator.alloc_with_dedicated(&device, request, dedicated).unwrap(),
        }
    });
    let held = device.held();
    assert_eq!(end(allocator, &device, blocks), 64);
    held
}

#[test]
fn small_blocks_share_an_object() {
    assert_eq!(objects_of_two(2000, None), 1);
    assert_eq!(objects_of_two(200_000, None), 2);
}

#[test]
fn required_is_kept() {
    assert_eq!(objects_of_two(100, Some(Dedicated::Required)), 2);
}

/// The threshold of the configuration is 1,024 bytes.
#[test]
fn preferred_from_its_threshold_on() {
    assert_eq!(objects_of_two(2000, Some(Dedicated::Preferred)), 2);
    assert_eq!(objects_of_two(100, Some(Dedicated::Preferred)), 1);
}
