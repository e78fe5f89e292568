//! The two ways in which requests share memory objects.

mod common;

use common::*;
use wallthyme::*;

/// The first chunk of [`Config::i_am_potato`], in bytes.
const FIRST: u64 = 8 << 10;

fn shared_by(sharing: Sharing) -> GpuAllocator<Memory> {
    GpuAllocator::with_sharing(Config::i_am_potato(), offer(100), 1, sharing).unwrap()
}

/// The sizes of blocks for such requests, and how many objects are held for them.
fn granted(sharing: Sharing, sizes: &[u64]) -> (Vec<u64>, usize) {
    let (device, mut allocator) = (Device::new(), shared_by(sharing));
    let fast = |size| request(size, UsageFlags::FAST_DEVICE_ACCESS);
    // SAFETY: there is one device, which offers what the allocator was made with.
    let blocks: Vec<_> = sizes.iter().map(|&size| unsafe { allocator.alloc(&device, fast(size)) }.unwrap()).collect();
    let told = (blocks.iter().map(MemoryBlock::size).collect(), device.held());
    end(allocator, &device, blocks);
    told
}

#[test]
fn a_fit_block_is_as_long_as_asked() {
    assert_eq!(granted(Sharing::Fit, &[1, 256, 257, 3000, 100]), (vec![256, 256, 512, 3072, 256], 1));
    assert_eq!(granted(Sharing::Buddy, &[1, 256, 257, 3000, 100]), (vec![1, 256, 512, 4096, 128], 1));
}

#[test]
fn a_request_over_the_first_chunk_gets_an_object_of_its_own() {
    assert_eq!(granted(Sharing::Fit, &[FIRST, FIRST + 1]), (vec![FIRST, FIRST + 1], 2));
    assert_eq!(granted(Sharing::Buddy, &[FIRST, FIRST + 1]).0, [FIRST, 2 * FIRST]);
}

/// One free fit chunk waits for a cleanup; a free buddy chunk goes at once.
#[test]
fn one_fit_chunk_stays() {
    for (sharing, stay) in [(Sharing::Fit, 1), (Sharing::Buddy, 0)] {
        let (device, mut allocator) = (Device::new(), shared_by(sharing));
        // SAFETY: there is one device, which offers what the allocator was made with. The blocks are this allocator's.
        unsafe {
            let ask = |_| allocator.alloc(&device, request(3000, UsageFlags::FAST_DEVICE_ACCESS)).unwrap();
            let blocks: Vec<_> = (0..20).map(ask).collect();
            assert!(device.held() > 1, "{sharing:?}");
            blocks.into_iter().for_each(|block| allocator.dealloc(&device, block));
            assert_eq!(device.held(), stay, "{sharing:?}");
        }
        assert_eq!(end(allocator, &device, []), 100);
    }
}

/// Without a choice requests share buddy chunks, as in `gpu-alloc`.
#[test]
fn without_a_choice_chunks_are_buddies() {
    assert_eq!(Sharing::default(), Sharing::Buddy);
    let device = Device::new();
    let of_new = GpuAllocator::new(Config::i_am_potato(), offer(100));
    let with_granularity = GpuAllocator::with_granularity(Config::i_am_potato(), offer(100), 1).unwrap();
    for mut allocator in [of_new, with_granularity] {
        // SAFETY: there is one device, which offers what the allocator was made with. The block is this allocator's.
        unsafe {
            let block = allocator.alloc(&device, request(3000, UsageFlags::FAST_DEVICE_ACCESS)).unwrap();
            assert_eq!(block.size(), 4096);
            allocator.dealloc(&device, block);
        }
        assert_eq!(device.held(), 0);
    }
}
