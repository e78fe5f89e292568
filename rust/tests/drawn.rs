//! Drawn calls, with books: no two blocks share a byte, each object goes back once, none is left.

mod common;

use common::*;
use std::collections::BTreeMap;
use wallthyme::*;

const OBJECTS: u32 = 40;

/// A live block, and what its bytes are where the host sees them.
struct Live {
    block: MemoryBlock<Memory>,
    bytes: Option<Vec<u8>>,
}

struct World {
    random: Random,
    device: Device,
    allocator: GpuAllocator<Memory>,
    live: Vec<Live>,
    granted: u64,
    refused: u64,
}

impl World {
    fn new(seed: u64, sharing: Sharing) -> World {
        World {
            random: Random(seed),
            device: Device::new(),
            allocator: GpuAllocator::with_sharing(Config::i_am_potato(), offer(OBJECTS), 1, sharing).unwrap(),
            live: Vec::new(),
            granted: 0,
            refused: 0,
        }
    }

    fn step(&mut self) {
        self.device.refuse_none();
        if self.random.below(4) == 0 {
            let kinds = [Refusal::DeviceMemory, Refusal::HostMemory, Refusal::MapFailed];
            let question = self.device.questions() + 1 + self.random.below(2);
            self.device.refuse(question, kinds[self.random.below(3) as usize]);
        }
        match self.random.below(20) {
            0..=7 => self.alloc(),
            8..=12 => self.free(),
            13 => self.import(),
            14 => self.clean(),
            15 => self.name(),
            _ => self.use_bytes(),
        }
        let held = self.device.held();
        assert_eq!(self.allocator.remaining_allocations() as usize + held, OBJECTS as usize);
    }

    fn alloc(&mut self) {
        let request = Request {
            size: 1 + self.random.next() % (1 << (1 + self.random.below(19))),
            align_mask: (1 << self.random.below(12)) - 1,
            usage: UsageFlags::from_bits_truncate(self.random.below(32) as u8),
            memory_types: 1 + self.random.below(7) as u32,
        };
        let before = self.device.objects();
        // SAFETY: there is one device, which offers what the allocator was made with.
        let answer = unsafe {
            match self.random.below(8) {
                0 => self.allocator.alloc_with_dedicated(&self.device, request, Dedicated::Required),
                1 => self.allocator.alloc_with_dedicated(&self.device, request, Dedicated::Preferred),
                _ => self.allocator.alloc(&self.device, request),
            }
        };
        match answer {
            Ok(block) => {
                assert!(block.size() >= request.size);
                assert!(block.offset() & request.align_mask == 0);
                assert!(request.memory_types >> block.memory_type() & 1 == 1);
                self.enter(block);
            }
            Err(_) => {
                self.refused += 1;
                assert_eq!(self.device.objects(), before);
            }
        }
    }

    /// Enters a block, after a look that it lies in its object and apart from all others.
    fn enter(&mut self, block: MemoryBlock<Memory>) {
        self.granted += 1;
        let end = block.offset() + block.size();
        assert!(end <= self.device.size_of(block.memory()));
        for other in &self.live {
            let other = &other.block;
            let apart = end <= other.offset() || other.offset() + other.size() <= block.offset();
            assert!(apart || other.memory() != block.memory(), "two blocks share a byte");
        }
        let visible = block.props().contains(MemoryPropertyFlags::HOST_VISIBLE);
        let bytes = visible.then(|| self.device.sees(&block));
        self.live.push(Live { block, bytes });
    }

    fn import(&mut self) {
        if self.allocator.remaining_allocations() == 0 {
            return;
        }
        let memory_type = self.random.below(3) as u32;
        let (offset, size) = (self.random.below(200), 1 + self.random.below(5000));
        let memory = self.device.make(offset + size, memory_type);
        let props = [LOCAL, COHERENT, CACHED][memory_type as usize];
        // SAFETY: the object is the device's, of that type, and ends with the range.
        let block = unsafe { self.allocator.import_memory(memory, memory_type, props, offset, size) };
        assert_eq!((block.offset(), block.size(), block.props()), (offset, size, props));
        self.enter(block);
    }

    fn free(&mut self) {
        if self.live.is_empty() {
            return;
        }
        let index = self.random.below(self.live.len() as u64) as usize;
        let Live { mut block, .. } = self.live.swap_remove(index);
        // SAFETY: the block is this allocator's, and there is one device, which does not use it.
        unsafe {
            if self.random.below(8) == 0 {
                let _ = block.map(&self.device, 0, 1);
            }
            self.allocator.dealloc(&self.device, block);
        }
    }

    fn clean(&mut self) {
        // SAFETY: there is one device.
        unsafe { self.allocator.cleanup(&self.device) };
    }

    /// A block gets a name, or loses it. The report has each name of a live block, and no other.
    fn name(&mut self) {
        if !self.live.is_empty() {
            let index = self.random.below(self.live.len() as u64) as usize;
            let number = self.random.below(1000);
            let name = if number < 300 { String::new() } else { format!("block {number}") };
            let block = &mut self.live[index].block;
            self.allocator.set_name(block, &name).expect("the host has memory");
            assert_eq!(block.name().unwrap_or_default(), name);
        }
        let report = self.allocator.report().expect("the host has memory");
        let named: Vec<_> = self.live.iter().filter_map(|live| live.block.name()).collect();
        assert_eq!(report.matches(r#","name":"#).count(), named.len());
        assert!(named.iter().all(|name| report.contains(&format!(r#","name":"{name}""#))));
    }

    /// The host writes a part of a block, or the device all of it, and the other one sees it.
    fn use_bytes(&mut self) {
        if self.live.is_empty() {
            return;
        }
        let index = self.random.below(self.live.len() as u64) as usize;
        let Live { block, bytes } = &mut self.live[index];
        let Some(bytes) = bytes else {
            // SAFETY: there is one device.
            let answer = unsafe { block.write_bytes(&self.device, 0, &[1]) };
            assert_eq!(answer, Err(MapError::NonHostVisible));
            return;
        };
        let start = self.random.below(bytes.len() as u64) as usize;
        let len = self.random.below((bytes.len() - start) as u64 + 1) as usize;
        let device = &self.device;
        if self.random.below(2) == 0 {
            let data = self.random.bytes(len);
            bytes[start..start + len].copy_from_slice(&data);
            // SAFETY: there is one device, which does not use the block meanwhile.
            let done = again(device, || unsafe { block.write_bytes(device, start as u64, &data) });
            self.refused += u64::from(done);
        } else {
            *bytes = self.random.bytes(bytes.len());
            device.writes(block, bytes);
            let mut data = vec![0; bytes.len()];
            // SAFETY: as above.
            let done = again(device, || unsafe { block.read_bytes(device, 0, &mut data) });
            assert_eq!(&data, bytes);
            self.refused += u64::from(done);
        }
        assert_eq!(&device.sees(block), bytes);
    }

    /// No block's bytes were changed by what was done to another one.
    fn check_bytes(&self) {
        for Live { block, bytes } in &self.live {
            if let Some(bytes) = bytes {
                assert_eq!(&self.device.sees(block), bytes);
            }
        }
    }

    fn end(mut self) -> (u64, u64) {
        self.device.refuse_none();
        self.check_bytes();
        while !self.live.is_empty() {
            self.free();
        }
        self.clean();
        assert_eq!(self.device.held(), 0);
        assert_eq!(self.allocator.remaining_allocations(), OBJECTS);
        (self.granted, self.refused)
    }
}

/// Makes a call, once more where it was refused; whether it was.
fn again(device: &Device, mut call: impl FnMut() -> Result<(), MapError>) -> bool {
    if call().is_ok() {
        return false;
    }
    device.refuse_none();
    call().expect("the device refuses no more");
    true
}

#[test]
fn drawn_calls_keep_the_books() {
    let mut ends = BTreeMap::new();
    for seed in 0..120 {
        let sharing = if seed < 60 { Sharing::Buddy } else { Sharing::Fit };
        let mut world = World::new(seed, sharing);
        for step in 0..400 {
            world.step();
            if step % 50 == 0 {
                world.check_bytes();
            }
        }
        ends.insert(seed, world.end());
    }
    // That something was granted, and something refused, in each run.
    assert!(ends.values().all(|&(granted, refused)| granted > 50 && refused > 10), "{ends:?}");
}
