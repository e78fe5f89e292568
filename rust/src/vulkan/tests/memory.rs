//! Devices to choose memory from, by letters: `L` device-local, `V` host-visible, `C` coherent, `H` host-cached, `Z`
//! lazily allocated, `P` protected, and `?` a property that has no name here.

use super::*;
use crate::vulkan::raw::{MemoryHeap, MemoryType};
use crate::MemoryPropertyFlags;

const DISCRETE: i32 = 2;
const SOFTWARE: i32 = 4;
const MIB: u64 = 1 << 20;

const LETTERS: [(char, u32); 7] = [('L', 1), ('V', 2), ('C', 4), ('H', 8), ('Z', 16), ('P', 32), ('?', 64)];

/// A device's memory, and what it is (`VkPhysicalDeviceType`).
pub(super) struct Drawn {
    pub(super) device_type: i32,
    heaps: Vec<MemoryHeap>,
    /// The letters of each memory type, and its heap.
    pub(super) types: Vec<(String, u32)>,
}

impl Drawn {
    fn new(device_type: i32, heaps: &[(u64, u32)], types: &[(&str, u32)]) -> Drawn {
        let heaps = heaps.iter().map(|&(size, flags)| MemoryHeap { size, flags }).collect();
        let types = types.iter().map(|&(letters, heap)| (letters.to_owned(), heap)).collect();
        Drawn { device_type, heaps, types }
    }

    /// The letters of a memory type.
    pub(super) fn letters(&self, index: u32) -> &str {
        &self.types[index as usize].0
    }

    pub(super) fn stub(&self) -> Option<Stub> {
        let of = |(letters, heap): &(String, u32)| MemoryType { property_flags: bits(letters), heap_index: *heap };
        Stub::with_memory(&self.heaps, &self.types.iter().map(of).collect::<Vec<_>>(), self.device_type)
    }
}

pub(super) fn bits(letters: &str) -> u32 {
    LETTERS.iter().filter(|(letter, _)| letters.contains(*letter)).map(|(_, bit)| bit).sum()
}

/// The letters of what has a name.
pub(super) fn flags(letters: &str) -> MemoryPropertyFlags {
    MemoryPropertyFlags::from_bits(bits(letters) as u8).expect("each letter has a name")
}

pub(super) fn discrete() -> Drawn {
    let heaps = [(256 * MIB, 1), (512 * MIB, 0)];
    Drawn::new(DISCRETE, &heaps, &[("L", 0), ("VC", 1), ("VCH", 1), ("LVC", 0)])
}

pub(super) fn integrated() -> Drawn {
    Drawn::new(raw::INTEGRATED_GPU, &[(512 * MIB, 1)], &[("L", 0), ("LVC", 0), ("LVCH", 0), ("LV", 0)])
}

/// Few bytes of it are device-local and host-visible.
pub(super) fn small_window() -> Drawn {
    let heaps = [(256 * MIB, 1), (512 * MIB, 0), (16 * MIB, 1)];
    let types = [("", 1), ("L", 0), ("VC", 1), ("VCH", 1), ("LVC", 2), ("LVC?", 2), ("LZ", 0), ("LP", 0)];
    Drawn::new(DISCRETE, &heaps, &types)
}

pub(super) fn software() -> Drawn {
    Drawn::new(SOFTWARE, &[(512 * MIB, 1)], &[("LVCH", 0)])
}

/// As many types as there may be, with properties of any kind.
pub(super) fn any_types() -> Drawn {
    let mut state = 1u64;
    let mut draw = |bound: u64| {
        state = state.wrapping_mul(0x5851_f42d_4c95_7f2d).wrapping_add(0x1405_7b7e_f767_814f);
        (state >> 33) % bound
    };
    let types = (0..raw::MAX_TYPES).map(|_| {
        let drawn = LETTERS.iter().filter(|(letter, _)| draw(if "LVCH".contains(*letter) { 2 } else { 12 }) == 0);
        (drawn.map(|(letter, _)| letter).collect(), draw(2) as u32)
    });
    Drawn { types: types.collect(), ..Drawn::new(DISCRETE, &[(256 * MIB, 1), (512 * MIB, 0)], &[]) }
}

pub(super) fn all() -> [Drawn; 5] {
    [discrete(), integrated(), small_window(), software(), any_types()]
}
