//! A device that keeps books of what it is asked, and stops the test where a call breaks a rule of Vulkan.
#![allow(dead_code, reason = "each test takes what it needs")]

use std::borrow::Cow;
use std::cell::Cell;
use std::collections::BTreeMap;
use std::ops::Range;
use std::ptr::NonNull;
use std::sync::{Mutex, MutexGuard};
use wallthyme::*;

pub const ATOM: u64 = 64;
pub const HEAP: u64 = 1 << 26;
pub const LARGEST: u64 = 1 << 24;

pub const LOCAL: MemoryPropertyFlags = MemoryPropertyFlags::DEVICE_LOCAL;
pub const COHERENT: MemoryPropertyFlags = MemoryPropertyFlags::HOST_VISIBLE.union(MemoryPropertyFlags::HOST_COHERENT);
pub const CACHED: MemoryPropertyFlags = MemoryPropertyFlags::HOST_VISIBLE.union(MemoryPropertyFlags::HOST_CACHED);

/// Memory types 0, 1 and 2.
const TYPES: [MemoryType; 3] = [
    MemoryType { heap: 0, props: LOCAL },
    MemoryType { heap: 1, props: COHERENT },
    MemoryType { heap: 1, props: CACHED },
];

/// A handle of an object. It is no copy of anything: who has it has the object.
#[derive(Debug, PartialEq, Eq)]
pub struct Memory(pub u64);

#[derive(Clone, Copy, Debug, PartialEq, Eq)]
pub enum Refusal {
    DeviceMemory,
    HostMemory,
    MapFailed,
}

struct Object {
    memory_type: u32,
    size: u64,
    /// What the host sees, once it was mapped; kept as a pointer, since addresses into it are given out.
    host: Option<NonNull<[u8]>>,
    /// What the device sees where that is another thing.
    device: Vec<u8>,
    mapped: Option<Range<u64>>,
}

// SAFETY: the bytes behind `host` are this object's alone, and reached under the device's lock, or through a mapping.
unsafe impl Send for Object {}

impl Drop for Object {
    fn drop(&mut self) {
        if let Some(host) = self.host {
            // SAFETY: it is a box that was taken apart, and ends here.
            drop(unsafe { Box::from_raw(host.as_ptr()) });
        }
    }
}

impl Object {
    fn coherent(&self) -> bool {
        TYPES[self.memory_type as usize].props.contains(MemoryPropertyFlags::HOST_COHERENT)
    }

    /// Bytes that the host sees: these alone, since others may be in use through a mapping meanwhile.
    fn host(&mut self, range: Range<usize>) -> &mut [u8] {
        let size = self.size as usize;
        assert!(range.start <= range.end && range.end <= size);
        let host = self.host.get_or_insert_with(|| NonNull::from(Box::leak(vec![0; size].into_boxed_slice())));
        // SAFETY: the box lives as long as the object, and has that range. Who uses it through a mapping has its block.
        unsafe { std::slice::from_raw_parts_mut(host.cast::<u8>().as_ptr().add(range.start), range.len()) }
    }

    /// Bytes that the device sees.
    fn device(&mut self, range: Range<usize>) -> &mut [u8] {
        if self.coherent() {
            return self.host(range);
        }
        let size = self.size as usize;
        self.device.resize(size, 0);
        &mut self.device[range]
    }
}

#[derive(Default)]
struct State {
    objects: BTreeMap<u64, Object>,
    last: u64,
    questions: u64,
    /// The question that is refused, counted from 1.
    refused: Option<(u64, Refusal)>,
    flushes: u64,
    invalidates: u64,
    flags: Vec<AllocationFlags>,
    owns: Vec<bool>,
}

impl State {
    /// Counts a question, and tells whether it is to be refused.
    fn question(&mut self) -> Option<Refusal> {
        self.questions += 1;
        self.refused.filter(|refused| refused.0 == self.questions).map(|refused| refused.1)
    }

    fn used(&self, heap: u32) -> u64 {
        let objects = self.objects.values();
        objects.filter(|object| TYPES[object.memory_type as usize].heap == heap).map(|object| object.size).sum()
    }

    fn insert(&mut self, size: u64, memory_type: u32) -> Memory {
        self.last += 1;
        let object = Object { memory_type, size, host: None, device: Vec::new(), mapped: None };
        self.objects.insert(self.last, object);
        Memory(self.last)
    }
}

#[derive(Default)]
pub struct Device {
    state: Mutex<State>,
}

impl Device {
    pub fn new() -> Device {
        Device::default()
    }

    fn state(&self) -> MutexGuard<'_, State> {
        self.state.lock().unwrap()
    }

    /// Refuses the question of this number, counted from 1 and from the device's start.
    pub fn refuse(&self, question: u64, refusal: Refusal) {
        self.state().refused = Some((question, refusal));
    }

    /// Refuses the next question.
    pub fn refuse_next(&self, refusal: Refusal) {
        let next = self.questions() + 1;
        self.refuse(next, refusal);
    }

    pub fn refuse_none(&self) {
        self.state().refused = None;
    }

    pub fn questions(&self) -> u64 {
        self.state().questions
    }

    pub fn flushes(&self) -> u64 {
        self.state().flushes
    }

    pub fn invalidates(&self) -> u64 {
        self.state().invalidates
    }

    /// The objects that are there, with what is mapped of each.
    pub fn objects(&self) -> Vec<(u64, Option<Range<u64>>)> {
        self.state().objects.iter().map(|(&name, object)| (name, object.mapped.clone())).collect()
    }

    pub fn held(&self) -> usize {
        self.state().objects.len()
    }

    pub fn size_of(&self, memory: &Memory) -> u64 {
        self.state().objects[&memory.0].size
    }

    pub fn all_with_address(&self) -> bool {
        self.state().flags.iter().all(|flags| flags.contains(AllocationFlags::DEVICE_ADDRESS))
    }

    /// Whether the objects were asked for as those of one block, in their order, whether they were made or refused.
    pub fn owns(&self) -> Vec<bool> {
        self.state().owns.clone()
    }

    fn allocate(&self, size: u64, memory_type: u32, flags: AllocationFlags, own: bool) -> Result<Memory, OutOfMemory> {
        let mut state = self.state();
        let heap = TYPES[memory_type as usize].heap;
        assert!(size > 0 && size <= HEAP - state.used(heap), "an object that the heap has no room for");
        state.flags.push(flags);
        state.owns.push(own);
        match state.question() {
            None => Ok(state.insert(size, memory_type)),
            Some(Refusal::DeviceMemory) => Err(OutOfMemory::OutOfDeviceMemory),
            Some(_) => Err(OutOfMemory::OutOfHostMemory),
        }
    }

    /// How many bytes of a heap the objects have.
    pub fn used(&self, heap: u32) -> u64 {
        self.state().used(heap)
    }

    /// An object of the program's own.
    pub fn make(&self, size: u64, memory_type: u32) -> Memory {
        self.state().insert(size, memory_type)
    }

    /// What the device sees of a block.
    pub fn sees(&self, block: &MemoryBlock<Memory>) -> Vec<u8> {
        self.state().objects.get_mut(&block.memory().0).unwrap().device(span(block)).to_vec()
    }

    /// The device writes a block.
    pub fn writes(&self, block: &MemoryBlock<Memory>, bytes: &[u8]) {
        self.state().objects.get_mut(&block.memory().0).unwrap().device(span(block)).copy_from_slice(bytes);
    }

    /// The host's and the device's bytes of ranges to flush or to invalidate, after the rules for them.
    fn synchronize(&self, ranges: &[MappedMemoryRange<'_, Memory>], to_device: bool) -> Result<(), OutOfMemory> {
        let mut state = self.state();
        let refusal = state.question();
        for range in ranges {
            let object = state.objects.get_mut(&range.memory.0).expect("a range of an object that is there");
            let end = range.offset + range.size;
            let mapped = object.mapped.clone().expect("a range of an object that is mapped");
            assert!(!object.coherent(), "coherent memory needs none");
            assert!(range.size > 0 && mapped.start <= range.offset && end <= mapped.end, "the range is not mapped");
            assert!(range.offset % ATOM == 0, "the range starts inside an atom");
            assert!(end % ATOM == 0 || end == object.size, "the range ends inside an atom");
            let range = range.offset as usize..end as usize;
            match refusal {
                None if to_device => {
                    let bytes = object.host(range.clone()).to_vec();
                    object.device(range).copy_from_slice(&bytes);
                }
                None => {
                    let bytes = object.device(range.clone()).to_vec();
                    object.host(range).copy_from_slice(&bytes);
                }
                Some(Refusal::DeviceMemory) => return Err(OutOfMemory::OutOfDeviceMemory),
                Some(_) => return Err(OutOfMemory::OutOfHostMemory),
            }
        }
        Ok(())
    }
}

pub fn span(block: &MemoryBlock<Memory>) -> Range<usize> {
    block.offset() as usize..(block.offset() + block.size()) as usize
}

impl MemoryDevice<Memory> for Device {
    unsafe fn allocate_memory(&self, size: u64, of: u32, flags: AllocationFlags) -> Result<Memory, OutOfMemory> {
        self.allocate(size, of, flags, false)
    }

    unsafe fn allocate_own(&self, size: u64, of: u32, flags: AllocationFlags) -> Result<Memory, OutOfMemory> {
        self.allocate(size, of, flags, true)
    }

    unsafe fn deallocate_memory(&self, memory: Memory) {
        self.state().objects.remove(&memory.0).expect("an object that is there");
    }

    unsafe fn map_memory(&self, memory: &mut Memory, offset: u64, size: u64) -> Result<NonNull<u8>, DeviceMapError> {
        let mut state = self.state();
        let refusal = state.question();
        let object = state.objects.get_mut(&memory.0).expect("an object that is there");
        assert!(TYPES[object.memory_type as usize].props.contains(MemoryPropertyFlags::HOST_VISIBLE));
        assert!(object.mapped.is_none(), "it is mapped");
        assert!(size > 0 && offset <= object.size && size <= object.size - offset, "a range of the object");
        match refusal {
            None => {
                object.mapped = Some(offset..offset + size);
                object.host(0..0);
                let host = object.host.expect("it is made by a look at it").cast::<u8>();
                // SAFETY: the range lies in the object, and its bytes in the box.
                Ok(unsafe { host.add(offset as usize) })
            }
            Some(Refusal::DeviceMemory) => Err(DeviceMapError::OutOfDeviceMemory),
            Some(Refusal::HostMemory) => Err(DeviceMapError::OutOfHostMemory),
            Some(Refusal::MapFailed) => Err(DeviceMapError::MapFailed),
        }
    }

    unsafe fn unmap_memory(&self, memory: &mut Memory) {
        let mut state = self.state();
        let object = state.objects.get_mut(&memory.0).expect("an object that is there");
        assert!(object.mapped.take().is_some(), "it is not mapped");
    }

    unsafe fn invalidate_memory_ranges(&self, ranges: &[MappedMemoryRange<'_, Memory>]) -> Result<(), OutOfMemory> {
        self.state().invalidates += 1;
        self.synchronize(ranges, false)
    }

    unsafe fn flush_memory_ranges(&self, ranges: &[MappedMemoryRange<'_, Memory>]) -> Result<(), OutOfMemory> {
        self.state().flushes += 1;
        self.synchronize(ranges, true)
    }
}

/// A device whose next calls panic before they do anything: so many mappings, and so many returns of objects.
#[derive(Default)]
pub struct Panics {
    pub device: Device,
    pub mappings: Cell<u32>,
    pub returns: Cell<u32>,
}

fn panics_if_left(calls: &Cell<u32>) {
    if let Some(left) = calls.get().checked_sub(1) {
        calls.set(left);
        panic!("for the test");
    }
}

// What these functions ask of their callers is what the device asks.
impl MemoryDevice<Memory> for Panics {
    unsafe fn allocate_memory(&self, size: u64, of: u32, flags: AllocationFlags) -> Result<Memory, OutOfMemory> {
        // SAFETY: as the caller says.
        unsafe { self.device.allocate_memory(size, of, flags) }
    }

    unsafe fn allocate_own(&self, size: u64, of: u32, flags: AllocationFlags) -> Result<Memory, OutOfMemory> {
        // SAFETY: as the caller says.
        unsafe { self.device.allocate_own(size, of, flags) }
    }

    unsafe fn deallocate_memory(&self, memory: Memory) {
        panics_if_left(&self.returns);
        // SAFETY: as the caller says.
        unsafe { self.device.deallocate_memory(memory) }
    }

    unsafe fn map_memory(&self, memory: &mut Memory, offset: u64, size: u64) -> Result<NonNull<u8>, DeviceMapError> {
        panics_if_left(&self.mappings);
        // SAFETY: as the caller says.
        unsafe { self.device.map_memory(memory, offset, size) }
    }

    unsafe fn unmap_memory(&self, memory: &mut Memory) {
        // SAFETY: as the caller says.
        unsafe { self.device.unmap_memory(memory) }
    }

    unsafe fn invalidate_memory_ranges(&self, ranges: &[MappedMemoryRange<'_, Memory>]) -> Result<(), OutOfMemory> {
        // SAFETY: as the caller says.
        unsafe { self.device.invalidate_memory_ranges(ranges) }
    }

    unsafe fn flush_memory_ranges(&self, ranges: &[MappedMemoryRange<'_, Memory>]) -> Result<(), OutOfMemory> {
        // SAFETY: as the caller says.
        unsafe { self.device.flush_memory_ranges(ranges) }
    }
}

/// What the device offers, with at most `count` objects.
pub fn offer(count: u32) -> DeviceProperties<'static> {
    DeviceProperties {
        memory_types: Cow::Borrowed(&TYPES),
        memory_heaps: Cow::Borrowed(&[MemoryHeap { size: HEAP }, MemoryHeap { size: HEAP }]),
        max_memory_allocation_count: count,
        max_memory_allocation_size: LARGEST,
        non_coherent_atom_size: ATOM,
        buffer_device_address: false,
    }
}

pub fn allocator(count: u32) -> GpuAllocator<Memory> {
    GpuAllocator::new(Config::i_am_potato(), offer(count))
}

/// Takes blocks back and cleans up, after which nothing is held. Answers how many objects remain.
pub fn end(
    mut allocator: GpuAllocator<Memory>,
    device: &Device,
    blocks: impl IntoIterator<Item = MemoryBlock<Memory>>,
) -> u32 {
    // SAFETY: the blocks are this allocator's, and there is one device.
    unsafe {
        blocks.into_iter().for_each(|block| allocator.dealloc(device, block));
        allocator.cleanup(device);
    }
    assert_eq!(device.held(), 0);
    allocator.remaining_allocations()
}

pub fn request(size: u64, usage: UsageFlags) -> Request {
    Request { size, align_mask: 0, usage, memory_types: !0 }
}

/// SplitMix64.
pub struct Random(pub u64);

impl Random {
    pub fn next(&mut self) -> u64 {
        self.0 = self.0.wrapping_add(0x9e37_79b9_7f4a_7c15);
        let mut z = self.0;
        z = (z ^ (z >> 30)).wrapping_mul(0xbf58_476d_1ce4_e5b9);
        z = (z ^ (z >> 27)).wrapping_mul(0x94d0_49bb_1331_11eb);
        z ^ (z >> 31)
    }

    pub fn below(&mut self, n: u64) -> u64 {
        self.next() % n
    }

    pub fn bytes(&mut self, len: usize) -> Vec<u8> {
        (0..len).map(|_| self.next() as u8).collect()
    }
}
