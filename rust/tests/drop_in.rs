//! A program for `gpu-alloc`, as far as its calls go: with the crate's name changed it compiles, and does what it did.

use std::{borrow::Cow, cell::Cell, cell::RefCell, ptr::NonNull};
use wallthyme as gpu_alloc;

use gpu_alloc::{
    AllocationError, AllocationFlags, Config, Dedicated, DeviceMapError, DeviceProperties, GpuAllocator, MapError,
    MappedMemoryRange, MemoryBlock, MemoryDevice, MemoryHeap, MemoryPropertyFlags, MemoryType, OutOfMemory, Request,
    UsageFlags,
};

/// A handle, as `vk::DeviceMemory` is.
#[derive(Clone, Copy, Debug, PartialEq, Eq)]
struct Handle(u64);

/// Host memory behind handles. It counts flushes and invalidates.
#[derive(Default)]
struct Gpu {
    objects: RefCell<Vec<Option<Box<[u64]>>>>,
    synchronized: Cell<u32>,
}

impl MemoryDevice<Handle> for Gpu {
    unsafe fn allocate_memory(
        &self,
        size: u64,
        memory_type: u32,
        flags: AllocationFlags,
    ) -> Result<Handle, OutOfMemory> {
        // As `gpu-alloc-ash` has it: it knows no other flag.
        assert_eq!(flags.bits() & !AllocationFlags::DEVICE_ADDRESS.bits(), 0, "a flag that `gpu-alloc` does not have");
        if memory_type > 1 {
            return Err(OutOfMemory::OutOfDeviceMemory);
        }
        let mut objects = self.objects.borrow_mut();
        objects.push(Some(vec![0; size.div_ceil(8) as usize].into_boxed_slice()));
        Ok(Handle(objects.len() as u64 - 1))
    }

    unsafe fn deallocate_memory(&self, memory: Handle) {
        assert!(self.objects.borrow_mut()[memory.0 as usize].take().is_some());
    }

    unsafe fn map_memory(&self, memory: &mut Handle, offset: u64, _size: u64) -> Result<NonNull<u8>, DeviceMapError> {
        let mut objects = self.objects.borrow_mut();
        let bytes = objects[memory.0 as usize].as_mut().ok_or(DeviceMapError::MapFailed)?.as_mut_ptr().cast::<u8>();
        // SAFETY: the offset lies in the object.
        NonNull::new(unsafe { bytes.add(offset as usize) }).ok_or(DeviceMapError::MapFailed)
    }

    unsafe fn unmap_memory(&self, _memory: &mut Handle) {}

    unsafe fn invalidate_memory_ranges(&self, ranges: &[MappedMemoryRange<'_, Handle>]) -> Result<(), OutOfMemory> {
        self.synchronized.set(self.synchronized.get() + ranges.len() as u32);
        Ok(())
    }

    unsafe fn flush_memory_ranges(&self, ranges: &[MappedMemoryRange<'_, Handle>]) -> Result<(), OutOfMemory> {
        for MappedMemoryRange { memory: Handle(_), offset, size } in ranges {
            assert!(offset % 256 == 0 && *size > 0);
        }
        self.synchronized.set(self.synchronized.get() + ranges.len() as u32);
        Ok(())
    }
}

/// A buffer of a renderer that is generic over handles.
struct Buffer<M> {
    block: MemoryBlock<M>,
    len: u64,
}

struct Renderer<M> {
    allocator: GpuAllocator<M>,
    buffers: Vec<Buffer<M>>,
}

impl<M: std::fmt::Debug + 'static> Renderer<M> {
    fn buffer(&mut self, gpu: &impl MemoryDevice<M>, len: u64, usage: UsageFlags) -> Result<usize, AllocationError> {
        let request = Request { size: len, align_mask: 0xff, usage, memory_types: !0 };
        let block = if usage.contains(UsageFlags::TRANSIENT) {
            // SAFETY: there is one device, which offers what the allocator was made with.
            unsafe { self.allocator.alloc(gpu, request) }?
        } else {
            // SAFETY: as above.
            unsafe { self.allocator.alloc_with_dedicated(gpu, request, Dedicated::Preferred) }?
        };
        self.buffers.push(Buffer { block, len });
        Ok(self.buffers.len() - 1)
    }

    fn upload(&mut self, gpu: &impl MemoryDevice<M>, index: usize, bytes: &[u8]) -> Result<(), MapError> {
        let buffer = &mut self.buffers[index];
        assert!(bytes.len() as u64 <= buffer.len);
        // SAFETY: there is one device, which uses no block meanwhile.
        unsafe { buffer.block.write_bytes(gpu, 0, bytes) }
    }

    fn end(mut self, gpu: &impl MemoryDevice<M>) {
        for Buffer { block, .. } in self.buffers.drain(..) {
            // SAFETY: the block is this allocator's, and the device is done with it.
            unsafe { self.allocator.dealloc(gpu, block) };
        }
        // SAFETY: there is one device.
        unsafe { self.allocator.cleanup(gpu) };
    }
}

fn properties() -> DeviceProperties<'static> {
    let device = MemoryPropertyFlags::DEVICE_LOCAL;
    let host = MemoryPropertyFlags::HOST_VISIBLE | MemoryPropertyFlags::HOST_CACHED;
    DeviceProperties {
        memory_types: Cow::Owned(vec![MemoryType { heap: 0, props: device }, MemoryType { heap: 1, props: host }]),
        memory_heaps: Cow::Owned(vec![MemoryHeap { size: 1 << 28 }, MemoryHeap { size: 1 << 28 }]),
        max_memory_allocation_count: 4096,
        max_memory_allocation_size: 1 << 26,
        non_coherent_atom_size: 256,
        buffer_device_address: false,
    }
}

fn causes(error: AllocationError) -> u32 {
    match error {
        AllocationError::OutOfDeviceMemory => 1,
        AllocationError::OutOfHostMemory => 2,
        AllocationError::NoCompatibleMemoryTypes => 3,
        AllocationError::TooManyObjects => 4,
    }
}

#[test]
fn a_renderer() {
    let gpu = Gpu::default();
    let config = Config { dedicated_threshold: 1 << 20, ..Config::i_am_potato() };
    let mut renderer = Renderer { allocator: GpuAllocator::<Handle>::new(config, properties()), buffers: Vec::new() };
    assert_eq!(renderer.allocator.max_allocation_size(), 1 << 26);
    let mut staged = 0;
    for len in [1, 200, 3000, 40_000, 2 << 20] {
        renderer.buffer(&gpu, len, UsageFlags::FAST_DEVICE_ACCESS).unwrap();
        let staging = renderer.buffer(&gpu, len, UsageFlags::UPLOAD | UsageFlags::TRANSIENT).unwrap();
        renderer.upload(&gpu, staging, &vec![len as u8; len as usize]).unwrap();
        staged += 1;
    }
    assert_eq!(gpu.synchronized.get(), staged);
    let refused = renderer.buffer(&gpu, 1 << 27, UsageFlags::empty()).unwrap_err();
    assert_eq!(causes(refused), 1);
    assert_eq!(renderer.upload(&gpu, 0, &[1]), Err(MapError::NonHostVisible));
    renderer.end(&gpu);
    assert!(gpu.objects.borrow().iter().all(Option::is_none));
}

#[test]
fn an_import() {
    let gpu = Gpu::default();
    let mut allocator = GpuAllocator::<Handle>::new(Config::i_am_prototyping(), properties());
    let MemoryType { props, .. } = properties().memory_types[1];
    // SAFETY: there is one device. The object is its, of that type, and ends with the range.
    unsafe {
        let memory = gpu.allocate_memory(4096, 1, AllocationFlags::empty()).unwrap();
        let remaining = allocator.remaining_allocations();
        let mut block: MemoryBlock<Handle> = allocator.import_memory(memory, 1, props, 0, 4096);
        assert_eq!(allocator.remaining_allocations(), remaining - 1);
        assert_eq!((block.memory(), block.offset(), block.size()), (&memory, 0, 4096));
        let start: NonNull<u8> = block.map(&gpu, 8, 8).unwrap();
        start.cast::<u64>().write(7);
        assert!(block.unmap(&gpu));
        let mut read = [0; 8];
        block.read_bytes(&gpu, 8, &mut read).unwrap();
        assert_eq!(u64::from_ne_bytes(read), 7);
        allocator.dealloc(&gpu, block);
        allocator.set_remaining_allocations(remaining);
        allocator.cleanup(&gpu);
    }
    println!("{allocator:?} {:?}", Config::i_am_potato());
    assert!(gpu.objects.borrow().iter().all(Option::is_none));
}

/// A device written for `gpu-alloc` gets its flags alone, for objects of one block too.
#[test]
fn no_flag_but_those_of_gpu_alloc() {
    for buffer_device_address in [false, true] {
        let gpu = Gpu::default();
        let offered = DeviceProperties { buffer_device_address, ..properties() };
        let mut allocator = GpuAllocator::<Handle>::new(Config::i_am_potato(), offered);
        let request = Request { size: 5000, align_mask: 0xff, usage: UsageFlags::UPLOAD, memory_types: !0 };
        // SAFETY: there is one device, which offers what the allocator was made with. The blocks are this allocator's.
        unsafe {
            let blocks = [
                allocator.alloc(&gpu, request),
                allocator.alloc(&gpu, Request { size: 1 << 25, ..request }),
                allocator.alloc_with_dedicated(&gpu, request, Dedicated::Required),
                allocator.alloc_with_dedicated(&gpu, request, Dedicated::Preferred),
                allocator.alloc_optimal(&gpu, request, Some(Dedicated::Required)),
            ];
            assert_eq!(gpu.objects.borrow().len(), 5);
            blocks.into_iter().for_each(|block| allocator.dealloc(&gpu, block.unwrap()));
            allocator.cleanup(&gpu);
        }
    }
}
