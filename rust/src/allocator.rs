//! The allocator: requests go in, blocks come out and are returned.

use crate::asked::{no_import, refusal, Asked, Made};
use crate::block::{Memory, MemoryBlock, Parts, Shared};
use crate::config::{Config, Sharing};
use crate::error::{AllocationError, NewError};
use crate::ffi;
use crate::library::{unexpected, Library, ROOM};
use crate::names::Names;
use crate::objects::Objects;
use crate::report::{report, Dropped, LiveBlock};
use crate::request::{Dedicated, Request};
use crate::types::{DeviceProperties, MemoryDevice, MemoryPropertyFlags, MemoryType, OutOfMemory};
use crate::usage::UsageFlags;
use crate::vulkan::Resource;
use std::fmt::{Debug, Formatter};
use std::sync::atomic::{AtomicU64, Ordering};
use std::sync::Arc;

/// Why a call panics over a heap.
const NO_HEAP: &str = "`heap` has to be the index of one of the device's heaps";

/// How many allocators were made. Each keeps its number, by which it knows its blocks.
static MADE: AtomicU64 = AtomicU64::new(0);

/// A memory allocator for Vulkan and similar devices. `M` is the type of a memory object's handle.
///
/// The proved library decides which memory type serves a request and where the block lies. A [`MemoryDevice`] makes the
/// memory objects. An allocator that is dropped while it holds memory objects is reported, with each live block
/// ([`Dropped`]): first return each block, and call [`cleanup`](GpuAllocator::cleanup).
///
/// ```
/// # use wallthyme::*;
/// # unsafe fn show<M>(
/// #     device: &impl MemoryDevice<M>,
/// #     offered: DeviceProperties<'_>,
/// # ) -> Result<(), Box<dyn std::error::Error>> {
/// let mut allocator = GpuAllocator::try_new(Config::i_am_prototyping(), offered)?;
/// let vertices = Request { size: 3000, align_mask: 255, usage: UsageFlags::FAST_DEVICE_ACCESS, memory_types: !0 };
/// // SAFETY: `device` has what is `offered`, and is done with the block when it is returned.
/// unsafe {
///     let block = allocator.alloc(device, vertices)?;
///     // Bind a buffer to `block.memory()` from `block.offset()` on, use it, and destroy it.
///     allocator.dealloc(device, block);
///     allocator.cleanup(device);
/// }
/// # Ok(())
/// # }
/// ```
pub struct GpuAllocator<M> {
    library: Library,
    objects: Objects<M>,
    names: Names,
    /// Names of released objects that the device has not freed yet.
    gone: Vec<u64>,
    /// Those of these objects in which no other block was. Which name belongs to which does not matter: all are freed.
    own: Vec<M>,
    number: u64,
    memory_types: Box<[MemoryType]>,
    atom_mask: u64,
    max_allocation_size: u64,
    heap_sizes: Box<[u64]>,
    /// Of each heap, as the library has it, so that no call is needed to report it: at most the heap's size.
    heap_limits: Box<[u64]>,
    /// As the library counts it, so that no call is needed to report it.
    remaining: u32,
}

impl<M> GpuAllocator<M> {
    /// Makes an allocator for a device that offers `props`, which holds no memory objects.
    /// [`try_new`](GpuAllocator::try_new) returns an error where this panics.
    ///
    /// # Panics
    ///
    /// Where `try_new` returns an error.
    #[track_caller]
    pub fn new(config: Config, props: DeviceProperties<'_>) -> Self {
        match GpuAllocator::try_new(config, props) {
            Ok(allocator) => allocator,
            Err(error) => panic!("no `GpuAllocator` can be made: {error}"),
        }
    }

    /// Makes an allocator for a device that offers `props`, which holds no memory objects.
    ///
    /// # Errors
    ///
    /// [`NewError`] says why. Nothing is held then.
    pub fn try_new(config: Config, props: DeviceProperties<'_>) -> Result<Self, NewError> {
        GpuAllocator::with_granularity(config, props, 1)
    }

    /// As [`try_new`](GpuAllocator::try_new), for a device with this `granularity` of buffers and images in bytes
    /// (`VkPhysicalDeviceLimits::bufferImageGranularity`): a power of two of at most 2^32, or 0, which counts as 1.
    ///
    /// No page of that size of a memory object has one of the requested bytes of an optimal block ([`alloc_optimal`])
    /// and a byte of a linear one ([`alloc`]).
    ///
    /// # Errors
    ///
    /// [`NewError`] says why; it is `BadProperties` for any other granularity. Nothing is held then.
    ///
    /// [`alloc_optimal`]: GpuAllocator::alloc_optimal
    /// [`alloc`]: GpuAllocator::alloc
    pub fn with_granularity(config: Config, props: DeviceProperties<'_>, granularity: u64) -> Result<Self, NewError> {
        GpuAllocator::with_sharing(config, props, granularity, Sharing::Buddy)
    }

    /// As [`with_granularity`](GpuAllocator::with_granularity), with a choice how requests that are not
    /// [`UsageFlags::TRANSIENT`](crate::UsageFlags::TRANSIENT) share memory objects. (The other three share buddy
    /// chunks, as `gpu-alloc` does.)
    ///
    /// ```
    /// # use wallthyme::*;
    /// # fn show<M>(offered: DeviceProperties<'_>, granularity: u64) -> Result<GpuAllocator<M>, NewError> {
    /// GpuAllocator::with_sharing(Config::i_am_prototyping(), offered, granularity, Sharing::Fit)
    /// # }
    /// ```
    ///
    /// # Errors
    ///
    /// [`NewError`] says why. Nothing is held then.
    pub fn with_sharing(
        config: Config,
        props: DeviceProperties<'_>,
        granularity: u64,
        sharing: Sharing,
    ) -> Result<Self, NewError> {
        let library = Library::open(&config, &props, granularity, sharing)?;
        let heap_sizes: Box<[u64]> = props.memory_heaps.iter().map(|heap| heap.size).collect();
        Ok(GpuAllocator {
            library,
            objects: Objects::new(),
            names: Names::new(),
            gone: Vec::with_capacity(ROOM),
            own: Vec::with_capacity(1),
            number: MADE.fetch_add(1, Ordering::Relaxed),
            memory_types: props.memory_types.iter().copied().collect(),
            atom_mask: props.non_coherent_atom_size - 1,
            max_allocation_size: props.max_memory_allocation_size,
            heap_limits: heap_sizes.clone(),
            heap_sizes,
            remaining: props.max_memory_allocation_count,
        })
    }

    /// Allocates a block, in a memory object of its own where its size calls for one.
    ///
    /// A request that would share an object is refused where no shared one can be made, though the device may have
    /// memory for an object of its own, as in `gpu-alloc`. ([`vulkan::Allocator`](crate::vulkan::Allocator) then asks
    /// for that.) A program that wants it asks again:
    ///
    /// ```
    /// # use wallthyme::*;
    /// # unsafe fn alloc_or_alone<M>(
    /// #     allocator: &mut GpuAllocator<M>,
    /// #     device: &impl MemoryDevice<M>,
    /// #     request: Request,
    /// # ) -> Result<MemoryBlock<M>, AllocationError> {
    /// #     unsafe {
    /// match allocator.alloc(device, request) {
    ///     Err(AllocationError::OutOfDeviceMemory) => {
    ///         allocator.alloc_with_dedicated(device, request, Dedicated::Required)
    ///     }
    ///     granted => granted,
    /// }
    /// #     }
    /// # }
    /// ```
    ///
    /// # Errors
    ///
    /// [`AllocationError`] says why. The allocator and the device then hold what they held before.
    ///
    /// # Panics
    ///
    /// Where `request.align_mask + 1` is not a power of two, a bit of `request.usage` has no name, or
    /// [`UsageFlags::DEVICE_ADDRESS`] is asked for without [`DeviceProperties::buffer_device_address`]. Nothing is
    /// changed.
    ///
    /// [`UsageFlags::DEVICE_ADDRESS`]: crate::UsageFlags::DEVICE_ADDRESS
    ///
    /// # Safety
    ///
    /// * `device` does what [`MemoryDevice`] says, and offers the properties that this allocator was made with.
    /// * It is the same in all calls of this allocator and its blocks.
    pub unsafe fn alloc(
        &mut self,
        device: &impl MemoryDevice<M>,
        request: Request,
    ) -> Result<MemoryBlock<M>, AllocationError> {
        // SAFETY: the caller keeps this function's conditions, which are the same.
        unsafe { self.grant(device, request.with(None, false)) }
    }

    /// As [`alloc`](GpuAllocator::alloc), with a hint that the block wants a memory object of its own.
    ///
    /// # Errors
    ///
    /// As for `alloc`.
    ///
    /// # Panics
    ///
    /// As for `alloc`.
    ///
    /// # Safety
    ///
    /// As for `alloc`.
    pub unsafe fn alloc_with_dedicated(
        &mut self,
        device: &impl MemoryDevice<M>,
        request: Request,
        dedicated: Dedicated,
    ) -> Result<MemoryBlock<M>, AllocationError> {
        // SAFETY: the caller keeps this function's conditions, which are the same.
        unsafe { self.grant(device, request.with(Some(dedicated), false)) }
    }

    /// As [`alloc`](GpuAllocator::alloc), for an optimal resource: an image of `VK_IMAGE_TILING_OPTIMAL`. With
    /// `dedicated` it is as [`alloc_with_dedicated`](GpuAllocator::alloc_with_dedicated).
    ///
    /// No page of the granularity ([`with_granularity`](GpuAllocator::with_granularity)) has one of the block's first
    /// `request.size` bytes and a byte of a linear block. So bind nothing past those bytes: a linear block may share
    /// that page. The request is served as one whose size is rounded up to the granularity and that is aligned to it at
    /// least. That size decides whether it gets an object of its own, but such an object has exactly the request's
    /// size. Where the granularity is 1, the block is the one that the other two calls give.
    ///
    /// ```
    /// # use wallthyme::*;
    /// # unsafe fn show<M>(
    /// #     allocator: &mut GpuAllocator<M>,
    /// #     device: &impl MemoryDevice<M>,
    /// # ) -> Result<MemoryBlock<M>, AllocationError> {
    /// let usage = UsageFlags::FAST_DEVICE_ACCESS;
    /// let texture = Request { size: 1 << 20, align_mask: 4095, usage, memory_types: !0 };
    /// // SAFETY: `device` offers what the allocator was made with.
    /// unsafe { allocator.alloc_optimal(device, texture, Some(Dedicated::Preferred)) }
    /// # }
    /// ```
    ///
    /// # Errors
    ///
    /// As for `alloc`.
    ///
    /// # Panics
    ///
    /// As for `alloc`.
    ///
    /// # Safety
    ///
    /// As for `alloc`.
    pub unsafe fn alloc_optimal(
        &mut self,
        device: &impl MemoryDevice<M>,
        request: Request,
        dedicated: Option<Dedicated>,
    ) -> Result<MemoryBlock<M>, AllocationError> {
        // SAFETY: the caller keeps this function's conditions, which are the same.
        unsafe { self.grant(device, request.with(dedicated, true)) }
    }

    /// Imports `size` bytes of the caller's own memory object from `offset` on as a block. The object is the
    /// allocator's from then on. It counts as one that it holds, with `size` bytes of its heap, and goes back to the
    /// device with its block.
    ///
    /// # Panics
    ///
    /// Where no more objects may be held ([`remaining_allocations`](GpuAllocator::remaining_allocations)), there is no
    /// such memory type, `size` is 0, `offset + size` exceeds 64 bits, or the host has too little memory. The allocator
    /// is then unchanged, and `memory` is dropped.
    ///
    /// # Safety
    ///
    /// * The object is of the device of all calls of this allocator and its blocks, is of that memory type, is not
    ///   mapped, and nobody else frees it.
    /// * `props` are the properties of the memory type, or fewer. (`HOST_COHERENT` is taken from the type: what is
    ///   coherent is never flushed.)
    /// * `offset .. offset + size` lies in the object. Where the memory is host-visible and not host-coherent, it ends
    ///   at a multiple of [`DeviceProperties::non_coherent_atom_size`], or at the object's end.
    #[track_caller]
    pub unsafe fn import_memory(
        &mut self,
        memory: M,
        memory_type: u32,
        props: MemoryPropertyFlags,
        offset: u64,
        size: u64,
    ) -> MemoryBlock<M> {
        // For the library the object ends with the block. It needs the size to check that the block ends well, which
        // the caller has promised.
        let end = offset.checked_add(size).expect("an import's `offset + size` has to fit 64 bits");
        let block = match self.library.import(memory_type, end, offset, size) {
            Ok(block) => block,
            Err(status) => no_import(status),
        };
        self.count();
        let coherent = self.memory_types[memory_type as usize].props & MemoryPropertyFlags::HOST_COHERENT;
        self.block(block, props | coherent, Memory::Own(memory), None)
    }

    /// Returns a block, mapped or not. Memory objects that no block needs are freed. Only the last one of a free list,
    /// and one fit chunk of a memory type, stay until [`cleanup`](GpuAllocator::cleanup).
    ///
    /// # Panics
    ///
    /// Where the block is another allocator's. The block is dropped, and nothing else changes.
    ///
    /// # Safety
    ///
    /// * The block is of this allocator, and the device is done with it.
    /// * `device` is the same in all calls of this allocator and its blocks.
    #[track_caller]
    pub unsafe fn dealloc(&mut self, device: &impl MemoryDevice<M>, block: MemoryBlock<M>) {
        self.assert_own(&block);
        if block.name().is_some() {
            self.names.take(block.key());
        }
        let (key, memory) = block.into_parts();
        let own = match memory {
            Memory::Own(memory) => Some(memory),
            // Not `_`, which would keep it to the end: a released object has one handle left, the allocator's.
            Memory::Shared(shared) => {
                drop(shared);
                None
            }
        };
        if let Err(status) = self.library.free(key) {
            // SAFETY: the device is the object's, as the caller says, and done with it. Nothing else has it.
            own.into_iter().for_each(|memory| unsafe { device.deallocate_memory(memory) });
            unexpected("wt_free", status);
        }
        self.own.extend(own);
        // SAFETY: the device is the objects', as the caller says, and done with the block.
        unsafe { self.release_gone(device) };
    }

    /// Sets the program's value of a block, which reports have ([`report`](GpuAllocator::report), [`Dropped`]): any
    /// number, such as an index or a pointer. It is 0 before.
    ///
    /// # Panics
    ///
    /// Where the block is another allocator's. Nothing is changed.
    #[track_caller]
    pub fn set_user(&mut self, block: &mut MemoryBlock<M>, user: u64) {
        self.assert_own(block);
        if let Err(status) = self.library.set_user(block.key(), user) {
            unexpected("wt_set_user", status);
        }
        block.set_user(user);
    }

    /// Gives a block a name in place of an earlier one, which reports have ([`report`](GpuAllocator::report),
    /// [`Dropped`]). It is copied, and kept until the block is returned. The empty text takes the name away.
    ///
    /// ```
    /// # use wallthyme::*;
    /// # fn show<M>(allocator: &mut GpuAllocator<M>, block: &mut MemoryBlock<M>) -> Result<(), OutOfMemory> {
    /// allocator.set_name(block, "shadow map")?;
    /// assert_eq!(block.name(), Some("shadow map"));
    /// assert!(allocator.report()?.contains("shadow map"));
    /// # Ok(())
    /// # }
    /// ```
    ///
    /// # Errors
    ///
    /// [`OutOfMemory::OutOfHostMemory`]. Nothing is changed.
    ///
    /// # Panics
    ///
    /// Where the block is another allocator's. Nothing is changed.
    #[track_caller]
    pub fn set_name(&mut self, block: &mut MemoryBlock<M>, name: &str) -> Result<(), OutOfMemory> {
        self.assert_own(block);
        block.set_name(self.names.set(block.key(), name)?);
        Ok(())
    }

    /// The largest size of a request, in bytes.
    pub fn max_allocation_size(&self) -> u64 {
        self.max_allocation_size
    }

    /// How many more memory objects may be held.
    pub fn remaining_allocations(&self) -> u32 {
        self.remaining
    }

    /// Sets how many more memory objects may be held, on top of those that are.
    ///
    /// # Panics
    ///
    /// Where it is not below 2^32 together with the objects that are held. Nothing is changed.
    ///
    /// # Safety
    ///
    /// The device allows that many.
    #[track_caller]
    pub unsafe fn set_remaining_allocations(&mut self, remaining: u32) {
        let set = self.library.set_remaining(remaining);
        assert!(set, "`remaining` has to be below 2^32 together with the objects that are held");
        self.remaining = remaining;
    }

    /// The limit of a heap in bytes: the lesser of its size and the limit that was set last.
    ///
    /// # Panics
    ///
    /// Where there is no such heap.
    #[track_caller]
    pub fn heap_limit(&self, heap: u32) -> u64 {
        *self.heap_limits.get(heap as usize).expect(NO_HEAP)
    }

    /// Sets a heap's limit in bytes: from now on the device is asked for no more than the limit leaves, and a memory
    /// type whose heap has too little left is passed over, not asked. Use it with what `VK_EXT_memory_budget` reports
    /// of a heap at run time.
    ///
    /// A limit at or above the heap's size removes the limit. One below what is held refuses new objects and takes
    /// nothing away: blocks stay, and free bytes of held objects are given out. Imports count, and are never refused
    /// for it. When an object is made, and how large a shared one is, still depends on the heap's size.
    ///
    /// ```
    /// # use std::borrow::Cow;
    /// # use wallthyme::*;
    /// # let offered = DeviceProperties {
    /// #     memory_types: Cow::Borrowed(&[MemoryType { heap: 0, props: MemoryPropertyFlags::DEVICE_LOCAL }]),
    /// #     memory_heaps: Cow::Borrowed(&[MemoryHeap { size: 8 << 30 }]),
    /// #     max_memory_allocation_count: 4096,
    /// #     max_memory_allocation_size: 1 << 30,
    /// #     non_coherent_atom_size: 64,
    /// #     buffer_device_address: false,
    /// # };
    /// // The device has one heap, of 8 GiB.
    /// let mut allocator = GpuAllocator::<u64>::new(Config::i_am_prototyping(), offered);
    /// allocator.set_heap_limit(0, 3 << 30);
    /// assert_eq!(allocator.heap_limit(0), 3 << 30);
    /// allocator.set_heap_limit(0, u64::MAX);
    /// assert_eq!(allocator.heap_limit(0), 8 << 30);
    /// ```
    ///
    /// # Panics
    ///
    /// Where there is no such heap. Nothing is changed.
    #[track_caller]
    pub fn set_heap_limit(&mut self, heap: u32, limit: u64) {
        match self.library.set_heap_limit(heap, limit) {
            Ok(()) => self.heap_limits[heap as usize] = limit.min(self.heap_sizes[heap as usize]),
            Err(ffi::BAD_HEAP) => panic!("{NO_HEAP}"),
            Err(status) => unexpected("wt_set_heap_limit", status),
        }
    }

    /// How many bytes the held objects of a heap count: 2^64 - 1 where imports bring it above that.
    pub(crate) fn heap_used(&mut self, heap: u32) -> u64 {
        assert!((heap as usize) < self.heap_sizes.len(), "{NO_HEAP}");
        let counts = self.library.heap_counts(heap);
        if counts.used_high == 0 {
            counts.used
        } else {
            u64::MAX
        }
    }

    /// The memory types of these that serve a usage, the first one that a request tries first.
    ///
    /// # Errors
    ///
    /// [`AllocationError::OutOfHostMemory`].
    ///
    /// # Panics
    ///
    /// As for `alloc`.
    pub(crate) fn candidates(&mut self, usage: UsageFlags, memory_types: u32) -> Result<Vec<u32>, AllocationError> {
        self.library.candidates(usage.bits().into(), memory_types).map_err(refusal)
    }

    /// Panics where a block is another allocator's.
    #[track_caller]
    pub(crate) fn assert_own(&self, block: &MemoryBlock<M>) {
        assert!(block.allocator() == self.number, "a block has to go back to the allocator that it came from");
    }

    /// A report of all that is held, as JSON: heaps, memory types, sums by type and kind, and each object with its live
    /// blocks and free ranges. `wallthyme-picture` draws it. A named block has its name there.
    ///
    /// # Errors
    ///
    /// [`OutOfMemory::OutOfHostMemory`]: the host has too little memory for it. Nothing is changed.
    pub fn report(&mut self) -> Result<String, OutOfMemory> {
        let text = self.library.report().ok_or(OutOfMemory::OutOfHostMemory)?;
        self.names.shown_in(String::from_utf8(text).expect("a report has to be text"))
    }

    /// Frees each memory object that no block needs. After all blocks are returned none is held, and the allocator can
    /// be dropped, or used further.
    ///
    /// # Safety
    ///
    /// `device` is the same in all calls of this allocator and its blocks.
    pub unsafe fn cleanup(&mut self, device: &impl MemoryDevice<M>) {
        self.library.cleanup();
        // SAFETY: the device is the objects', as the caller says, and no block is in them.
        unsafe { self.release_gone(device) };
    }

    /// # Safety
    ///
    /// As for `alloc`.
    unsafe fn grant(
        &mut self,
        device: &impl MemoryDevice<M>,
        request: ffi::Request,
    ) -> Result<MemoryBlock<M>, AllocationError> {
        let mut asked = Asked { device, made: None };
        // SAFETY: the questions are the library's, of the device's own properties, as the caller says.
        let granted = self.library.alloc(&request, |question| unsafe { asked.answer(question) });
        let block = granted.map_err(refusal)?;
        let props = self.memory_types[block.memory_type as usize].props;
        let mut made_for = None;
        let memory = if block.fresh != 0 {
            self.count();
            let made = asked.made.take().expect("a fresh block has to be in an object that was made for it");
            made_for = made.made_for;
            self.keep(block.object, made)
        } else {
            Memory::Shared(self.objects.get(block.object).clone())
        };
        Ok(self.block(block, props, memory, made_for))
    }

    /// Takes in a new object: into the books, or for its block alone.
    fn keep(&mut self, name: u64, made: Made<M>) -> Memory<M> {
        if made.own {
            return Memory::Own(made.memory);
        }
        let shared = Shared { memory: Arc::new(made.memory), start: made.start };
        self.objects.insert(name, shared.clone());
        Memory::Shared(shared)
    }

    fn block(
        &self,
        block: ffi::Block,
        props: MemoryPropertyFlags,
        memory: Memory<M>,
        made_for: Option<Resource>,
    ) -> MemoryBlock<M> {
        let kind = MemoryPropertyFlags::HOST_VISIBLE | MemoryPropertyFlags::HOST_COHERENT;
        let parts = Parts {
            allocator: self.number,
            place: place(&block),
            atom_mask: if props & kind == MemoryPropertyFlags::HOST_VISIBLE { self.atom_mask } else { 0 },
            props,
            made_for,
        };
        MemoryBlock::new(parts, memory)
    }

    /// Frees the released objects, one by one. Where the device panics over one, only that one is lost to it: the
    /// others stay in `gone`, and the next call of this goes on with them.
    ///
    /// # Safety
    ///
    /// `device` is the objects', and done with them.
    unsafe fn release_gone(&mut self, device: &impl MemoryDevice<M>) {
        self.library.read_gone(&mut self.gone);
        if !self.gone.is_empty() {
            self.count();
        }
        while let Some(name) = self.gone.pop() {
            let memory = self.objects.take(name).or_else(|| self.own.pop());
            let memory = memory.expect("an object that went has to be known, or a block's own");
            // SAFETY: the library reports each object once, when no block is in it. The device is its, as the caller
            // says.
            unsafe { device.deallocate_memory(memory) };
        }
    }

    fn count(&mut self) {
        self.remaining = self.library.counts().remaining;
    }
}

impl<M> Drop for GpuAllocator<M> {
    fn drop(&mut self) {
        let counts = self.library.counts();
        // Some may be released, and wait since the device panicked.
        let objects = counts.held as usize + self.gone.len();
        if counts.blocks > 0 {
            report(&Dropped::Allocator { blocks: counts.blocks });
            self.library.each_block(|block| {
                let live = LiveBlock { name: self.names.take(block.key), ..place(block) };
                report(&Dropped::BlockOfAllocator(live));
            });
        } else if objects > 0 {
            report(&Dropped::WithoutCleanup { objects });
        }
        // The memory objects are lost to the device, and dropped as values. So that the library's memory is not lost
        // too, it releases them where no block is live.
        self.library.cleanup();
        self.library.read_gone(&mut self.gone);
        self.library.close();
    }
}

impl<M> Debug for GpuAllocator<M> {
    fn fmt(&self, formatter: &mut Formatter<'_>) -> std::fmt::Result {
        formatter
            .debug_struct("GpuAllocator")
            .field("memory_types", &self.memory_types)
            .field("max_allocation_size", &self.max_allocation_size)
            .field("remaining_allocations", &self.remaining)
            .field("shared_objects", &self.objects.len())
            .finish_non_exhaustive()
    }
}

/// Where a block lies, without its name.
fn place(block: &ffi::Block) -> LiveBlock {
    let &ffi::Block { key, user, size, object, offset, memory_type, .. } = block;
    LiveBlock { key, user, name: None, size, object, offset, memory_type }
}

#[cfg(test)]
mod tests {
    use super::*;
    use crate::types::{AllocationFlags, DeviceMapError, MappedMemoryRange, MemoryHeap};
    use crate::UsageFlags;
    use std::borrow::Cow;
    use std::cell::Cell;
    use std::panic::{catch_unwind, AssertUnwindSafe};
    use std::ptr::NonNull;

    const PROPS: MemoryPropertyFlags = MemoryPropertyFlags::HOST_VISIBLE;

    /// Grants all, and keeps no bytes. It counts what was made less what was freed.
    #[derive(Default)]
    struct Grants {
        held: Cell<u64>,
    }

    impl MemoryDevice<()> for Grants {
        unsafe fn allocate_memory(&self, _: u64, _: u32, _: AllocationFlags) -> Result<(), OutOfMemory> {
            self.held.set(self.held.get() + 1);
            Ok(())
        }
        unsafe fn deallocate_memory(&self, _: ()) {
            self.held.set(self.held.get() - 1);
        }
        unsafe fn map_memory(&self, _: &mut (), _: u64, _: u64) -> Result<NonNull<u8>, DeviceMapError> {
            Ok(NonNull::dangling())
        }
        unsafe fn unmap_memory(&self, _: &mut ()) {}
        unsafe fn invalidate_memory_ranges(&self, _: &[MappedMemoryRange<'_, ()>]) -> Result<(), OutOfMemory> {
            Ok(())
        }
        unsafe fn flush_memory_ranges(&self, _: &[MappedMemoryRange<'_, ()>]) -> Result<(), OutOfMemory> {
            Ok(())
        }
    }

    fn allocator(atom: u64, props: MemoryPropertyFlags) -> GpuAllocator<()> {
        let offered = DeviceProperties {
            memory_types: Cow::Owned(vec![MemoryType { heap: 0, props }]),
            memory_heaps: Cow::Borrowed(&[MemoryHeap { size: 1 << 40 }]),
            max_memory_allocation_count: 1000,
            max_memory_allocation_size: 1 << 36,
            non_coherent_atom_size: atom,
            buffer_device_address: false,
        };
        GpuAllocator::new(Config::i_am_potato(), offered)
    }

    /// The range that this crate flushes for bytes of a block is the library's.
    fn compare(allocator: &mut GpuAllocator<()>, block: &MemoryBlock<()>) {
        let size = block.size();
        for offset in [0, 1, 63, 64, 65, size / 2, size.saturating_sub(1)] {
            for len in [1, 2, 63, 64, 65, size / 3, size] {
                if offset >= size || len == 0 || len > size - offset {
                    continue;
                }
                let told = allocator.library.range_of(block.key(), offset, len);
                let found = block.whole_atoms(offset, len);
                assert_eq!(
                    (told.offset, told.size),
                    (found.start, found.end - found.start),
                    "{block:?} {offset} {len}"
                );
            }
        }
    }

    #[test]
    fn ranges_are_the_librarys() {
        let device = Grants::default();
        for atom in [1, 4, 64, 4096] {
            let mut allocator = allocator(atom, PROPS);
            let mut blocks = Vec::new();
            for (size, usage) in [(1, 0), (100, 0x10), (5000, 0), (5001, 0x10), (300_000, 0), (300_001, 0x10)] {
                let usage = UsageFlags::HOST_ACCESS | UsageFlags::from_bits_truncate(usage);
                let request = Request { size, align_mask: 0, usage, memory_types: 1 };
                // SAFETY: there is one device, which grants all that the allocator asks.
                blocks.push(unsafe { allocator.alloc(&device, request) }.unwrap());
            }
            for (offset, size) in [(0, 7), (1, 100), (65, 1), (100, 1 << 20), (u64::MAX - 100, 100)] {
                device.held.set(device.held.get() + 1);
                // SAFETY: the object, which has no bytes, ends with the range.
                blocks.push(unsafe { allocator.import_memory((), 0, PROPS, offset, size) });
            }
            for block in blocks {
                compare(&mut allocator, &block);
                // SAFETY: the block is this allocator's.
                unsafe { allocator.dealloc(&device, block) };
            }
            // SAFETY: there is one device.
            unsafe { allocator.cleanup(&device) };
            assert_eq!(device.held.get(), 0);
        }
    }

    fn question(kind: u32, offset: u64) -> ffi::Question {
        ffi::Question { kind, offset, size: 1, ..ffi::Question::default() }
    }

    /// A question that does not exist: what was made before is freed.
    #[test]
    fn a_fault_of_the_librarys_loses_nothing() {
        for wrong in [question(9, 0), question(ffi::MAP_MADE, 1)] {
            let device = Grants::default();
            let unwound = catch_unwind(AssertUnwindSafe(|| {
                let mut asked = Asked { device: &device, made: None };
                // SAFETY: the device grants all that it is asked. That the second question is wrong is what is tested.
                unsafe {
                    assert_eq!(asked.answer(&question(ffi::ALLOCATE, 0)), ffi::GRANTED);
                    assert_eq!(device.held.get(), 1);
                    asked.answer(&wrong);
                }
            }));
            assert!(unwound.is_err());
            assert_eq!(device.held.get(), 0);
        }
    }

    /// A block that the library does not know: its own object is freed.
    #[test]
    fn a_block_that_the_library_forgot() {
        let device = Grants::default();
        let mut allocator = allocator(1, PROPS);
        let request = Request { size: 1, align_mask: 0, usage: UsageFlags::HOST_ACCESS, memory_types: 1 };
        // SAFETY: there is one device, which grants all that the allocator asks.
        let block = unsafe { allocator.alloc_with_dedicated(&device, request, Dedicated::Required) }.unwrap();
        allocator.library.free(block.key()).unwrap();
        // SAFETY: the block is this allocator's. That it was given back is what is tested.
        let unwound = catch_unwind(AssertUnwindSafe(|| unsafe { allocator.dealloc(&device, block) }));
        assert!(unwound.is_err());
        assert_eq!(device.held.get(), 0);
    }

    /// Limits as this crate reports them are the library's.
    #[test]
    fn limits_are_the_librarys() {
        let size = 1 << 40;
        let mut allocator = allocator(1, PROPS);
        for limit in [size, 0, 1, size - 1, size + 1, u64::MAX, 1000] {
            allocator.set_heap_limit(0, limit);
            let counts = allocator.library.heap_counts(0);
            assert_eq!((allocator.heap_limit(0), counts.budget), (counts.limit, counts.limit));
            assert_eq!((counts.limit, counts.used, counts.used_high), (limit.min(size), 0, 0));
        }
    }

    /// More objects are released at once than are read at once.
    #[test]
    fn all_names_are_read() {
        let device = Grants::default();
        let mut allocator = allocator(1, MemoryPropertyFlags::DEVICE_LOCAL);
        let request = Request { size: 100_000, align_mask: 0, usage: UsageFlags::TRANSIENT, memory_types: 1 };
        // SAFETY: there is one device, which grants all that the allocator asks.
        let blocks: Vec<_> = (0..200).map(|_| unsafe { allocator.alloc(&device, request) }.unwrap()).collect();
        for block in blocks {
            // Only the library is called, so that what is released waits to be read.
            let (key, _memory) = block.into_parts();
            allocator.library.free(key).unwrap();
        }
        // SAFETY: there is one device.
        unsafe { allocator.cleanup(&device) };
        assert_eq!((device.held.get(), allocator.remaining_allocations(), allocator.objects.len()), (0, 1000, 0));
    }
}
