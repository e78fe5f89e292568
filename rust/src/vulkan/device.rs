//! A device of Vulkan, with the functions that memory, buffers and images need.

use super::calls::Resource;
use super::device_for::DeviceFor;
use super::error::Error;
use super::functions::Functions;
use super::info::{DeviceInfo, Enabled};
use super::raw::{self, AllocationCallbacks, Memory, Tiling};
use crate::types::{DeviceProperties, MemoryHeap, MemoryPropertyFlags, MemoryType};
use crate::{Config, Dedicated, GpuAllocator, MemoryBlock};
use std::fmt::{Debug, Formatter};
use std::ptr::{from_mut, from_ref, null};

/// A device of Vulkan, as a [`MemoryDevice`](crate::MemoryDevice). A clone is the same device.
///
/// It answers [`OutOfDeviceMemory`](crate::OutOfMemory::OutOfDeviceMemory) where the driver returned
/// `VK_ERROR_OUT_OF_DEVICE_MEMORY` or `VK_ERROR_TOO_MANY_OBJECTS`: an allocation goes on with its next memory type. It
/// answers [`OutOfHostMemory`](crate::OutOfMemory::OutOfHostMemory) for any other error, which ends the allocation. A
/// [`DeviceFor`] keeps the driver's own result.
///
/// It is `Send` and `Sync`. Its handles are numbers, and Vulkan lets any thread use a `VkDevice`. Where a call must be
/// the only one on an object (the specification's "externally synchronized"), a `&mut` or a value ensures it.
#[derive(Clone)]
pub struct Device {
    pub(crate) call: Functions,
    pub(crate) handle: raw::Device,
    physical: raw::PhysicalDevice,
    callbacks: Option<AllocationCallbacks>,
    enabled: Enabled,
    memory: raw::MemoryProperties,
    known_types: u32,
    is_integrated: bool,
    limits: raw::Limits,
    max_allocation_size: u64,
    other_objects: u32,
}

// SAFETY: Vulkan lets any thread use these handles: no call that is made here requires that one thread at a time uses
// the device ("externally synchronized" is what a call does to a memory object, a buffer or an image). Handles are
// numbers, and functions belong to no thread. The caller of `load` promises that the callbacks and their value may be
// used from any thread.
unsafe impl Send for Device {}

// SAFETY: as above; nothing of it changes after `load`.
unsafe impl Sync for Device {}

/// What a buffer or an image asks of its memory.
#[derive(Clone, Copy, Debug, PartialEq, Eq)]
pub struct Requirements {
    /// Its size in bytes.
    pub size: u64,
    /// Its alignment in bytes: a power of two.
    pub alignment: u64,
    /// Bit i permits the memory type of index i.
    pub memory_types: u32,
    /// Whether the driver wants a memory object of its own for it (`VkMemoryDedicatedRequirements`). `None` where the
    /// driver cannot be asked ([`Enabled::DEDICATED_ALLOCATION`]).
    pub dedicated: Option<Dedicated>,
    /// Whether it is an image whose tiling is not linear, and so wants an optimal block
    /// ([`GpuAllocator::alloc_optimal`]).
    pub optimal: bool,
}

impl Device {
    /// Loads the functions of a device, and reads what it offers.
    ///
    /// # Errors
    ///
    /// [`Error::Missing`]: a handle is null, or a function cannot be loaded. [`Error::NoBudget`]:
    /// [`Enabled::MEMORY_BUDGET`] without [`Enabled::PROPERTIES2`] or version 1.1. Nothing is held then.
    ///
    /// # Safety
    ///
    /// * The handles are live and belong together. They outlive each call of this value and its clones, including the
    ///   drop of an [`Allocator`](super::Allocator) over it.
    /// * `get_instance_proc_addr` is `vkGetInstanceProcAddr`, or does what it does, for that instance.
    /// * What `api_version`, `enabled` and `other_objects` say is true.
    /// * The callbacks are valid in Vulkan, and may be called from each thread that uses this value.
    pub unsafe fn load(info: &DeviceInfo) -> Result<Device, Error> {
        for (is_null, what) in [
            (info.instance.0 == 0, "instance"),
            (info.physical_device.0 == 0, "physical_device"),
            (info.device.0 == 0, "device"),
        ] {
            if is_null {
                return Err(Error::Missing(what));
            }
        }
        if !info.has_version() {
            return Err(Error::Version);
        }
        if info.enabled.contains(Enabled::MEMORY_BUDGET) && !info.has(Enabled::PROPERTIES2) {
            return Err(Error::NoBudget);
        }
        // SAFETY: as the caller says.
        let call = unsafe { Functions::load(info) }?;
        let mut memory = raw::MemoryProperties::default();
        // SAFETY: the physical device is live, and the struct lives until the call ends.
        unsafe { (call.get_memory_properties)(info.physical_device, &mut memory) };
        // SAFETY: as the caller says.
        let (properties, max_allocation_size) = unsafe { properties_of(&call, info.physical_device) };
        Ok(Device {
            call,
            handle: info.device,
            physical: info.physical_device,
            callbacks: info.callbacks,
            enabled: info.enabled,
            memory,
            known_types: known_types(&memory),
            is_integrated: properties.device_type == raw::INTEGRATED_GPU,
            limits: properties.limits,
            max_allocation_size,
            other_objects: info.other_objects,
        })
    }

    /// What the physical device offers an allocator: each heap and each memory type, at its index. For a type outside
    /// [`known_types`](Device::known_types) it lists the named properties; leave such a type out of
    /// [`Request::memory_types`](crate::Request::memory_types).
    ///
    /// Where [`Enabled::PROPERTIES2`] is missing, `max_memory_allocation_size` is 2^64 - 1, since the device does not
    /// say.
    pub fn device_properties(&self) -> DeviceProperties<'static> {
        let types = (0..).zip(self.memory_types());
        let types = types.map(|(index, of)| MemoryType { heap: of.heap_index, props: self.props_of(index) });
        let heaps = self.memory_heaps().iter().map(|of| MemoryHeap { size: of.size });
        DeviceProperties {
            memory_types: types.collect(),
            memory_heaps: heaps.collect(),
            max_memory_allocation_count: self.limits.max_memory_allocation_count.saturating_sub(self.other_objects),
            max_memory_allocation_size: self.max_allocation_size,
            non_coherent_atom_size: self.limits.non_coherent_atom_size,
            buffer_device_address: self.enabled.contains(Enabled::DEVICE_ADDRESS),
        }
    }

    /// The memory types that have no property outside [`MemoryPropertyFlags`]: bit i for the type of index i. Another
    /// type may need a feature (VUID-vkAllocateMemory-deviceCoherentMemory-02790). So
    /// [`allocate_memory`](crate::MemoryDevice::allocate_memory) refuses it, with
    /// [`OutOfDeviceMemory`](crate::OutOfMemory::OutOfDeviceMemory).
    pub fn known_types(&self) -> u32 {
        self.known_types
    }

    /// `VkPhysicalDeviceLimits::bufferImageGranularity` in bytes, for [`GpuAllocator::with_granularity`] and
    /// [`GpuAllocator::with_sharing`].
    pub fn buffer_image_granularity(&self) -> u64 {
        self.limits.buffer_image_granularity
    }

    /// Sizes for an allocator of this device, as in `wtv_default_config`. H is the size of the largest device-local
    /// heap (of the largest heap, where none is device-local). U is H / 1,024, rounded down to a power of two, at least
    /// 64 KiB and at most 8 MiB. Objects of their own begin at U / 8 where preferred, and at 16 U for transient
    /// requests; free lists' chunks grow from U to 16 U. With [`Sharing::Fit`](crate::Sharing::Fit) there are fit
    /// chunks from U to 4 U, and objects of their own over U. With [`Sharing::Buddy`](crate::Sharing::Buddy) there are
    /// buddy chunks from U on, with blocks of at least 1 KiB, and objects of their own from 4 U on. From 8 GiB on this
    /// is [`Config::i_am_prototyping`].
    pub fn default_config(&self) -> Config {
        let local = self.memory_heaps().iter().filter(|heap| heap.flags & raw::HEAP_DEVICE_LOCAL != 0);
        let largest = local.map(|heap| heap.size).max();
        let largest = largest.or_else(|| self.memory_heaps().iter().map(|heap| heap.size).max()).unwrap_or(0);
        let unit = (largest / 1024).clamp(64 << 10, 8 << 20);
        let unit = 1 << unit.ilog2();
        Config {
            dedicated_threshold: 4 * unit,
            preferred_dedicated_threshold: unit / 8,
            transient_dedicated_threshold: 16 * unit,
            starting_free_list_chunk: unit,
            final_free_list_chunk: 16 * unit,
            minimal_buddy_size: 1024,
            initial_buddy_dedicated_size: unit,
        }
    }

    /// What was enabled besides the version.
    pub fn enabled(&self) -> Enabled {
        self.enabled
    }

    /// Reads the budgets of `VK_EXT_memory_budget`, and limits each heap of the allocator by its own. The limit is
    /// `heapBudget` less what the process holds outside the allocator (`heapUsage` less what the allocator holds, at
    /// least 0), at least 0. Call it about once a frame. A limit below what is held refuses new objects and frees
    /// nothing ([`GpuAllocator::set_heap_limit`]).
    ///
    /// # Errors
    ///
    /// [`Error::NoBudget`], without [`Enabled::MEMORY_BUDGET`], or where the driver fills in no budget, for instance
    /// because it lacks the extension. Each limit is then unchanged.
    ///
    /// # Panics
    ///
    /// Where the allocator was made for fewer heaps than this device has. Some limits may be set then.
    pub fn update_budget(&self, allocator: &mut GpuAllocator<Memory>) -> Result<(), Error> {
        let enabled = self.enabled.contains(Enabled::MEMORY_BUDGET);
        let call = self.call.properties2.filter(|_| enabled).ok_or(Error::NoBudget)?;
        let mut budgets = raw::MemoryBudgetProperties::default();
        let mut properties = raw::MemoryProperties2 { p_next: from_mut(&mut budgets).cast(), ..Default::default() };
        // SAFETY: the physical device is live, as the caller of `load` says, and the structs live until the call ends.
        unsafe { (call.get_memory_properties2)(self.physical, &mut properties) };
        // The budget of a heap is never 0 where the extension is there.
        if budgets.heap_budget[0] == 0 {
            return Err(Error::NoBudget);
        }
        for heap in 0..self.memory_heaps().len() {
            let (usage, budget) = (budgets.heap_usage[heap], budgets.heap_budget[heap]);
            let others = usage.saturating_sub(allocator.heap_used(heap as u32));
            allocator.set_heap_limit(heap as u32, budget.saturating_sub(others));
        }
        Ok(())
    }

    /// This device, for an allocation for a buffer.
    ///
    /// # Safety
    ///
    /// The buffer is a live one of this device, as long as the value is used.
    pub unsafe fn for_buffer(&self, buffer: raw::Buffer) -> DeviceFor<'_> {
        DeviceFor::new(self, Resource::Buffer(buffer))
    }

    /// This device, for an allocation for an image.
    ///
    /// # Safety
    ///
    /// The image is a live one of this device, as long as the value is used.
    pub unsafe fn for_image(&self, image: raw::Image) -> DeviceFor<'_> {
        DeviceFor::new(self, Resource::Image(image))
    }

    /// A buffer's requirements for its memory.
    ///
    /// # Safety
    ///
    /// The buffer is a live one of this device.
    pub unsafe fn buffer_requirements(&self, buffer: raw::Buffer) -> Requirements {
        // SAFETY: as the caller says.
        unsafe { self.requirements(Resource::Buffer(buffer), false) }
    }

    /// The requirements of an image with this tiling for its memory.
    ///
    /// # Safety
    ///
    /// The image is a live one of this device, has that tiling, and is not disjoint.
    pub unsafe fn image_requirements(&self, image: raw::Image, tiling: Tiling) -> Requirements {
        // SAFETY: as the caller says.
        unsafe { self.requirements(Resource::Image(image), tiling != Tiling::LINEAR) }
    }

    /// Binds a buffer to a block, from `offset` on, counted in bytes from the block's start.
    ///
    /// # Errors
    ///
    /// [`Error::OtherResource`]: the block's object was made for another resource, or `offset` is not 0 there
    /// ([`MemoryBlock::made_for`]). [`Error::Driver`]. The block is unchanged.
    ///
    /// # Safety
    ///
    /// * The buffer is a live one of this device, has no memory, and no other thread uses it.
    /// * The block is of this device, and serves the buffer's requirements from `offset` on. Several resources may be
    ///   bound to one block, where each has bytes of its own.
    /// * Where the block was imported, and the program made its object for one resource, this is that one, and the
    ///   block with `offset` begins where the object does. Nobody checks that.
    pub unsafe fn bind_buffer(
        &self,
        buffer: raw::Buffer,
        block: &MemoryBlock<Memory>,
        offset: u64,
    ) -> Result<(), Error> {
        // SAFETY: as the caller says.
        unsafe { self.bind(Resource::Buffer(buffer), block, offset) }
    }

    /// Binds an image to a block, from `offset` on, counted in bytes from the block's start.
    ///
    /// # Errors
    ///
    /// As for [`bind_buffer`](Device::bind_buffer).
    ///
    /// # Safety
    ///
    /// * The image is a live one of this device, neither sparse nor disjoint, has no memory, and no other thread uses
    ///   it.
    /// * The block is of this device, and serves the image's requirements from `offset` on. An image whose tiling is
    ///   not linear wants an optimal block ([`GpuAllocator::alloc_optimal`], or [`Requirements::optimal`]), a linear
    ///   one a block that is not.
    /// * Several resources in one block, and an imported one, are as for `bind_buffer`. There a linear resource and an
    ///   image that is not linear have no page of `bufferImageGranularity` together.
    pub unsafe fn bind_image(&self, image: raw::Image, block: &MemoryBlock<Memory>, offset: u64) -> Result<(), Error> {
        // SAFETY: as the caller says.
        unsafe { self.bind(Resource::Image(image), block, offset) }
    }
}

impl Device {
    /// Null where there are none. The address is valid while this value stays in its place, and so for a call.
    pub(crate) fn callbacks(&self) -> *const AllocationCallbacks {
        self.callbacks.as_ref().map_or(null(), from_ref)
    }

    /// Whether a memory object can be made for a resource alone.
    pub(crate) fn has_owners(&self) -> bool {
        self.call.requirements2.is_some()
    }

    /// Whether it shares the host's memory (`VK_PHYSICAL_DEVICE_TYPE_INTEGRATED_GPU`).
    pub(crate) fn is_integrated(&self) -> bool {
        self.is_integrated
    }

    /// The named properties of a memory type; of one that is not there it has none.
    pub(crate) fn props_of(&self, memory_type: u32) -> MemoryPropertyFlags {
        let flags = self.memory_types().get(memory_type as usize).map_or(0, |of| of.property_flags);
        MemoryPropertyFlags::from_bits_truncate(flags as u8)
    }

    fn memory_types(&self) -> &[raw::MemoryType] {
        types_of(&self.memory)
    }

    fn memory_heaps(&self) -> &[raw::MemoryHeap] {
        &self.memory.memory_heaps[..(self.memory.memory_heap_count as usize).min(raw::MAX_HEAPS)]
    }
}

impl Debug for Device {
    fn fmt(&self, formatter: &mut Formatter<'_>) -> std::fmt::Result {
        formatter
            .debug_struct("Device")
            .field("handle", &self.handle)
            .field("enabled", &self.enabled)
            .field("memory_types", &self.memory_types())
            .field("memory_heaps", &self.memory_heaps())
            .finish_non_exhaustive()
    }
}

fn types_of(memory: &raw::MemoryProperties) -> &[raw::MemoryType] {
    &memory.memory_types[..(memory.memory_type_count as usize).min(raw::MAX_TYPES)]
}

fn known_types(memory: &raw::MemoryProperties) -> u32 {
    let named = u32::from(MemoryPropertyFlags::all().bits());
    let is_known = |of: &raw::MemoryType| of.property_flags & !named == 0;
    types_of(memory).iter().enumerate().map(|(index, of)| u32::from(is_known(of)) << index).sum()
}

/// The properties of a physical device, and the largest size of an allocation.
///
/// # Safety
///
/// The physical device is live, and the functions are its instance's.
unsafe fn properties_of(call: &Functions, physical: raw::PhysicalDevice) -> (raw::Properties, u64) {
    let mut sizes = raw::Maintenance3Properties { max_memory_allocation_size: u64::MAX, ..Default::default() };
    let mut properties = raw::Properties2 { p_next: from_mut(&mut sizes).cast(), ..Default::default() };
    // SAFETY: as the caller says; the structs live until the call ends.
    unsafe {
        match call.properties2 {
            Some(call) => (call.get_properties2)(physical, &mut properties),
            None => (call.get_properties)(physical, &mut properties.properties),
        }
    }
    (properties.properties, sizes.max_memory_allocation_size)
}
