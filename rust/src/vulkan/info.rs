//! What a program passes in: its device, and what memory a resource gets.

use super::intent::Intent;
use super::raw::{AllocationCallbacks, Device, GetInstanceProcAddr, Instance, PhysicalDevice, API_VERSION_1_1};
use crate::flags::flags;
use crate::{Dedicated, MemoryPropertyFlags, UsageFlags};
use std::ffi::c_void;
use std::ptr::null;

flags! {
    /// What a program has enabled of its instance and device. Version 1.1 includes the first two.
    pub struct Enabled {
        /// `VK_KHR_get_physical_device_properties2` of the instance, and `VK_KHR_maintenance3`.
        const PROPERTIES2 = 0x01;

        /// `VK_KHR_get_memory_requirements2` and `VK_KHR_dedicated_allocation`.
        const DEDICATED_ALLOCATION = 0x02;

        /// `VK_EXT_memory_budget`. Needs [`PROPERTIES2`](Enabled::PROPERTIES2).
        const MEMORY_BUDGET = 0x04;

        /// The feature `bufferDeviceAddress`. Each memory object is then made for it.
        const DEVICE_ADDRESS = 0x08;
    }
}

/// A program's device, as it opened it. Zeros are defaults, except for the three handles and the function.
#[derive(Clone, Copy, Debug)]
pub struct DeviceInfo {
    /// The instance.
    pub instance: Instance,

    /// The physical device.
    pub physical_device: PhysicalDevice,

    /// The device.
    pub device: Device,

    /// Loads the functions: `vkGetInstanceProcAddr`.
    pub get_instance_proc_addr: Option<GetInstanceProcAddr>,

    /// The lesser of the version that the instance was created for and the one that the device offers, for instance
    /// `VK_API_VERSION_1_1` (`1 << 22 | 1 << 12`). 0 means 1.0. Nothing above 1.1 is loaded, so that a higher version
    /// than the lesser is refused ([`Error::Missing`](super::Error::Missing)) only where functions of 1.1 are missing.
    pub api_version: u32,

    /// What was enabled besides that version.
    pub enabled: Enabled,

    /// Passed to each Vulkan call that takes them: also where an imported object is freed, and where a resource of the
    /// program's is destroyed. Those have to be made with compatible callbacks then, and with none where this is
    /// `None`.
    pub callbacks: Option<AllocationCallbacks>,

    /// How many memory objects the program makes itself, at most, outside this allocator, including those of another
    /// allocator: all count for the device (VUID-vkAllocateMemory-maxMemoryAllocationCount-04101).
    pub other_objects: u32,
}

impl Default for DeviceInfo {
    fn default() -> Self {
        DeviceInfo {
            instance: Instance(0),
            physical_device: PhysicalDevice(0),
            device: Device(0),
            get_instance_proc_addr: None,
            api_version: 0,
            enabled: Enabled::empty(),
            callbacks: None,
            other_objects: 0,
        }
    }
}

impl DeviceInfo {
    /// Whether the version is valid. Its upper three bits are a variant, which in Vulkan is 0.
    pub(crate) fn has_version(&self) -> bool {
        self.api_version == 0 || (self.api_version >> 29 == 0 && self.api_version >= 1 << 22)
    }

    /// Whether all of that may be used. Version 1.1 has the first two.
    pub(crate) fn has(&self, feature: Enabled) -> bool {
        let of_version = match self.api_version {
            API_VERSION_1_1.. => Enabled::PROPERTIES2 | Enabled::DEDICATED_ALLOCATION,
            _ => Enabled::empty(),
        };
        (self.enabled | of_version).contains(feature)
    }
}

/// What memory a resource gets. Zeros are defaults. A [`UsageFlags`] or an [`Intent`] becomes one by itself.
///
/// ```
/// # use wallthyme::vulkan::{Intent, MemoryRequest};
/// # use wallthyme::{Dedicated, MemoryPropertyFlags, UsageFlags};
/// let staging = MemoryRequest { mapped: true, ..Intent::auto().sequential_write().into() };
/// let target = MemoryRequest { dedicated: Some(Dedicated::Preferred), ..UsageFlags::FAST_DEVICE_ACCESS.into() };
/// let read_back = MemoryRequest {
///     required: MemoryPropertyFlags::HOST_VISIBLE,
///     preferred: MemoryPropertyFlags::HOST_CACHED,
///     ..MemoryRequest::default()
/// };
/// ```
#[derive(Clone, Copy, Debug)]
pub struct MemoryRequest {
    /// What it is used for. The empty set means [`UsageFlags::FAST_DEVICE_ACCESS`]. A buffer whose own usage has the
    /// shader device address gets [`UsageFlags::DEVICE_ADDRESS`] by itself.
    pub usage: UsageFlags,

    /// What it is for, in place of a usage: only [`UsageFlags::TRANSIENT`] and [`UsageFlags::DEVICE_ADDRESS`] may stand
    /// next to it ([`Error::UsageWithIntent`](super::Error::UsageWithIntent)). Its memory types follow from the
    /// resource's create-info, so only [`create_buffer`](super::Allocator::create_buffer) and
    /// [`create_image`](super::Allocator::create_image) take it
    /// ([`Error::NoCreateInfo`](super::Error::NoCreateInfo)).
    pub intent: Option<Intent>,

    /// The properties without which a memory type does not serve. `LAZILY_ALLOCATED` and `PROTECTED` are refused here
    /// and in `preferred` ([`Error::ForbiddenProperties`](super::Error::ForbiddenProperties)).
    pub required: MemoryPropertyFlags,

    /// The properties of which a better memory type has more: such types are tried first, each alone, as for an
    /// [`Intent`]. Of equal ones the usage decides ([`Allocator::candidates`](super::Allocator::candidates)).
    pub preferred: MemoryPropertyFlags,

    /// The permitted memory types: bit i for the type of index i. 0 permits all. Types that the resource's requirements
    /// exclude, or that are outside [`Device::known_types`](super::Device::known_types), are left out.
    pub memory_types: u32,

    /// The alignment in bytes that the block's offset has at least: a power of two
    /// ([`Error::BadAlignment`](super::Error::BadAlignment)), or 0 for that of the requirements.
    pub min_alignment: u64,

    /// Whether it must be a memory object of its own. Raised to what the driver asks for, and to
    /// [`Dedicated::Required`] where no shared object can be made
    /// ([`create_buffer`](super::Allocator::create_buffer)).
    pub dedicated: Option<Dedicated>,

    /// Whether the block stays mapped as long as it lives ([`MemoryBlock::mapped`](crate::MemoryBlock::mapped)). Where
    /// its memory is not host-visible it is not. In a shared object this costs nothing, as such an object is mapped
    /// anyway. An object of its own costs a `vkMapMemory`, and address space as long as it lives; a refused mapping
    /// counts as a refused object of that memory type. For an access now and then
    /// [`write`](super::Allocator::write), [`read`](super::Allocator::read) or [`map`](super::Allocator::map) are
    /// enough.
    pub mapped: bool,

    /// Whether nothing is bound. The memory is still allocated for the resource, which the program binds at offset 0
    /// ([`Device::bind_buffer`](super::Device::bind_buffer), [`Device::bind_image`](super::Device::bind_image)).
    pub dont_bind: bool,

    /// Structs that are chained to `VkMemoryAllocateInfo` exactly where the memory object will hold only this block: a
    /// priority, an export. Or null. A struct that must be chained needs [`Dedicated::Required`].
    /// `VkMemoryDedicatedAllocateInfo` and `VkMemoryAllocateFlagsInfo` are refused here: this side chains them.
    pub next: *const c_void,
}

impl MemoryRequest {
    /// A request of this usage, for any memory type.
    pub const fn new(usage: UsageFlags) -> Self {
        MemoryRequest {
            usage,
            intent: None,
            required: MemoryPropertyFlags::empty(),
            preferred: MemoryPropertyFlags::empty(),
            memory_types: 0,
            min_alignment: 0,
            dedicated: None,
            mapped: false,
            dont_bind: false,
            next: null(),
        }
    }
}

impl Default for MemoryRequest {
    fn default() -> Self {
        MemoryRequest::new(UsageFlags::empty())
    }
}

impl From<UsageFlags> for MemoryRequest {
    fn from(usage: UsageFlags) -> Self {
        MemoryRequest::new(usage)
    }
}

impl From<Intent> for MemoryRequest {
    fn from(intent: Intent) -> Self {
        MemoryRequest { intent: Some(intent), ..MemoryRequest::default() }
    }
}
