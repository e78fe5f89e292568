//! Handles and structs of Vulkan, laid out as its headers have them: those that the calls of this module take.
//!
//! A handle is a number here, so that each binding's handle can become one, and back. A create info has the layout of
//! Vulkan's, so a reference to another binding's can be cast to a reference to one of these. Zeros are defaults.

use std::ffi::{c_char, c_void};

/// A function of Vulkan, before it is cast to its type: `PFN_vkVoidFunction`.
pub type VoidFunction = unsafe extern "system" fn();

/// `PFN_vkGetInstanceProcAddr`.
pub type GetInstanceProcAddr = unsafe extern "system" fn(Instance, *const c_char) -> Option<VoidFunction>;

/// Declares handles. 0 is `VK_NULL_HANDLE`.
macro_rules! handles {
    ($( $(#[$attribute:meta])* struct $Name:ident($Number:ty); )*) => {
        $(
            $(#[$attribute])*
            #[derive(Clone, Copy, Debug, Default, PartialEq, Eq, Hash)]
            #[repr(transparent)]
            pub struct $Name(pub $Number);
        )*
    };
}

handles! {
    /// A `VkInstance`, the address behind it.
    struct Instance(usize);

    /// A `VkPhysicalDevice`, the address behind it.
    struct PhysicalDevice(usize);

    /// A `VkDevice`, the address behind it.
    struct Device(usize);

    /// A `VkDeviceMemory`.
    struct Memory(u64);

    /// A `VkBuffer`.
    struct Buffer(u64);

    /// A `VkImage`.
    struct Image(u64);
}

/// Declares structs of Vulkan, each after its name there. A number in brackets is `sType`; `pNext` follows it. In C the
/// fields have the same names, in camel case. Those that begin with an underscore stand for what nobody reads.
macro_rules! structs {
    ($( $(#[$attribute:meta])* $visible:vis struct $Name:ident = $c_name:ident $([$s_type:literal])? {
        $( $(#[$of_field:meta])* $field:ident: $Type:ty, )*
    } )*) => {
        $(
            structs! { @one $(#[$attribute])* $visible struct $Name $([$s_type])? {
                $( $(#[$of_field])* $field: $Type, )*
            } }
        )*

        /// Of each struct its name in C, its size, and the name and offset of each field.
        #[cfg(test)]
        const STRUCTS: &[(&str, usize, &[(&str, usize)])] = &[$(
            (
                stringify!($c_name),
                std::mem::size_of::<$Name>(),
                &[
                    $( (stringify!($field), std::mem::offset_of!($Name, $field)), )*
                ],
            ),
        )*];

        /// Of each struct that has an `sType` its name in C, that number, and the offsets of `sType` and `pNext`.
        #[cfg(test)]
        const TYPES: &[(&str, i32, [usize; 2])] = &[$( $(
            (
                stringify!($c_name),
                $s_type,
                [std::mem::offset_of!($Name, s_type), std::mem::offset_of!($Name, p_next)],
            ),
        )? )*];
    };

    (@one $(#[$attribute:meta])* $visible:vis struct $Name:ident {
        $( $(#[$of_field:meta])* $field:ident: $Type:ty, )*
    }) => {
        $(#[$attribute])*
        #[derive(Clone, Copy, Debug)]
        #[repr(C)]
        $visible struct $Name {
            $( $(#[$of_field])* pub $field: $Type, )*
        }

        impl Default for $Name {
            fn default() -> Self {
                // SAFETY: numbers, raw pointers, optional functions, and handles, structs and arrays of those may be
                // zero.
                unsafe { std::mem::zeroed() }
            }
        }
    };

    (@one $(#[$attribute:meta])* $visible:vis struct $Name:ident [$s_type:literal] {
        $( $(#[$of_field:meta])* $field:ident: $Type:ty, )*
    }) => {
        $(#[$attribute])*
        #[derive(Clone, Copy, Debug)]
        #[repr(C)]
        $visible struct $Name {
            /// Which struct this is (`VkStructureType`). The default is right.
            pub s_type: i32,
            /// The struct that extends this one, or null.
            pub p_next: *const c_void,
            $( $(#[$of_field])* pub $field: $Type, )*
        }

        impl $Name {
            /// Its `VkStructureType`.
            #[allow(dead_code, reason = "a few are compared")]
            pub(crate) const TYPE: i32 = $s_type;
        }

        impl Default for $Name {
            fn default() -> Self {
                // SAFETY: as for structs without `s_type`.
                let mut zeros: Self = unsafe { std::mem::zeroed() };
                zeros.s_type = $s_type;
                zeros
            }
        }
    };
}

structs! {
    /// A `VkBufferCreateInfo`.
    pub struct BufferCreateInfo = VkBufferCreateInfo[12] {
        /// `VkBufferCreateFlags`. Sparse buffers are refused.
        flags: u32,
        /// Its size in bytes.
        size: u64,
        /// `VkBufferUsageFlags`.
        usage: u32,
        /// `VkSharingMode`.
        sharing_mode: i32,
        /// How many families follow.
        queue_family_index_count: u32,
        /// The queue families that share it, where `sharing_mode` is `VK_SHARING_MODE_CONCURRENT`.
        p_queue_family_indices: *const u32,
    }

    /// A `VkExtent3D`, in texels.
    pub struct Extent3D = VkExtent3D {
        /// At least 1.
        width: u32,
        /// At least 1.
        height: u32,
        /// At least 1.
        depth: u32,
    }

    /// A `VkImageCreateInfo`.
    pub struct ImageCreateInfo = VkImageCreateInfo[14] {
        /// `VkImageCreateFlags`. Sparse and disjoint images are refused.
        flags: u32,
        /// `VkImageType`.
        image_type: i32,
        /// `VkFormat`.
        format: i32,
        /// Its extent.
        extent: Extent3D,
        /// At least 1.
        mip_levels: u32,
        /// At least 1.
        array_layers: u32,
        /// `VkSampleCountFlagBits`: `VK_SAMPLE_COUNT_1_BIT` is 1.
        samples: u32,
        /// `VkImageTiling`; 0 is `VK_IMAGE_TILING_OPTIMAL`.
        tiling: Tiling,
        /// `VkImageUsageFlags`.
        usage: u32,
        /// `VkSharingMode`.
        sharing_mode: i32,
        /// How many families follow.
        queue_family_index_count: u32,
        /// The queue families that share it, where `sharing_mode` is `VK_SHARING_MODE_CONCURRENT`.
        p_queue_family_indices: *const u32,
        /// `VkImageLayout`.
        initial_layout: i32,
    }

    /// A `VkAllocationCallbacks`: functions for the host memory that the driver takes.
    pub struct AllocationCallbacks = VkAllocationCallbacks {
        /// A value that each of the functions gets.
        p_user_data: *mut c_void,
        /// `PFN_vkAllocationFunction`.
        pfn_allocation: Option<unsafe extern "system" fn(*mut c_void, usize, usize, i32) -> *mut c_void>,
        /// `PFN_vkReallocationFunction`.
        pfn_reallocation:
            Option<unsafe extern "system" fn(*mut c_void, *mut c_void, usize, usize, i32) -> *mut c_void>,
        /// `PFN_vkFreeFunction`.
        pfn_free: Option<unsafe extern "system" fn(*mut c_void, *mut c_void)>,
        /// `PFN_vkInternalAllocationNotification`, or none.
        pfn_internal_allocation: Option<unsafe extern "system" fn(*mut c_void, usize, i32, i32)>,
        /// `PFN_vkInternalFreeNotification`, or none.
        pfn_internal_free: Option<unsafe extern "system" fn(*mut c_void, usize, i32, i32)>,
    }

    pub(crate) struct MemoryRequirements = VkMemoryRequirements {
        size: u64,
        alignment: u64,
        memory_type_bits: u32,
    }

    pub(crate) struct MemoryRequirements2 = VkMemoryRequirements2[1000146003] {
        memory_requirements: MemoryRequirements,
    }

    pub(crate) struct MemoryDedicatedRequirements = VkMemoryDedicatedRequirements[1000127000] {
        prefers_dedicated_allocation: u32,
        requires_dedicated_allocation: u32,
    }

    pub(crate) struct BufferMemoryRequirementsInfo2 = VkBufferMemoryRequirementsInfo2[1000146000] {
        buffer: Buffer,
    }

    pub(crate) struct ImageMemoryRequirementsInfo2 = VkImageMemoryRequirementsInfo2[1000146001] {
        image: Image,
    }

    pub(crate) struct MemoryAllocateInfo = VkMemoryAllocateInfo[5] {
        allocation_size: u64,
        memory_type_index: u32,
    }

    pub(crate) struct MemoryDedicatedAllocateInfo = VkMemoryDedicatedAllocateInfo[1000127001] {
        image: Image,
        buffer: Buffer,
    }

    pub(crate) struct MemoryAllocateFlagsInfo = VkMemoryAllocateFlagsInfo[1000060000] {
        flags: u32,
        device_mask: u32,
    }

    pub(crate) struct MappedMemoryRange = VkMappedMemoryRange[6] {
        memory: Memory,
        offset: u64,
        size: u64,
    }

    pub(crate) struct MemoryType = VkMemoryType {
        property_flags: u32,
        heap_index: u32,
    }

    pub(crate) struct MemoryHeap = VkMemoryHeap {
        size: u64,
        flags: u32,
    }

    pub(crate) struct MemoryProperties = VkPhysicalDeviceMemoryProperties {
        memory_type_count: u32,
        memory_types: [MemoryType; MAX_TYPES],
        memory_heap_count: u32,
        memory_heaps: [MemoryHeap; MAX_HEAPS],
    }

    pub(crate) struct MemoryProperties2 = VkPhysicalDeviceMemoryProperties2[1000059006] {
        memory_properties: MemoryProperties,
    }

    pub(crate) struct MemoryBudgetProperties = VkPhysicalDeviceMemoryBudgetPropertiesEXT[1000237000] {
        heap_budget: [u64; MAX_HEAPS],
        heap_usage: [u64; MAX_HEAPS],
    }

    /// Three of its limits, with what lies between.
    pub(crate) struct Limits = VkPhysicalDeviceLimits {
        _before: [u32; 9],
        max_memory_allocation_count: u32,
        _between: u64,
        buffer_image_granularity: u64,
        _behind: [u64; 55],
        non_coherent_atom_size: u64,
    }

    /// Its type and its limits, with what lies before and between.
    pub(crate) struct Properties = VkPhysicalDeviceProperties {
        _before: [u32; 4],
        device_type: i32,
        _between: [u32; 68],
        limits: Limits,
        _sparse: [u32; 5],
    }

    pub(crate) struct Properties2 = VkPhysicalDeviceProperties2[1000059001] {
        properties: Properties,
    }

    pub(crate) struct Maintenance3Properties = VkPhysicalDeviceMaintenance3Properties[1000168000] {
        max_per_set_descriptors: u32,
        max_memory_allocation_size: u64,
    }
}

/// `VkBufferUsageFlags2CreateInfo` of Vulkan 1.4 and `VK_KHR_maintenance5`, whose usage stands in place of that of the
/// `VkBufferCreateInfo`. It is not among the structs above, as older headers lack it.
#[derive(Clone, Copy, Debug)]
#[repr(C)]
pub(crate) struct BufferUsageFlags2CreateInfo {
    pub(crate) s_type: i32,
    pub(crate) p_next: *const c_void,
    pub(crate) usage: u64,
}

impl BufferUsageFlags2CreateInfo {
    pub(crate) const TYPE: i32 = 1_000_470_006;
}

/// How each struct of a chain begins: `VkBaseInStructure`.
#[repr(C)]
struct Link {
    s_type: i32,
    p_next: *const Link,
}

/// The structs of a chain, each with its type.
///
/// # Safety
///
/// `first` is null or the first of a chain, whose structs live as long as this is used.
pub(crate) unsafe fn chain(first: *const c_void) -> impl Iterator<Item = (i32, *const c_void)> {
    let mut rest = first.cast::<Link>();
    std::iter::from_fn(move || {
        let at = rest;
        // SAFETY: each of a chain begins by its type and its next, as the caller says, and a null ends it.
        let link = unsafe { at.as_ref() }?;
        rest = link.p_next;
        Some((link.s_type, at.cast()))
    })
}

impl BufferCreateInfo {
    /// Its usage: that of a `VkBufferUsageFlags2CreateInfo` in its chain, where there is one.
    ///
    /// # Safety
    ///
    /// `p_next` is null or the first of a chain, whose structs live.
    pub(crate) unsafe fn usage_of_chain(&self) -> u64 {
        // SAFETY: as the caller says.
        let chained = unsafe { chain(self.p_next) }.find(|of| of.0 == BufferUsageFlags2CreateInfo::TYPE);
        // SAFETY: a struct of that type is this one, and lives, as the caller says.
        chained.map_or(self.usage.into(), |(_, at)| unsafe { (*at.cast::<BufferUsageFlags2CreateInfo>()).usage })
    }
}

/// `VkImageTiling`.
#[derive(Clone, Copy, Debug, Default, PartialEq, Eq, Hash)]
#[repr(transparent)]
pub struct Tiling(pub i32);

impl Tiling {
    /// `VK_IMAGE_TILING_OPTIMAL`.
    pub const OPTIMAL: Tiling = Tiling(0);
    /// `VK_IMAGE_TILING_LINEAR`.
    pub const LINEAR: Tiling = Tiling(1);
}

/// `VK_API_VERSION_1_1`.
pub const API_VERSION_1_1: u32 = 1 << 22 | 1 << 12;

/// `VK_MAX_MEMORY_TYPES`.
pub(crate) const MAX_TYPES: usize = 32;
/// `VK_MAX_MEMORY_HEAPS`.
pub(crate) const MAX_HEAPS: usize = 16;
/// `VK_MEMORY_HEAP_DEVICE_LOCAL_BIT`.
pub(crate) const HEAP_DEVICE_LOCAL: u32 = 1;
/// `VK_MEMORY_ALLOCATE_DEVICE_ADDRESS_BIT`.
pub(crate) const ALLOCATE_DEVICE_ADDRESS: u32 = 2;
/// `VK_BUFFER_USAGE_SHADER_DEVICE_ADDRESS_BIT`.
pub(crate) const USAGE_SHADER_DEVICE_ADDRESS: u64 = 0x20000;
/// `VK_BUFFER_USAGE_TRANSFER_SRC_BIT` and `VK_BUFFER_USAGE_TRANSFER_DST_BIT`, and those of an image.
pub(crate) const USAGE_TRANSFER: u64 = 3;
/// `VK_PHYSICAL_DEVICE_TYPE_INTEGRATED_GPU`.
pub(crate) const INTEGRATED_GPU: i32 = 1;
/// The three bits of sparse buffers, and of sparse images.
pub(crate) const CREATE_SPARSE: u32 = 7;
/// `VK_IMAGE_CREATE_DISJOINT_BIT`.
pub(crate) const CREATE_DISJOINT: u32 = 0x200;

#[cfg(test)]
pub(super) mod headers;
