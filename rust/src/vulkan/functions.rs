//! The Vulkan functions that this module calls, and how they are loaded.

use super::error::{Error, VkResult};
use super::raw::*;
use super::{DeviceInfo, Enabled};
use std::ffi::{c_char, c_void, CStr};

type Callbacks = *const AllocationCallbacks;
type GetDeviceProcAddr = unsafe extern "system" fn(Device, *const c_char) -> Option<VoidFunction>;

pub(crate) type OverRanges = unsafe extern "system" fn(Device, u32, *const MappedMemoryRange) -> VkResult;
pub(crate) type Destroy<Handle> = unsafe extern "system" fn(Device, Handle, Callbacks);
pub(crate) type Bind<Handle> = unsafe extern "system" fn(Device, Handle, Memory, u64) -> VkResult;
type Create<Info, Handle> = unsafe extern "system" fn(Device, *const Info, Callbacks, *mut Handle) -> VkResult;
type Requirements<Handle> = unsafe extern "system" fn(Device, Handle, *mut MemoryRequirements);
type Requirements2<Info> = unsafe extern "system" fn(Device, *const Info, *mut MemoryRequirements2);

/// The functions that are called.
#[derive(Clone, Copy)]
pub(crate) struct Functions {
    pub(crate) get_properties: unsafe extern "system" fn(PhysicalDevice, *mut Properties),
    pub(crate) get_memory_properties: unsafe extern "system" fn(PhysicalDevice, *mut MemoryProperties),
    pub(crate) allocate_memory: Create<MemoryAllocateInfo, Memory>,
    pub(crate) free_memory: Destroy<Memory>,
    pub(crate) map_memory: unsafe extern "system" fn(Device, Memory, u64, u64, u32, *mut *mut c_void) -> VkResult,
    pub(crate) unmap_memory: unsafe extern "system" fn(Device, Memory),
    pub(crate) flush_ranges: OverRanges,
    pub(crate) invalidate_ranges: OverRanges,
    pub(crate) create_buffer: Create<BufferCreateInfo, Buffer>,
    pub(crate) destroy_buffer: Destroy<Buffer>,
    pub(crate) create_image: Create<ImageCreateInfo, Image>,
    pub(crate) destroy_image: Destroy<Image>,
    pub(crate) get_buffer_requirements: Requirements<Buffer>,
    pub(crate) get_image_requirements: Requirements<Image>,
    pub(crate) bind_buffer: Bind<Buffer>,
    pub(crate) bind_image: Bind<Image>,
    /// Present with [`Enabled::PROPERTIES2`].
    pub(crate) properties2: Option<OfProperties2>,
    /// Present with [`Enabled::DEDICATED_ALLOCATION`].
    pub(crate) requirements2: Option<OfRequirements2>,
}

#[derive(Clone, Copy)]
pub(crate) struct OfProperties2 {
    pub(crate) get_properties2: unsafe extern "system" fn(PhysicalDevice, *mut Properties2),
    pub(crate) get_memory_properties2: unsafe extern "system" fn(PhysicalDevice, *mut MemoryProperties2),
}

#[derive(Clone, Copy)]
pub(crate) struct OfRequirements2 {
    pub(crate) get_buffer_requirements2: Requirements2<BufferMemoryRequirementsInfo2>,
    pub(crate) get_image_requirements2: Requirements2<ImageMemoryRequirementsInfo2>,
}

impl Functions {
    /// Loads the functions for what the program enabled.
    ///
    /// # Errors
    ///
    /// [`Error::Missing`].
    ///
    /// # Safety
    ///
    /// As for [`super::Device::load`].
    pub(crate) unsafe fn load(info: &DeviceInfo) -> Result<Functions, Error> {
        // SAFETY: as the caller says.
        let loader = unsafe { Loader::new(info) }?;
        let has_core = info.api_version >= API_VERSION_1_1;
        // SAFETY: each field has the type that Vulkan gives to the function of that name.
        unsafe {
            Ok(Functions {
                get_properties: loader.of_instance(c"vkGetPhysicalDeviceProperties")?,
                get_memory_properties: loader.of_instance(c"vkGetPhysicalDeviceMemoryProperties")?,
                allocate_memory: loader.of_device(c"vkAllocateMemory")?,
                free_memory: loader.of_device(c"vkFreeMemory")?,
                map_memory: loader.of_device(c"vkMapMemory")?,
                unmap_memory: loader.of_device(c"vkUnmapMemory")?,
                flush_ranges: loader.of_device(c"vkFlushMappedMemoryRanges")?,
                invalidate_ranges: loader.of_device(c"vkInvalidateMappedMemoryRanges")?,
                create_buffer: loader.of_device(c"vkCreateBuffer")?,
                destroy_buffer: loader.of_device(c"vkDestroyBuffer")?,
                create_image: loader.of_device(c"vkCreateImage")?,
                destroy_image: loader.of_device(c"vkDestroyImage")?,
                get_buffer_requirements: loader.of_device(c"vkGetBufferMemoryRequirements")?,
                get_image_requirements: loader.of_device(c"vkGetImageMemoryRequirements")?,
                bind_buffer: loader.of_device(c"vkBindBufferMemory")?,
                bind_image: loader.of_device(c"vkBindImageMemory")?,
                properties2: match (info.has(Enabled::PROPERTIES2), has_core) {
                    (false, _) => None,
                    (true, true) => Some(OfProperties2 {
                        get_properties2: loader.of_instance(c"vkGetPhysicalDeviceProperties2")?,
                        get_memory_properties2: loader.of_instance(c"vkGetPhysicalDeviceMemoryProperties2")?,
                    }),
                    (true, false) => Some(OfProperties2 {
                        get_properties2: loader.of_instance(c"vkGetPhysicalDeviceProperties2KHR")?,
                        get_memory_properties2: loader.of_instance(c"vkGetPhysicalDeviceMemoryProperties2KHR")?,
                    }),
                },
                requirements2: match (info.has(Enabled::DEDICATED_ALLOCATION), has_core) {
                    (false, _) => None,
                    (true, true) => Some(OfRequirements2 {
                        get_buffer_requirements2: loader.of_device(c"vkGetBufferMemoryRequirements2")?,
                        get_image_requirements2: loader.of_device(c"vkGetImageMemoryRequirements2")?,
                    }),
                    (true, false) => Some(OfRequirements2 {
                        get_buffer_requirements2: loader.of_device(c"vkGetBufferMemoryRequirements2KHR")?,
                        get_image_requirements2: loader.of_device(c"vkGetImageMemoryRequirements2KHR")?,
                    }),
                },
            })
        }
    }
}

/// Functions of an instance, and of a device without a dispatch through the loader.
struct Loader {
    get: GetInstanceProcAddr,
    get_of_device: GetDeviceProcAddr,
    instance: Instance,
    device: Device,
}

impl Loader {
    /// # Safety
    ///
    /// As for [`super::Device::load`].
    unsafe fn new(info: &DeviceInfo) -> Result<Loader, Error> {
        let get = info.get_instance_proc_addr.ok_or(Error::Missing("get_instance_proc_addr"))?;
        let name = c"vkGetDeviceProcAddr";
        // SAFETY: as the caller says, it is that function, and the instance is live.
        let found = unsafe { get(info.instance, name.as_ptr()) };
        // SAFETY: that is the type of the function of this name.
        let get_of_device = unsafe { cast(found, name) }?;
        Ok(Loader { get, get_of_device, instance: info.instance, device: info.device })
    }

    /// # Safety
    ///
    /// `F` is the type of the instance's function of this name.
    unsafe fn of_instance<F: Copy>(&self, name: &'static CStr) -> Result<F, Error> {
        // SAFETY: as the caller of `new` says, the instance is live; `F` is as the caller of this says.
        unsafe { cast((self.get)(self.instance, name.as_ptr()), name) }
    }

    /// # Safety
    ///
    /// `F` is the type of the device's function of this name.
    unsafe fn of_device<F: Copy>(&self, name: &'static CStr) -> Result<F, Error> {
        // SAFETY: as the caller of `new` says, the device is live; `F` is as the caller of this says.
        unsafe { cast((self.get_of_device)(self.device, name.as_ptr()), name) }
    }
}

/// # Safety
///
/// `F` is the type of the function of this name.
unsafe fn cast<F: Copy>(found: Option<VoidFunction>, name: &'static CStr) -> Result<F, Error> {
    const { assert!(size_of::<F>() == size_of::<VoidFunction>()) };
    let found = found.ok_or_else(|| Error::Missing(name.to_str().unwrap_or("a function")))?;
    // SAFETY: both are pointers to functions, and `F` is the one's type, as the caller says.
    Ok(unsafe { std::mem::transmute_copy(&found) })
}
