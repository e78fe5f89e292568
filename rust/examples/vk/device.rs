//! The first Vulkan device with a queue that draws, and a command buffer. The validation layer, where it is installed,
//! checks each call, synchronisation too.

use super::*;
use std::fmt::{Display, Formatter};
use std::ptr::{from_mut, from_ref, null};
use std::sync::atomic::{AtomicU32, Ordering};
use std::sync::Arc;
use wallthyme::vulkan::raw::PhysicalDevice;
use wallthyme::vulkan::{raw, DeviceInfo, Enabled};

const API_VERSION_1_2: u32 = 1 << 22 | 2 << 12;
const LAYER_NOT_PRESENT: i32 = -6;
const INCOMPATIBLE_DRIVER: i32 = -9;
const QUEUE_GRAPHICS: u32 = 1;
const ONE_TIME_SUBMIT: u32 = 1;
const RESET_COMMAND_BUFFER: u32 = 2;
const WARNINGS_AND_ERRORS: u32 = 0x1100;
const VALIDATION_AND_PERFORMANCE: u32 = 6;
const SYNCHRONIZATION_VALIDATION: i32 = 4;
const MEMORY_BUDGET: &CStr = c"VK_EXT_memory_budget";
const SHOWN_MESSAGES: u32 = 5;

/// An open device. It is closed by its drop, before which what was made of it has to go.
pub struct Device {
    pub get: GetInstanceProcAddr,
    pub call: Functions,
    pub instance: Instance,
    pub physical: usize,
    pub handle: usize,
    /// The lesser of the instance's and the device's.
    pub api_version: u32,
    pub enabled: Enabled,
    pub commands: usize,
    queue: usize,
    pool: u64,
    messenger: Option<(Messages, u64)>,
    messages: Arc<AtomicU32>,
}

/// Why no device was opened.
#[derive(Debug)]
pub enum NoDevice {
    /// This is not installed.
    NotInstalled(&'static str),
    /// A call failed.
    Failed(String),
}

impl Display for NoDevice {
    fn fmt(&self, formatter: &mut Formatter<'_>) -> std::fmt::Result {
        match self {
            NoDevice::NotInstalled(what) => write!(formatter, "{what} is not installed"),
            NoDevice::Failed(why) => formatter.write_str(why),
        }
    }
}

impl std::error::Error for NoDevice {}

impl From<String> for NoDevice {
    fn from(why: String) -> Self {
        NoDevice::Failed(why)
    }
}

/// A call's result as an error.
pub fn must(call: &str, result: i32) -> Result<(), String> {
    (result == 0).then_some(()).ok_or_else(|| format!("VkResult {result} of {call}"))
}

/// What a call writes to its last parameter.
pub fn made<T: Default>(name: &str, call: impl FnOnce(*mut T) -> i32) -> Result<T, String> {
    let mut value = T::default();
    must(name, call(&mut value))?;
    Ok(value)
}

unsafe extern "system" fn count(_: u32, _: u32, message: *const MessengerCallbackData, messages: *mut c_void) -> u32 {
    // SAFETY: the layer hands over a message, and what the messenger was created with, which outlives it.
    let (messages, text) = unsafe { (&*messages.cast::<AtomicU32>(), CStr::from_ptr((*message).p_message)) };
    if messages.fetch_add(1, Ordering::Relaxed) < SHOWN_MESSAGES {
        eprintln!("message: {}", text.to_string_lossy());
    }
    0
}

fn messenger_info(messages: &AtomicU32) -> MessengerCreateInfo {
    MessengerCreateInfo {
        message_severity: WARNINGS_AND_ERRORS,
        message_type: VALIDATION_AND_PERFORMANCE,
        pfn_user_callback: Some(count),
        p_user_data: from_ref(messages).cast_mut().cast(),
        ..Default::default()
    }
}

/// An instance with the validation layer or without.
fn create_instance(get: GetInstanceProcAddr, messages: &AtomicU32, validated: bool) -> Result<Instance, i32> {
    let layers = [c"VK_LAYER_KHRONOS_validation".as_ptr()];
    let extensions = [c"VK_EXT_debug_utils".as_ptr(), c"VK_EXT_validation_features".as_ptr()];
    let messenger = messenger_info(messages);
    let features = ValidationFeatures {
        p_next: from_ref(&messenger).cast(),
        enabled_count: 1,
        p_enabled: &SYNCHRONIZATION_VALIDATION,
        ..Default::default()
    };
    let program = ApplicationInfo { api_version: API_VERSION_1_2, ..Default::default() };
    let mut info = InstanceCreateInfo { p_application_info: &program, ..Default::default() };
    if validated {
        info.p_next = from_ref(&features).cast();
        (info.enabled_layer_count, info.pp_enabled_layer_names) = (1, layers.as_ptr());
        (info.enabled_extension_count, info.pp_enabled_extension_names) = (2, extensions.as_ptr());
    }
    let mut instance = Instance(0);
    // SAFETY: all that is passed lives until the call ends.
    match unsafe { (Entry::load(get, instance).create_instance)(&info, null(), &mut instance) } {
        0 => Ok(instance),
        result => Err(result),
    }
}

impl Device {
    /// Opens the first device, with what it has of the `wanted`. Without the validation layer that is an error where
    /// `validated`, and else only said.
    pub fn open(wanted: Enabled, validated: bool) -> Result<Device, NoDevice> {
        let get = get_instance_proc_addr().ok_or(NoDevice::NotInstalled("libvulkan.so.1"))?;
        let messages = Arc::<AtomicU32>::default();
        let mut has_layer = true;
        let mut instance = create_instance(get, &messages, true);
        if instance == Err(LAYER_NOT_PRESENT) && !validated {
            eprintln!("unchecked, since the validation layer is not installed");
            has_layer = false;
            instance = create_instance(get, &messages, false);
        }
        let instance = instance.map_err(|result| match result {
            LAYER_NOT_PRESENT => NoDevice::NotInstalled("the validation layer"),
            INCOMPATIBLE_DRIVER => NoDevice::NotInstalled("a Vulkan driver"),
            result => NoDevice::Failed(format!("VkResult {result} of vkCreateInstance")),
        })?;
        // SAFETY: the instance is live; all that is passed lives until its call ends.
        let (call, messenger) = unsafe {
            let messenger = has_layer.then(|| {
                let (call, mut handle) = (Messages::load(get, instance), 0);
                (call.create_messenger)(instance, &messenger_info(&messages), null(), &mut handle);
                (call, handle)
            });
            (Functions::load(get, instance), messenger)
        };
        let (handle, api_version, enabled, commands, queue, pool) = (0, 0, Enabled::empty(), 0, 0, 0);
        let (mut found, mut physical) = (1, 0);
        // SAFETY: as above.
        let result = unsafe { (call.enumerate_physical_devices)(instance, &mut found, &mut physical) };
        let mut device = Device {
            get,
            call,
            instance,
            physical,
            handle,
            api_version,
            enabled,
            commands,
            queue,
            pool,
            messenger,
            messages,
        };
        if result < 0 || found == 0 {
            return Err(NoDevice::NotInstalled("a Vulkan driver"));
        }
        device.read_offered(wanted);
        device.open_queue()?;
        Ok(device)
    }

    /// The version, and what there is of the `wanted`.
    fn read_offered(&mut self, wanted: Enabled) {
        let (mut properties, mut count) = ([0; 206], 1024);
        let mut extensions = vec![ExtensionProperties::default(); count as usize];
        let mut addresses = BufferDeviceAddressFeatures::default();
        let mut features = Features2 { p_next: from_mut(&mut addresses).cast(), ..Default::default() };
        // SAFETY: the physical device is the instance's; all that is passed lives until its call ends.
        unsafe {
            (self.call.get_physical_device_properties)(self.physical, &mut properties);
            self.api_version = properties[0].min(API_VERSION_1_2);
            let list = self.call.enumerate_device_extension_properties;
            list(self.physical, null(), &mut count, extensions.as_mut_ptr());
            let names = extensions[..count as usize].iter().map(|one| CStr::from_ptr(one.extension_name.as_ptr()));
            self.enabled.set(Enabled::MEMORY_BUDGET, names.into_iter().any(|name| name == MEMORY_BUDGET));
            if self.api_version >= API_VERSION_1_2 {
                (self.call.get_physical_device_features2)(self.physical, &mut features);
                self.enabled.set(Enabled::DEVICE_ADDRESS, addresses.buffer_device_address != 0);
            }
        }
        self.enabled &= wanted;
    }

    fn open_queue(&mut self) -> Result<(), String> {
        let addresses = BufferDeviceAddressFeatures { buffer_device_address: 1, ..Default::default() };
        let extensions = [MEMORY_BUDGET.as_ptr()];
        let mut families = [QueueFamilyProperties::default(); 16];
        let mut count = families.len() as u32;
        // SAFETY: the physical device is the instance's; all that is passed lives until its call ends.
        unsafe {
            let list = self.call.get_physical_device_queue_family_properties;
            list(self.physical, &mut count, families.as_mut_ptr());
            let draws = |family: &QueueFamilyProperties| family.queue_flags & QUEUE_GRAPHICS != 0;
            let family = families[..count as usize].iter().position(draws).ok_or("no queue draws")? as u32;
            let queue = DeviceQueueCreateInfo {
                queue_family_index: family,
                queue_count: 1,
                p_queue_priorities: &1.0,
                ..Default::default()
            };
            let mut info =
                DeviceCreateInfo { queue_create_info_count: 1, p_queue_create_infos: &queue, ..Default::default() };
            if self.enabled.contains(Enabled::DEVICE_ADDRESS) {
                info.p_next = from_ref(&addresses).cast();
            }
            if self.enabled.contains(Enabled::MEMORY_BUDGET) {
                (info.enabled_extension_count, info.pp_enabled_extension_names) = (1, extensions.as_ptr());
            }
            let call = self.call;
            self.handle = made("vkCreateDevice", |to| (call.create_device)(self.physical, &info, null(), to))?;
            (call.get_device_queue)(self.handle, family, 0, &mut self.queue);
            let info =
                CommandPoolCreateInfo { flags: RESET_COMMAND_BUFFER, queue_family_index: family, ..Default::default() };
            self.pool = made("vkCreateCommandPool", |to| (call.create_command_pool)(self.handle, &info, null(), to))?;
            let info =
                CommandBufferAllocateInfo { command_pool: self.pool, command_buffer_count: 1, ..Default::default() };
            let allocate = call.allocate_command_buffers;
            self.commands = made("vkAllocateCommandBuffers", |to| allocate(self.handle, &info, to))?;
        }
        Ok(())
    }

    /// What an allocator's device is loaded of.
    pub fn info(&self) -> DeviceInfo {
        DeviceInfo {
            instance: self.instance,
            physical_device: PhysicalDevice(self.physical),
            device: raw::Device(self.handle),
            get_instance_proc_addr: Some(self.get),
            api_version: self.api_version,
            enabled: self.enabled,
            ..Default::default()
        }
    }

    /// Records commands, submits them, and waits until the device is done with them.
    pub fn run(&self, record: impl FnOnce(usize)) -> Result<(), String> {
        let begin = CommandBufferBeginInfo { flags: ONE_TIME_SUBMIT, ..Default::default() };
        let submit = SubmitInfo { command_buffer_count: 1, p_command_buffers: &self.commands, ..Default::default() };
        // SAFETY: the device is live, and this thread alone uses its queue and its command buffer.
        unsafe {
            must("vkBeginCommandBuffer", (self.call.begin_command_buffer)(self.commands, &begin))?;
            record(self.commands);
            must("vkEndCommandBuffer", (self.call.end_command_buffer)(self.commands))?;
            must("vkQueueSubmit", (self.call.queue_submit)(self.queue, 1, &submit, 0))?;
            must("vkQueueWaitIdle", (self.call.queue_wait_idle)(self.queue))
        }
    }

    /// How many warnings and errors the layer reported so far.
    pub fn messages(&self) -> u32 {
        self.messages.load(Ordering::Relaxed)
    }

    /// Closes the device, and returns how many messages there were in all. The layer reports last what was not
    /// destroyed.
    pub fn close(self) -> u32 {
        let messages = Arc::clone(&self.messages);
        drop(self);
        messages.load(Ordering::Relaxed)
    }
}

impl Drop for Device {
    fn drop(&mut self) {
        // SAFETY: all that was made of the device is gone; null handles are passed over.
        unsafe {
            if self.handle != 0 {
                (self.call.destroy_command_pool)(self.handle, self.pool, null());
                (self.call.destroy_device)(self.handle, null());
            }
            if let Some((call, messenger)) = self.messenger {
                (call.destroy_messenger)(self.instance, messenger, null());
            }
            (self.call.destroy_instance)(self.instance, null());
        }
    }
}
