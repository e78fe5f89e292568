//! Functions between an allocator and the driver: some calls are refused, and some properties changed.
//! What they do is planned for a thread.

use super::vk::{MemoryAllocateInfo, MemoryBudget, MemoryProperties, MemoryProperties2, Properties2};
use crate::common::Random;
use std::cell::RefCell;
use std::collections::BTreeMap;
use std::ffi::{c_char, c_void, CStr};
use std::ptr::null;
use wallthyme::vulkan::raw::{GetInstanceProcAddr, Instance, VoidFunction};

/// `VK_ERROR_..`: out of host memory and of device memory, device lost, memory map failed, too many objects, unknown.
const RESULTS: [i32; 6] = [-1, -2, -4, -5, -10, -13];

pub struct Plan {
    /// How many of a hundred calls that may be refused are.
    pub percent: u64,
    /// A function that is refused each time, and with which result.
    pub only: Option<(&'static str, i32)>,
    /// No memory type is said to be coherent.
    pub incoherent: bool,
    /// `bufferImageGranularity` as it is said to be, where it is not 0.
    pub granularity: u64,
    /// What the heaps' budgets and usages are said to be, all alike, where `VK_EXT_memory_budget` is said to be
    /// enabled.
    pub budget: Option<[u64; 2]>,
    /// How far resources are bound off.
    pub shift: u64,
    /// The memory objects that are there: their type and size.
    pub held: BTreeMap<u64, (u32, u64)>,
    /// How often each function was refused.
    pub refused: BTreeMap<&'static str, u64>,
    random: Random,
    real: Option<GetInstanceProcAddr>,
    found: BTreeMap<&'static str, VoidFunction>,
}

impl Plan {
    /// Nothing is refused, and nothing changed.
    pub const NOTHING: Plan = Plan {
        percent: 0,
        only: None,
        incoherent: false,
        granularity: 0,
        budget: None,
        shift: 0,
        held: BTreeMap::new(),
        refused: BTreeMap::new(),
        random: Random(11),
        real: None,
        found: BTreeMap::new(),
    };
}

thread_local! {
    static PLAN: RefCell<Plan> = const { RefCell::new(Plan::NOTHING) };
}

/// Changes or reads this thread's plan.
pub fn plan<T>(change: impl FnOnce(&mut Plan) -> T) -> T {
    PLAN.with_borrow_mut(change)
}

/// This thread's functions over those that are loaded by `real`.
pub fn over(real: GetInstanceProcAddr) -> GetInstanceProcAddr {
    plan(|plan| plan.real = Some(real));
    get_instance_proc_addr
}

/// Whether a call is refused now, and by what.
fn refusal(call: &'static str) -> Option<i32> {
    plan(|plan| {
        if let Some((_, result)) = plan.only.filter(|only| only.0 == call) {
            return Some(result);
        }
        let is_refused = plan.random.below(100) < plan.percent;
        is_refused.then(|| {
            *plan.refused.entry(call).or_default() += 1;
            RESULTS[plan.random.below(RESULTS.len() as u64) as usize]
        })
    })
}

/// # Safety
///
/// `F` is the type of the function of this name.
unsafe fn real<F: Copy>(name: &str) -> F {
    const { assert!(size_of::<F>() == size_of::<VoidFunction>()) };
    let found = plan(|plan| plan.found[name]);
    // SAFETY: as the caller says.
    unsafe { std::mem::transmute_copy(&found) }
}

/// Declares functions that refuse some calls and pass on the others.
macro_rules! refusing {
    ($( $function:ident = $name:literal ($( $argument:ident: $Type:ty ),*) $(shifts $shifted:ident)?; )*) => {
        $(
            unsafe extern "system" fn $function($( $argument: $Type ),*) -> i32 {
                if let Some(result) = refusal($name) {
                    return result;
                }
                $( let $shifted = $shifted + plan(|plan| plan.shift); )?
                // SAFETY: that is its type, and the caller keeps what Vulkan asks.
                unsafe {
                    let real: unsafe extern "system" fn($( $Type ),*) -> i32 = real($name);
                    real($( $argument ),*)
                }
            }
        )*

        const NAMES: &[&str] = &[$( $name ),*];

        fn refusing(name: &str) -> Option<(&'static str, *const ())> {
            match name {
                $( $name => Some(($name, $function as *const ())), )*
                _ => None,
            }
        }
    };
}

refusing! {
    map_memory = "vkMapMemory"
        (device: usize, memory: u64, offset: u64, size: u64, flags: u32, to: *mut *mut c_void);
    flush = "vkFlushMappedMemoryRanges" (device: usize, count: u32, ranges: *const c_void);
    invalidate = "vkInvalidateMappedMemoryRanges" (device: usize, count: u32, ranges: *const c_void);
    create_buffer = "vkCreateBuffer" (device: usize, info: *const c_void, callbacks: *const c_void, to: *mut u64);
    create_image = "vkCreateImage" (device: usize, info: *const c_void, callbacks: *const c_void, to: *mut u64);
    bind_buffer = "vkBindBufferMemory" (device: usize, buffer: u64, memory: u64, offset: u64) shifts offset;
    bind_image = "vkBindImageMemory" (device: usize, image: u64, memory: u64, offset: u64) shifts offset;
}

/// The functions that may be refused.
pub fn refusing_names() -> impl Iterator<Item = &'static str> {
    NAMES.iter().copied().chain(["vkAllocateMemory"])
}

/// Keeps in the plan what is held.
unsafe extern "system" fn allocate_memory(
    device: usize,
    info: *const MemoryAllocateInfo,
    callbacks: *const c_void,
    to: *mut u64,
) -> i32 {
    if let Some(result) = refusal("vkAllocateMemory") {
        return result;
    }
    // SAFETY: that is its type, and the caller keeps what Vulkan asks.
    unsafe {
        let real: unsafe extern "system" fn(usize, *const MemoryAllocateInfo, *const c_void, *mut u64) -> i32 =
            real("vkAllocateMemory");
        let result = real(device, info, callbacks, to);
        if result == 0 {
            plan(|plan| plan.held.insert(*to, ((*info).memory_type_index, (*info).allocation_size)));
        }
        result
    }
}

unsafe extern "system" fn free_memory(device: usize, memory: u64, callbacks: *const c_void) {
    plan(|plan| plan.held.remove(&memory));
    // SAFETY: that is its type, and the caller keeps what Vulkan asks.
    unsafe {
        let real: unsafe extern "system" fn(usize, u64, *const c_void) = real("vkFreeMemory");
        real(device, memory, callbacks);
    }
}

unsafe extern "system" fn get_memory_properties(physical: usize, to: *mut MemoryProperties) {
    const COHERENT: u32 = 4;
    // SAFETY: that is its type, and the caller has room.
    unsafe {
        let real: unsafe extern "system" fn(usize, *mut MemoryProperties) = real("vkGetPhysicalDeviceMemoryProperties");
        real(physical, to);
        if plan(|plan| plan.incoherent) {
            (*to).types.iter_mut().for_each(|of| of[0] &= !COHERENT);
        }
    }
}

unsafe extern "system" fn get_properties2(physical: usize, to: *mut Properties2) {
    // SAFETY: that is its type, and the caller has room.
    unsafe {
        let real: unsafe extern "system" fn(usize, *mut Properties2) = real("vkGetPhysicalDeviceProperties2");
        real(physical, to);
        let granularity = plan(|plan| plan.granularity);
        if granularity != 0 {
            (*to).buffer_image_granularity = granularity;
        }
    }
}

/// The driver need not know the budgets that are chained.
unsafe extern "system" fn get_memory_properties2(physical: usize, to: *mut MemoryProperties2) {
    // SAFETY: that is its type, and the caller has room, and chained room for the budgets.
    unsafe {
        let real: unsafe extern "system" fn(usize, *mut MemoryProperties2) =
            real("vkGetPhysicalDeviceMemoryProperties2");
        let Some([budget, usage]) = plan(|plan| plan.budget) else { return real(physical, to) };
        let budgets = std::mem::replace(&mut (*to).p_next, null()).cast_mut().cast::<MemoryBudget>();
        real(physical, to);
        ((*budgets).heap_budget, (*budgets).heap_usage) = ([budget; 16], [usage; 16]);
        (*to).p_next = budgets.cast();
    }
}

/// The function that stands before a real one, under its name.
fn before(name: &str) -> Option<(&'static str, *const ())> {
    Some(match name {
        "vkAllocateMemory" => ("vkAllocateMemory", allocate_memory as *const ()),
        "vkFreeMemory" => ("vkFreeMemory", free_memory as *const ()),
        "vkGetDeviceProcAddr" => ("vkGetDeviceProcAddr", get_device_proc_addr as *const ()),
        "vkGetPhysicalDeviceMemoryProperties" => {
            ("vkGetPhysicalDeviceMemoryProperties", get_memory_properties as *const ())
        }
        "vkGetPhysicalDeviceProperties2" => ("vkGetPhysicalDeviceProperties2", get_properties2 as *const ()),
        "vkGetPhysicalDeviceMemoryProperties2" => {
            ("vkGetPhysicalDeviceMemoryProperties2", get_memory_properties2 as *const ())
        }
        name => return refusing(name),
    })
}

/// Keeps a real function, and gives what stands before it.
unsafe fn wrapped(name: *const c_char, found: VoidFunction) -> VoidFunction {
    // SAFETY: a name ends by a zero.
    let name = unsafe { CStr::from_ptr(name) }.to_str().unwrap_or_default();
    let Some((name, function)) = before(name) else { return found };
    plan(|plan| plan.found.insert(name, found));
    // SAFETY: it is a function, which is called by its own type.
    unsafe { std::mem::transmute::<*const (), VoidFunction>(function) }
}

unsafe extern "system" fn get_instance_proc_addr(instance: Instance, name: *const c_char) -> Option<VoidFunction> {
    let real = plan(|plan| plan.real)?;
    // SAFETY: as the caller says.
    unsafe { Some(wrapped(name, real(instance, name)?)) }
}

unsafe extern "system" fn get_device_proc_addr(device: usize, name: *const c_char) -> Option<VoidFunction> {
    // SAFETY: that is its type; else as the caller says.
    unsafe {
        let real: unsafe extern "system" fn(usize, *const c_char) -> Option<VoidFunction> = real("vkGetDeviceProcAddr");
        Some(wrapped(name, real(device, name)?))
    }
}
