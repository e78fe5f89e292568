//! The stub of a driver, which is written in C (`c/tests/vulkan/stub.h`). It is built and loaded where there are a C
//! compiler and the headers of Vulkan. It notes what Vulkan forbids.

use crate::vulkan::error::VkResult;
use crate::vulkan::raw::{self, headers, *};
use crate::vulkan::{Device, DeviceInfo, Error};
use std::ffi::{c_char, c_int, c_void, CStr};
use std::io::{stderr, Write};
use std::path::Path;
use std::process::{self, Command};
use std::ptr::{from_ref, null};
use std::sync::atomic::{AtomicU64, Ordering};
use std::sync::{Mutex, OnceLock};

pub(super) const ATOM: u64 = 64;
pub(super) const PAGE: u64 = 1024;
pub(super) const HEAP: u64 = 256 << 20;
pub(super) const LARGEST: u64 = 32 << 20;

/// Memory types 0 to 3: device-local, coherent, cached alone, and one with a bit without a name here
/// (`VK_MEMORY_PROPERTY_DEVICE_COHERENT_BIT_AMD`).
static TYPES: [MemoryType; 4] = [
    MemoryType { property_flags: 0x01, heap_index: 0 },
    MemoryType { property_flags: 0x06, heap_index: 1 },
    MemoryType { property_flags: 0x0a, heap_index: 1 },
    MemoryType { property_flags: 0x47, heap_index: 1 },
];

/// `STUB_ANY`.
const ANY: u32 = 21;

/// `stub_plan`.
#[repr(C)]
pub(super) struct Plan {
    seed: u64,
    percent: u32,
    flags: u32,
    api_version: u32,
    max_objects: u32,
    atom: u64,
    page: u64,
    largest: u64,
    pub(super) granted: u64,
    types: *const MemoryType,
    heaps: *const MemoryHeap,
    types_count: u32,
    heaps_count: u32,
    alignment: u64,
    pub(super) permitted: u32,
    pub(super) prefers_own: u32,
    pub(super) requires_own: u32,
    callbacks: *const AllocationCallbacks,
    called: Option<unsafe extern "C" fn(&Heard, *const c_char)>,
    passed: Option<unsafe extern "C" fn(&Heard, u32, *const MappedMemoryRange)>,
    user: *const Heard,
    draws_budgets: bool,
    pub(super) is_quiet: bool,
    device_type: i32,
    asked: Option<unsafe extern "C" fn(&Heard, u32, u64)>,
}

/// `wtv_create_info`, whose handles and loader are taken.
#[repr(C)]
struct CreateInfo {
    instance: Instance,
    physical_device: PhysicalDevice,
    device: raw::Device,
    flags: [u32; 2],
    get_instance_proc_addr: Option<GetInstanceProcAddr>,
    others: [*const c_void; 4],
}

/// `stub_held`.
#[repr(C)]
pub(super) struct Held {
    pub(super) objects: u64,
    pub(super) mapped: u64,
    pub(super) buffers: u64,
    pub(super) images: u64,
    pub(super) bound: u64,
    pub(super) bytes: [u64; 3],
}

/// `stub_object`: with the handle of its owner, or 0, and the priority that was chained, or -1.
#[repr(C)]
pub(super) struct Object {
    pub(super) size: u64,
    pub(super) owner: u64,
    pub(super) priority: f32,
    pub(super) is_mapped: bool,
    pub(super) has_address: bool,
}

/// What the stub was asked since the last look: names of functions, ranges by offset and size, and memory types.
#[derive(Default)]
struct Heard {
    calls: Mutex<Vec<&'static str>>,
    ranges: Mutex<Vec<Vec<(u64, u64)>>>,
    types: Mutex<Vec<u32>>,
}

/// # Safety
///
/// It is a text that stays.
unsafe fn text(name: *const c_char) -> &'static str {
    // SAFETY: as the caller says.
    unsafe { CStr::from_ptr(name) }.to_str().expect("names are ASCII")
}

unsafe extern "C" fn hear_call(heard: &Heard, name: *const c_char) {
    // SAFETY: the stub's names stay.
    heard.calls.lock().expect("nothing panics with it").push(unsafe { text(name) });
}

unsafe extern "C" fn hear_ranges(heard: &Heard, count: u32, ranges: *const MappedMemoryRange) {
    // SAFETY: the stub passes that many.
    let ranges = unsafe { std::slice::from_raw_parts(ranges, count as usize) };
    let places = ranges.iter().map(|range| (range.offset, range.size)).collect();
    heard.ranges.lock().expect("nothing panics with it").push(places);
}

unsafe extern "C" fn hear_type(heard: &Heard, memory_type: u32, _size: u64) {
    heard.types.lock().expect("nothing panics with it").push(memory_type);
}

extern "C" {
    fn dlopen(file: *const c_char, flags: c_int) -> *mut c_void;
    fn dlsym(library: *mut c_void, name: *const c_char) -> *mut c_void;
}

/// # Safety
///
/// `T` is a pointer of the type that the library has under this name, which ends by a zero.
unsafe fn found<T: Copy>(library: *mut c_void, name: &str) -> T {
    const { assert!(size_of::<T>() == size_of::<*mut c_void>()) };
    // SAFETY: as the caller says.
    unsafe {
        let found = dlsym(library, name.as_ptr().cast());
        assert!(!found.is_null(), "the stub has no {name}");
        std::mem::transmute_copy(&found)
    }
}

/// Declares the functions of the stub, and calls of a driver's.
macro_rules! functions {
    ($( fn $name:ident($( $argument:ident: $Type:ty ),*) $(-> $Returned:ty)?; )*) => {
        struct Functions {
            open: unsafe extern "C" fn(&Plan) -> *mut c_void,
            usual_plan: unsafe extern "C" fn() -> Plan,
            /// The functions that are loaded, in the order of `stub_function`.
            names: [&'static str; 20],
            callbacks: AllocationCallbacks,
            pieces: [&'static AtomicU64; 2],
            info: unsafe extern "C" fn(*mut c_void) -> CreateInfo,
            $( $name: unsafe extern "C" fn(*mut c_void, $( $Type ),*) $(-> $Returned)?, )*
        }

        // SAFETY: what it points to stays, and is read alone.
        unsafe impl Send for Functions {}
        // SAFETY: as above.
        unsafe impl Sync for Functions {}

        impl Functions {
            unsafe fn of(library: *mut c_void) -> Functions {
                // SAFETY: those are their types in `stub.h`.
                unsafe {
                    Functions {
                        open: found(library, "stub_open\0"),
                        usual_plan: found(library, "stub_usual_plan\0"),
                        names: (*found::<*const [*const c_char; 20]>(library, "stub_names\0")).map(|name| text(name)),
                        callbacks: *found::<*const AllocationCallbacks>(library, "stub_callbacks\0"),
                        pieces: [found(library, "stub_pieces_taken\0"), found(library, "stub_pieces_given\0")],
                        info: found(library, "stub_info\0"),
                        $( $name: found(library, concat!("stub_", stringify!($name), "\0")), )*
                    }
                }
            }
        }

        impl Stub {
            $(
                pub(super) fn $name(&self, $( $argument: $Type ),*) $(-> $Returned)? {
                    // SAFETY: the driver is open, and the rest are numbers.
                    unsafe { (self.functions.$name)(self.driver, $( $argument ),*) }
                }
            )*
        }
    };
}

functions! {
    fn plan_of() -> *mut Plan;
    fn close() -> u64;
    fn hide(function: u32);
    fn refuse(function: u32, result: VkResult, skip: u64, is_each: bool);
    fn calls(function: u32) -> u64;
    fn held_now() -> Held;
    fn set_budget(heap: u32, budget: u64, beside: u64);
    fn memory_bytes(memory: Memory, offset: u64, size: u64) -> *const u8;
    fn buffer_bytes(buffer: Buffer) -> *const u8;
    fn image_bytes(image: Image) -> *const u8;
    fn object_of(memory: Memory) -> Object;
}

/// Builds the stub into the folder of this test. A released archive has its source in `lib`.
fn load() -> Functions {
    let of_crate = Path::new(env!("CARGO_MANIFEST_DIR"));
    let places = [("lib/stub.c", "../include"), ("../c/tests/vulkan/stub.c", "../c")];
    let place = places.map(|(source, headers)| (of_crate.join(source), of_crate.join(headers)));
    let (source, headers) = place.iter().find(|place| place.0.is_file()).expect("the stub's source is there");
    let file = std::env::current_exe().expect("a test has a file").with_file_name(format!("stub-{}.so", process::id()));
    let mut compiler = Command::new("cc");
    compiler.args(["-std=c99", "-O1", "-pthread", "-fPIC", "-shared", "-I"]).arg(headers).arg(source);
    let ran = compiler.arg("-o").arg(&file).output().expect("it ran before");
    assert!(ran.status.success(), "{}", String::from_utf8_lossy(&ran.stderr));
    let name = format!("{}\0", file.display());
    // SAFETY: the name ends by a zero, and loading the stub does nothing else.
    let library = unsafe { dlopen(name.as_ptr().cast(), 2) };
    assert!(!library.is_null(), "the stub is not loaded");
    std::fs::remove_file(file).expect("it was just built");
    let sizes = [size_of::<Plan>(), size_of::<CreateInfo>(), size_of::<Held>(), size_of::<Object>()];
    // SAFETY: those are their types in `stub.h`.
    unsafe {
        assert_eq!(*found::<*const [usize; 4]>(library, "stub_sizes\0"), sizes);
        Functions::of(library)
    }
}

fn functions() -> Option<&'static Functions> {
    static LOADED: OnceLock<Option<Functions>> = OnceLock::new();
    let loaded = LOADED.get_or_init(|| {
        let left_out = "left out: the tests of `vulkan` over the stub of a driver, since there is no cc or no vulkan.h";
        match headers::are_there() {
            true => Some(load()),
            false => writeln!(stderr(), "{left_out}").map(|()| None).expect("standard error can be written"),
        }
    });
    loaded.as_ref()
}

pub(super) struct Stub {
    functions: &'static Functions,
    driver: *mut c_void,
    heard: Box<Heard>,
}

impl Stub {
    /// A driver of a device with two heaps of this size and these flags; none where that cannot be built.
    pub(super) fn with_heaps(size: u64, flags: [u32; 2]) -> Option<Stub> {
        Stub::with_memory(&flags.map(|flags| MemoryHeap { size, flags }), &TYPES, 0)
    }

    /// A driver of a device of this type (`VkPhysicalDeviceType`) with these heaps, three at most, and memory types.
    pub(super) fn with_memory(heaps: &[MemoryHeap], types: &[MemoryType], device_type: i32) -> Option<Stub> {
        let functions = functions()?;
        let heard = Box::<Heard>::default();
        let (heaps, types): (&[_], &[_]) = (heaps.to_vec().leak(), types.to_vec().leak());
        // SAFETY: what the plan points to stays.
        let driver = unsafe {
            (functions.open)(&Plan {
                max_objects: 100,
                atom: ATOM,
                page: PAGE,
                largest: LARGEST,
                types: types.as_ptr(),
                heaps: heaps.as_ptr(),
                types_count: types.len() as u32,
                heaps_count: heaps.len() as u32,
                alignment: 256,
                permitted: u32::MAX >> (32 - types.len()),
                called: Some(hear_call),
                passed: Some(hear_ranges),
                user: from_ref(&*heard),
                device_type,
                asked: Some(hear_type),
                ..(functions.usual_plan)()
            })
        };
        Some(Stub { functions, driver, heard })
    }

    #[allow(clippy::mut_from_ref, reason = "each test has its own stub, and changes its plan between calls")]
    pub(super) fn plan(&self) -> &mut Plan {
        // SAFETY: it lives as long as the stub, and no call is under way.
        unsafe { &mut *self.plan_of() }
    }

    /// Version 1.1.
    pub(super) fn info(&self) -> DeviceInfo {
        // SAFETY: the driver is open.
        let info = unsafe { (self.functions.info)(self.driver) };
        let CreateInfo { instance, physical_device, device, get_instance_proc_addr, .. } = info;
        let api_version = API_VERSION_1_1;
        DeviceInfo { instance, physical_device, device, get_instance_proc_addr, api_version, ..Default::default() }
    }

    pub(super) fn device(&self) -> Device {
        self.device_of(&self.info())
    }

    pub(super) fn device_of(&self, info: &DeviceInfo) -> Device {
        self.load(info).expect("nothing is missing")
    }

    /// Loads a device, of which that is enabled which the info says.
    pub(super) fn load(&self, info: &DeviceInfo) -> Result<Device, Error> {
        let plan = self.plan();
        (plan.flags, plan.api_version) = (info.enabled.bits().into(), info.api_version);
        plan.callbacks = info.callbacks.map_or(null(), |callbacks| Box::leak(Box::new(callbacks)));
        // SAFETY: the functions are the stub's, which outlives the device in each test.
        unsafe { Device::load(info) }
    }

    /// The functions that are loaded.
    pub(super) fn names(&self) -> [&'static str; 20] {
        self.functions.names
    }

    /// The number of a function, or of the one that loads them.
    fn number_of(&self, name: &str) -> u32 {
        self.names().iter().position(|of| *of == name).unwrap_or(20) as u32
    }

    /// Hides the function of this name from being loaded, and no other.
    pub(super) fn hide_named(&self, name: &str) {
        self.hide(self.number_of(name));
    }

    /// How often a function was called.
    pub(super) fn calls_of(&self, name: &str) -> u64 {
        self.calls(self.number_of(name))
    }

    /// How many calls there were that may be refused.
    pub(super) fn asked(&self) -> u64 {
        self.names().iter().filter(|name| may_be_refused(name)).map(|name| self.calls_of(name)).sum()
    }

    /// Callbacks that count: with `pieces`, those that were taken, and those that were given back.
    pub(super) fn callbacks(&self) -> AllocationCallbacks {
        self.functions.callbacks
    }

    pub(super) fn pieces(&self) -> [u64; 2] {
        self.functions.pieces.map(|pieces| pieces.load(Ordering::Relaxed))
    }

    /// Refuses the call of this number from now on, counted from 1, of those that may be refused.
    pub(super) fn refuse_one(&self, number: u64, result: VkResult) {
        self.refuse(ANY, result, number - 1, false);
    }

    /// Refuses the next call of a function.
    pub(super) fn refuse_next(&self, name: &str, result: VkResult) {
        self.refuse(self.number_of(name), result, 0, false);
    }

    /// As `refuse_one`, with all calls after that one.
    pub(super) fn refuse_from(&self, number: u64, result: VkResult) {
        self.refuse(ANY, result, number - 1, true);
    }

    /// The functions that were called since the last look.
    pub(super) fn heard(&self) -> Vec<&'static str> {
        std::mem::take(&mut self.heard.calls.lock().expect("nothing panics with it"))
    }

    /// The ranges of each flush and invalidate since the last look: offset and size.
    pub(super) fn ranges(&self) -> Vec<Vec<(u64, u64)>> {
        std::mem::take(&mut self.heard.ranges.lock().expect("nothing panics with it"))
    }

    /// The memory types of the objects that were asked for since the last look.
    pub(super) fn types_asked(&self) -> Vec<u32> {
        std::mem::take(&mut self.heard.types.lock().expect("nothing panics with it"))
    }

    /// How many objects, buffers and images there are.
    pub(super) fn held(&self) -> (u64, u64, u64) {
        let held = self.held_now();
        (held.objects, held.buffers, held.images)
    }

    /// All was given back, and nothing was asked that Vulkan forbids.
    pub(super) fn end(self) {
        assert_eq!(self.close(), 0, "the stub found failures");
    }
}

pub(super) fn may_be_refused(name: &str) -> bool {
    !["vkGet", "vkFree", "vkUnmap", "vkDestroy"].iter().any(|start| name.starts_with(start))
}
