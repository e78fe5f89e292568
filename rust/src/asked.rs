//! The device of a request, which answers the library's questions, and why one is refused.

use crate::block::Start;
use crate::error::AllocationError;
use crate::ffi;
use crate::library::unexpected;
use crate::types::{AllocationFlags, DeviceMapError, MemoryDevice, OutOfMemory};
use crate::vulkan::Resource;
use std::panic::{catch_unwind, AssertUnwindSafe};
use std::thread::panicking;

/// An object that was made for a request, where it is mapped, and whether it is for that request's block alone, and
/// then for which resource.
pub(crate) struct Made<M> {
    pub memory: M,
    pub start: Option<Start>,
    pub own: bool,
    pub made_for: Option<Resource>,
}

/// The device of a request. However the request ends, an object that was made for it and not taken is freed: after a
/// refusal, and also where this crate or the device panics.
pub(crate) struct Asked<'a, M, D: MemoryDevice<M>> {
    /// The device of each question, which must be right for it.
    pub device: &'a D,
    pub made: Option<Made<M>>,
}

impl<M, D: MemoryDevice<M>> Drop for Asked<'_, M, D> {
    fn drop(&mut self) {
        if self.made.is_none() {
            return;
        }
        // SAFETY: the request has ended, and the library has not taken the object that is still here.
        let mut release = || unsafe { self.release() };
        if panicking() {
            // A second panic would end the process. There is nothing more to do with its cause.
            drop(catch_unwind(AssertUnwindSafe(release)));
        } else {
            release();
        }
    }
}

impl<M, D: MemoryDevice<M>> Asked<'_, M, D> {
    /// # Safety
    ///
    /// The question is the library's, of a device that offers what this one offers.
    pub unsafe fn answer(&mut self, question: &ffi::Question) -> u32 {
        match question.kind {
            // SAFETY: as the caller says.
            ffi::ALLOCATE => unsafe { self.allocate(question) },
            // SAFETY: as the caller says.
            ffi::MAP_MADE => unsafe { self.map_made(question) },
            kind => unexpected("a question of wt_alloc", kind),
        }
    }

    /// # Safety
    ///
    /// As for `answer`.
    unsafe fn allocate(&mut self, question: &ffi::Question) -> u32 {
        // SAFETY: the library goes on without what was made before, if something was.
        unsafe { self.release() };
        let mut flags = AllocationFlags::empty();
        let own = question.flags & ffi::ALLOCATE_OWN != 0;
        flags.set(AllocationFlags::DEVICE_ADDRESS, question.flags & ffi::ALLOCATE_DEVICE_ADDRESS != 0);
        let (size, memory_type) = (question.size, question.memory_type);
        // SAFETY: the memory type is the device's, and the size at least 1. `DEVICE_ADDRESS` is there if its feature is
        // enabled.
        let answer = unsafe {
            match own {
                true => self.device.allocate_own(size, memory_type, flags),
                false => self.device.allocate_memory(size, memory_type, flags),
            }
        };
        match answer {
            Ok(memory) => {
                let made_for = if own { self.device.made_for() } else { None };
                self.made = Some(Made { memory, start: None, own, made_for });
                ffi::GRANTED
            }
            Err(OutOfMemory::OutOfDeviceMemory) => ffi::NO_DEVICE_MEMORY,
            Err(OutOfMemory::OutOfHostMemory) => ffi::NO_HOST_MEMORY,
        }
    }

    /// # Safety
    ///
    /// As for `answer`.
    unsafe fn map_made(&mut self, question: &ffi::Question) -> u32 {
        let made = self.made.as_mut().expect("an object has to be made before it is mapped");
        assert_eq!(question.offset, 0, "a shared object has to be mapped from its start on");
        // SAFETY: the object is of a host-visible type and not mapped, and the range is all of it.
        let error = match unsafe { self.device.map_memory(&mut made.memory, question.offset, question.size) } {
            Ok(start) => {
                made.start = Some(Start(start));
                return ffi::GRANTED;
            }
            Err(error) => error,
        };
        // At once, and not when the request has ended: should the device panic over it, no block was granted yet.
        // SAFETY: the library goes on without it, or refuses the request.
        unsafe { self.release() };
        match error {
            DeviceMapError::OutOfDeviceMemory => ffi::NO_DEVICE_MEMORY,
            DeviceMapError::OutOfHostMemory => ffi::NO_HOST_MEMORY,
            DeviceMapError::MapFailed => ffi::DEVICE_MAP_FAILED,
        }
    }

    /// Frees an object that was made, if there is one.
    ///
    /// # Safety
    ///
    /// The library has not taken it, and will not.
    unsafe fn release(&mut self) {
        if let Some(made) = self.made.take() {
            // SAFETY: it was made here, and nothing but this has it.
            unsafe { self.device.deallocate_memory(made.memory) };
        }
    }
}

/// Why a request was refused, or a panic where it is invalid.
pub(crate) fn refusal(status: u32) -> AllocationError {
    match status {
        ffi::OUT_OF_DEVICE_MEMORY => AllocationError::OutOfDeviceMemory,
        ffi::OUT_OF_HOST_MEMORY => AllocationError::OutOfHostMemory,
        ffi::NO_COMPATIBLE_MEMORY_TYPES => AllocationError::NoCompatibleMemoryTypes,
        ffi::TOO_MANY_OBJECTS => AllocationError::TooManyObjects,
        ffi::BAD_ALIGNMENT => panic!("`align_mask` has to be one less than a power of two of at most 2^63"),
        ffi::BAD_USAGE => panic!("each bit of `usage` has to have a name"),
        ffi::NO_DEVICE_ADDRESS => panic!("`DEVICE_ADDRESS` needs the device's feature `buffer_device_address`"),
        status => unexpected("wt_alloc", status),
    }
}

/// Panics, saying why an import was refused.
#[track_caller]
pub(crate) fn no_import(status: u32) -> ! {
    match status {
        ffi::NO_REMAINING => panic!("no memory objects remain: see `remaining_allocations` before an import"),
        ffi::BAD_MEMORY_TYPE => panic!("an import's `memory_type` has to be one of the device's"),
        ffi::BAD_SIZE => panic!("an import's `size` has to be at least 1"),
        ffi::OUT_OF_HOST_MEMORY => panic!("too little host memory for an import"),
        status => unexpected("wt_import", status),
    }
}
