//! Errors: what is refused, and why.

use crate::types::{DeviceMapError, OutOfMemory};
use std::error::Error;
use std::fmt::{Display, Formatter, Result};

/// Why an allocation was refused. The allocator and the device then hold what they held before.
#[derive(Clone, Copy, Debug, PartialEq, Eq, Hash)]
pub enum AllocationError {
    /// The device, or each heap that could serve, has too little memory left of its size or of its limit, or the
    /// request is larger than
    /// [`DeviceProperties::max_memory_allocation_size`](crate::DeviceProperties::max_memory_allocation_size).
    OutOfDeviceMemory,

    /// The host has too little memory, for the device or for the allocator, or a new shared memory object could not
    /// be mapped.
    OutOfHostMemory,

    /// No memory type of [`Request::memory_types`](crate::Request::memory_types) serves
    /// [`Request::usage`](crate::Request::usage).
    NoCompatibleMemoryTypes,

    /// A new memory object is needed, and as many are held as the device allows. Where this comes with heaps nearly
    /// empty, larger sizes in [`Config`](crate::Config) make fewer objects.
    TooManyObjects,
}

impl From<OutOfMemory> for AllocationError {
    fn from(error: OutOfMemory) -> Self {
        match error {
            OutOfMemory::OutOfDeviceMemory => AllocationError::OutOfDeviceMemory,
            OutOfMemory::OutOfHostMemory => AllocationError::OutOfHostMemory,
        }
    }
}

impl Display for AllocationError {
    fn fmt(&self, formatter: &mut Formatter<'_>) -> Result {
        formatter.write_str(match self {
            AllocationError::OutOfDeviceMemory => "Device memory exhausted",
            AllocationError::OutOfHostMemory => "Host memory exhausted",
            AllocationError::NoCompatibleMemoryTypes => {
                "No compatible memory types from requested types support requested usage"
            }
            AllocationError::TooManyObjects => "Reached limit on allocated memory objects count",
        })
    }
}

impl Error for AllocationError {}

/// Why a block was not mapped, or its bytes were not written or read.
#[derive(Clone, Copy, Debug, PartialEq, Eq, Hash)]
pub enum MapError {
    /// The device has too little memory.
    OutOfDeviceMemory,

    /// The host has too little memory.
    OutOfHostMemory,

    /// The block's memory is not host-visible. It is where the request had
    /// [`UsageFlags::HOST_ACCESS`](crate::UsageFlags::HOST_ACCESS), `UPLOAD` or `DOWNLOAD`.
    NonHostVisible,

    /// The device failed for a reason of its own, such as no address space of that size.
    MapFailed,

    /// The block is mapped.
    AlreadyMapped,
}

impl From<DeviceMapError> for MapError {
    fn from(error: DeviceMapError) -> Self {
        match error {
            DeviceMapError::OutOfDeviceMemory => MapError::OutOfDeviceMemory,
            DeviceMapError::OutOfHostMemory => MapError::OutOfHostMemory,
            DeviceMapError::MapFailed => MapError::MapFailed,
        }
    }
}

impl From<OutOfMemory> for MapError {
    fn from(error: OutOfMemory) -> Self {
        match error {
            OutOfMemory::OutOfDeviceMemory => MapError::OutOfDeviceMemory,
            OutOfMemory::OutOfHostMemory => MapError::OutOfHostMemory,
        }
    }
}

impl Display for MapError {
    fn fmt(&self, formatter: &mut Formatter<'_>) -> Result {
        formatter.write_str(match self {
            MapError::OutOfDeviceMemory => "Device memory exhausted",
            MapError::OutOfHostMemory => "Host memory exhausted",
            MapError::NonHostVisible => "Impossible to map non-host-visible memory",
            MapError::MapFailed => "Failed to map memory object",
            MapError::AlreadyMapped => "Block is already mapped",
        })
    }
}

impl Error for MapError {}

/// Why an allocator could not be made. Nothing is held then.
#[derive(Clone, Copy, Debug, PartialEq, Eq, Hash)]
#[non_exhaustive]
pub enum NewError {
    /// There are more than 32 memory types, one is of a heap that does not exist, or
    /// [`DeviceProperties::non_coherent_atom_size`](crate::DeviceProperties::non_coherent_atom_size) is not a power of
    /// two of at most 2^62.
    BadProperties,

    /// The host has too little memory.
    OutOfHostMemory,

    /// The linked library is of another version than this crate.
    OtherVersion,
}

impl Display for NewError {
    fn fmt(&self, formatter: &mut Formatter<'_>) -> Result {
        formatter.write_str(match self {
            NewError::BadProperties => {
                "Over 32 memory types, one of a heap that is not there, or a non-coherent atom that is no power of two \
                 of at most 2^62"
            }
            NewError::OutOfHostMemory => "Host memory exhausted",
            NewError::OtherVersion => "libwallthyme.a is of another version than the crate wallthyme",
        })
    }
}

impl Error for NewError {}
