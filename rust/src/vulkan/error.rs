//! Errors over Vulkan: what is refused, and why.

use crate::error::{AllocationError, MapError, NewError};
use std::fmt::{Debug, Display, Formatter};

/// A `VkResult`, as the driver returned it.
#[derive(Clone, Copy, PartialEq, Eq, Hash)]
#[repr(transparent)]
pub struct VkResult(pub i32);

/// Declares results by their names in C.
macro_rules! results {
    ($( $NAME:ident = $value:literal; )*) => {
        impl VkResult {
            $(
                #[doc = concat!("`VK_", stringify!($NAME), "`.")]
                pub const $NAME: VkResult = VkResult($value);
            )*

            const NAMED: &'static [(VkResult, &'static str)] =
                &[$( (VkResult::$NAME, concat!("VK_", stringify!($NAME))) ),*];
        }
    };
}

results! {
    SUCCESS = 0;
    ERROR_OUT_OF_HOST_MEMORY = -1;
    ERROR_OUT_OF_DEVICE_MEMORY = -2;
    ERROR_INITIALIZATION_FAILED = -3;
    ERROR_DEVICE_LOST = -4;
    ERROR_MEMORY_MAP_FAILED = -5;
    ERROR_EXTENSION_NOT_PRESENT = -7;
    ERROR_FEATURE_NOT_PRESENT = -8;
    ERROR_TOO_MANY_OBJECTS = -10;
    ERROR_UNKNOWN = -13;
    ERROR_VALIDATION_FAILED_EXT = -1_000_011_001;
    ERROR_INVALID_EXTERNAL_HANDLE = -1_000_072_003;
    ERROR_INVALID_OPAQUE_CAPTURE_ADDRESS = -1_000_257_000;
}

impl Display for VkResult {
    fn fmt(&self, formatter: &mut Formatter<'_>) -> std::fmt::Result {
        match VkResult::NAMED.iter().find(|named| named.0 == *self) {
            Some((_, name)) => formatter.write_str(name),
            None => write!(formatter, "VkResult {}", self.0),
        }
    }
}

impl Debug for VkResult {
    fn fmt(&self, formatter: &mut Formatter<'_>) -> std::fmt::Result {
        Display::fmt(self, formatter)
    }
}

/// Why a call over Vulkan was refused. Unless the call says otherwise, nothing has changed.
#[derive(Clone, Copy, Debug, PartialEq, Eq, Hash)]
#[non_exhaustive]
pub enum Error {
    /// The driver refused.
    Driver {
        /// The function that it refused, such as `vkAllocateMemory`.
        call: &'static str,
        /// What it returned.
        result: VkResult,
    },

    /// The allocator refused a block, for a reason other than the driver's result.
    Allocation(AllocationError),

    /// The block was not mapped, for a reason other than the driver's result.
    Map(MapError),

    /// The allocator could not be made.
    New(NewError),

    /// This function could not be loaded, or this handle is null.
    Missing(&'static str),

    /// [`DeviceInfo::api_version`](super::DeviceInfo::api_version) is not a version of Vulkan.
    Version,

    /// The buffer is sparse: the program itself must bind memory to its parts.
    SparseBuffer,

    /// The image is sparse: the program itself must bind memory to its parts.
    SparseImage,

    /// The image is disjoint: each of its planes needs memory of its own, which the program itself must bind.
    DisjointImage,

    /// [`MemoryRequest::next`](super::MemoryRequest::next) has this struct, which this side chains by itself.
    Chained(&'static str),

    /// A request with an [`Intent`](super::Intent) goes to a call that sees no create-info, from which its memory types
    /// follow.
    NoCreateInfo,

    /// A request has an [`Intent`](super::Intent), and a usage other than
    /// [`UsageFlags::TRANSIENT`](crate::UsageFlags::TRANSIENT) and
    /// [`UsageFlags::DEVICE_ADDRESS`](crate::UsageFlags::DEVICE_ADDRESS).
    UsageWithIntent,

    /// [`MemoryRequest::min_alignment`](super::MemoryRequest::min_alignment) is neither 0 nor a power of two.
    BadAlignment,

    /// A request requires or prefers memory that is lazily allocated or protected, which the allocator never takes.
    ForbiddenProperties,

    /// A device address is asked for without [`Enabled::DEVICE_ADDRESS`](super::Enabled::DEVICE_ADDRESS)
    /// (VUID-VkMemoryAllocateInfo-flags-03331).
    NoDeviceAddress,

    /// The block's memory object was made for another buffer or image, or it was made for this one, which then has to
    /// lie at its start (VUID-vkBindBufferMemory-memory-01508, VUID-vkBindImageMemory-memory-02628).
    OtherResource,

    /// A block that is to be flushed or invalidated is not mapped.
    NotMapped,

    /// Budgets are asked for without [`Enabled::MEMORY_BUDGET`](super::Enabled::MEMORY_BUDGET), or the driver has none.
    NoBudget,
}

impl Error {
    /// The result that means the same in Vulkan: the driver's own where it refused, and otherwise the one that
    /// `wallthyme_vulkan.h` returns.
    pub fn result(self) -> VkResult {
        match self {
            Error::Driver { result, .. } => result,
            Error::Allocation(AllocationError::OutOfDeviceMemory) | Error::Map(MapError::OutOfDeviceMemory) => {
                VkResult::ERROR_OUT_OF_DEVICE_MEMORY
            }
            Error::Allocation(AllocationError::OutOfHostMemory)
            | Error::Map(MapError::OutOfHostMemory)
            | Error::New(NewError::OutOfHostMemory) => VkResult::ERROR_OUT_OF_HOST_MEMORY,
            Error::Allocation(AllocationError::TooManyObjects) => VkResult::ERROR_TOO_MANY_OBJECTS,
            Error::Allocation(AllocationError::NoCompatibleMemoryTypes)
            | Error::SparseBuffer
            | Error::SparseImage
            | Error::DisjointImage
            | Error::ForbiddenProperties => VkResult::ERROR_FEATURE_NOT_PRESENT,
            Error::Map(MapError::NonHostVisible | MapError::MapFailed) => VkResult::ERROR_MEMORY_MAP_FAILED,
            Error::New(NewError::BadProperties | NewError::OtherVersion) | Error::Missing(_) | Error::Version => {
                VkResult::ERROR_INITIALIZATION_FAILED
            }
            Error::Map(MapError::AlreadyMapped)
            | Error::Chained(_)
            | Error::NoCreateInfo
            | Error::UsageWithIntent
            | Error::BadAlignment
            | Error::NoDeviceAddress
            | Error::OtherResource
            | Error::NotMapped => VkResult::ERROR_VALIDATION_FAILED_EXT,
            Error::NoBudget => VkResult::ERROR_EXTENSION_NOT_PRESENT,
        }
    }

    /// Whether a request goes on with its next memory type.
    pub(crate) fn goes_on(self) -> bool {
        matches!(self.result(), VkResult::ERROR_OUT_OF_DEVICE_MEMORY | VkResult::ERROR_TOO_MANY_OBJECTS)
    }
}

impl Display for Error {
    fn fmt(&self, formatter: &mut Formatter<'_>) -> std::fmt::Result {
        match self {
            Error::Driver { call, result } => write!(formatter, "{call} returned {result}"),
            Error::Allocation(error) => Display::fmt(error, formatter),
            Error::Map(error) => Display::fmt(error, formatter),
            Error::New(error) => Display::fmt(error, formatter),
            Error::Missing(what) => write!(formatter, "{what} is missing"),
            Error::Version => formatter.write_str("`api_version` is no version of Vulkan"),
            Error::SparseBuffer => formatter.write_str("Sparse buffers get no memory here"),
            Error::SparseImage => formatter.write_str("Sparse images get no memory here"),
            Error::DisjointImage => formatter.write_str("Disjoint images get no memory here"),
            Error::Chained(name) => write!(formatter, "{name} is in `next`, and is chained by itself"),
            Error::NoCreateInfo => formatter.write_str("An intent needs the create-info of its buffer or image"),
            Error::UsageWithIntent => {
                formatter.write_str("Of usages only TRANSIENT and DEVICE_ADDRESS go with an intent")
            }
            Error::BadAlignment => formatter.write_str("`min_alignment` is neither 0 nor a power of two"),
            Error::ForbiddenProperties => {
                formatter.write_str("Lazily allocated and protected memory is never allocated")
            }
            Error::NoDeviceAddress => formatter.write_str("The feature bufferDeviceAddress is not enabled"),
            Error::OtherResource => formatter.write_str("Memory object was made for another resource or another place"),
            Error::NotMapped => formatter.write_str("Block is not mapped"),
            Error::NoBudget => formatter.write_str("The extension VK_EXT_memory_budget is not enabled or not there"),
        }
    }
}

impl std::error::Error for Error {}

impl From<AllocationError> for Error {
    fn from(error: AllocationError) -> Self {
        Error::Allocation(error)
    }
}

impl From<MapError> for Error {
    fn from(error: MapError) -> Self {
        Error::Map(error)
    }
}

impl From<NewError> for Error {
    fn from(error: NewError) -> Self {
        Error::New(error)
    }
}
