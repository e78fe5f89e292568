#![doc = include_str!("../README.md")]
#![deny(unsafe_op_in_unsafe_fn)]
#![deny(clippy::undocumented_unsafe_blocks)]
#![warn(missing_docs)]

#[cfg(all(wallthyme_missing, not(doc)))]
compile_error!(
    "The library libwallthyme.a was not found. A released archive has it, in lib/ of this crate's folder too: take the \
     crate from there. Or set WALLTHYME_LIB to the folder that it is in. Or, in Wallthyme's repository, build it by \
     `cd c && make` and `make install` it, for pkg-config to find. (To check or document without it: set DOCS_RS=1.)"
);

#[cfg(all(wallthyme_no_target, not(doc)))]
compile_error!(concat!(
    "There is no library for ",
    env!("WALLTHYME_TARGET"),
    ", only for ",
    env!("WALLTHYME_TARGETS"),
    ". (To check or document without it: set DOCS_RS=1.)"
));

mod allocator;
mod asked;
mod block;
mod config;
mod error;
mod ffi;
mod flags;
mod library;
mod names;
mod objects;
mod report;
mod request;
mod types;
mod usage;
pub mod vulkan;

pub use allocator::GpuAllocator;
pub use block::MemoryBlock;
pub use config::{Config, Sharing};
pub use error::{AllocationError, MapError, NewError};
pub use report::{set_drop_handler, Dropped, LiveBlock};
pub use request::{Dedicated, Request};
pub use types::{
    AllocationFlags, DeviceMapError, DeviceProperties, MappedMemoryRange, MemoryDevice, MemoryHeap,
    MemoryPropertyFlags, MemoryType, OutOfMemory,
};
pub use usage::UsageFlags;
