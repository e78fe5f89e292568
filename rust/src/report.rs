//! Reports of what was dropped and should have been returned.

use std::fmt::{Display, Formatter, Result};
use std::io::{stderr, Write};
use std::sync::{Arc, Mutex, PoisonError};

/// A block that is not returned yet, and where it lies.
#[derive(Clone, Debug, PartialEq, Eq, Hash)]
#[non_exhaustive]
pub struct LiveBlock {
    /// Its key ([`MemoryBlock::key`](crate::MemoryBlock::key)).
    pub key: u64,
    /// The program's value ([`GpuAllocator::set_user`](crate::GpuAllocator::set_user)), or 0.
    pub user: u64,
    /// The program's name for it ([`GpuAllocator::set_name`](crate::GpuAllocator::set_name)), if it has one.
    pub name: Option<Box<str>>,
    /// Its size in bytes: at least what was asked for.
    pub size: u64,
    /// The name of its memory object, as [`GpuAllocator::report`](crate::GpuAllocator::report) has it.
    pub object: u64,
    /// Where it starts, in bytes from the start of its memory object.
    pub offset: u64,
    /// The index of its memory type.
    pub memory_type: u32,
}

/// What was dropped and should have been returned. Its text is one line.
///
/// In a debug build it is printed on standard error, and in a release build not reported, unless a handler takes it
/// ([`set_drop_handler`]). It is not reported while the thread unwinds: what is dropped then was not forgotten.
#[derive(Clone, Debug, PartialEq, Eq, Hash)]
#[non_exhaustive]
pub enum Dropped {
    /// A [`MemoryBlock`](crate::MemoryBlock). Its memory stays taken.
    Block(LiveBlock),

    /// An allocator with so many live blocks. Each of them is reported next.
    Allocator {
        /// How many there are.
        blocks: u64,
    },

    /// A live block of the allocator that was reported last on this thread.
    BlockOfAllocator(LiveBlock),

    /// An allocator without [`cleanup`](crate::GpuAllocator::cleanup), with no live block and so many memory objects.
    WithoutCleanup {
        /// How many there are.
        objects: usize,
    },
}

impl Display for LiveBlock {
    fn fmt(&self, formatter: &mut Formatter<'_>) -> Result {
        let LiveBlock { key, user, name, size, object, offset, memory_type } = self;
        write!(
            formatter,
            "{size} bytes at byte {offset} of object {object}, memory type {memory_type}, key {key}, user {user}"
        )?;
        match name {
            // Escaped, so that the text stays one line.
            Some(name) => write!(formatter, ", name {name:?}"),
            None => Ok(()),
        }
    }
}

impl Display for Dropped {
    fn fmt(&self, formatter: &mut Formatter<'_>) -> Result {
        match self {
            Dropped::Block(block) => {
                write!(formatter, "a memory block was dropped, and not given back: its memory stays taken: {block}")
            }
            Dropped::Allocator { blocks } => {
                write!(formatter, "an allocator was dropped, with blocks that were not given back: {blocks}")
            }
            Dropped::BlockOfAllocator(block) => write!(formatter, "a block was not given back: {block}"),
            Dropped::WithoutCleanup { objects } => {
                write!(formatter, "an allocator was dropped without `cleanup`, with memory objects: {objects}")
            }
        }
    }
}

type Handler = dyn Fn(&Dropped) + Send + Sync;

static HANDLER: Mutex<Option<Arc<Handler>>> = Mutex::new(None);

/// Takes all reports of what is dropped and should have been returned, in place of the handler before: of each
/// allocator and block of the process, also of those over Vulkan. It is called on the thread that drops, while it does.
/// It should not panic.
///
/// ```
/// wallthyme::set_drop_handler(|dropped| println!("forgotten: {dropped}"));
/// ```
pub fn set_drop_handler(handler: impl Fn(&Dropped) + Send + Sync + 'static) {
    let handler: Arc<Handler> = Arc::new(handler);
    // The one before is dropped without the lock: what is dropped with it may be reported.
    let _before = HANDLER.lock().unwrap_or_else(PoisonError::into_inner).replace(handler);
}

/// Reports what is dropped, unless the thread unwinds.
#[cold]
pub(crate) fn report(what: &Dropped) {
    if std::thread::panicking() {
        return;
    }
    // It is called without the lock: what it drops may be reported.
    let handler = HANDLER.lock().unwrap_or_else(PoisonError::into_inner).clone();
    match handler {
        Some(handler) => handler(what),
        // A report that cannot be written is no reason to stop, least of all in a drop.
        None if cfg!(debug_assertions) => drop(writeln!(stderr(), "wallthyme: {what}")),
        None => {}
    }
}
