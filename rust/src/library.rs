//! The library behind a safe face: one open allocator of `wallthyme.h`.

use crate::error::NewError;
use crate::ffi;
use crate::{Config, DeviceProperties, Sharing};

/// The room for live blocks, and the least room for names, where they are read.
pub(crate) const ROOM: usize = 32;

/// An open allocator, until it is closed.
pub(crate) struct Library {
    state: Box<State>,
}

/// What must stay in its place: the handle, which is never copied while it is open, and what a call needs for its
/// questions, so that no call clears it.
struct State {
    handle: ffi::Allocator,
    /// One more than are ever asked: each call says where the next question may be written.
    asked: [ffi::Question; ffi::MAX_QUESTIONS + 1],
}

// SAFETY: one thread at a time calls with the handle, since each call here takes `&mut self`. That another thread may
// call next: see c/wallthyme.h, Threads.
unsafe impl Send for Library {}

// SAFETY: no function takes `&self`, so that nothing can be done with a shared reference.
unsafe impl Sync for Library {}

impl Library {
    /// Opens one for a device of this granularity of buffers and images, whose requests share objects so.
    pub(crate) fn open(
        config: &Config,
        props: &DeviceProperties<'_>,
        granularity: u64,
        sharing: Sharing,
    ) -> Result<Library, NewError> {
        // SAFETY: it has no parameters. Only the patch level, its lower eight bits, may differ: the calls are then
        // the same.
        if (unsafe { ffi::wt_version() } ^ ffi::VERSION) >> 8 != 0 {
            return Err(NewError::OtherVersion);
        }
        let types: Vec<ffi::MemoryType> = props
            .memory_types
            .iter()
            .map(|memory_type| ffi::MemoryType { heap: memory_type.heap, props: memory_type.props.bits().into() })
            .collect();
        let heaps: Vec<u64> = props.memory_heaps.iter().map(|heap| heap.size).collect();
        let mut state = Box::new(State {
            handle: ffi::Allocator::CLOSED,
            asked: [ffi::Question::default(); ffi::MAX_QUESTIONS + 1],
        });
        // SAFETY: each pointer is to a value that lives until the call ends, or to as many as its length says. The
        // handle is zeroed.
        let status = unsafe {
            ffi::wt_open(
                &mut state.handle,
                types.as_ptr(),
                types.len(),
                heaps.as_ptr(),
                heaps.len(),
                &limits_of(props, granularity),
                &config_of(config, sharing),
            )
        };
        match status {
            ffi::OK => Ok(Library { state }),
            ffi::BAD_PROPERTIES => Err(NewError::BadProperties),
            ffi::OUT_OF_HOST_MEMORY => Err(NewError::OutOfHostMemory),
            status => unexpected("wt_open", status),
        }
    }

    /// Allocates a block, with the device's answers to what is asked. Otherwise it returns the status, which is `ASK`
    /// where more is asked than ever should be.
    pub(crate) fn alloc(
        &mut self,
        request: &ffi::Request,
        mut answer: impl FnMut(&ffi::Question) -> u32,
    ) -> Result<ffi::Block, u32> {
        let state = &mut *self.state;
        let mut block = ffi::Block::default();
        for count in 0..=ffi::MAX_QUESTIONS {
            let asked = state.asked.as_mut_ptr();
            // SAFETY: the handle is open, and each pointer is to a value that lives until the call ends. `count`
            // questions of the array were written; the next one is in the array, which has one more than the highest
            // count, and not among those.
            let status =
                unsafe { ffi::wt_alloc(&mut state.handle, request, asked, count, &mut block, asked.add(count)) };
            match status {
                ffi::OK => return Ok(block),
                ffi::ASK => state.asked[count].answer = answer(&state.asked[count]),
                status => return Err(status),
            }
        }
        Err(ffi::ASK)
    }

    /// Imports a range of an object of this size as a block, or returns the status.
    pub(crate) fn import(&mut self, memory_type: u32, object: u64, offset: u64, size: u64) -> Result<ffi::Block, u32> {
        let mut block = ffi::Block::default();
        // SAFETY: the handle is open, and `block` lives until the call ends.
        match unsafe { ffi::wt_import(&mut self.state.handle, memory_type, object, offset, size, &mut block) } {
            ffi::OK => Ok(block),
            status => Err(status),
        }
    }

    /// Sets the program's value of a block, or returns the status where no block has this key.
    pub(crate) fn set_user(&mut self, key: u64, user: u64) -> Result<(), u32> {
        // SAFETY: the handle is open.
        match unsafe { ffi::wt_set_user(&mut self.state.handle, key, user) } {
            ffi::OK => Ok(()),
            status => Err(status),
        }
    }

    /// Shows each live block.
    pub(crate) fn each_block(&mut self, mut show: impl FnMut(&ffi::Block)) {
        let mut blocks = [ffi::Block::default(); ROOM];
        let mut after = 0;
        loop {
            let (room, mut count) = (blocks.len(), 0);
            // SAFETY: the handle is open, and both pointers are good until the call ends, with room for that many.
            let status =
                unsafe { ffi::wt_blocks(&mut self.state.handle, after, blocks.as_mut_ptr(), room, &mut count) };
            expect("wt_blocks", status);
            blocks[..count].iter().for_each(&mut show);
            if count < room {
                return;
            }
            after = blocks[room - 1].key;
        }
    }

    /// The memory types of these that serve a usage, the best one first, or the status.
    pub(crate) fn candidates(&mut self, usage: u32, memory_types: u32) -> Result<Vec<u32>, u32> {
        const MOST: usize = u32::BITS as usize;
        let (mut types, mut count) = ([0; MOST], 0);
        let handle = &mut self.state.handle;
        // SAFETY: the handle is open, and both pointers are good until the call ends, with room for that many.
        match unsafe { ffi::wt_candidates(handle, usage, memory_types, types.as_mut_ptr(), MOST, &mut count) } {
            ffi::OK => Ok(types[..count].to_vec()),
            status => Err(status),
        }
    }

    /// Frees a block, or returns the status where no block has this key.
    pub(crate) fn free(&mut self, key: u64) -> Result<(), u32> {
        // SAFETY: the handle is open.
        match unsafe { ffi::wt_free(&mut self.state.handle, key) } {
            ffi::OK => Ok(()),
            status => Err(status),
        }
    }

    /// Releases each object that no block needs.
    pub(crate) fn cleanup(&mut self) {
        // SAFETY: the handle is open.
        expect("wt_cleanup", unsafe { ffi::wt_cleanup(&mut self.state.handle) });
    }

    /// Reads the names of all released objects, and appends them.
    pub(crate) fn read_gone(&mut self, names: &mut Vec<u64>) {
        loop {
            names.reserve(ROOM);
            let room = names.spare_capacity_mut();
            let room_len = room.len();
            let mut count = 0;
            // SAFETY: the handle is open, `names` has room for that many, and both pointers are good until the call
            // ends.
            let status =
                unsafe { ffi::wt_gone(&mut self.state.handle, room.as_mut_ptr().cast(), room_len, &mut count) };
            expect("wt_gone", status);
            // SAFETY: the library wrote that many names, which is at most what there was room for.
            unsafe { names.set_len(names.len() + count) };
            if count < room_len {
                return;
            }
        }
    }

    pub(crate) fn counts(&mut self) -> ffi::Counts {
        let mut counts = ffi::Counts::default();
        // SAFETY: the handle is open, and `counts` lives until the call ends.
        expect("wt_count", unsafe { ffi::wt_count(&mut self.state.handle, &mut counts) });
        counts
    }

    /// Sets how many more objects may be held. Returns `false` where that is too many; nothing is changed then.
    pub(crate) fn set_remaining(&mut self, remaining: u32) -> bool {
        // SAFETY: the handle is open.
        unsafe { ffi::wt_set_remaining(&mut self.state.handle, remaining) == ffi::OK }
    }

    /// Sets the limit of a heap. Where there is no such heap it returns the status, and nothing is changed.
    pub(crate) fn set_heap_limit(&mut self, heap: u32, limit: u64) -> Result<(), u32> {
        // SAFETY: the handle is open.
        match unsafe { ffi::wt_set_heap_limit(&mut self.state.handle, heap, limit) } {
            ffi::OK => Ok(()),
            status => Err(status),
        }
    }

    /// What is held of a heap, which must be one of the device's.
    pub(crate) fn heap_counts(&mut self, heap: u32) -> ffi::HeapCounts {
        let mut counts = ffi::HeapCounts::default();
        // SAFETY: the handle is open, and `counts` lives until the call ends.
        expect("wt_heap", unsafe { ffi::wt_heap(&mut self.state.handle, heap, &mut counts) });
        counts
    }

    /// A report of all that is held; `None` where the host has too little memory for it.
    pub(crate) fn report(&mut self) -> Option<Vec<u8>> {
        let length = self.report_into(&mut [])?;
        let mut text = Vec::new();
        text.try_reserve_exact(length).ok()?;
        text.resize(length, 0);
        self.report_into(&mut text)?;
        Some(text)
    }

    /// Writes as much of a report as fits, and returns the length of the whole report; `None` where the host has too
    /// little memory.
    fn report_into(&mut self, text: &mut [u8]) -> Option<usize> {
        let mut length = 0;
        // SAFETY: the handle is open, `text` has that much room, and both pointers are good until the call ends.
        let status = unsafe { ffi::wt_report(&mut self.state.handle, text.as_mut_ptr(), text.len(), &mut length) };
        match status {
            ffi::OK => Some(length),
            ffi::OUT_OF_HOST_MEMORY => None,
            status => unexpected("wt_report", status),
        }
    }

    /// Frees the library's memory, once no object is held and all names were read. Otherwise it stays where it is,
    /// since live blocks need it.
    pub(crate) fn close(&mut self) {
        // SAFETY: the handle is open. It is not used after this: only the drop of its owner calls this.
        unsafe { ffi::wt_close(&mut self.state.handle) };
    }

    #[cfg(test)]
    pub(crate) fn range_of(&mut self, key: u64, offset: u64, size: u64) -> ffi::Range {
        let mut range = ffi::Range::default();
        // SAFETY: the handle is open, and `range` lives until the call ends.
        expect("wt_range_of", unsafe { ffi::wt_range_of(&mut self.state.handle, key, offset, size, &mut range) });
        range
    }
}

fn limits_of(props: &DeviceProperties<'_>, granularity: u64) -> ffi::Limits {
    ffi::Limits {
        max_memory_allocation_size: props.max_memory_allocation_size,
        non_coherent_atom_size: props.non_coherent_atom_size,
        max_memory_allocation_count: props.max_memory_allocation_count,
        buffer_device_address: props.buffer_device_address.into(),
        buffer_image_granularity: granularity,
    }
}

fn config_of(config: &Config, sharing: Sharing) -> ffi::Config {
    ffi::Config {
        dedicated_threshold: config.dedicated_threshold,
        preferred_dedicated_threshold: config.preferred_dedicated_threshold,
        transient_dedicated_threshold: config.transient_dedicated_threshold,
        starting_free_list_chunk: config.starting_free_list_chunk,
        final_free_list_chunk: config.final_free_list_chunk,
        minimal_buddy_size: config.minimal_buddy_size,
        initial_buddy_dedicated_size: config.initial_buddy_dedicated_size,
        sharing: match sharing {
            Sharing::Buddy => ffi::BUDDY,
            Sharing::Fit => ffi::FIT,
        },
    }
}

fn expect(call: &str, status: u32) {
    if status != ffi::OK {
        unexpected(call, status);
    }
}

/// Panics over a status that a call never returns when it is made as it is here.
#[cold]
pub(crate) fn unexpected(call: &str, status: u32) -> ! {
    panic!("{call} answered {status}, which it never should: a fault of this crate or of the library")
}
