//! The calls of `wallthyme.h` that this crate makes, with its types, as C sees them.
//!
//! Each constant and each struct is declared by a macro, which notes its name in C, its value, its size and its
//! offsets. The test below compares all of them with the library's. So none can be left out.

use std::ffi::c_void;
use std::ptr::null_mut;

/// Declares constants of the header. There their names begin with `WT_`.
macro_rules! constants {
    ($( $NAME:ident: $Type:ty = $value:expr; )*) => {
        $( pub(crate) const $NAME: $Type = $value; )*

        #[cfg(test)]
        const CONSTANTS: &[(&str, usize)] = &[$( (concat!("WT_", stringify!($NAME)), $NAME as usize) ),*];
    };
}

/// Declares structs of the header, each after its name there. Fields have the same names in both.
macro_rules! structs {
    ($( $(#[$attribute:meta])* struct $c_name:ident $Name:ident { $( $field:ident: $Type:ty, )* } )*) => {
        $(
            $(#[$attribute])*
            #[repr(C)]
            pub(crate) struct $Name { $( pub(crate) $field: $Type, )* }
        )*

        #[cfg(test)]
        const STRUCTS: &[(&str, usize, &[(&str, usize)])] = &[$(
            (
                stringify!($c_name),
                std::mem::size_of::<$Name>(),
                &[$( (stringify!($field), std::mem::offset_of!($Name, $field)) ),*],
            )
        ),*];
    };
}

constants! {
    VERSION: u32 = 0x0000_0a00;

    OK: u32 = 0;
    ASK: u32 = 1;
    OUT_OF_DEVICE_MEMORY: u32 = 2;
    OUT_OF_HOST_MEMORY: u32 = 3;
    NO_COMPATIBLE_MEMORY_TYPES: u32 = 4;
    TOO_MANY_OBJECTS: u32 = 5;
    BAD_PROPERTIES: u32 = 11;
    BAD_SIZE: u32 = 15;
    BAD_ALIGNMENT: u32 = 16;
    BAD_USAGE: u32 = 17;
    NO_DEVICE_ADDRESS: u32 = 19;
    BAD_MEMORY_TYPE: u32 = 21;
    BAD_HEAP: u32 = 22;
    NO_REMAINING: u32 = 24;

    GRANTED: u32 = 0;
    NO_DEVICE_MEMORY: u32 = 1;
    NO_HOST_MEMORY: u32 = 2;
    DEVICE_MAP_FAILED: u32 = 3;

    ALLOCATE: u32 = 1;
    MAP_MADE: u32 = 2;

    ALLOCATE_DEVICE_ADDRESS: u32 = 1;
    ALLOCATE_OWN: u32 = 0x100;

    OPTIMAL: u32 = 1;

    SHARED: u32 = 0;
    PREFERRED: u32 = 1;
    REQUIRED: u32 = 2;

    BUDDY: u64 = 0;
    FIT: u64 = 1;

    MAX_QUESTIONS: usize = 64;
}

structs! {
    struct wt_allocator Allocator {
        full: u32,
        state: *mut c_void,
    }

    struct wt_memory_type MemoryType {
        heap: u32,
        props: u32,
    }

    struct wt_limits Limits {
        max_memory_allocation_size: u64,
        non_coherent_atom_size: u64,
        max_memory_allocation_count: u32,
        buffer_device_address: u32,
        buffer_image_granularity: u64,
    }

    struct wt_config Config {
        dedicated_threshold: u64,
        preferred_dedicated_threshold: u64,
        transient_dedicated_threshold: u64,
        starting_free_list_chunk: u64,
        final_free_list_chunk: u64,
        minimal_buddy_size: u64,
        initial_buddy_dedicated_size: u64,
        sharing: u64,
    }

    struct wt_request Request {
        size: u64,
        align_mask: u64,
        usage: u32,
        memory_types: u32,
        dedicated: u32,
        flags: u32,
        user: u64,
    }

    #[derive(Clone, Copy, Default)]
    struct wt_question Question {
        object: u64,
        offset: u64,
        size: u64,
        kind: u32,
        memory_type: u32,
        flags: u32,
        answer: u32,
    }

    /// Nothing here reads its last three fields.
    #[allow(dead_code)]
    #[derive(Clone, Copy, Default)]
    struct wt_block Block {
        key: u64,
        object: u64,
        offset: u64,
        size: u64,
        memory_type: u32,
        fresh: u32,
        user: u64,
        asked: u64,
        flags: u32,
        reserved: u32,
    }

    #[derive(Default)]
    struct wt_counts Counts {
        blocks: u64,
        unread: u64,
        held: u32,
        remaining: u32,
    }

    /// Only tests read its last two fields.
    #[allow(dead_code)]
    #[derive(Default)]
    struct wt_heap_counts HeapCounts {
        used: u64,
        used_high: u64,
        budget: u64,
        limit: u64,
    }

    /// A range of an object, which only tests ask for.
    #[cfg(test)]
    #[derive(Default)]
    struct wt_range Range {
        object: u64,
        offset: u64,
        size: u64,
    }
}

impl Allocator {
    /// A zeroed allocator, as the header wants it.
    pub(crate) const CLOSED: Allocator = Allocator { full: 0, state: null_mut() };
}

extern "C" {
    pub(crate) fn wt_version() -> u32;
    pub(crate) fn wt_open(
        a: *mut Allocator,
        types: *const MemoryType,
        types_len: usize,
        heap_sizes: *const u64,
        heaps_len: usize,
        limits: *const Limits,
        config: *const Config,
    ) -> u32;
    pub(crate) fn wt_close(a: *mut Allocator) -> u32;
    pub(crate) fn wt_alloc(
        a: *mut Allocator,
        request: *const Request,
        asked: *const Question,
        asked_len: usize,
        block: *mut Block,
        question: *mut Question,
    ) -> u32;
    pub(crate) fn wt_import(
        a: *mut Allocator,
        memory_type: u32,
        object_size: u64,
        offset: u64,
        size: u64,
        block: *mut Block,
    ) -> u32;
    pub(crate) fn wt_set_user(a: *mut Allocator, key: u64, user: u64) -> u32;
    pub(crate) fn wt_blocks(a: *mut Allocator, after: u64, blocks: *mut Block, room: usize, count: *mut usize) -> u32;
    pub(crate) fn wt_candidates(
        a: *mut Allocator,
        usage: u32,
        memory_types: u32,
        types: *mut u32,
        room: usize,
        count: *mut usize,
    ) -> u32;
    pub(crate) fn wt_free(a: *mut Allocator, key: u64) -> u32;
    pub(crate) fn wt_cleanup(a: *mut Allocator) -> u32;
    pub(crate) fn wt_gone(a: *mut Allocator, names: *mut u64, room: usize, count: *mut usize) -> u32;
    pub(crate) fn wt_count(a: *mut Allocator, counts: *mut Counts) -> u32;
    pub(crate) fn wt_set_remaining(a: *mut Allocator, remaining: u32) -> u32;
    pub(crate) fn wt_set_heap_limit(a: *mut Allocator, heap: u32, limit: u64) -> u32;
    pub(crate) fn wt_report(a: *mut Allocator, text: *mut u8, room: usize, length: *mut usize) -> u32;
    pub(crate) fn wt_heap(a: *mut Allocator, heap: u32, counts: *mut HeapCounts) -> u32;
    #[cfg(test)]
    pub(crate) fn wt_range_of(a: *mut Allocator, key: u64, offset: u64, size: u64, range: *mut Range) -> u32;
    #[cfg(test)]
    fn wt_layout(number: u32) -> u32;
}

#[cfg(test)]
mod tests {
    use super::*;
    use crate::{MemoryPropertyFlags, UsageFlags};
    use std::collections::BTreeMap;

    /// The numbers of the rows of `layout.h`, by what they give: `WT_OK`, `sizeof(wt_block)`, `offsetof(wt_block,
    /// key)`. There is no second list of them. A released archive has that file next to the crate's library,
    /// Wallthyme's repository in `c/`.
    fn numbers() -> BTreeMap<String, u32> {
        let released = concat!(env!("CARGO_MANIFEST_DIR"), "/lib/layout.h");
        let path = concat!(env!("CARGO_MANIFEST_DIR"), "/../c/layout.h");
        let text = std::fs::read_to_string(released).or_else(|_| std::fs::read_to_string(path));
        let text = text.expect("the rows are in lib/layout.h, or in c/layout.h of Wallthyme's repository");
        text.lines()
            .filter_map(|line| line.trim_end_matches(['\\', ' ']).trim().strip_prefix("ROW(")?.strip_suffix(')'))
            .filter_map(|row| row.split_once(", "))
            .map(|(number, what)| (what.to_owned(), number.parse().expect("a row begins by its number")))
            .collect()
    }

    /// What this crate has in common with the library: each under its name in C, with its value here.
    fn shared() -> Vec<(String, usize)> {
        let mut shared: Vec<_> = CONSTANTS.iter().map(|&(name, value)| (name.to_owned(), value)).collect();
        for &(name, size, fields) in STRUCTS {
            shared.push((format!("sizeof({name})"), size));
            shared.extend(fields.iter().map(|(field, offset)| (format!("offsetof({name}, {field})"), *offset)));
        }
        // Flags go to the library with the bits that they have here.
        let usages = UsageFlags::all().iter_names().map(|(name, flag)| (format!("WT_USAGE_{name}"), flag.bits()));
        let props = MemoryPropertyFlags::all().iter_names().map(|(name, flag)| (format!("WT_{name}"), flag.bits()));
        shared.extend(usages.chain(props).map(|(name, bits)| (name, bits.into())));
        shared
    }

    #[test]
    fn all_is_as_the_library_has_it() {
        let numbers = numbers();
        let mut wrong = Vec::new();
        for (what, value) in shared() {
            let Some(&number) = numbers.get(&what) else {
                wrong.push(format!("{what} is no row of layout.h"));
                continue;
            };
            // SAFETY: it takes any number, and touches no memory of another.
            let told = unsafe { wt_layout(number) };
            if usize::try_from(told) != Ok(value) {
                wrong.push(format!("row {number}, {what}, is {value} here and {told} in the library"));
            }
        }
        assert!(wrong.is_empty(), "{wrong:#?}");
    }

    #[test]
    fn the_crate_has_the_version_of_the_library() {
        let [_, first, second, third] = VERSION.to_be_bytes();
        assert_eq!(env!("CARGO_PKG_VERSION"), format!("{first}.{second}.{third}"));
    }
}
