//! The memory objects that blocks share, by the library's names for them.

use crate::block::Shared;
use std::collections::HashMap;
use std::hash::{BuildHasherDefault, Hasher};
use std::sync::Arc;

/// The memory objects that blocks share. Those of a single block are with that block.
pub(crate) struct Objects<M> {
    by_name: HashMap<u64, Shared<M>, BuildHasherDefault<NameHasher>>,
}

impl<M> Objects<M> {
    pub(crate) fn new() -> Self {
        Objects { by_name: HashMap::default() }
    }

    pub(crate) fn insert(&mut self, name: u64, shared: Shared<M>) {
        self.by_name.insert(name, shared);
    }

    pub(crate) fn get(&self, name: u64) -> &Shared<M> {
        self.by_name.get(&name).expect("an object of the library's has to be known by its name")
    }

    /// Takes out a released object; `None` where it is with its block.
    pub(crate) fn take(&mut self, name: u64) -> Option<M> {
        let shared = self.by_name.remove(&name)?;
        Some(Arc::into_inner(shared.memory).expect("an object goes when each of its blocks was given back"))
    }

    pub(crate) fn len(&self) -> usize {
        self.by_name.len()
    }
}

/// Spreads names. They are numbers that the library counts up, so nobody can choose ones that collide.
#[derive(Default)]
struct NameHasher(u64);

impl Hasher for NameHasher {
    fn write(&mut self, bytes: &[u8]) {
        for &byte in bytes {
            self.write_u64(byte.into());
        }
    }

    fn write_u64(&mut self, name: u64) {
        // 2^64 divided by the golden ratio: neighbours land far from each other.
        self.0 = (self.0 ^ name).wrapping_mul(0x9e37_79b9_7f4a_7c15);
    }

    fn finish(&self) -> u64 {
        self.0 ^ self.0 >> 32
    }
}
