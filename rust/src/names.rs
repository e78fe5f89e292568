//! The names that a program gives its blocks, and how reports show them.

use crate::types::OutOfMemory;
use std::collections::{HashMap, TryReserveError};
use std::fmt::Write;

/// What a report writes of a live block first, and then its key.
const PLACE: &str = r#"{"key":"#;
/// What it writes behind the program's value, where the name goes.
const BEHIND_USER: &str = r#","asked":"#;

/// The names of live blocks by their keys. Each block has a copy of its own, to be reported with it.
pub(crate) struct Names {
    by_key: HashMap<u64, Box<str>>,
}

impl Names {
    pub(crate) fn new() -> Self {
        Names { by_key: HashMap::new() }
    }

    /// Sets a block's name, and returns the block's own copy. The empty text is no name.
    ///
    /// # Errors
    ///
    /// [`OutOfMemory::OutOfHostMemory`]. Nothing is changed then.
    pub(crate) fn set(&mut self, key: u64, name: &str) -> Result<Option<Box<str>>, OutOfMemory> {
        if name.is_empty() {
            self.take(key);
            return Ok(None);
        }
        let (kept, own) = (copy(name)?, copy(name)?);
        self.by_key.try_reserve(1).map_err(out_of_memory)?;
        self.by_key.insert(key, kept);
        Ok(Some(own))
    }

    /// Takes a block's name away.
    pub(crate) fn take(&mut self, key: u64) -> Option<Box<str>> {
        self.by_key.remove(&key)
    }

    /// The library's report with the names, each behind the program's value of its block.
    ///
    /// # Errors
    ///
    /// [`OutOfMemory::OutOfHostMemory`].
    pub(crate) fn shown_in(&self, report: String) -> Result<String, OutOfMemory> {
        if self.by_key.is_empty() {
            return Ok(report);
        }
        let mut shown = String::new();
        let of_names: usize = self.by_key.values().map(|name| longest_member(name)).sum();
        shown.try_reserve_exact(report.len() + of_names).map_err(out_of_memory)?;
        let mut places = report.split(PLACE);
        shown.extend(places.next());
        for place in places {
            shown += PLACE;
            let name = key_of(place).and_then(|key| self.by_key.get(&key));
            match (name, place.find(BEHIND_USER)) {
                (Some(name), Some(at)) => {
                    shown += &place[..at];
                    write_member(&mut shown, name);
                    shown += &place[at..];
                }
                _ => shown += place,
            }
        }
        Ok(shown)
    }
}

fn out_of_memory(_: TryReserveError) -> OutOfMemory {
    OutOfMemory::OutOfHostMemory
}

fn copy(name: &str) -> Result<Box<str>, OutOfMemory> {
    let mut copy = String::new();
    copy.try_reserve_exact(name.len()).map_err(out_of_memory)?;
    copy += name;
    Ok(copy.into_boxed_str())
}

/// The key at the start of a text; none where that is no number, as for free bytes.
fn key_of(place: &str) -> Option<u64> {
    place.split(',').next()?.parse().ok()
}

const BEFORE_NAME: &str = r#","name":""#;

/// How many bytes `write_member` writes at most.
fn longest_member(name: &str) -> usize {
    BEFORE_NAME.len() + r"\u0000".len() * name.len() + 1
}

/// Writes a member with a name as JSON.
fn write_member(text: &mut String, name: &str) {
    *text += BEFORE_NAME;
    for character in name.chars() {
        match character {
            '"' | '\\' => text.extend(['\\', character]),
            '\0'..='\x1f' => write!(text, r"\u{:04x}", u32::from(character)).expect("a string takes all"),
            _ => text.push(character),
        }
    }
    text.push('"');
}
