//! The two configurations are the same in C, in Rust and in the proved sources.

use std::fs::read_to_string;
use std::path::{Path, PathBuf};
use wallthyme::{Config, Sharing};

/// The first of these files, as paths from the folder above this crate's, that is there.
fn found(paths: &[&str]) -> Option<PathBuf> {
    let above = Path::new(env!("CARGO_MANIFEST_DIR")).parent()?;
    paths.iter().map(|path| above.join(path)).find(|path| path.is_file())
}

/// The sizes in the order of the fields.
fn sizes(config: &Config) -> [u64; 7] {
    [
        config.dedicated_threshold,
        config.preferred_dedicated_threshold,
        config.transient_dedicated_threshold,
        config.starting_free_list_chunk,
        config.final_free_list_chunk,
        config.minimal_buddy_size,
        config.initial_buddy_dedicated_size,
    ]
}

/// The sizes between the braces behind a name, where the way to share objects stands last: as it is without a choice.
fn sizes_behind(text: &str, name: &str) -> Vec<u64> {
    let rest = text.split_once(name).unwrap_or_else(|| panic!("{name} is not there")).1;
    let inside = rest.split_once('{').unwrap().1.split_once('}').unwrap().0;
    let (sizes, sharing) = inside.rsplit_once(',').unwrap();
    assert_eq!((sharing.trim(), Sharing::default()), ("WT_BUDDY", Sharing::Buddy), "{name}");
    sizes.split(',').map(|number| number.trim().parse().unwrap()).collect()
}

/// The value of a product of numbers and units, as the proved sources write sizes.
fn product(text: &str) -> u64 {
    let value = |part: &str| match part {
        "KIBIBYTE" => 1 << 10,
        "MEBIBYTE" => 1 << 20,
        number => number.parse().unwrap(),
    };
    text.split('*').map(|part| value(part.trim())).product()
}

/// The sizes that a function of the proved sources gives, in their order.
fn sizes_in(text: &str, function: &str) -> Vec<u64> {
    let body = text.split_once(&format!("fn {function}()")).expect("there is no such function").1;
    let fields = body.split_once("Config {").unwrap().1.split_once('}').unwrap().0;
    fields
        .lines()
        .filter_map(|line| line.trim().strip_suffix(',')?.split_once(": "))
        .map(|field| product(field.1))
        .collect()
}

#[test]
fn the_header_has_the_same_configurations() {
    let header = found(&["c/wallthyme.h", "include/wallthyme.h"]).expect("the header is not there");
    let header = read_to_string(header).unwrap();
    assert_eq!(sizes_behind(&header, "define WT_CONFIG_POTATO "), sizes(&Config::i_am_potato()));
    assert_eq!(sizes_behind(&header, "define WT_CONFIG_PROTOTYPING "), sizes(&Config::i_am_prototyping()));
}

#[test]
fn the_proved_sources_have_the_same_configurations() {
    let Some(source) = found(&["crates/gpu_alloc_base/src/config.rt"]) else {
        println!("left out: the proved sources are not here");
        return;
    };
    let source = read_to_string(source).unwrap();
    assert_eq!(sizes_in(&source, "i_am_potato"), sizes(&Config::i_am_potato()));
    assert_eq!(sizes_in(&source, "i_am_prototyping"), sizes(&Config::i_am_prototyping()));
}
