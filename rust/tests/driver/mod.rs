//! A Vulkan device for tests: the software driver where it is there, under the validation layer.
#![allow(dead_code, reason = "each test takes what it needs")]

mod picture;
pub mod pretend;
pub mod world;

pub use crate::triangle::vk;
use std::env;
use std::fs;
use std::io::{stderr, Write};
use std::path::PathBuf;
use std::sync::Once;
use vk::device::{Device, NoDevice};
use wallthyme::vulkan::Enabled;

/// The software driver's file, where the Vulkan loader looks for such; none where it is not there.
fn software_driver() -> Option<PathBuf> {
    let home = env::var_os("XDG_DATA_HOME").map(PathBuf::from);
    let home = home.or_else(|| Some(PathBuf::from(env::var_os("HOME")?).join(".local/share")));
    let folders = ["/usr/local/etc", "/usr/local/share", "/etc", "/usr/share"].map(PathBuf::from);
    home.into_iter().chain(folders).find_map(|folder| {
        let files = fs::read_dir(folder.join("vulkan/icd.d")).ok()?.flatten().map(|file| file.path());
        let mut drivers = files.filter(|file| {
            let name = file.file_name().and_then(|name| name.to_str()).unwrap_or_default();
            name.starts_with("lvp_icd") && name.ends_with(".json")
        });
        drivers.next()
    })
}

/// Chooses the driver as `scripts/gate/vulkan` does: the one that the environment names, or the software driver, or the
/// first.
fn choose_driver() {
    static CHOSEN: Once = Once::new();
    CHOSEN.call_once(|| {
        let is_chosen = ["VK_ICD_FILENAMES", "VK_DRIVER_FILES"].iter().any(|name| env::var_os(name).is_some());
        if let Some(file) = software_driver().filter(|_| !is_chosen) {
            env::set_var("VK_ICD_FILENAMES", file);
        }
    });
}

/// A device with all that it has of what an allocator uses; none, and that is said, where something is not there.
pub fn open(what: &str) -> Option<Device> {
    choose_driver();
    pretend::plan(|plan| *plan = pretend::Plan::NOTHING);
    match Device::open(Enabled::all(), true) {
        Ok(device) => Some(device),
        Err(missing @ NoDevice::NotInstalled(_)) => {
            leave_out(what, &missing.to_string());
            None
        }
        Err(NoDevice::Failed(why)) => panic!("{why}"),
    }
}

/// Says what is left out, straight to standard error, since what a test that passes prints is not shown.
pub fn leave_out(what: &str, missing: &str) {
    writeln!(stderr(), "left out: {what}, since {missing}").expect("standard error can be written");
}
