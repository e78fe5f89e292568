//! Finds the library for the target: in the folder that WALLTHYME_LIB names; where that is not set, in `lib/TARGET/` of
//! this crate's folder, where released archives have it; where there is none, and the target is this machine's own, in
//! the folder that pkg-config names.
//!
//! Where it is in none of these, or where no library is made for the target, the crate is compiled with the cfg
//! `wallthyme_missing` or `wallthyme_no_target`, under which it stops with a message that says what to do. It is not this
//! script that stops, since `cargo doc` runs it too, and documents need no library.

use std::env;
use std::path::{Path, PathBuf};
use std::process::Command;

/// A target for which there is a library: what its file is called there, how an object in it begins, and which bytes at
/// which place of that name the processor.
struct Library {
    target: &'static str,
    file: &'static str,
    begins: &'static [u8],
    at: usize,
    machine: &'static [u8],
}

const ELF: (&str, &[u8], usize) = ("libwallthyme.a", b"\x7fELF", 18);
const MACH_O: (&str, &[u8], usize) = ("libwallthyme.a", b"\xcf\xfa\xed\xfe", 4);
const COFF: (&str, &[u8], usize) = ("libwallthyme.a", b"", 0);
const COFF_FOR_MSVC: (&str, &[u8], usize) = ("wallthyme.lib", b"", 0);

const fn library(
    target: &'static str,
    (file, begins, at): (&'static str, &'static [u8], usize),
    machine: &'static [u8],
) -> Library {
    Library { target, file, begins, at, machine }
}

const LIBRARIES: [Library; 8] = [
    library("x86_64-unknown-linux-gnu", ELF, &[62, 0]),
    library("aarch64-unknown-linux-gnu", ELF, &[183, 0]),
    library("x86_64-pc-windows-gnu", COFF, &[0x64, 0x86]),
    library("x86_64-pc-windows-msvc", COFF_FOR_MSVC, &[0x64, 0x86]),
    library("aarch64-pc-windows-msvc", COFF_FOR_MSVC, &[0x64, 0xaa]),
    library("aarch64-apple-darwin", MACH_O, &[12, 0, 0, 1]),
    library("x86_64-apple-darwin", MACH_O, &[7, 0, 0, 1]),
    library("aarch64-linux-android", ELF, &[183, 0]),
];

fn main() {
    println!("cargo:rustc-check-cfg=cfg(wallthyme_missing, wallthyme_no_target)");
    println!("cargo:rerun-if-changed=build.rs");
    for name in ["WALLTHYME_LIB", "DOCS_RS", "PKG_CONFIG", "PKG_CONFIG_PATH"] {
        println!("cargo:rerun-if-env-changed={name}");
    }
    let target = env::var("TARGET").unwrap_or_default();
    println!("cargo:rustc-env=WALLTHYME_TARGET={target}");
    println!("cargo:rustc-env=WALLTHYME_TARGETS={}", LIBRARIES.map(|library| library.target).join(", "));
    let documents = env::var_os("DOCS_RS").is_some();
    let Some(library) = LIBRARIES.iter().find(|library| library.target == target) else {
        if !documents {
            println!("cargo:rustc-cfg=wallthyme_no_target");
        }
        return;
    };
    let folder = match env::var_os("WALLTHYME_LIB") {
        Some(folder) => Some(named(PathBuf::from(folder), library.file)),
        None => beside_this_script(library).or_else(|| asked_of_pkg_config(library)),
    };
    match folder {
        Some(folder) => link(&folder, library),
        None if documents => {}
        None => {
            // Cargo runs this script again as long as that file is not there.
            println!("cargo:rerun-if-changed=lib/{target}/{}", library.file);
            println!("cargo:rustc-cfg=wallthyme_missing");
        }
    }
}

fn stop(why: &str) -> ! {
    eprintln!("{why}");
    std::process::exit(1);
}

/// The folder of WALLTHYME_LIB. One without the library is a slip that no other place should hide.
fn named(folder: PathBuf, library: &str) -> PathBuf {
    if !folder.join(library).is_file() {
        let folder = folder.display();
        stop(&format!(
            "WALLTHYME_LIB is {folder}, which has no {library}. It has to be the folder that it lies in: lib/ of a \
             released archive, or c/build in Wallthyme's repository."
        ));
    }
    // Cargo runs this script and the linker in different folders.
    folder.canonicalize().unwrap_or(folder)
}

/// The target's folder in `lib/` of this crate, where it has the library.
fn beside_this_script(library: &Library) -> Option<PathBuf> {
    let folder = Path::new(&env::var_os("CARGO_MANIFEST_DIR")?).join("lib").join(library.target);
    folder.join(library.file).is_file().then_some(folder)
}

/// The first folder that pkg-config tells for `wallthyme` and that has the library; none where there is no such command,
/// or where it would tell of this machine's libraries and the target is another one.
fn asked_of_pkg_config(library: &Library) -> Option<PathBuf> {
    if env::var("HOST").ok()? != library.target {
        return None;
    }
    let command = env::var_os("PKG_CONFIG").unwrap_or_else(|| "pkg-config".into());
    let told = Command::new(command).args(["--variable=libdir", "wallthyme"]).output().ok()?;
    if !told.status.success() {
        return None;
    }
    let folder = String::from_utf8(told.stdout).ok()?;
    let folder = PathBuf::from(folder.trim());
    folder.join(library.file).is_file().then_some(folder)
}

/// The first object in an archive. Lists of names come first; each part stands behind 60 bytes that say what it is called
/// and its length, and a long name may stand before its content.
fn first_object(archive: &[u8]) -> Option<&[u8]> {
    let mut rest = archive.strip_prefix(b"!<arch>\n")?;
    loop {
        let number = |field: &[u8]| std::str::from_utf8(field).ok()?.trim().parse::<usize>().ok();
        let head = rest.get(..60)?;
        let length = number(&head[48..58])?;
        let part = rest.get(60..60 + length)?;
        let long = head.strip_prefix(b"#1/").map_or(Some(0), |_| number(&head[3..16]))?;
        let name = if long > 0 { part.get(..long)? } else { &head[..16] };
        if !name.starts_with(b"/ ") && !name.starts_with(b"// ") && !name.starts_with(b"__.SYMDEF") {
            return part.get(long..);
        }
        rest = rest.get(60 + length + length % 2..)?;
    }
}

/// Whether the first object of a library is for its processor.
fn is_for(file: &Path, library: &Library) -> bool {
    let content = std::fs::read(file).unwrap_or_default();
    first_object(&content).is_some_and(|object| {
        object.starts_with(library.begins)
            && object.get(library.at..).is_some_and(|rest| rest.starts_with(library.machine))
    })
}

fn link(folder: &Path, library: &Library) {
    let file = folder.join(library.file);
    if !is_for(&file, library) {
        stop(&format!("{} is no library for {}.", file.display(), library.target));
    }
    println!("cargo:rerun-if-changed={}", file.display());
    println!("cargo:rustc-link-search=native={}", folder.display());
    println!("cargo:rustc-link-lib=static=wallthyme");
}
