//! What `build.rs` answers for each target: which library it links, or by which cfg the crate stops.

use std::env;
use std::fs;
use std::path::{Path, PathBuf};
use std::process::{Command, Output};

const X86_64: &str = "x86_64-unknown-linux-gnu";
const ARM64: &str = "aarch64-unknown-linux-gnu";
const MINGW: &str = "x86_64-pc-windows-gnu";
const MSVC: &str = "x86_64-pc-windows-msvc";

/// The first bytes of an object for each target, and the name of the library there.
const OBJECTS: [(&str, &str, &[u8]); 8] = [
    (X86_64, "libwallthyme.a", b"\x7fELF\x02\x01\x01\0\0\0\0\0\0\0\0\0\x01\0\x3e\0"),
    (ARM64, "libwallthyme.a", b"\x7fELF\x02\x01\x01\0\0\0\0\0\0\0\0\0\x01\0\xb7\0"),
    (MINGW, "libwallthyme.a", b"\x64\x86\x06\0"),
    (MSVC, "wallthyme.lib", b"\x64\x86\x06\0"),
    ("aarch64-pc-windows-msvc", "wallthyme.lib", b"\x64\xaa\x06\0"),
    ("aarch64-apple-darwin", "libwallthyme.a", b"\xcf\xfa\xed\xfe\x0c\0\0\x01"),
    ("x86_64-apple-darwin", "libwallthyme.a", b"\xcf\xfa\xed\xfe\x07\0\0\x01"),
    ("aarch64-linux-android", "libwallthyme.a", b"\x7fELF\x02\x01\x01\0\0\0\0\0\0\0\0\0\x01\0\xb7\0"),
];

/// A part of an archive under this name; one of over 15 bytes stands before the content, as macOS has it.
fn part(name: &str, content: &[u8]) -> Vec<u8> {
    let (short, long) = if name.len() > 15 { (format!("#1/{}", name.len()), name) } else { (name.to_string(), "") };
    let mut all = format!("{short:<16}{:<12}{:<6}{:<6}{:<8}{:<10}`\n", 0, 0, 0, 644, long.len() + content.len());
    all.push_str(long);
    let mut all = all.into_bytes();
    all.extend(content);
    all.resize(all.len() + all.len() % 2, b'\n');
    all
}

/// A compiled `build.rs`, in a folder of its own that is the crate's.
struct Script {
    folder: PathBuf,
}

impl Script {
    /// Compiles it, into a folder of that name.
    fn new(name: &str) -> Script {
        let folder = Path::new(env!("CARGO_TARGET_TMPDIR")).join(name);
        let _ = fs::remove_dir_all(&folder);
        fs::create_dir_all(&folder).unwrap();
        let compiler = env::var_os("RUSTC").unwrap_or_else(|| "rustc".into());
        let source = concat!(env!("CARGO_MANIFEST_DIR"), "/build.rs");
        let compiled =
            Command::new(compiler).args(["--edition=2021", source, "-o"]).arg(folder.join("script")).status();
        assert!(compiled.unwrap().success());
        Script { folder }
    }

    /// Writes an archive with the object of a target, behind lists of names as each system has them, and returns its
    /// folder.
    fn library(&self, folder: &str, target: &str) -> String {
        let folder = self.folder.join(folder);
        fs::create_dir_all(&folder).unwrap();
        let (_, file, object) = OBJECTS.into_iter().find(|(name, ..)| *name == target).unwrap();
        let lists: &[&str] = match target {
            X86_64 => &[],
            MSVC => &["/", "/", "//"],
            "aarch64-apple-darwin" => &["__.SYMDEF SORTED"],
            "x86_64-apple-darwin" => &["__.SYMDEF"],
            _ => &["/"],
        };
        let mut content = b"!<arch>\n".to_vec();
        for list in lists {
            // (a list of names has an odd length here, and the first bytes of another processor's object)
            content.extend(part(list, b"\x7fELF\x03"));
        }
        content.extend(part("wallthyme.o/", object));
        fs::write(folder.join(file), content).unwrap();
        folder.canonicalize().unwrap().display().to_string()
    }

    /// Runs it for a target on a host of x86-64 Linux, with these variables alone.
    fn run(&self, target: &str, variables: &[(&str, &str)]) -> Output {
        let mut command = Command::new(self.folder.join("script"));
        command.env_clear().env("TARGET", target).env("HOST", X86_64).env("CARGO_MANIFEST_DIR", &self.folder);
        command.env("PATH", "/usr/bin:/bin").env("PKG_CONFIG", "false").envs(variables.iter().copied());
        command.output().unwrap()
    }

    /// The folder that it links from, or `None` where it links nothing; and the cfg that it sets.
    fn answers(&self, target: &str, variables: &[(&str, &str)]) -> (Option<String>, Option<String>) {
        let ran = self.run(target, variables);
        assert!(ran.status.success(), "{target}: {}", String::from_utf8_lossy(&ran.stderr));
        let said = String::from_utf8(ran.stdout).unwrap();
        let row = |start: &str| said.lines().find_map(|line| line.strip_prefix(start)).map(str::to_string);
        let folder = row("cargo:rustc-link-search=native=");
        assert_eq!(folder.is_some(), said.contains("cargo:rustc-link-lib=static=wallthyme"));
        assert_eq!(row("cargo:rustc-env=WALLTHYME_TARGET=").as_deref(), Some(target));
        let targets = OBJECTS.map(|(target, ..)| target).join(", ");
        assert_eq!(row("cargo:rustc-env=WALLTHYME_TARGETS="), Some(targets));
        (folder, row("cargo:rustc-cfg="))
    }

    /// Why it stops.
    fn refuses(&self, target: &str, variables: &[(&str, &str)]) -> String {
        let ran = self.run(target, variables);
        assert!(!ran.status.success());
        String::from_utf8(ran.stderr).unwrap()
    }
}

#[test]
fn each_target_has_a_library_of_its_own() {
    let script = Script::new("own");
    let folders = OBJECTS.map(|(target, ..)| {
        assert_eq!(script.answers(target, &[]), (None, Some("wallthyme_missing".into())));
        (target, script.library(&format!("lib/{target}"), target))
    });
    for (target, folder) in folders {
        assert_eq!(script.answers(target, &[]), (Some(folder), None));
    }
}

#[test]
fn a_target_takes_no_library_of_another() {
    let script = Script::new("taken");
    for (target, file, object) in OBJECTS {
        for (other, its_file, its_object) in OBJECTS {
            let folder = script.library(&format!("{target}-{other}"), other);
            fs::rename(format!("{folder}/{its_file}"), format!("{folder}/{file}")).unwrap();
            let variables = [("WALLTHYME_LIB", folder.as_str())];
            if object == its_object {
                assert_eq!(script.answers(target, &variables), (Some(folder.clone()), None));
            } else {
                assert!(script.refuses(target, &variables).ends_with(&format!("is no library for {target}.\n")));
            }
        }
    }
}

#[test]
fn other_targets_are_refused_by_name() {
    let script = Script::new("others");
    let ours = script.library("lib/x86_64-unknown-linux-gnu", X86_64);
    for target in ["i686-pc-windows-msvc", "aarch64-apple-ios", "i686-unknown-linux-gnu", "x86_64-unknown-linux-musl"] {
        for variables in [&[][..], &[("WALLTHYME_LIB", ours.as_str())]] {
            assert_eq!(script.answers(target, variables), (None, Some("wallthyme_no_target".into())));
        }
        assert_eq!(script.answers(target, &[("DOCS_RS", "1")]), (None, None));
    }
}

#[test]
fn pkg_config_is_asked_for_this_machine_alone() {
    let script = Script::new("asked");
    let folder = script.library("installed", X86_64);
    let command = script.folder.join("tells");
    fs::write(&command, format!("#!/bin/sh\necho {folder}\n")).unwrap();
    assert!(Command::new("chmod").arg("+x").arg(&command).status().unwrap().success());
    let variables = [("PKG_CONFIG", command.to_str().unwrap())];
    assert_eq!(script.answers(X86_64, &variables), (Some(folder), None));
    assert_eq!(script.answers(ARM64, &variables), (None, Some("wallthyme_missing".into())));
}

#[test]
fn a_named_folder_has_the_library_of_the_target() {
    let script = Script::new("named");
    for (target, file) in [(ARM64, "libwallthyme.a"), (MINGW, "libwallthyme.a"), (MSVC, "wallthyme.lib")] {
        let folder = script.library(target, target);
        assert_eq!(script.answers(target, &[("WALLTHYME_LIB", &folder)]), (Some(folder), None));
        assert!(script.refuses(target, &[("WALLTHYME_LIB", "/nowhere")]).contains(&format!("which has no {file}")));
    }
}

#[test]
fn a_file_that_is_no_archive_is_refused() {
    let script = Script::new("broken");
    let whole = fs::read(format!("{}/libwallthyme.a", script.library("whole", ARM64))).unwrap();
    for length in 0..whole.len() - 1 {
        let folder = script.folder.join("cut");
        fs::create_dir_all(&folder).unwrap();
        fs::write(folder.join("libwallthyme.a"), &whole[..length]).unwrap();
        let said = script.refuses(ARM64, &[("WALLTHYME_LIB", folder.to_str().unwrap())]);
        assert!(said.ends_with("is no library for aarch64-unknown-linux-gnu.\n"), "{length} bytes: {said}");
    }
}
