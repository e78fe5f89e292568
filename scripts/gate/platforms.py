"""The platforms for which the library is made.

On Linux `make -C c` links, tests and installs it, by that platform's tools and the words from here; on x86-64 it needs
none of them. For the others the module that scripts/modules keeps is retargeted (retargeted.py), and made.py makes
libraries of what comes.
"""
import dataclasses
import os
import shutil

from captured import ARCHIVE, place, tool
from ending import USAGE, Stopped
from proved import ROOT

# What the Makefile calls its tools, and what they are called.
TOOLS = {"CC": "gcc", "CXX": "g++", "AR": "ar", "LD": "ld", "NM": "nm", "OBJCOPY": "objcopy"}
# Of mingw's others are needed, and Debian has its compilers twice: these have the threads of C++.
TOOLS_OF_WINDOWS = {"CC": "gcc-posix", "CXX": "g++-posix", "AR": "ar", "NM": "nm", "OBJCOPY": "objcopy",
                    "OBJDUMP": "objdump", "DLLTOOL": "dlltool"}
# The library's object over malloc. (The text names no target; the module's own words name it by its triple.)
HEAP = f"{ROOT}/c/heap.ll"
HEAP_WORDS = ("-O2", "-fPIC", "-fno-ident", "-Wno-override-module", "-x", "ir", "-c", HEAP, "-o")


@dataclasses.dataclass(frozen=True)
class Library:
    """A static library by its target, as Rust names it; how clang names that, where the module is retargeted to it; and
    the library's file."""

    target: str
    triple: str = ""
    file: str = "libwallthyme.a"


@dataclasses.dataclass(frozen=True)
class Platform:
    """A platform by the name that archives have, with its static libraries, the first of which names it. Which module it
    is made of; its system, as CMake names it; how its tools begin; the words that start its programs; and what its
    PROVENANCE says."""

    name: str
    processor: str
    libraries: tuple
    system: str = "Linux"
    tools: str = ""
    emulator: tuple = ()
    least: str = ""
    never_run: str = ""

    @property
    def target(self):
        return self.libraries[0].target

    @property
    def is_retargeted(self):
        return bool(self.libraries[0].triple)

    @property
    def is_windows(self):
        return self.system == "Windows"

    @property
    def runs(self):
        """Whether its programs run here."""
        return not self.is_retargeted or bool(self.emulator)

    @property
    def build(self):
        """The folder in which it is made and tested."""
        return f"{ROOT}/c/build/{self.target}"

    @property
    def modules(self):
        """What is kept of its module."""
        return f"{place()}/{self.processor}"

    def tool(self, name):
        """The command that the Makefile calls so."""
        if not self.tools:
            return {"CC": "cc", "CXX": "c++"}.get(name, TOOLS[name])
        return f"{self.tools}{(TOOLS_OF_WINDOWS if self.is_windows else TOOLS)[name]}"

    @property
    def archive(self):
        """What its archives end with."""
        return f"-{self.name}.{'zip' if self.is_windows else 'tar.gz'}"

    def toolchain(self):
        """The toolchain file by which CMake builds for it; nothing for this machine."""
        if not self.tools:
            return ""
        rows = (("SYSTEM_NAME", self.system), ("SYSTEM_PROCESSOR", self.processor), ("C_COMPILER", self.tool("CC")))
        return "".join(f"set(CMAKE_{name} {value})\n" for name, value in rows)

    def missing(self):
        """The first of its tools that is not there, if one is not. What is built alone needs none."""
        needed = ["make", self.tool("CC")] if not self.is_retargeted else []
        if self.tools:
            needed += map(self.tool, TOOLS_OF_WINDOWS if self.is_windows else TOOLS)
        return next((name for name in (*needed, *self.emulator[:1]) if not shutil.which(name)), None)

    def words(self):
        """What `make` needs to know, beside what it is to make."""
        words = {"BUILD": os.path.relpath(self.build, f"{ROOT}/c"), "WALLTHYME_ARCHIVE": f"{self.modules}/{ARCHIVE}"}
        if self.tools:
            words |= {name: self.tool(name) for name in TOOLS}
            words |= {"HEAP": f"{self.build}/heap.o", "RUN": " ".join(self.emulator)}
        return [f"{name}={value}" for name, value in words.items()]

    def make_heap(self):
        os.makedirs(self.build, exist_ok=True)
        tool("clang", f"--target={self.target}", *HEAP_WORDS, f"{self.build}/heap.o")


X86_64 = Platform("x86_64-linux-gnu", "x86_64", (Library("x86_64-unknown-linux-gnu"),))
ARM64 = Platform(
    "aarch64-linux-gnu", "aarch64", (Library("aarch64-unknown-linux-gnu"),), tools="aarch64-linux-gnu-",
    emulator=("qemu-aarch64", "-L", "/usr/aarch64-linux-gnu"), least="ARMv8-A",
    never_run="on such a processor itself; over a Vulkan driver; the Rust crate")
WINDOWS = Platform(
    "x86_64-windows", "x86_64", (Library("x86_64-pc-windows-gnu", "x86_64-w64-windows-gnu"),
                                 Library("x86_64-pc-windows-msvc", "x86_64-pc-windows-msvc", "wallthyme.lib")),
    "Windows", "x86_64-w64-mingw32-", ("/usr/lib/wine/wine64",), "x86-64-v2",
    never_run="on Windows itself; by MSVC's compiler and linker; the Rust crate")
# Those that are built here, and run nowhere here.
MACOS_ARM64 = Platform(
    "aarch64-macos", "aarch64", (Library("aarch64-apple-darwin", "arm64-apple-macos11"),), "Darwin", least="ARMv8-A")
MACOS_X86_64 = Platform(
    "x86_64-macos", "x86_64", (Library("x86_64-apple-darwin", "x86_64-apple-macos10.13"),), "Darwin", least="x86-64-v2")
ANDROID = Platform(
    "aarch64-android", "aarch64", (Library("aarch64-linux-android", "aarch64-linux-android24"),), "Android",
    least="ARMv8-A")
WINDOWS_ARM64 = Platform(
    "aarch64-windows", "aarch64",
    (Library("aarch64-pc-windows-msvc", "aarch64-pc-windows-msvc", "wallthyme.lib"),), "Windows", least="ARMv8-A")
PLATFORMS = X86_64, ARM64, WINDOWS, MACOS_ARM64, MACOS_X86_64, ANDROID, WINDOWS_ARM64


def platform(target):
    """The platform of a target."""
    for each in PLATFORMS:
        if target in (library.target for library in each.libraries):
            return each
    known = ", ".join(library.target for each in PLATFORMS for library in each.libraries)
    raise Stopped(USAGE, f"there is no library for {target}, only for {known}")
