"""How scripts/release tries an archive: from its own folder, by what its pages say."""
import contextlib
import gzip
import hashlib
import io
import os
import pathlib
import re
import shutil
import subprocess
import tarfile
import tempfile
import zipfile

import proved
from inspected import exports, hold_dll, hold_to_lists, hold_to_machine
from made import PROGRAM
from platforms import ANDROID, PLATFORMS, WINDOWS, X86_64
from wine import display, windows

ROOT = pathlib.Path(proved.ROOT)
SUMS = "SHA256SUMS"
PLUS = """#include <cstdio>
#include <wallthyme.h>
int main() {
    wt_allocator a = {0, nullptr};
    std::printf("%06x %06x", WT_VERSION, wt_version());
    return wt_close(&a) == WT_NOT_OPEN ? 0 : 1;
}
"""
CMAKE = """cmake_minimum_required(VERSION 3.13)
project(tried C)
find_package(wallthyme NUMBER REQUIRED)
foreach(kind static shared)
    add_executable(by_${kind} EXAMPLE)
    target_link_libraries(by_${kind} wallthyme::${kind})
endforeach()
DLLS(by_static)
DLLS(by_shared)
"""
CMAKE_VULKAN = """cmake_minimum_required(VERSION 3.13)
project(tried C)
find_package(wallthyme NUMBER REQUIRED)
foreach(kind static shared)
    add_executable(over_${kind} SOURCES)
    target_compile_options(over_${kind} PRIVATE FLAGS)
    target_link_libraries(over_${kind} wallthyme::vulkan_${kind} LOADER)
endforeach()
DLLS(over_static)
DLLS(over_shared)
"""
CARGO = """[package]
name = "project"
version = "0.1.0"
edition = "2021"

[dependencies]
wallthyme = { path = "CRATE" }
"""


class Stops(Exception):
    """Why nothing is made, or why an archive is refused."""


def say(text):
    print(f"scripts/release: {text}", flush=True)


def run(*words, **how):
    """What a command prints, which has to end well."""
    words = [str(word) for word in words]
    ran = subprocess.run(words, stdin=subprocess.DEVNULL, capture_output=True, text=True, check=False, **how)
    if ran.returncode:
        said = f"{ran.stdout}{ran.stderr}".strip()[-3000:]
        raise Stops(f"{' '.join(words)} ended with status {ran.returncode}\n{said}")
    return ran.stdout


def files_of(stage):
    """The files and links of a folder, as paths from it, in order."""
    return sorted(str(path.relative_to(stage)) for path in stage.rglob("*") if path.is_file())


def sums(stage):
    """A line for each file and link but the list itself, as `sha256sum` prints it."""
    return "".join(f"{hashlib.sha256((stage / name).read_bytes()).hexdigest()}  {name}\n"
                   for name in files_of(stage) if name != SUMS)


class Trial:
    """An unpacked archive, with what it may find on this machine."""

    def __init__(self, given, stage, room):
        self.given, self.stage, self.room, self.example = given, stage, room, stage / "examples/first_use.c"
        self.by_path, self.number = f"-I{stage}/include", stage.name.split("-")[1]
        home = room / "home"
        home.mkdir()
        folders = [each for each in os.environ["PATH"].split(os.pathsep)
                   if not (pathlib.Path(each) / "rt").exists() and not pathlib.Path(each).is_relative_to(ROOT)]
        for needed in (given.tool("CC"), *given.emulator[:1]) if given.runs else ():
            if not shutil.which(needed, path=os.pathsep.join(folders)):
                raise Stops(f"there is no {needed}")
        self.env = {
            "PATH": os.pathsep.join(folders), "HOME": str(home), "CARGO_HOME": f"{home}/cargo", "LC_ALL": "C",
            "RUSTUP_HOME": os.environ.get("RUSTUP_HOME", os.path.expanduser("~/.rustup")),
        }

    def run(self, *words, **env):
        """What a command prints, on that path, in the room."""
        return run(*words, cwd=self.room, env={**self.env, **env})

    def has(self, what, *tools):
        """Whether the tools that something needs are there and work; says that it is left out where not."""
        for tool in tools:
            try:
                self.run(tool, "--version")
            except (Stops, OSError):
                say(f"left out: {what}, since {tool} is not there or does not work")
                return False
        return True

    def write(self, name, text):
        """Writes a file in the room."""
        (self.room / name).parent.mkdir(parents=True, exist_ok=True)
        (self.room / name).write_text(text, "utf-8")

    def starts(self, program, **env):
        """What a program prints that was built in the room."""
        return self.run(*self.given.emulator, self.room / f"{program}{'.exe' if self.given.is_windows else ''}", **env)

    def greets(self, how, program, **env):
        """Runs a program of the first use."""
        if self.starts(program, **env) != "hello block\n":
            raise Stops(f"the first use, built {how}, prints something else")
        say(f"the first use runs, built {how}")

    def lay_dlls(self, folder):
        """Copies the DLLs to where programs of Windows find them, beside themselves."""
        if self.given.is_windows:
            for dll in (self.stage / "bin").glob("*.dll"):
                shutil.copy(dll, self.room / folder)

    # ---- The libraries ----

    def hold(self, each, library, file, declared):
        """Holds a static library to its lists, or to its processor alone where nothing here reads its names."""
        nm = each.tool("NM") if each.runs or each is ANDROID else "llvm-nm"
        hold_to_machine(file, each.processor, each.system)
        if self.has(f"what the library for {library.target} wants and has", nm):
            hold_to_lists(str(file), each.processor, declared, nm=nm, system=each.system)
            say(f"the library for {library.target} has the {len(declared)} calls of the headers, and wants what it may")

    def libraries(self):
        """Each library is for its platform, wants what it may of others, and has the calls that its header declares."""
        given, declared = self.given, exports((self.stage / "include/wallthyme.h", self.stage / "rust/lib/layout.h"))
        for library in given.libraries:
            self.hold(given, library, self.stage / f"lib/{library.file}", declared)
        # (those of the Rust crate)
        for each in PLATFORMS:
            for library in each.libraries:
                inside = self.stage / f"rust/lib/{library.target}/{library.file}"
                if inside.exists():
                    self.hold(each, library, inside, declared)
        shared = (self.stage / "lib/libwallthyme.so").resolve()
        if shared.exists() and self.has("what the shared object wants and has", given.tool("NM")):
            hold_to_lists(str(shared), given.processor, declared, "-D", nm=given.tool("NM"))
        if (self.stage / "bin/wallthyme.dll").exists() and self.has("what the DLLs want and have", given.tool("OBJDUMP")):
            hold_dll(self.stage / "bin/wallthyme.dll", given.processor, declared, given.tool("OBJDUMP"))
            side = self.stage / "bin/wallthyme-vulkan.dll"
            if side.exists():
                names = exports([self.stage / "include/wallthyme_vulkan.h"], "WTV_API")
                hold_dll(side, given.processor, names, given.tool("OBJDUMP"), "wallthyme.dll")
        say(f"the libraries are for {given.processor}, {given.system}")

    # ---- The first use ----

    def links(self):
        """How a program is built with each library, by the page: what that is called, and its words."""
        lib = self.stage / "lib"
        yield "by the archive's name", [lib / "libwallthyme.a"]
        if self.given.is_windows:
            yield "with the DLL", ["-DWT_DLL", lib / "wallthyme.dll.lib"]
            # (what probes the stack is called otherwise by MSVC)
            yield "with the library for MSVC", [lib / "wallthyme.lib", "-Wl,--defsym,__chkstk=___chkstk_ms"]

    def by_name(self):
        self.lay_dlls(".")
        for how, words in self.links():
            self.run(self.given.tool("CC"), "-std=c99", self.by_path, self.example, *words, "-o", "by_name")
            self.greets(how, "by_name")

    def by_pkg_config(self):
        if not self.given.is_windows and self.has("the first use by pkg-config", "pkg-config"):
            found = {"PKG_CONFIG_PATH": f"{self.stage}/lib/pkgconfig"}
            flags = self.run("pkg-config", "--cflags", "--libs", "wallthyme", **found).split()
            self.run(self.given.tool("CC"), "-std=c99", self.example, *flags, "-o", "by_pkg_config")
            self.greets("by pkg-config", "by_pkg_config", LD_LIBRARY_PATH=f"{self.stage}/lib")

    def configure(self, folder, text, given, **values):
        """Configures a project by CMake, for a platform. What copies the DLLs are the page's words."""
        page = (self.stage / "README.md").read_text("utf-8")
        dlls = re.search(r"^if\(WIN32\).*?^endif\(\)$", page, re.M | re.S)[0]
        text = re.sub(r"^DLLS\((\w+)\)$", lambda found: re.sub(r"\bprogram\b", found[1], dlls), text, flags=re.M)
        for name, value in values.items():
            text = text.replace(name.upper(), str(value))
        self.write(f"{folder}/CMakeLists.txt", text.replace("NUMBER", self.number))
        self.write(f"{folder}/platform.cmake", given.toolchain())
        words = [f"-DCMAKE_TOOLCHAIN_FILE={self.room}/{folder}/platform.cmake"] if given.tools else []
        self.run("cmake", "-S", folder, "-B", f"{folder}/built", f"-DCMAKE_PREFIX_PATH={self.stage}", *words)

    def by_cmake(self):
        if not self.has("the first use by CMake", "cmake"):
            return
        self.configure("cmake", CMAKE, self.given, example=self.example)
        self.run("cmake", "--build", "cmake/built")
        for kind in ("static", "shared"):
            self.greets(f"by CMake, {kind}", f"cmake/built/by_{kind}")
        other = WINDOWS if self.given is X86_64 else X86_64
        if other.missing():
            return say(f"left out: that CMake refuses it for another system, since {other.missing()} is not there")
        try:
            self.configure("refused", CMAKE, other, example=self.example)
        except Stops as refusal:
            if f"({self.given.system}, {self.given.processor})" not in str(refusal):
                raise
            return say(f"CMake refuses it for {other.name}")
        raise Stops(f"CMake takes it for {other.name}")

    def as_cxx(self):
        if self.has("the header as C++", self.given.tool("CXX")):
            self.write("plus.cc", PLUS)
            strict = ("-std=c++11", "-Wall", "-Wextra", "-Wpedantic", "-Werror")
            for how, words in self.links():
                self.run(self.given.tool("CXX"), *strict, self.by_path, "plus.cc", *words, "-o", "plus")
                header, library = self.starts("plus").split()
                if header != library:
                    raise Stops(f"the header is of version {header}, and the library, built {how}, of {library}")
                say(f"the header compiles as C++11, and its program runs, built {how}")

    # ---- Pictures of reports ----

    def picture(self):
        """The program that draws reports draws what its tests in the repository have, as it comes and from its source."""
        given, folder = self.given, ROOT / "c/tests/picture"
        name = f"{PROGRAM}{'.exe' if given.is_windows else ''}"
        self.run(given.tool("CC"), "-std=c99", "-O2", self.stage / "src/wallthyme_picture.c", "-o", name)
        for program in (self.stage / "bin" / name, self.room / name):
            if self.run(*given.emulator, program, folder / "triangle.json") != (folder / "triangle.svg").read_text("utf-8"):
                raise Stops(f"{program} draws a report otherwise")
        say("the program that draws reports runs, and builds from its source")

    # ---- Over Vulkan ----

    def vulkan_headers(self):
        """The word by which a compiler for another system finds Vulkan's headers alone."""
        self.write("headers/what", "the system's headers of Vulkan\n")
        for name in ("vulkan", "vk_video"):
            (self.room / f"headers/{name}").symlink_to(f"/usr/include/{name}")
        return f"-I{self.room}/headers"

    def over_vulkan(self):
        """The examples over Vulkan, and the first of them by what pkg-config and CMake find."""
        what = "what is over Vulkan"
        if self.given.system == "Linux" and self.given is not X86_64:
            return say(f"left out: {what}, since no loader of Vulkan is there for {self.given.name}")
        if not self.has(what, "make", "pkg-config") or not self.finds("vulkan", what):
            return
        if self.given.is_windows:
            return self.over_vulkan_on_windows()
        plus = ["CXX=c++", "plus"] * self.has("the example over Vulkan in C++", "c++")
        self.run("make", "-C", self.stage / "examples/vulkan", f"OUT={self.room}/vulkan", "all", *plus)
        say(f"the example over Vulkan builds{', in C++ too' * bool(plus)}; that it runs is for scripts/gate/vulkan")
        if self.finds("libpng", "the triangle"):
            self.run("make", "-C", self.stage / "examples/triangle", f"OUT={self.room}/triangle")
            say("the triangle builds, in C and in C++")
        if not (self.stage / "lib/libwallthyme-vulkan.a").exists():
            return say("left out: the library of the Vulkan side, since it was not built")
        found = {"PKG_CONFIG_PATH": f"{self.stage}/lib/pkgconfig"}
        flags = self.run("pkg-config", "--cflags", "--libs", "wallthyme-vulkan", **found).split()
        self.run("cc", "-std=c99", *self.sources(), *flags, "-lvulkan", "-o", "vulkan_by_pkg_config")
        say("the example over Vulkan builds by pkg-config")
        if self.has("the example over Vulkan by CMake", "cmake"):
            self.build_over_vulkan("vulkan")

    def sources(self):
        return [self.stage / f"examples/vulkan/{name}.c" for name in ("main", "first_use", "device")]

    def build_over_vulkan(self, loader, flags=""):
        self.configure("over", CMAKE_VULKAN, self.given, sources=" ".join(map(str, self.sources())), loader=loader,
                       flags=flags)
        self.run("cmake", "--build", "over/built")
        say("the example over Vulkan builds by CMake, static and shared")

    def over_vulkan_on_windows(self):
        """The examples, by vulkan-1.dll. They run where wine has a Vulkan driver."""
        given, headers = self.given, self.vulkan_headers()
        for name, *goals in (("vulkan", "all", "plus"), ("triangle",)):
            self.run("make", "-C", self.stage / f"examples/{name}", f"OUT={self.room}/{name}", f"CC={given.tool('CC')}",
                     f"CXX={given.tool('CXX')}", f"CFLAGS=-O2 {headers}", *goals)
        say("the example over Vulkan and the triangle, in C and in C++, build by mingw")
        if self.has("the example over Vulkan by CMake", "cmake"):
            self.build_over_vulkan(self.room / "vulkan/libvulkan-1.a", headers)
        try:
            self.starts("vulkan/first_use")
        except Stops as refusal:
            if "vkCreateInstance" not in str(refusal):
                raise
            return say("left out: that they run, since wine has no Vulkan driver here")
        self.starts("vulkan/first_use_plus")
        for kind in ("static", "shared") if (self.room / "over").exists() else ():
            self.starts(f"over/built/over_{kind}")
        say("the example over Vulkan runs over wine's Vulkan driver")
        for name in ("triangle", "triangle_plus"):
            self.draws(name)

    def draws(self, program):
        """Runs a triangle's program, whose picture has to be that of its geometry."""
        self.starts(f"triangle/{program}")
        if self.finds("libpng", "whether the triangle's picture is right"):
            # (the program that compares is the repository's)
            check = f"{self.room}/check/check"
            run("make", "-s", "-C", ROOT / "c/tests/driver", f"OUT={self.room}/check", check)
            self.run(check, self.room / "triangle.png")
            say(f"{program} runs over wine's Vulkan driver, and draws what its geometry gives")
        (self.room / "triangle.png").unlink()

    def finds(self, name, what):
        """Whether pkg-config finds a library of the system's; says what is left out where not."""
        try:
            self.run("pkg-config", "--exists", name)
        except Stops:
            say(f"left out: {what}, since pkg-config does not find {name}")
            return False
        return True

    def rust(self):
        """The tests of the crate, and a new project that names it by path and has its first use."""
        if not self.has("the Rust crate", "cargo", "rustc"):
            return
        if not (self.stage / f"rust/lib/{X86_64.target}/libwallthyme.a").exists():
            return say("left out: the Rust crate, since its library for this machine is not in the archive")
        crate, target = self.stage / "rust", {"CARGO_TARGET_DIR": f"{self.room}/target"}
        page = (crate / "README.md").read_text("utf-8")
        self.run("cargo", "test", "--offline", "--manifest-path", crate / "Cargo.toml", **target)
        say("the tests of the Rust crate pass; left out: that texts of errors are those of the proved program")
        self.run("cargo", "run", "--offline", "--manifest-path", self.stage / "examples/rust/Cargo.toml", **target)
        say("the first use in Rust runs from the archive's folder (on this machine)")
        self.write("project/Cargo.toml", CARGO.replace("CRATE", str(crate)))
        self.write("project/src/main.rs", re.search(r"^```rust\n(.*?)^```$", page, re.M | re.S)[1])
        self.run("cargo", "run", "--offline", "--manifest-path", "project/Cargo.toml", **target)
        say("a new project that names the Rust crate by path builds, and its first use runs (on this machine)")


def compare(stage):
    """Compares the files of an unpacked archive with its list."""
    listed, found = (stage / SUMS).read_text("utf-8"), sums(stage)
    by_name = [dict(line.split("  ")[::-1] for line in text.splitlines()) for text in (listed, found)]
    other = sorted({name for one in by_name for name in one if by_name[0].get(name) != by_name[1].get(name)})
    if other:
        raise Stops(f"not as {SUMS} has it: {', '.join(other)}")
    say(f"{len(by_name[0])} files are as {SUMS} has them")


def platform_of(stage):
    """The platform of an unpacked archive, by its name."""
    for each in PLATFORMS:
        if stage.name.endswith(f"-{each.name}"):
            return each
    raise Stops(f"{stage.name} is for no platform of {', '.join(each.name for each in PLATFORMS)}")


def check_stage(stage, room):
    """Compares the files of an unpacked archive with their list, and tries it."""
    compare(stage)
    given = platform_of(stage)
    trial = Trial(given, stage, room)
    trial.libraries()
    if not given.runs:
        return say(f"never run here: what is for {given.name}")
    with contextlib.ExitStack() as stack:
        if given.is_windows:
            trial.env |= stack.enter_context(windows(given.emulator, room, stack.enter_context(display())))
        for part in (trial.by_name, trial.by_pkg_config, trial.by_cmake, trial.as_cxx, trial.picture, trial.over_vulkan,
                     trial.rust):
            part()


def unpack(file, room):
    """Unpacks an archive. Answers its folder."""
    # (all of it is read first, so that its own sum is compared too)
    content = pathlib.Path(file).read_bytes()
    if str(file).endswith(".zip"):
        with zipfile.ZipFile(io.BytesIO(content)) as archive:
            archive.extractall(room)
    else:
        with tarfile.open(fileobj=io.BytesIO(gzip.decompress(content))) as archive:
            archive.extractall(room, **({"filter": "data"} if hasattr(tarfile, "data_filter") else {}))
    [stage] = room.iterdir()
    return stage


def check(file):
    """Unpacks an archive and tries it."""
    with tempfile.TemporaryDirectory() as folder:
        room = pathlib.Path(folder)
        check_stage(unpack(file, room), room)
    say(f"{file} passed")
