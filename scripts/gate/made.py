"""The files of a platform to which the module is retargeted: static libraries, and for Windows x64 DLLs, the Vulkan side
and the program that draws reports too. The libraries and the DLLs are held to their lists."""
import os
import re
import shutil
import subprocess

from captured import tool
from ending import FAILED, NOT_BUILT, Stopped
from inspected import VULKAN_HEADER, exports, hold_dll, hold_to_lists
from proved import ROOT
from retargeted import compile_for

# What Vulkan's headers are found by alone: of /usr/include the others are for another system.
HEADERS = "headers"
VULKAN_HEADERS = "vulkan", "vk_video"
# The DLLs, the import libraries that link.exe, lld-link and mingw's ld read, and all of the static library for a link.
DLL, IMPORTS = "wallthyme.dll", "wallthyme.dll.lib"
WHOLE = ("-Wl,--whole-archive", "libwallthyme.a", "-Wl,--no-whole-archive")
SIDE_DLL, SIDE_IMPORTS, SIDE = "wallthyme-vulkan.dll", "wallthyme-vulkan.dll.lib", "libwallthyme-vulkan.a"
# The program that draws reports.
PROGRAM = "wallthyme-picture"
# The sections that objects have here: code, constants, what unwinds them, and lists of the linker's. Those that a program
# writes are empty, but for the byte of c/heap.ll to which a refusal points.
SECTIONS = {".text", ".rodata", ".rdata", ".data.rel.ro", ".eh_frame", ".xdata", ".pdata", ".rela", ".note", ".comment",
            ".symtab", ".strtab", ".shstrtab", ".llvm_addrsig", "__text", "__const", "__literal4", "__literal8",
            "__literal16", "__compact_unwind", "__eh_frame"}
WRITTEN, MOST_WRITTEN = {".data", ".bss", "__data", "__bss"}, 16


def has_vulkan():
    return os.path.isdir(f"/usr/include/{VULKAN_HEADERS[0]}")


def compiled(given, words):
    """Runs mingw's C compiler in the platform's folder."""
    ran = subprocess.run([given.tool("CC"), *words], cwd=given.build, stdin=subprocess.DEVNULL, capture_output=True,
                         text=True)
    if ran.returncode:
        raise Stopped(NOT_BUILT, f"{given.tool('CC')} ended with status {ran.returncode}\n{ran.stderr[-2000:]}")


def nm_of_kit(command):
    return tool(command[0], *command[1:]).decode()


def sections_of(given, file):
    """The sections of a library's object by their kinds, which are known ones, and of which those that a program writes
    are small."""
    found = {}
    for line in tool("llvm-objdump", "--section-headers", f"{given.build}/{file}").decode().splitlines():
        row = re.match(r" *\d+ (\S+) +([0-9a-f]+) ", line)
        if row:
            # (what follows names the function or the constant)
            kind = re.match(r"\.data\.rel\.ro|\.?\w+", row[1])[0]
            found[kind] = found.get(kind, 0) + int(row[2], 16)
    other = sorted(set(found) - SECTIONS - WRITTEN) + [kind for kind in WRITTEN if found.get(kind, 0) > MOST_WRITTEN]
    if other or not found:
        raise Stopped(FAILED, f"{file} has {', '.join(other) or 'no'} sections that are not known")
    return [kind for kind, size in found.items() if size]


def inspect(given):
    """Holds each static library to its processor, its names and its sections. Returns a line for each."""
    for library in given.libraries:
        file = f"{given.build}/{library.file}"
        hold_to_lists(file, given.processor, exports(), nm="llvm-nm", system=given.system, said=nm_of_kit)
        yield (f"{library.file} for {library.target}: the {len(exports())} calls of the headers, nothing wanted but what is "
               f"listed; sections {' '.join(sections_of(given, library.file))}")


def make_static(given, library):
    """Makes a static library. Returns a line for each edit."""
    room = f"{given.build}/room"
    os.mkdir(room)
    name = "wallthyme.obj" if library.file.endswith(".lib") else "wallthyme.o"
    lines = compile_for(given, library.triple, room, name)
    if name.endswith("obj"):
        tool("llvm-lib", "/nologo", f"/out:../{library.file}", name, cwd=room)
    else:
        tool("llvm-ar", "rcD", f"../{library.file}", name, cwd=room)
    shutil.rmtree(room)
    return lines


def link_dll(given, dll, imports, names, *parts):
    """Links a DLL with exactly these calls, and makes its import library of the same list. The same parts give the same
    bytes."""
    define = dll.replace(".dll", ".def")
    with open(f"{given.build}/{define}", "w", encoding="ascii") as file:
        file.write("".join(f"{line}\n" for line in (f"LIBRARY {dll}", "EXPORTS", *sorted(names))))
    compiled(given, ["-shared", "-s", "-static", "-Wl,--no-insert-timestamp", *parts, define, "-o", dll])
    tool("llvm-dlltool", "-m", "i386:x86-64", "-d", define, "-D", dll, "-l", imports, cwd=given.build)


def make_dlls(given):
    """Makes the DLL, and the Vulkan side in both forms where there are Vulkan's headers."""
    link_dll(given, DLL, IMPORTS, exports(), *WHOLE)
    hold_dll(f"{given.build}/{DLL}", given.processor, exports(), given.tool("OBJDUMP"))
    if not has_vulkan():
        return
    os.mkdir(f"{given.build}/{HEADERS}")
    for name in VULKAN_HEADERS:
        os.symlink(f"/usr/include/{name}", f"{given.build}/{HEADERS}/{name}")
    words = ["-std=c99", "-O2", f"-I{ROOT}/c", f"-I{HEADERS}", "-c", f"{ROOT}/c/wallthyme_vulkan.c", "-o"]
    compiled(given, [*words, "side.o"])
    compiled(given, ["-DWT_DLL", "-DWTV_API=", *words, "side_dll.o"])
    subprocess.run([given.tool("AR"), "rcD", SIDE, "side.o"], cwd=given.build, check=True)
    names = exports([VULKAN_HEADER], "WTV_API")
    link_dll(given, SIDE_DLL, SIDE_IMPORTS, names, "side_dll.o", IMPORTS)
    hold_dll(f"{given.build}/{SIDE_DLL}", given.processor, names, given.tool("OBJDUMP"), DLL)


def make_program(given):
    """Makes the program that draws reports. It needs no DLL of its own."""
    compiled(given, ["-std=c99", "-O2", "-s", "-static", "-Wl,--no-insert-timestamp", f"{ROOT}/c/wallthyme_picture.c", "-o",
                     f"{PROGRAM}.exe"])


def make_all(given):
    """Makes all files of a platform, in its folder. Returns lines that say how."""
    shutil.rmtree(given.build, ignore_errors=True)
    os.makedirs(given.build)
    edits = [line for library in given.libraries for line in make_static(given, library)]
    lines = [f"edit of the module: {line}" for line in dict.fromkeys(edits)] + list(inspect(given))
    if given.tools:
        make_dlls(given)
        make_program(given)
        lines.append(f"{DLL}: the {len(exports())} calls of the headers")
    return lines
