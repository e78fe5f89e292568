"""What a library has and wants of others: its processor, its calls, its sections. Nothing here needs `rt`."""
import re
import struct
import subprocess

from edits import read
from ending import FAILED, Stopped
from proved import ROOT

# What the library may want of others, and beside that what systems have for large frames and for zeros.
WANTED = {"malloc", "realloc", "free", "memcpy", "memmove", "memset", "__udivti3"}
WANTED_BY_SYSTEM = {"Windows": {"___chkstk_ms", "__chkstk"}, "Darwin": {"bzero", "__bzero"}}
# Constants that objects for MSVC share with each other.
SHARED_CONSTANTS = re.compile(r"__(real|xmm)@[0-9a-f]+")
# The libraries of Windows that a DLL may want, beside the library itself.
DLLS = {"KERNEL32.dll", "msvcrt.dll"}
# The headers that declare the library's calls, and the one of its Vulkan side.
HEADERS = f"{ROOT}/c/wallthyme.h", f"{ROOT}/c/layout.h"
VULKAN_HEADER = f"{ROOT}/c/wallthyme_vulkan.h"
# The numbers by which files name processors: those of ELF, of Windows' objects, and of macOS' (the last with 64 bits).
ELF = {62: "x86_64", 183: "aarch64"}
COFF = {0x8664: "x86_64", 0xaa64: "aarch64"}
MACH_O = {0x01000007: "x86_64", 0x0100000c: "aarch64"}
# What the files of each system are.
FORMATS = {"Linux": "ELF", "Android": "ELF", "Windows": "COFF", "Darwin": "Mach-O"}


def first_object(content):
    """The first object in an archive. Lists of names come first; each part stands behind 60 bytes that say what it is
    called and its length, and a long name may stand before the content."""
    at = 8
    while content[at:at + 60]:
        name, length = content[at:at + 16].strip(), int(content[at + 48:at + 58])
        long = int(name[3:]) if name.startswith(b"#1/") else 0
        start = at + 60 + long
        named = content[at + 60:start].rstrip(b"\0") or name
        if named not in (b"/", b"//") and not named.startswith(b"__.SYMDEF"):
            return content[start:at + 60 + length]
        at += 60 + length + length % 2
    return b""


def machine_of(content):
    """The processor and the format of an object, of a linked file, or of the first object in an archive, in words."""
    if content.startswith(b"!<arch>\n"):
        content = first_object(content)
    if content.startswith(b"MZ") and len(content) >= 64:
        [at] = struct.unpack_from("<I", content, 60)
        content = content[at + 4:] if content[at:at + 4] == b"PE\0\0" else b""
    numbers, kind, at, name = COFF, "<H", 0, FORMATS["Windows"]
    if content.startswith(b"\x7fELF"):
        numbers, at, name = ELF, 18, FORMATS["Linux"]
    elif content.startswith(b"\xcf\xfa\xed\xfe"):
        numbers, kind, at, name = MACH_O, "<I", 4, FORMATS["Darwin"]
    found = numbers.get(struct.unpack_from(kind, content, at)[0]) if len(content) >= at + 4 else None
    return f"{found} ({name})" if found else "no known processor"


def said_by(command):
    """What a command prints, which has to end well."""
    ran = subprocess.run(command, stdin=subprocess.DEVNULL, capture_output=True, text=True)
    if ran.returncode:
        raise Stopped(FAILED, f"{' '.join(command)} ended with status {ran.returncode}\n{ran.stderr.strip()}")
    return ran.stdout


def names_in(said, system="Linux"):
    """The names in what `nm` prints, as C has them."""
    # (what is weak may stay absent, and a version's own name is absolute)
    found = {name.split("@")[0] for kind, name in re.findall(r" (\w) ([^\s@]\S*)$", said, re.M) if kind not in "wvA"
             and not SHARED_CONSTANTS.fullmatch(name)}
    return {name.removeprefix("_") for name in found} if system == "Darwin" else found


def exports(headers=HEADERS, macro="WT_API"):
    """The names of the calls that the headers declare."""
    found = {name for header in headers for name in re.findall(rf"^{macro} .*?\b(wtv?_\w+)\(", read(header), re.M)}
    if not found:
        raise Stopped(FAILED, f"{', '.join(headers)} declare no calls")
    return found


def hold_to_machine(file, processor, system):
    """Holds a file to its processor and to the format of its system."""
    with open(file, "rb") as opened:
        found = machine_of(opened.read())
    if found != f"{processor} ({FORMATS[system]})":
        raise Stopped(FAILED, f"{file} is for {found}, and not for {processor} ({FORMATS[system]})")


def hold_to_names(file, wants, has, declared, wanted):
    """Holds what a file wants of others to what it may, and what it has to the calls that are declared."""
    if wants - wanted:
        raise Stopped(FAILED, f"{file} wants {', '.join(sorted(wants - wanted))}")
    if has ^ declared:
        raise Stopped(FAILED, f"{file} and the headers differ in {', '.join(sorted(has ^ declared))}")


def hold_to_lists(file, processor, declared, *words, nm="nm", system="Linux", said=said_by):
    """Holds a library to its processor, to what it may want of others, and to the calls that are declared. `said` runs
    `nm`."""
    hold_to_machine(file, processor, system)
    wants, has = (names_in(said([nm, *words, *more, file]), system) for more in (["-u"], ["-g", "--defined-only"]))
    hold_to_names(file, wants, has, declared, WANTED | WANTED_BY_SYSTEM.get(system, set()))


def hold_dll(file, processor, declared, objdump, *others):
    """Holds a DLL to its processor, to the DLLs that it may want, and to the calls that are declared."""
    hold_to_machine(file, processor, "Windows")
    said = said_by([objdump, "-p", str(file)])
    table = said.partition("[Ordinal/Name Pointer] Table")[2]
    hold_to_names(file, set(re.findall(r"^\s*DLL Name: (\S+)", said, re.M)),
                  set(re.findall(r"^\s+\[ *\d+\] (?:\+base\[ *\d+\] +[0-9a-f]+ )?(\w+)$", table, re.M)), declared,
                  DLLS | set(others))
