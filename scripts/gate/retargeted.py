"""How a module that was proved becomes the object of another system, by few edits of its text.

The edits take out what binds the text to Linux. No instruction is among them: that the rest means the same there is
tested where something can run, and not proved.
"""
import os
import re

from captured import MODULES, OBJECT, WORDS, module_of, tool
from edits import read
from ending import NOT_BUILT, Stopped
from platforms import HEAP

# The words by which clang reads a module and leaves it as it is.
AS_IT_IS = ("-x", "ir", "-emit-llvm", "-O0", "-Xclang", "-disable-llvm-passes", "--no-default-config",
            "-Wno-override-module")
# Division of words of 128 bits stands in place, as the kit has it for WebAssembly: not every system has it.
IN_PLACE = ("-mllvm", "-expand-div-rem-bits=64")
# Objects for MSVC would have the time in them.
NO_TIME = ("-mno-incremental-linker-compatible",)


def edits_for(system):
    """The edits of a module's text for a system: what each is called, what it finds, and what it leaves of that."""
    yield "layout and target: the compiler's own", re.compile(r"^target (?:datalayout|triple) = .*\n", re.M), ""
    if system == "Windows":
        probes = r'^(attributes #\d+ = \{.*?) "probe-stack"="[^"]*" "stack-probe-size"="[^"]*"'
        yield "probes of the stack: Windows' own; rows of unwind tables", re.compile(probes, re.M), r"\1 uwtable"


def retargeted(text, system):
    """A module's text for a system, and a line for each edit."""
    lines = []
    for name, finds, leaves in edits_for(system):
        text, count = finds.subn(leaves, text)
        if not count:
            raise Stopped(NOT_BUILT, f"the module has nothing for an edit: {name}")
        lines.append(f"{name} ({count})")
    if system == "Windows" and "probe-stack" in text:
        raise Stopped(NOT_BUILT, "the module has probes of the stack in a form that is not known")
    return text, lines


def words_of(given, triple, folder, name):
    """The kit's words of the call that compiled a module, for another target."""
    for word in read(f"{given.modules}/{WORDS}").splitlines():
        if word.startswith("--target="):
            yield f"--target={triple}"
        elif word in MODULES:
            yield f"{folder}/module.bc"
        elif word == OBJECT:
            yield f"{folder}/{name}"
        elif not word.startswith("--sysroot=") and not (word == "-fPIC" and given.is_windows):
            yield word


def compile_for(given, triple, folder, name):
    """Compiles the library of a platform for what clang names so: one object, folder/NAME. Returns a line for each edit."""
    tool("clang", *AS_IT_IS, "-S", f"{given.modules}/{module_of(given.modules)}", "-o", f"{folder}/given.ll")
    text, lines = retargeted(read(f"{folder}/given.ll"), given.system)
    with open(f"{folder}/module.ll", "w", encoding="utf-8") as file:
        file.write(text)
    for source, module in ((f"{folder}/module.ll", "module.bc"), (HEAP, "heap.bc")):
        tool("clang", *AS_IT_IS, f"--target={triple}", "-c", source, "-o", f"{folder}/{module}")
    tool("clang", *words_of(given, triple, folder, name), "-Wno-override-module", *IN_PLACE, "-Xclang",
         "-mlink-builtin-bitcode", "-Xclang", f"{folder}/heap.bc", *(NO_TIME if given.is_windows else ()))
    for rest in ("given.ll", "module.ll", "module.bc", "heap.bc"):
        os.remove(f"{folder}/{rest}")
    return lines
