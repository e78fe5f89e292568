"""The LLVM modules of the library as it was proved, which scripts/modules captures and keeps."""
import glob
import os
import re
import shutil
import subprocess
import tempfile

from edits import read
from ending import FAILED, NO_INPUT, NOT_BUILT, Stopped
from kit import folder_of_kit, link
from proved import LIBRARY, OUT, ROOT, say, sources

# The processors for which it is proved, and the names of what is kept of each: the module, as clang read it, in either
# of two forms; the words of that call; the archive that came of it; and the kit's verdict of the proof.
PROCESSORS = "x86_64", "aarch64"
MODULES = "module.bc", "rewritten.ll"
WORDS, ARCHIVE, VERDICT = "words", "libwallthyme.a", "verdict"
# What the kit calls the object.
OBJECT = "module.o"
# A call that compiles a module into an object is kept. (The file has no name beside the folder in which clang runs.)
BEFORE = """case " $* " in *' -c '*) for it; do case $it in {names}) /bin/cp "$it" "{kept}"
printf '%s\\n' "$@" > "{kept}/{words}" ;; esac; done ;; esac"""


def target_of(processor):
    """The target of a processor, as the kit names it."""
    return f"{processor}-unknown-linux-gnu"


def place(of=""):
    """The folder that has the modules of the sources of this hash, or of those that stand."""
    return f"{OUT}/modules-{of or sources()}"


def kept():
    """That folder, where it is there."""
    return place() if os.path.isdir(place()) else None


def tool(name, *words, cwd=None):
    """What a tool of the kit's LLVM writes. All of them are its clang, by name."""
    clang = f"{folder_of_kit()}/toolchain/bin/clang"
    ran = subprocess.run([name, *words], executable=clang, cwd=cwd, stdin=subprocess.DEVNULL, capture_output=True)
    if ran.returncode:
        said = ran.stderr.decode(errors="replace").strip()[-2000:]
        raise Stopped(NOT_BUILT, f"{name} {' '.join(words)} ended with status {ran.returncode}\n{said}")
    return ran.stdout


def module_of(folder):
    """The name of the module in a folder."""
    found = [name for name in MODULES if os.path.isfile(f"{folder}/{name}")]
    if len(found) != 1 or not all(os.path.isfile(f"{folder}/{name}") for name in (WORDS, ARCHIVE, VERDICT)):
        raise Stopped(NO_INPUT, f"{folder} has no module with {WORDS}, {ARCHIVE} and {VERDICT}")
    return found[0]


def hold_one(folder):
    """Compiles a module again by the words of the kit, and compares what comes with the object of its archive."""
    module, words = module_of(folder), read(f"{folder}/{WORDS}").splitlines()
    if module not in words or OBJECT not in words:
        raise Stopped(NOT_BUILT, f"this kit calls clang otherwise: {' '.join(words)}")
    with tempfile.TemporaryDirectory() as room:
        shutil.copy(f"{folder}/{module}", room)
        tool("clang", *words, cwd=room)
        with open(f"{room}/{OBJECT}", "rb") as file:
            again = file.read()
    if again != tool("llvm-ar", "p", os.path.realpath(f"{folder}/{ARCHIVE}")):
        raise Stopped(FAILED, f"{folder}/{module}, compiled again, is not the object of {ARCHIVE}")


def hold(folder):
    """Holds the modules of a folder to their archives."""
    for processor in PROCESSORS:
        hold_one(f"{folder}/{processor}")


def build(crate, rt, caught, to, processor):
    """Proves and builds the library for a processor, and moves into a folder what is kept of it."""
    for name in os.listdir(caught):
        os.remove(f"{caught}/{name}")
    say(f"proves and builds the library for {target_of(processor)}")
    words = [rt, "lib", "--target", target_of(processor)]
    ran = subprocess.run(words, cwd=crate, stdin=subprocess.DEVNULL, capture_output=True, text=True, errors="replace")
    verdicts = re.findall(r"^logic=proved .*$", ran.stdout, re.M)
    if ran.returncode or not verdicts:
        raise Stopped(NOT_BUILT, f"rt lib for {processor} ended with status {ran.returncode}\n"
                                 f"{(ran.stdout + ran.stderr).strip()[-2000:]}")
    os.mkdir(to)
    if not os.listdir(caught):
        raise Stopped(NOT_BUILT, "this kit calls clang otherwise: no module was seen")
    for name in os.listdir(caught):
        shutil.move(f"{caught}/{name}", to)
    shutil.copyfile(f"{crate}/out/{ARCHIVE}", f"{to}/{ARCHIVE}")
    with open(f"{to}/{VERDICT}", "w", encoding="utf-8") as file:
        file.write(f"{verdicts[-1]}\n")
    hold_one(to)


def copied(room):
    """A copy of the crates, with what is proved of them and built. (Its archive of x86-64 is replaced there.)"""
    for name in ("crates.txt", "HANDLES", "crates"):
        if os.path.isdir(f"{ROOT}/{name}"):
            shutil.copytree(f"{ROOT}/{name}", f"{room}/{name}", symlinks=True)
        else:
            shutil.copy(f"{ROOT}/{name}", room)
    return f"{room}/crates/{os.path.basename(LIBRARY.crate)}"


def capture():
    """Captures the modules of the sources as they stand. Returns the folder in which they are kept."""
    of = sources()
    passed = LIBRARY.place(of)
    if not os.path.isfile(passed):
        raise Stopped(NO_INPUT, "the gate keeps no library of exactly these sources: scripts/prove does so")
    with tempfile.TemporaryDirectory(dir=OUT, prefix="capture-") as room:
        caught, made = f"{room}/caught", f"{room}/made"
        for name in (caught, made):
            os.mkdir(name)
        link(f"{room}/kit", {"clang": BEFORE.format(names="|".join(MODULES), kept=caught, words=WORDS)})
        crate = copied(room)
        for processor in PROCESSORS:
            build(crate, f"{room}/kit/bin/rt", caught, f"{made}/{processor}", processor)
        with open(passed, "rb") as one, open(f"{made}/{PROCESSORS[0]}/{ARCHIVE}", "rb") as other:
            if one.read() != other.read():
                raise Stopped(FAILED, f"the archive of {PROCESSORS[0]} is not the one that the gate passed")
        for old in glob.glob(place("*")):
            shutil.rmtree(old)
        os.rename(made, place(of))
    return place(of)
