"""What tests show of the library for a platform, as scripts/gate/platform runs them and scripts/release reports them."""
import contextlib
import functools
import glob
import hashlib
import os
import subprocess

from captured import capture, kept
from edits import read
from ending import FAILED, Stopped
from inspected import exports, hold_to_lists
from made import DLL, HEADERS, IMPORTS, PROGRAM, SIDE, SIDE_DLL, SIDE_IMPORTS, has_vulkan, make_all
from platforms import X86_64
from proved import OUT, ROOT, say, sources
from wine import windows

# What is tested beside the library, and what makes and runs that.
SCRIPTS = "inspected", "made", "platforms", "retargeted", "tested", "wine"
FOLDERS = "c", "examples/first_use.c", "examples/triangle", "examples/vulkan", *(f"scripts/gate/{name}.py" for name in SCRIPTS)
# Lines of `make check` that are not kept: what was made, and what another run would count otherwise.
NOT_KEPT = "made ", "size: "
# A line of the record for each file that was made, so that no other one takes its place.
MADE = "made: "
# The most lines that are shown of what failed.
SHOWN = 20
# What is tested under wine: how each is called, the library, and more words of c/tests/portable; and those with Vulkan's
# headers. (MSVC calls what probes the stack otherwise than mingw. All take the C++ runtime into themselves.)
KINDS = {
    "static": ("libwallthyme.a", {}, {"SIDE": SIDE}),
    "dll": (IMPORTS, {"DLLS": DLL}, {"SIDE": SIDE_IMPORTS, "DLLS": f"{DLL} {SIDE_DLL}"}),
    "msvc": ("wallthyme.lib", {"LINK": "-static -Wl,--defsym,__chkstk=___chkstk_ms"}, {}),
}


def record(platform):
    """Where it is kept what passed of exactly these sources and tests."""
    named = ["git", "-C", ROOT, "ls-files", "-z", "--cached", "--others", "--exclude-standard", *FOLDERS]
    names = subprocess.run(named, stdout=subprocess.PIPE, check=True, text=True).stdout.split("\0")[:-1]
    summed = hashlib.sha256(sources().encode())
    for name in sorted(name for name in set(names) if os.path.isfile(f"{ROOT}/{name}")):
        with open(f"{ROOT}/{name}", "rb") as file:
            content = file.read()
        summed.update(f"{name} {len(content)}\n".encode() + content)
    return f"{OUT}/tested-{platform.target}-{summed.hexdigest()[:32]}"


def make(platform, goal):
    """What `make` says that makes a goal for a platform. Where no modules are kept it is this machine's, of c/build."""
    words = ["make", "-s", "-C", f"{ROOT}/c", goal, *(platform.words() if kept() else ())]
    ran = subprocess.run(words, stdin=subprocess.DEVNULL, stdout=subprocess.PIPE, stderr=subprocess.STDOUT, text=True,
                         errors="replace")
    if ran.returncode:
        said = "\n".join(ran.stdout.splitlines()[-SHOWN:])
        raise Stopped(FAILED, f"make {goal} for {platform.target} ended with status {ran.returncode}\n{said}")
    return ran.stdout.splitlines()


@functools.cache
def results():
    """The line that says what drawn calls print on x86-64: how many bytes, and their sum."""
    [line] = [line for line in make(X86_64, "trace") if line.startswith("trace: ")]
    return line


def hold_to_results(platform, lines):
    """Drawn calls print the same everywhere."""
    if results() not in lines:
        said = [line for line in lines if line.startswith("trace: ")]
        raise Stopped(FAILED, f"on {platform.target} drawn calls print {said}, and on {X86_64.target} {results()}")


def emulated(platform):
    """Under what its programs run, with its version."""
    said = subprocess.run([platform.emulator[0], "--version"], stdout=subprocess.PIPE, text=True, check=True).stdout
    return said.splitlines()[0]


def run_program(platform, env):
    """Runs the program that draws reports under wine. Returns what its test prints."""
    command = [f"{ROOT}/c/tests/picture/check", f"{PROGRAM}.exe", "."]
    ran = subprocess.run(command, cwd=platform.build, env={**env, "RUN": " ".join(platform.emulator)}, errors="replace",
                         stdin=subprocess.DEVNULL, stdout=subprocess.PIPE, stderr=subprocess.STDOUT, text=True)
    if ran.returncode:
        raise Stopped(FAILED, f"{PROGRAM}.exe: its test ended with status {ran.returncode}\n{ran.stdout[-3000:]}")
    return ran.stdout.splitlines()


def run_portable(platform, kind, env):
    """Runs the tests of one kind of library under wine. Returns what they print."""
    library, more, over_vulkan = KINDS[kind]
    words = {"CC": platform.tool("CC"), "CXX": platform.tool("CXX"), "RUN": " ".join(platform.emulator), "LINK": "-static",
             "WITHOUT": "stack:Windows has no such stacks;memory,size:Windows does not say how much a process holds", **more}
    if has_vulkan():
        words |= {"VULKAN": f"{platform.build}/{HEADERS}", **over_vulkan}
    command = [f"{ROOT}/c/tests/portable", library, f"tests/{kind}", *(f"{name}={word}" for name, word in words.items())]
    ran = subprocess.run(command, cwd=platform.build, env=env, stdin=subprocess.DEVNULL, stdout=subprocess.PIPE, text=True,
                         errors="replace")
    if ran.returncode:
        raise Stopped(FAILED, f"the tests for {platform.target}, {kind}, ended with status {ran.returncode}\n"
                              f"{ran.stdout[-3000:]}")
    return ran.stdout.splitlines()


def test_on_windows(platform):
    """Runs all tests that go there over each kind of library. Returns a line for each; all kinds print the same sum."""
    lines, sums = [f"under {emulated(platform)}"], set()
    with windows(platform.emulator, platform.build) as added:
        lines += run_program(platform, {**os.environ, **added})
        for kind in KINDS:
            said = run_portable(platform, kind, {**os.environ, **added})
            hold_to_results(platform, said)
            sums.add(said[-1])
            lines += [f"{kind}: {line}" for line in said]
    if len(sums) > 1:
        raise Stopped(FAILED, f"drawn runs over the libraries for {platform.target} differ: {'; '.join(sorted(sums))}")
    return lines


def made(platform):
    """Makes the files of a platform. Returns lines that say how, and one for each file with its sum."""
    lines = make_all(platform)
    for name in sorted(name for name in os.listdir(platform.build) if name.endswith((".a", ".lib", ".dll", ".exe"))):
        with open(f"{platform.build}/{name}", "rb") as file:
            lines.append(f"{MADE}{name} sha256 {hashlib.sha256(file.read()).hexdigest()}")
    return lines


def test_retargeted(platform):
    """Makes the files of a platform twice, which have to be the same, and runs all tests that go there where something can
    run. Returns a line for each."""
    first, lines = made(platform), made(platform)
    if first != lines:
        raise Stopped(FAILED, f"what is made for {platform.target} differs: {sorted(set(first) ^ set(lines))}")
    return lines + (test_on_windows(platform) if platform.runs else [])


def test(platform):
    """Makes the library of its module, holds it to its lists and runs all tests. Returns a line for each."""
    if not kept():
        say(f"the modules are kept in {os.path.relpath(capture(), ROOT)}")
    if platform.is_retargeted:
        return test_retargeted(platform)
    platform.make_heap()
    make(platform, "all")
    for file, words in (("libwallthyme.a", ()), ("libwallthyme.so", ("-D",))):
        hold_to_lists(f"{platform.build}/{file}", platform.processor, exports(), *words, nm=platform.tool("NM"))
    lines = [line for line in make(platform, "check") if not line.startswith(NOT_KEPT)]
    hold_to_results(platform, lines)
    return [f"under {emulated(platform)}", *lines]


def is_there(platform, line):
    """Whether a file that a record names is as it says."""
    name, _, wanted = line.removeprefix(MADE).partition(" sha256 ")
    with contextlib.suppress(OSError), open(f"{platform.build}/{name}", "rb") as file:
        return hashlib.sha256(file.read()).hexdigest() == wanted
    return False


def passed_before(platform):
    """What passed of exactly these sources and tests, where the files that were made are still those; else nothing."""
    place = record(platform)
    lines = read(place).splitlines() if os.path.isfile(place) else []
    return lines if all(is_there(platform, line) for line in lines if line.startswith(MADE)) else []


def tested(platform):
    """What passed of exactly these sources and tests, which are run where they were not."""
    lines = passed_before(platform)
    if not lines:
        lines = test(platform)
        for old in glob.glob(f"{OUT}/tested-{platform.target}-*"):
            os.remove(old)
        with open(record(platform), "w", encoding="utf-8") as file:
            file.write("".join(f"{line}\n" for line in lines))
    return lines
