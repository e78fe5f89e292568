"""Programs of Windows on this machine, by wine."""
import contextlib
import os
import shutil
import subprocess

from ending import NOT_BUILT, Stopped

# No program of wine's asks a person, or loads what it would have to fetch.
QUIET = {"WINEDEBUG": "-all", "WINEDLLOVERRIDES": "mscoree,mshtml="}
# The most seconds that starting and ending take.
LONGEST = 120


@contextlib.contextmanager
def display():
    """The variable that names a display without a screen, which wine's Vulkan driver wants; nothing where it can't be
    had."""
    if not shutil.which("Xvfb"):
        yield {}
        return
    reads, writes = os.pipe()
    how = {"stdin": subprocess.DEVNULL, "stdout": subprocess.DEVNULL, "stderr": subprocess.DEVNULL}
    with subprocess.Popen(["Xvfb", "-displayfd", str(writes)], pass_fds=[writes], **how) as server:
        os.close(writes)
        try:
            with os.fdopen(reads) as said:
                number = said.readline().strip()
            yield {"DISPLAY": f":{number}"} if number else {}
        finally:
            server.terminate()


@contextlib.contextmanager
def windows(emulator, folder, shown=None):
    """The variables of programs under wine, whose files lie in a folder until they have ended. These are made first, to
    their end. Then all programs have one server from before the first to behind the last, since each would take seconds to
    start its own. The first one starts others, which stay and keep its output open, so it has none."""
    added = {**QUIET, **(shown or {}), "WINEPREFIX": f"{folder}/wine"}
    os.makedirs(added["WINEPREFIX"], exist_ok=True)
    how = {"env": {**os.environ, **added}, "stdin": subprocess.DEVNULL, "stdout": subprocess.DEVNULL,
           "stderr": subprocess.DEVNULL, "timeout": LONGEST}
    server = f"{os.path.dirname(emulator[0])}/wineserver64"
    try:
        for words in ([*emulator, "wineboot", "--init"], [server, "-w"], [server, "-p"], [*emulator, "cmd", "/c", "exit"]):
            subprocess.run(words, check=True, **how)
    except subprocess.SubprocessError as error:
        raise Stopped(NOT_BUILT, f"wine does not start: {error}")
    try:
        yield added
    finally:
        for word in ("-k", "-w"):
            subprocess.run([server, word], check=False, **how)
        shutil.rmtree(added["WINEPREFIX"], ignore_errors=True)
