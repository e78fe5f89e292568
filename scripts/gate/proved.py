"""What scripts/prove keeps of what it proved, and other scripts start: out/NAME-HASH, where HASH is of all that it was
proved from."""
import contextlib
import fcntl
import glob
import hashlib
import os
import shutil
import subprocess
import sys
import tempfile

ROOT = os.path.realpath(f"{os.path.dirname(os.path.realpath(__file__))}/../..")
OUT = f"{ROOT}/out"
# The script that runs, by its path in the repository.
NAME = os.path.relpath(os.path.realpath(sys.argv[0]), ROOT)


def say(text):
    print(f"{NAME}: {text}", file=sys.stderr, flush=True)


def answered(*words):
    """What rt prints, which has to end well."""
    return subprocess.run(["rt", *words], stdin=subprocess.DEVNULL, stdout=subprocess.PIPE, check=True).stdout


def sources():
    """The hash of the sources, specs and proofs as they stand, and of this toolchain."""
    folders = [f"{ROOT}/crates/*/{part}/**" for part in ("src", "specs", "proofs")]
    files = [path for folder in folders for path in glob.glob(folder, recursive=True) if os.path.isfile(path)]
    summed = hashlib.sha256(answered("version"))
    for path in [f"{ROOT}/crates.txt", *sorted(files)]:
        with open(path, "rb") as file:
            text = file.read()
        summed.update(f"{os.path.relpath(path, ROOT)} {len(text)}\n".encode() + text)
    return summed.hexdigest()[:32]


class Program:
    """A program of the repository, or another file that is built of a crate."""

    def __init__(self, crate, name=""):
        self.name, self.crate = name or crate, f"{ROOT}/crates/{crate}"

    def place(self, of=""):
        """Where it is kept as proved from the sources of this hash, or from those that stand."""
        return f"{OUT}/{self.name}-{of or sources()}"

    def keep(self, place):
        """Keeps the file that was just proved there, in one step, and removes what was kept of other sources. A program
        that runs goes on."""
        with tempfile.TemporaryDirectory(dir=OUT) as room:
            shutil.copyfile(f"{self.crate}/out/{self.name}", f"{room}/program")
            os.chmod(f"{room}/program", 0o755)
            os.rename(f"{room}/program", place)
        for old in glob.glob(f"{OUT}/{self.name}-*"):
            if old != place:
                os.remove(old)


SCRIPT, VIEW = Program("gpu_script"), Program("gpu_view")
TESTS = Program("gpu_alloc_tests", "gpu_alloc_tests_tests")
LIBRARY = Program("wallthyme", "libwallthyme.a")
# What rt ci leaves when it has passed.
PASSED = SCRIPT, VIEW, TESTS


def record(of):
    """Where it is kept what the gate passed of the sources of this hash."""
    return f"{OUT}/passed-{of}"


def keep_record(of, text):
    """Keeps what the gate passed of the sources of this hash, and of no others."""
    for old in glob.glob(record("*")):
        os.remove(old)
    with open(record(of), "w", encoding="utf-8") as file:
        file.write(f"{text}\n")


def runner():
    """The kit's runner of tests, by its path, or nothing where the kit has none there."""
    file = f"{os.path.dirname(answered('doc').decode().strip())}/bin/rattle-test"
    return file if os.access(file, os.X_OK) else None


@contextlib.contextmanager
def alone():
    """Waits until no other run of these scripts proves, and holds others back meanwhile. Makes out/ where there is
    none."""
    os.makedirs(OUT, exist_ok=True)
    with open(f"{OUT}/lock", "w") as lock:
        try:
            fcntl.flock(lock, fcntl.LOCK_EX | fcntl.LOCK_NB)
        except BlockingIOError:
            say("waits for another run that proves here")
            fcntl.flock(lock, fcntl.LOCK_EX)
        yield


def note_libraries():
    """Tells later runs of rt that the libraries which the gate has just built are of the sources as they stand. The
    gate leaves them without that note, and scripts/gate/library would prove all of them again. With a kit that notes it
    otherwise nothing is written, and that is what happens."""
    kit = os.path.dirname(answered("doc").decode().strip())
    sys.path.append(f"{kit}/bin")
    try:
        import rtlib

        for crate in rtlib.crates_below(f"{ROOT}/crates"):
            if os.path.isdir(crate.rlib) and not crate.is_built():
                with open(f"{os.path.dirname(crate.rlib)}/stamp", "w", encoding="utf-8") as file:
                    file.write(crate.stamp())
    except (ImportError, AttributeError) as error:
        say(f"what the gate built cannot be noted for this kit: {error}")
