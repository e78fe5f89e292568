"""Runs the merge gate, rt ci, as it is, and prints meanwhile what it does.

rt ci prints what was said of a crate when its proof has ended, and of the edits and tests only at its end. What it is
at shows in the processes that it starts, which are watched here: a check of a crate in the crate's own folder, a check
of an edit in a folder rt-edit-* with the edited texts, and each test as a process of rattle-test. Where nothing is
seen, as with another kit, the lines come from what rt ci prints alone, and its verdict is its own in any case.
"""
import contextlib
import os
import re
import resource
import signal
import subprocess
import tempfile
import threading
import time

from edits import apply_edit, edits_of, read
from parts import print_timed

LAST = re.compile(r"\d+ passed, \d+ failed")
RUNNER = ("runner",)
UNKNOWN = ("", 0)
# The memory of a check: more than most take. The two of tests take up to 7 GB, and run beside smaller ones.
EACH = 4_500_000_000
# What is printed of a block in which something is not proved.
REASON = re.compile(r"error|no proof|NOT|: not proved|^rt: (?!chose)")


def bodies(root):
    """The edits of each crate: the functions that they name and the texts that they leave. One that cannot be applied
    is for rt ci to refuse."""
    found = {}
    for crate, edit in edits_of(root):
        try:
            found[crate, edit] = apply_edit(f"{root}/crates/{crate}/must-fail/{edit}", f"{root}/crates/{crate}")
        except (AssertionError, KeyError, OSError, UnicodeDecodeError):
            found[crate, edit] = [], {}
    return found


class Watch(threading.Thread):
    """Sees the processes that rt ci starts, and how long each of them runs."""

    TICKS = os.sysconf("SC_CLK_TCK")

    def __init__(self, pid, edits, log):
        super().__init__(daemon=True)
        self.pid, self.edits, self.log, self.ended = str(pid), edits, log, threading.Event()
        # What each process does and since when; how long each work took; and the processor seconds of each of its
        # processes, when last seen.
        self.running, self.took, self.spent = {}, {}, {}

    def run(self):
        while not self.ended.wait(0.2):
            # (a process can end while it is looked at)
            with contextlib.suppress(OSError, ValueError, IndexError, RuntimeError):
                self.look()

    def look(self):
        seen, now = set(), time.monotonic()
        for pid in filter(str.isdigit, os.listdir("/proc")):
            with contextlib.suppress(OSError, ValueError, IndexError):
                fields = read(f"/proc/{pid}/stat").rpartition(") ")[2].split()
                parent = fields[1]
                if parent == self.pid or self.running.get(parent, UNKNOWN)[0] == RUNNER:
                    seen.add(pid)
                    if self.running.get(pid, UNKNOWN)[0] == "":
                        self.running[pid] = self.work_of(pid, parent), now
                    # (its own, and of the copies of itself that it waited for, in user and system mode)
                    spent = self.spent.setdefault(self.running[pid][0], {})
                    spent[pid] = sum(map(int, fields[11:15])) / self.TICKS
        for pid in self.running.keys() - seen:
            work, begun = self.running.pop(pid)
            self.took[work] = now - begun
            if work[:1] == ("edit",):
                print_timed(f"{work[1]}/{work[2]}: its check took {self.seconds(*work):.0f} processor s", self.log)

    def work_of(self, pid, parent):
        """Says what a process does: the proof of a crate or of its tests, the check of an edit, a test or the runner of
        tests, or nothing of these."""
        words, at = read(f"/proc/{pid}/cmdline").split("\0"), os.readlink(f"/proc/{pid}/cwd")
        if parent != self.pid:
            return "" if words[1].startswith("--") else ("test", words[1])
        if words[0].endswith("/rattle-test"):
            return RUNNER
        if "--crate-name" not in words:
            return ""
        crate = words[words.index("--crate-name") + 1]
        if not os.path.basename(at).startswith("rt-edit-"):
            return "tests" if "--test" in words else "proof", crate
        for (of, edit), (_, texts) in self.edits.items():
            if of == crate and texts and all(read(f"{at}/{path}") == text for path, text in texts.items()):
                return "edit", crate, edit
        return "edit", crate, "(no edit, over what those checks kept)"

    def seconds(self, *work):
        """The processor seconds of that work."""
        return sum(self.spent.get(work, {}).values())

    def cost(self, *work):
        """What that took, to be put behind what ended; nothing where it wasn't seen."""
        return f" in {self.seconds(*work):.0f} processor s" if work in self.spent else ""


class Gate:
    """One run of rt ci, with what it printed."""

    def __init__(self, root, log, jobs):
        self.log, self.block, self.is_reason = log, None, False
        # The crates that are proved, or kept as an earlier run proved them, and those whose tests are, and pass.
        self.proved, self.tested = set(), set()
        self.tests, self.refused, self.bad, self.ran, self.last = 0, 0, 0, 0, ""
        self.edits = bodies(root)
        begun = time.monotonic()
        with tempfile.TemporaryDirectory(prefix="wallthyme-gate-") as room:
            # (rt ci runs programs as nobody, below this folder)
            os.chmod(room, 0o711)
            how = {"stdin": subprocess.DEVNULL, "stdout": subprocess.PIPE, "stderr": subprocess.STDOUT}
            how |= {"text": True, "errors": "replace"}
            # Without a number of jobs rt ci sets memory aside for each crate by its size, and the largest two wait for
            # each other.
            how["env"] = {**os.environ, "RT_JOBS": str(jobs), "TMPDIR": room}
            with subprocess.Popen(["rt", "ci"], cwd=root, **how) as ran:
                self.watch = Watch(ran.pid, self.edits, log)
                self.watch.start()
                try:
                    for line in ran.stdout:
                        print(line, end="", file=log, flush=True)
                        self.take_line(line.rstrip("\n"))
                except BaseException:
                    ran.send_signal(signal.SIGTERM)
                    raise
                finally:
                    self.watch.ended.set()
            self.status = ran.returncode
        used = resource.getrusage(resource.RUSAGE_CHILDREN)
        self.minutes, self.processor = (time.monotonic() - begun) / 60, (used.ru_utime + used.ru_stime) / 60

    def take_line(self, line):
        """Tells what a line of rt ci says, where a reader wants it: what ended, and the reasons of what failed."""
        ended = re.fullmatch(r"rt: (\w+?)(: its tests are)? (NOT )?PROVED.*|rt: (\w+?)(: its tests are)? proved", line)
        # (rt ci says nothing of tests that it keeps, and runs them all the same)
        kept = re.match(r"rt: (\w+)( is kept: |: its tests passed$)", line)
        if kept:
            (self.tested if "tests" in kept[2] else self.proved).add(kept[1])
        if LAST.fullmatch(line):
            self.last = line
        elif line.startswith("== "):
            self.block = []
        elif ended:
            crate, of_tests = ended[1] or ended[4], ended[2] or ended[5]
            print_timed(line[len("rt: "):] + self.watch.cost("tests" if of_tests else "proof", crate))
            if ended[4] and not of_tests:
                self.proved.add(crate)
            elif not ended[4]:
                for reason in list(filter(REASON.search, self.block or []))[:20]:
                    print(reason[:300], flush=True)
            self.block = None
        elif self.block is not None:
            self.block.append(line)
        elif line.startswith("rt: must-fail ") and ": refused, as it must be" in line:
            self.refused, self.is_reason = self.refused + 1, False
        elif line.startswith("rt: must-fail ") and "BAD EDIT" in line:
            # (rt ci reports an edit that it cannot apply, and passes all the same)
            self.bad, self.is_reason = self.bad + 1, True
            print_timed(line[len("rt: "):])
        elif re.match(r"test .* \.\.\. ", line):
            self.is_reason = not (line.endswith(" ok") or " ok - " in line)
            took = self.watch.took.get(("test", line.split(" ... ")[0][len("test "):]), 0)
            print_timed(f"{line}, {f'{took:.1f} s' if took else 'under 0.5 s'}")
            self.tests += not self.is_reason
        elif line.startswith("rt: "):
            print_timed(line[len("rt: "):])
            self.ran, self.is_reason = self.ran + bool(re.search(r" ran\b.* wrote what", line)), "must-fail " in line
        elif line.startswith(("tests: ", "test result: ")):
            self.is_reason = False
        elif self.is_reason:
            # (the rest of what failed)
            print_timed(line)

    def passed(self):
        """What passed, in one sentence, which is the same for the same sources."""
        held = sum(len(functions) for functions, _ in self.edits.values())
        return (
            f"{len(self.proved)} crates proved and the tests of {len(self.tested)}, "
            f"{self.refused} of {len(self.edits)} edits refused ({held} wrong bodies), "
            f"{self.tests} tests passed, {self.ran} runs of programs"
        )

    def counts(self):
        """What passed, and what it took."""
        return f"{self.passed()}; {self.minutes:.0f} min, {self.processor:.0f} min of processor time"
