"""What scripts/test and scripts/prove have in common: parts that run beside each other, each with a line as it begins and
as it ends, and what was left out."""
import contextlib
import dataclasses
import os
import re
import shutil
import signal
import subprocess
import tempfile
import threading
import time
from concurrent.futures import ThreadPoolExecutor
from typing import Callable

from edits import read
from ending import INTERRUPTED, NOT_WRITABLE, USAGE, Stopped
from proved import OUT, ROOT

# Checks of pages and sources, which need no proof: those that take seconds, and one that takes longer.
QUICK = tuple(f"scripts/gate/{name}" for name in (
    "check_readme", "check_edits", "check_pages", "check_steps", "check_unused", "soaking/test", "check_quotes"))
SLOW = "scripts/gate/refuse_forgotten"
# A line by which a check says what it leaves out for want of something: `left out: WHAT, since WHY`, or
# `WHAT: left out, since WHY`.
LEFT_OUT = re.compile(r"(?:^|: )left out: (.*), since (.*)|^(.*): left out, since (.*)")
# The most lines that are printed of why something failed, and the longest; and the most names of what did in the end.
REASONS, WIDTH, NAMED = 20, 240, 20
# After so many seconds without a line, one says what runs.
SILENT = 30
BEGUN = time.monotonic()
PRINTING = threading.Lock()
printed = BEGUN


def print_timed(text, log=None):
    """Prints a line with the time since the start, and keeps it in the log where it is given."""
    global printed
    with PRINTING:
        printed = time.monotonic()
        line = f"{printed - BEGUN:6.0f} s  {text}"
        for to in (None, log) if log else (None,):
            print(line, file=to, flush=True)


def jobs_at_once(each, spared=0):
    """How many processes of that many bytes run at once: one a processor, but for one of each `spared`, as many as
    memory holds, at most RT_JOBS."""
    found = len(os.sched_getaffinity(0))
    free = 1024 * int(re.search(r"MemAvailable:\s+(\d+)", read("/proc/meminfo"))[1])
    # (a control group may grant less)
    with contextlib.suppress(OSError, ValueError):
        quota, period = read("/sys/fs/cgroup/cpu.max").split()
        found = min(found, int(quota) // int(period))
    with contextlib.suppress(OSError, ValueError):
        free = min(free, int(read("/sys/fs/cgroup/memory.max")))
    found = max(1, min(found - (found // spared if spared else 0), free // each))
    asked = os.environ.get("RT_JOBS") or str(found)
    if not re.fullmatch("[1-9][0-9]{0,3}", asked):
        raise Stopped(USAGE, f"RT_JOBS is a number from 1 to 9999, and not {asked!r}")
    return min(found, int(asked))


@dataclasses.dataclass
class Ran:
    """A command that ended."""

    status: int
    out: str
    said: str


@dataclasses.dataclass
class Outcome:
    """What a part showed: how many passed, and each that failed, with the lines that say why."""

    passed: int
    failed: list


def shortened(reasons):
    """The lines that say why something failed, at most so many and so long. Of two that were compared, and are longer,
    it shows where they first differ."""
    compared = [line.split(":", 1)[-1] for line in reasons if re.match(r" *(left|right):", line)]
    at = len(os.path.commonprefix(compared)) - WIDTH // 2 if len(compared) == 2 else 0
    for line in reasons[:REASONS]:
        found = re.match(r" *(left|right):", line)
        if len(line) <= WIDTH:
            yield line
        elif found and at > 0:
            rest = line[found.end() + at:]
            yield f"{found[0]} ..{rest[:WIDTH]}{'..' * (len(rest) > WIDTH)}"
        else:
            yield f"{line[:WIDTH]}.."


def judge_status(name):
    """One check, which passes with status 0. Of one that fails its last lines are shown, which say why."""

    def judge(ran):
        if not ran.status:
            return Outcome(1, [])
        return Outcome(0, [(name, [f"status {ran.status}", *f"{ran.out}{ran.said}".splitlines()[1 - REASONS:]])])
    return judge


@dataclasses.dataclass
class Part:
    """A command that runs beside others, and how it is judged."""

    name: str
    words: list
    judge: Callable
    cwd: str = ROOT
    text: str = ""
    env: dict = dataclasses.field(default_factory=dict)


def check(command, **env):
    """The part that runs a command of the repository and wants status 0."""
    return Part(command, command.split(), judge_status(command), env=env)


class Run:
    """A run of parts, with a folder for what they write meanwhile. All of them end with it, and where it is broken off
    it leaves nothing."""

    def __init__(self, name, written=0):
        self.passed, self.failed, self.missing = 0, [], []
        self.processes, self.lock, self.over = set(), threading.Lock(), threading.Event()
        # The names of the parts that run, and how many have ended, of how many.
        self.now, self.ended, self.count = [], 0, 0
        self.log_file, self.written = f"{OUT}/{name}.log", written

    def __enter__(self):
        os.makedirs(OUT, exist_ok=True)
        self.log = open(self.log_file, "w", encoding="utf-8")
        self.room = tempfile.mkdtemp(prefix="wallthyme-")
        # (rt runs programs as nobody below this folder)
        os.chmod(self.room, 0o711)
        threading.Thread(target=self.tell_what_runs, daemon=True).start()
        free = shutil.disk_usage(self.room).free
        if free < self.written:
            self.__exit__(Stopped)
            where = os.path.dirname(self.room)
            raise Stopped(NOT_WRITABLE, f"{free >> 20} MiB are free in {where}, and {self.written >> 20} are needed")
        return self

    def __exit__(self, kind, *_):
        with self.lock:
            self.over.set()
            running = list(self.processes)
        for number, seconds in ((signal.SIGTERM, 10), (signal.SIGKILL, 5)):
            end_all(running, number, seconds)
        self.log.close()
        shutil.rmtree(self.room, ignore_errors=True)
        if kind:
            os.remove(self.log_file)
            # (another run may use it)
            with contextlib.suppress(OSError):
                os.rmdir(OUT)

    def command(self, words, cwd=ROOT, text="", env=None):
        """Runs a command on this text, in a group of processes of its own."""
        how = {"stdin": subprocess.PIPE, "stdout": subprocess.PIPE, "stderr": subprocess.PIPE, "text": True}
        how |= {"errors": "replace", "start_new_session": True, "env": {**os.environ, "TMPDIR": self.room, **(env or {})}}
        with self.lock:
            if self.over.is_set():
                raise Stopped(INTERRUPTED, "ended")
            ran = subprocess.Popen(words, cwd=cwd, **how)
            self.processes.add(ran)
        out, said = ran.communicate(text)
        with self.lock:
            self.processes.discard(ran)
        return Ran(ran.returncode, out, said)

    def start(self, parts, jobs):
        """Begins these parts, as many at once as `jobs` says. Each of what it returns has a `result` to wait for."""
        pool, parts = ThreadPoolExecutor(jobs), list(parts)
        self.count += len(parts)
        started = [pool.submit(self.run_part, part) for part in parts]
        pool.shutdown(wait=False)
        return started

    def tell_what_runs(self):
        """Prints a line after each silence in which parts run."""
        while not self.over.wait(1):
            if self.now and time.monotonic() - printed >= SILENT:
                print_timed(f"{self.ended} of {self.count} parts have ended; now: {', '.join(self.now)}")

    def run_part(self, part):
        if self.over.is_set():
            return
        print_timed(f"{part.name}: begins", self.log)
        self.now.append(part.name)
        begun = time.monotonic()
        ran = self.command(part.words, part.cwd, part.text, part.env)
        self.now.remove(part.name)
        if self.over.is_set():
            return
        self.log.write(f"{ran.out}{ran.said}")
        for line in f"{ran.out}{ran.said}".splitlines():
            found = LEFT_OUT.search(line)
            if found:
                self.leave_out(*filter(None, found.groups()))
        self.take(part.name, part.judge(ran), time.monotonic() - begun)

    def take(self, name, outcome, seconds):
        """Counts what a part showed, and prints it."""
        passed = f"{outcome.passed} passed" if outcome.passed != 1 or outcome.failed else "passed"
        failed = f"{len(outcome.failed)} FAILED" if outcome.failed else ""
        counts = ", ".join(filter(None, [passed if outcome.passed else "", failed]))
        with self.lock:
            self.ended += 1
            self.passed += outcome.passed
            self.failed += [failed for failed, _ in outcome.failed]
        lines = [f"{name}: {counts}, in {seconds:.0f} s"]
        for failed, reasons in outcome.failed:
            lines += [f"FAILED: {failed}", *(f"          {reason}" for reason in shortened(reasons))]
        print_timed("\n".join(lines), self.log)

    def left_out(self):
        """One line that says what was left out, and why."""
        by_cause = {}
        for what, why in dict.fromkeys(self.missing):
            by_cause.setdefault(why, []).append(what)
        rows = [f"{', '.join(parts)}, since {why}" for why, parts in by_cause.items()]
        return f"left out: {'; '.join(rows)}" if rows else "nothing was left out"

    def told_failed(self):
        """One line that names what failed."""
        more = [f"and {len(self.failed) - NAMED} more"] * (len(self.failed) > NAMED)
        return f"FAILED: {', '.join([*self.failed[:NAMED], *more])}"

    def leave_out(self, what, why):
        """Notes what a part leaves out, and why."""
        self.missing.append((what, why))


def end_all(processes, number, seconds):
    """Sends a signal to the group of each that still runs, and waits for it that many seconds."""
    for ran in processes:
        if ran.poll() is None:
            with contextlib.suppress(ProcessLookupError):
                os.killpg(ran.pid, number)
    until = time.monotonic() + seconds
    while any(ran.poll() is None for ran in processes) and time.monotonic() < until:
        time.sleep(0.05)
