"""What scripts/run, scripts/report and scripts/picture have in common: a program of the repository that runs on a
script.

A kept program that was proved from exactly these sources is run at once. Else the program is compiled without proof,
which takes under a minute; where that run can give no answer, since it writes at most 1 MiB, the program is proved
first. Standard output has what the program prints alone. The exit status is the program's: 0 ran, 1 a read or a write
failed, 2 a line is wrong, 3 want of memory. Where no program ran to its end it is 64 or more, and nothing is printed.
"""
import os
import re
import shutil
import subprocess
import sys
import tempfile
import time

import ending
import proved
from ending import NO_INPUT, NOT_BUILT, USAGE, Stopped
from proved import NAME, say

# Scripts of this many bytes have about 1 MiB of replies, and of picture.
LARGEST = {proved.SCRIPT: 600_000, proved.VIEW: 200_000}
ENDED = re.compile(r"run=ended status=([0-3]) .*proved=no")


def copy_of(name):
    """The script's text, in a file that can be read twice."""
    script = tempfile.TemporaryFile()
    try:
        with open(0 if name == "-" else name, "rb", closefd=name != "-") as source:
            shutil.copyfileobj(source, script)
    except OSError as error:
        raise Stopped(NO_INPUT, f"{name} cannot be read: {error.strerror}")
    return script


def run(command, script, replies, **how):
    """Runs a command on the script. Returns its status and what it said, if that is asked for. It ends where this run
    is ended."""
    script.seek(0)
    with subprocess.Popen(command, stdin=script, stdout=replies, text=True, errors="replace", **how) as ran:
        try:
            said = ran.communicate()[1]
        except BaseException:
            ran.terminate()
            raise
    return ran.returncode, said


def run_unproved(program, words, script, replies):
    """Runs the program on the script without proof. Returns the program's status, or nothing where that run gave no
    answer."""
    say("builds the program first, in some 20 seconds, without proof"
        f" ({NAME} --proved and scripts/prove prove it and keep it)")
    status, said = run(["rt", "try", "--", *words], script, replies, cwd=program.crate, stderr=subprocess.PIPE)
    verdict = said.rstrip("\n").rpartition("\n")[2]
    ended = ENDED.fullmatch(verdict)
    if ended and status == int(ended[1]):
        return status
    if not verdict.startswith("run=no-answer"):
        print(said, end="", file=sys.stderr, flush=True)
        raise Stopped(NOT_BUILT, f"the program did not run (rt try ended with {status}): the lines above say why")
    why = re.findall(r"^checked: no-answer: (.*)", said, re.M)
    say(f"that run gave no answer{': ' + why[-1] if why else ''}; so the program is proved first")
    replies.seek(0)
    replies.truncate()
    return None


def prove(program, words):
    """Returns where the proved program is kept, after its proof where it isn't."""
    if os.path.exists(program.place()):
        return program.place()
    with proved.alone():
        place = program.place()
        if os.path.exists(place):
            return place
        log, begun, last = f"{proved.OUT}/{program.name}.log", time.monotonic(), ""
        say("proves the program and the crates below it, a quarter of an hour or more the first time;"
            f" {os.path.relpath(log)} has all output")
        # (Run on an empty script: what it prints then is no reply.)
        how = {"cwd": program.crate, "stdin": subprocess.DEVNULL, "stdout": subprocess.DEVNULL}
        how |= {"stderr": subprocess.PIPE, "text": True, "errors": "replace"}
        with open(log, "w", encoding="utf-8") as file, subprocess.Popen(["rt", "run", "--", *words], **how) as ran:
            try:
                for line in ran.stderr:
                    file.write(line)
                    file.flush()
                    found = re.match(r"crate (\w+): ", line)
                    last = found[1] if found else last
                    if line.startswith("logic=proved"):
                        say(f"{last} is proved, after {time.monotonic() - begun:.0f} s")
            except BaseException:
                ran.terminate()
                raise
        if ran.returncode:
            with open(log, encoding="utf-8") as file:
                print(*file.read().splitlines()[-20:], sep="\n", file=sys.stderr)
            raise Stopped(NOT_BUILT, f"the program is not proved: {log} says why")
        if program.place() != place:
            raise Stopped(NOT_BUILT, "the sources changed during the proof, so nothing is kept: run it again")
        program.keep(place)
        return place


def run_program(program, words, proving, script, replies, wants_proof):
    """Runs the program on the script as the first of these can: the kept one, one without proof, one that is proved
    now, in a run with the words `proving`."""
    place = program.place()
    if not os.path.exists(place) and not wants_proof:
        size = os.fstat(script.fileno()).st_size
        if size <= LARGEST[program]:
            status = run_unproved(program, words, script, replies)
            if status is not None:
                return status
        else:
            say(f"a script of {size} bytes is too long for a run without proof, so the program is proved first")
    status, _ = run([place if os.path.exists(place) else prove(program, proving), *words], script, replies)
    if status not in range(4):
        raise Stopped(NOT_BUILT, f"the program ended with {status}")
    return status


def main(program, words, options, reports, asked):
    names, numbers, wants_proof = [], {}, False
    asked = iter(asked)
    for word in asked:
        number = next(asked, "") if word in options else None
        if number is not None and re.fullmatch("[0-9]{1,18}", number):
            numbers[word] = number
        elif word == "--proved":
            wants_proof = True
        else:
            names.append(word)
    if len(names) > 1 or not (names or wants_proof) or any(name.startswith("-") and name != "-" for name in names):
        takes = "".join(f" [{option} N]" for option in options)
        raise Stopped(USAGE, f"usage: {NAME}{takes} FILE | {NAME} --proved{takes} [FILE]  (- is standard input)")
    proving = [*words, *(word for pair in numbers.items() for word in pair)]
    if not names:
        print(prove(program, proving))
        return 0
    if reports and names[0].endswith(".json"):
        if numbers:
            raise Stopped(USAGE, f"{names[0]} is a report by its name, and has no lines after which it could be drawn:"
                          f" {NAME} takes {' or '.join(numbers)} with a script alone")
        words = reports
    else:
        words = proving
    with copy_of(names[0]) as script, tempfile.TemporaryFile() as replies:
        script.flush()
        status = run_program(program, words, proving, script, replies, wants_proof)
        replies.seek(0)
        try:
            with open(1, "wb", closefd=False) as out:
                shutil.copyfileobj(replies, out)
        except OSError as error:
            say(f"the replies cannot be written: {error.strerror}")
            return 1
    return status


def start(program, words=(), options=(), reports=()):
    """Runs the program, with these words, on the script that this run is asked for; `options` are those that it takes,
    each with a number. `reports` are the words with which it is run on a file whose name ends in .json, where it reads
    reports too."""
    ending.start(lambda: main(program, list(words), options, list(reports), sys.argv[1:]))
