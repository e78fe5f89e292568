"""The written scripts, of the files and families in tests/scripts and of examples/scripts: each with the replies that
are wanted, and what is wrong with others."""
import collections
import glob
import itertools
import os
import re
import sys

from language import COMMANDS, lines_of
from promises import broken_by
from proved import ROOT

FOLDER, EXAMPLES = f"{ROOT}/tests/scripts", f"{ROOT}/examples/scripts"
sys.path.append(FOLDER)
import families

SCRIPT, REPLIES = ".script", ".replies"
# The longest script that a family's name shows, and the longest line of a reply.
SHOWN, WIDTH = 60, 200


def read(path):
    with open(path, "rb") as file:
        return file.read()


def paths(ending):
    """The files with this ending, without it."""
    found = [path for folder in (FOLDER, EXAMPLES) for path in glob.glob(f"{folder}/**/*{ending}", recursive=True)]
    return {path.removesuffix(ending) for path in found}


def name_of(stem):
    """What a script is called, as bytes/coherent, or examples/scripts/first."""
    return os.path.relpath(stem, FOLDER if stem.startswith(f"{FOLDER}/") else ROOT)


def written(with_many):
    """The scripts by their names, each with the replies that are wanted; with the families of a thousand, if they are
    wanted too."""
    stems = sorted(paths(SCRIPT) & paths(REPLIES))
    cases = {name_of(stem): (read(stem + SCRIPT), read(stem + REPLIES)) for stem in stems}
    for family in families.FAMILIES + (families.MANY if with_many else ()):
        for number, (script, replies) in enumerate(family(), 1):
            shown = f" {script!a}" if len(script) <= SHOWN else ""
            script = script if isinstance(script, bytes) else script.encode()
            cases[f"{family.__name__} {number}{shown}"] = script, replies.encode()
    return cases


def word_of(name):
    """A word for the name of a script, as a file of `rt try --cases` is called."""
    return re.sub(r"\W+", "_", name, flags=re.ASCII)


def faults(cases, answered):
    """All that is wrong, a text of one or two lines for each script. `answered` has what came, and the status, by its
    word."""
    yield from faults_of_files()
    for name, (script, wanted) in cases.items():
        answer = answered.get(word_of(name))
        found = list(faults_of(script, wanted, *answer)) if answer else ["it has no answer"]
        if found:
            yield "\n    ".join([f"{name}: {found[0]}", *found[1:]])


def faults_of_files():
    """Which files lack the other one, or say nothing at their top."""
    for stem in sorted(paths(SCRIPT) ^ paths(REPLIES)):
        lacks = REPLIES if os.path.exists(stem + SCRIPT) else SCRIPT
        yield f"{name_of(stem)}: it has no file {lacks}"
    for stem in sorted(paths(SCRIPT)):
        if not re.match(rb"# \S", read(stem + SCRIPT)):
            yield f"{name_of(stem)}: its first line is no comment that says why it stands"


def faults_of(script, wanted, came, status):
    """What is wrong with an answer: the first line that differs, and the status, or a promise that is broken. Where a
    line of the script is bad, the status is 2."""
    due = 2 if wanted.startswith(b"line ") else 0
    if came != wanted:
        yield first_difference(script, wanted, came)
    if status != due:
        yield f"its status is {status}, and {due} is wanted"
    elif broken := broken_by(script, came, status, collections.Counter()):
        yield f"what came breaks «{broken.promise}»: {broken.detail[:WIDTH]}"


def first_difference(script, wanted, came):
    """The first line that is another one, and the command that it answers."""
    rows = itertools.zip_longest(*(text.split(b"\n") for text in (wanted, came)))
    number, pair = next((number, pair) for number, pair in enumerate(rows) if pair[0] != pair[1])
    commands = [line for line in lines_of(script) if line.split()[:1] and line.split()[0].decode("latin-1") in COMMANDS]
    to = f" to «{commands[number].decode(errors='replace')}»" if number < len(commands) else ""
    due, got = ("nothing" if row is None else repr(row.decode(errors="replace")[:WIDTH]) for row in pair)
    return f"reply {number + 1}{to}: wanted {due}, came {got}"
