"""The language of scripts: what each line says, and what is said of a line that is wrong."""
import collections
import re

WORD, LONG = 2**32 - 1, 2**64 - 1
CONFIGS = {
    "potato": (32768, 1024, 131072, 8192, 131072, 1, 8192),
    "prototyping": (33554432, 1048576, 134217728, 8388608, 134217728, 1024, 8388608),
}
KINDS, CAUSES = ("allocate", "map", "flush", "invalidate"), ("device", "host", "failed")
# The greatest number in each field of a setup line or a command; BYTES is a field of bytes.
BYTES = -1
SETUP = {
    "config": None, "heap": (LONG,), "type": (WORD, 63), "limits": (WORD, LONG), "atom": (LONG,), "address": (),
    "refuse": None,
}
REQUEST = (WORD, LONG, LONG, 255, WORD)
COMMANDS = {
    "alloc": REQUEST, "required": REQUEST, "preferred": REQUEST, "import": (WORD, WORD, LONG, LONG, LONG),
    "free": (WORD,), "map": (WORD, LONG, LONG), "unmap": (WORD,), "write": (WORD, LONG, BYTES),
    "read": (WORD, LONG, LONG), "put": (WORD, LONG, BYTES), "get": (WORD, LONG, LONG), "remaining": (WORD,),
    "cleanup": (), "ranges": (WORD,), "counts": (),
}
Parsed = collections.namedtuple("Parsed", "setup commands wrong")


class Wrong(Exception):
    """What is wrong with a line."""


class Setup:
    """What the setup lines say."""

    def __init__(self):
        self.config, self.heaps, self.types, self.refusals = CONFIGS["potato"], [], [], {}
        self.count, self.limit, self.atom, self.address = 4096, 1073741824, 1, False

    def is_usable(self):
        atom = 0 < self.atom <= 2**62 and self.atom & self.atom - 1 == 0
        return atom and len(self.types) <= 32 and all(heap < len(self.heaps) for heap, _ in self.types)

    def take(self, word, fields):
        values = numbers(fields, SETUP[word]) if SETUP[word] is not None else []
        if word == "config":
            self.config = config(fields)
        elif word == "refuse":
            self.refusals.setdefault(*refusal(fields))
        elif word == "heap":
            self.heaps += values
        elif word == "type":
            self.types.append(values)
        elif word == "limits":
            self.count, self.limit = values
        elif word == "atom":
            self.atom, = values
        else:
            self.address = True


def number(field, greatest, least=0):
    # (Python refuses very long numbers, so the leading zeros go first.)
    digits = field.lstrip("0") or "0"
    if not re.fullmatch("[0-9]+", field, re.A) or len(digits) > 20 or not least <= int(digits) <= greatest:
        raise Wrong("bad number")
    return int(digits)


def field_of(field, greatest):
    if greatest != BYTES:
        return number(field, greatest)
    if not re.fullmatch("-|([0-9a-fA-F]{2})+", field):
        raise Wrong("bad bytes")
    return b"" if field == "-" else bytes.fromhex(field)


def numbers(fields, row):
    if len(fields) != len(row):
        raise Wrong("wrong number of fields")
    return [field_of(*pair) for pair in zip(fields, row)]


def config(fields):
    if len(fields) != 1:
        return tuple(numbers(fields, (LONG,) * 7))
    if fields[0] not in CONFIGS:
        raise Wrong("unknown word")
    return CONFIGS[fields[0]]


def refusal(fields):
    if len(fields) != 3:
        raise Wrong("wrong number of fields")
    kind, nth, cause = fields
    if kind not in KINDS:
        raise Wrong("unknown word")
    nth = number(nth, LONG, 1)
    if cause not in CAUSES[:2] + CAUSES[2:] * (kind == "map"):
        raise Wrong("unknown word")
    return (kind, nth), cause


def lines_of(script):
    lines = script.split(b"\n")
    return lines if lines[-1] else lines[:-1]


def parse(script):
    """What a script says: its setup and its commands, or what is said of its first wrong line."""
    setup, commands, lines = Setup(), [], lines_of(script)
    for index, line in enumerate(lines):
        line = line.removesuffix(b"\r").strip(b" \t").decode("latin-1")
        word, *fields = re.split("[ \t]+", line)
        if line[:1] in ("", "#"):
            continue
        try:
            if word in COMMANDS:
                commands.append((word, numbers(fields, COMMANDS[word])))
            elif word not in SETUP:
                raise Wrong("unknown word")
            elif commands:
                raise Wrong("setup after commands")
            else:
                setup.take(word, fields)
        except Wrong as wrong:
            return Parsed(None, None, f"line {index + 1}: {wrong}")
    return Parsed(setup, commands, None if setup.is_usable() else f"line {len(lines) + 1}: bad properties")
