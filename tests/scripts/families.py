"""Scripts that are too short or too many for files of their own, each with the replies that are wanted.

The functions of `FAMILIES` and `MANY` yield them. Those of `MANY` are a thousand, which only a proved program runs: one
without proof would take minutes.
"""
import itertools

EMPTY = "end objects 0 allocations 0\n"
NOTHING = f"counts remaining 4096 held 0 used\n{EMPTY}"
UNKNOWN = f"fault 2 UnknownName\n{EMPTY}"
FIELDS, NUMBER, WORD = "line 1: wrong number of fields\n", "line 1: bad number\n", "line 1: unknown word\n"
PAIRS = "line 1: bad bytes\n"

# What is printed, and the scripts that print it: bad lines first, each of which ends its script.
LINES = {
    NUMBER: [
        "heap 18446744073709551616", "heap 20000000000000000000", "heap 1x", "heap -1", "heap \u0661",
        "config 1 2 3 4 5 6 x", "refuse map 0 melon",
        "type 0 64", "type 4294967296 1", "limits 4294967296 1", "alloc 1 1 0 256 1", "alloc 4294967296 1 0 0 1",
        "alloc 1 1 0 0 4294967296", "required 1 1 0 256 1", "preferred 1 18446744073709551616 0 0 1",
        "import 1 4294967296 1 0 1", "free 4294967296", "map 1 0 -1", "unmap -", "read 1 x 1", "get 1 0 0x1",
        "remaining 4294967296", "ranges none", "put 4294967296 x abc", "put 1 x abc",
    ],
    WORD: [
        "config melon", "refuse map 1 melon", "refuse melon 0 melon", "refuse allocate 1 failed",
        "refuse flush 1 failed", "refuse invalidate 1 failed", "Counts", "allocate 1 1 0 0 1", "\0", "\x0bcounts",
        "\ufeffcounts", "counts\r \n", "counts\r\r\n",
    ],
    FIELDS: [
        "config", "config 1 2", "config 1 2 3 4 5 6 7 8", "address 1", "alloc 1 100", "required 1 100",
        "required 1 1 0 0 1 1", "counts 1", "cleanup all",
    ],
    PAIRS: [
        "write 1 0 abc", "write 1 0 0", "write 1 0 0g", "write 1 0 0x00", "write 1 0 00\r \n", "write 1 0 -\r\r\n",
        "put 1 0 --", "put 1 0 -00", "put 1 0 +1", "put 1 0 \u00e9",
    ],
    "line 2: unknown word\n": ["counts\nfrob\nheap", "heap 1\n\u00ff\n"],
    "line 2: wrong number of fields\n": ["write 1 0 00\nput 1 0\nheap 1"],
    "line 2: setup after commands\n": ["counts\nheap"],
    "line 2: bad properties\n": ["atom 3", "atom 3\n"],
    "line 3: unknown word\n": ["\n# x\nfrob 1"],
    "line 3: setup after commands\n": ["heap 10\ncounts\ntype 0 1"],
    "line 3: bad properties\n": ["heap 1\ntype 1 1"],
    # One memory type more than a mask has bits.
    "line 35: bad properties\n": ["heap 1048576\n" + 33 * "type 0 1\n"],
    EMPTY: [
        "", "\n\n\n", "#\n \t\n\r\n  # heap\n", "config 1 2 3 4 5 6 7\nconfig prototyping\nconfig potato",
        "refuse map 1 failed", "#heap", "heap 1\ntype 0 63",
    ],
    NOTHING: ["counts\r\n", "counts \r\n", " \t counts\t "],
    UNKNOWN: ["write 1 0 -", "write 1 0 00\r\n", "write 1 0 - \r", "put 1 0 0aAF"],
    f"fault 5 NoDeviceAddress\n{EMPTY}": ["alloc 1 1 0 255 1"],
    f"counts remaining 4096 held 0 used 0\n{EMPTY}": ["heap\t 0007 \ntype 0 1\ncounts"],
    f"counts remaining 2 held 0 used\n{EMPTY}": ["limits 1 1\nlimits 2 2\natom 3\natom 4\naddress\naddress\ncounts"],
}

# What setup lines mean, and what holds where there are none: the first buddy chunk and the smallest buddy, the atom,
# the largest object.
ONE_TYPE = "heap 1048576\ntype 0 1\n"
SETTINGS = {
    "config prototyping\nheap 1073741824\ntype 0 1\nalloc 1 1 0 0 1\ncounts": """\
block type 0 object 1 offset 0 size 1024
counts remaining 4095 held 1 used 8388608
end objects 0 allocations 1
""",
    f"config 32768 1024 131072 8192 131072 64 8192\n{ONE_TYPE}alloc 1 1 0 0 1": """\
block type 0 object 1 offset 0 size 64
end objects 0 allocations 1
""",
    "heap 1048576\ntype 0 2\nalloc 1 3 0 16 1": """\
block type 0 object 1 offset 8189 size 3
end objects 0 allocations 1
""",
    "heap 4294967296\ntype 0 1\nrequired 1 1073741825 0 0 1\nrequired 1 1073741824 0 0 1": """\
refused: Device memory exhausted
block type 0 object 1 offset 0 size 1073741824
end objects 0 allocations 1
""",
}

# How many fields follow each word.
WORDS = {
    "config": (1, 7), "heap": (1,), "type": (2,), "limits": (2,), "atom": (1,), "address": (0,), "refuse": (3,),
    "alloc": (5,), "required": (5,), "preferred": (5,), "import": (5,), "free": (1,), "map": (3,), "unmap": (1,),
    "write": (3,), "read": (3,), "put": (3,), "get": (3,), "remaining": (1,), "cleanup": (0,), "ranges": (1,),
    "counts": (0,),
}

# What stands before a last byte; what is printed where that is one of these; what is printed for any other.
LAST_BYTES = {
    b"": ({b"\n\r\t #": EMPTY}, WORD),
    b"counts": ({b"\n\r\t ": NOTHING}, WORD),
    b"free ": ({b"\n\r\t ": FIELDS, b"0123456789": UNKNOWN}, NUMBER),
    b"put 1 0 0": ({b"0123456789ABCDEFabcdef": UNKNOWN}, PAIRS),
}

# Memory near to the device, memory that the host sees, and such with a cache. Then usages, masks of memory types, and
# the types that are tried, in their order.
THREE_TYPES, ALL = "type 0 1\ntype 0 6\ntype 0 14\n", 2**32 - 1
TRIED = [
    (0x00, 0b110, [1, 2]), (0x10, 0b101, [2, 0]), (0x06, 0b011, [1]), (0x02, 0b001, []), (0x01, 0, []),
    (0x01, 0xffff_fff8, []), (0x00, ALL, [0, 1, 2]), (0x40, ALL, [0, 1, 2]), (0x04, ALL, [2, 1]),
    (0x08, ALL, [1, 2]), (0x10, ALL, [1, 2, 0]),
]

# Blocks of one buddy chunk, what is held while one of them lives, and what then.
THREE = """\
heap 1048576
type 0 1
alloc 1 100 0 0 1
alloc 2 100 0 0 1
alloc 3 200 0 0 1
"""
THREE_BLOCKS = """\
block type 0 object 1 offset 0 size 128
block type 0 object 1 offset 128 size 128
block type 0 object 1 offset 256 size 256
"""
OK = "ok\n"
HELD, FREED = f"{OK}counts remaining 4095 held 1 used 8192\n", f"{OK}counts remaining 4096 held 0 used 0\n"

# Blocks of two chunks of a free list, and what is asked once they are freed.
FOUR = """\
heap 1048576
type 0 1
alloc 1 3000 0 16 1
alloc 2 5000 0 16 1
alloc 3 1000 0 16 1
alloc 4 7000 0 16 1
"""
FOUR_BLOCKS = """\
block type 0 object 1 offset 5192 size 3000
block type 0 object 1 offset 192 size 5000
block type 0 object 2 offset 15384 size 1000
block type 0 object 2 offset 8384 size 7000
"""
LATER = """\
counts
alloc 5 2000 0 16 1
alloc 6 9000 0 16 1
alloc 7 5384 0 16 1
"""
LATER_REPLIES = """\
counts remaining 4095 held 1 used 16384
block type 0 object 2 offset 14384 size 2000
block type 0 object 2 offset 5384 size 9000
block type 0 object 2 offset 0 size 5384
end objects 0 allocations 2
"""


def lines():
    """Lines that are bad, and blanks and ends of lines in good ones."""
    for replies, scripts in LINES.items():
        yield from ((script, replies) for script in scripts)


def settings():
    """What setup lines and their defaults mean."""
    yield from SETTINGS.items()


def freed_buddies():
    """A chunk goes with its last block, in each order of returns."""
    for order in itertools.permutations((1, 2, 3)):
        yield THREE + "".join(f"free {name}\ncounts\n" for name in order), THREE_BLOCKS + 2 * HELD + FREED + ended(1)


def freed_tails():
    """The order of returns does not show in later answers."""
    for order in itertools.permutations((1, 2, 3, 4)):
        yield FOUR + "".join(f"free {name}\n" for name in order) + LATER, FOUR_BLOCKS + 4 * OK + LATER_REPLIES


def ended(allocations):
    """The last line after so many questions for an object."""
    return f"end objects 0 allocations {allocations}\n"


def tried_types():
    """The memory types that are tried for a request."""
    for usage, mask, types in TRIED:
        yield tried(THREE_TYPES, usage, mask, types)
    yield tried(32 * "type 0 1\n", 0x10, 0x8000_0001, [0, 31])


def tried(setup, usage, mask, types):
    """The script for which each of these types serves a byte, since the device refuses it of those before; and then of
    all."""
    asked, refused, commands, replies = 0, "", "", ""
    for count in range(len(types) + 1):
        refused += "".join(f"refuse allocate {asked + nth} device\n" for nth in range(1, count + 1))
        commands += f"required {count} 1 0 {usage} {mask}\n"
        asked += count
        if count < len(types):
            asked += 1
            replies += f"block type {types[count]} object {count + 1} offset 0 size 1\n"
    unfit = "No compatible memory types from requested types support requested usage"
    replies += f"refused: {'Device memory exhausted' if types else unfit}\n"
    return f"heap 64\n{setup}{refused}{commands}", replies + ended(asked)


def counted_fields():
    """Fields are counted before they are read."""
    for word, counts in WORDS.items():
        yield from ((word + count * " x", FIELDS) for count in range(9) if count not in counts)


def last_bytes():
    """Each byte at the end of a line."""
    for start, (known, other) in LAST_BYTES.items():
        for byte in range(256):
            yield start + bytes([byte]), next((replies for some, replies in known.items() if byte in some), other)


def long_numbers():
    """Zeros before a number are no part of it."""
    for first, replies in (("0", EMPTY), ("1", NUMBER)):
        yield f"heap {first}{99_998 * '0'}1", replies


def halves():
    """In a chunk full of blocks each half of a pair waits for the other."""
    takes = "".join(f"alloc {name} 128 0 0 1\n" for name in range(64))
    blocks = "".join(f"block type 0 object 1 offset {128 * name} size 128\n" for name in range(64))
    first, second = ("".join(f"free {name}\n" for name in range(half, 64, 2)) for half in (0, 1))
    ranges = "".join(f" 1:{128 * name}-{128 * name + 128}" for name in range(1, 64, 2))
    yield (f"{ONE_TYPE}{takes}{second}ranges 0\ncounts\n{first}counts\n",
           f"{blocks}{32 * OK}ranges{ranges}\n{HELD[3:]}{32 * OK}{FREED[3:]}{ended(1)}")


FAMILIES = lines, settings, freed_buddies, freed_tails, tried_types, halves
MANY = counted_fields, last_bytes, long_numbers
