"""Draws scripts of the whole language. What is drawn depends on the generator alone.

Objects that the host sees have real bytes, so where a script has such memory its numbers are either small or larger
than any host.
"""
from language import CAUSES, CONFIGS, KINDS, LONG, WORD

SMALL = [0, 1, 31, 100] + [2**power + by for power in (1, 5, 6, 8, 10, 12, 13, 15, 16) for by in (-1, 0, 1)]
BETWEEN = [2**20, 2**30, 2**31 + 1, WORD, 2**32, 2**40 - 1]
LARGE = [2**62, 2**63 - 1, 2**63, 2**63 + 1, LONG - 1, LONG]
# How often each command is drawn, by what a script is about.
MIXED = {
    "alloc": 22, "required": 4, "preferred": 5, "import": 4, "free": 23, "map": 4, "unmap": 3, "write": 7, "read": 7,
    "put": 3, "get": 3, "remaining": 2, "cleanup": 2, "ranges": 9, "counts": 8,
}
ABOUT = {
    "mixed": MIXED,
    "space": {**MIXED, "alloc": 60, "free": 55, "ranges": 30},
    "bytes": {**MIXED, "map": 14, "unmap": 9, "write": 22, "read": 22, "put": 14, "get": 14},
    "extremes": MIXED,
    "full heaps": {**MIXED, "alloc": 30, "required": 20, "import": 6, "free": 40},
}
OF_BYTES = ("map", "unmap", "write", "read", "put", "get")
NO_NUMBERS = ["-1", "+1", "x", "0x10", "1.0", "1_0", str(2**32), str(2**64), "9" * 30, "\x00", "\xb2"]
NO_BYTES = ["0", "abc", "zz", "--", "0g", "-0", "0x00"]
LATE = ["config potato", "heap 1", "type 0 1", "limits 1 1", "atom 1", "address", "refuse map 1 host", "heap"]
STRANGE = [
    "sing 1", "Alloc 1 1 0 0 1", "allo", "counts\r", "\x00", "\xff\xfe", "refuse sing 1 host", "refuse map 0 host",
    "refuse map 1 sad", "refuse flush 1 failed", "refuse map 1", "config sweet", "config 1 2 3", "config 1 2 3 4 5 6 x",
    "type 0 64", "heap -", "atom", "address 1", "limits 4294967296 1", "counts # now",
]
STRANGE += [f"{word} 1 0 {data}" for word in ("write", "put") for data in NO_BYTES]
UNUSABLE = ["atom 3", "atom 0", f"atom {2**63}", "type 99 1", "\n".join(["heap 1"] + ["type 0 1"] * 33)]
NOISE = ["", "# a remark", " \t ", "#", "\t#counts"]


class Drawer:
    """Draws one script."""

    def __init__(self, random):
        self.random = random
        self.about = random.choice(list(ABOUT))
        self.is_seen = self.about == "bytes" or random.random() < 0.5
        self.live, self.names = {}, random.choice([3, 8, 20, 40])
        self.usual = random.choice([70, 300, 300, 3000, 40000])

    def chance(self, part):
        return self.random.random() < part

    def number(self, near=()):
        """A size, an offset or a setting; sometimes an extreme one, sometimes one beside those that decide."""
        if self.about == "extremes" and self.chance(0.25):
            return self.random.choice(LARGE + BETWEEN * (not self.is_seen))
        if near and self.chance(0.3):
            return min(LONG, max(0, self.random.choice(near) + self.random.choice([-1, 0, 1])))
        if self.chance(0.15):
            return self.random.choice(SMALL)
        return self.random.randrange(1, self.random.choice([5, 70, self.usual, self.usual]))

    def setup(self):
        random, lines = self.random, []
        # (most thresholds are large, since what is not below them has an object of its own)
        own = [random.choice([self.number(), 2**15, 2**17]) if at < 3 else self.number() for at in range(7)]
        self.config = random.choice(list(CONFIGS.values())) if self.chance(0.5) else tuple(own)
        named = [name for name, config in CONFIGS.items() if config == self.config]
        lines.append(f"config {named[0] if named else ' '.join(map(str, self.config))}")
        heaps = [self.heap() for _ in range(random.choice([1, 1, 2, 3]))]
        sizes = (*self.config[:5], *(heap // 32 for heap in heaps))
        self.near = [size for size in sizes if not self.is_seen or size <= 2**20 or size >= 2**50]
        self.atom = random.choice([1, 4, 64, 256, 4096] + [2**62] * (self.about == "extremes"))
        lines += [f"heap {heap}" for heap in heaps]
        self.types = random.choice([1, 1, 2, 3, 5, 32])
        # (the first serves most requests)
        owners = [random.randrange(len(heaps)) for _ in range(self.types)]
        self.room = heaps[owners[0]]
        for at, heap in enumerate(owners):
            lines.append(f"type {heap} {self.props() if at else random.choice([2, 6, 7]) if self.is_seen else 1}")
        lines += [f"atom {self.atom}"] * (self.atom > 1 or self.chance(0.1))
        count = random.choice([4096] * 4 + [0, 1, 2, 5, 9, WORD])
        limits = [f"limits {count} {random.choice([LONG] * 8 + [0, 100, 2**12, 2**20])}"]
        limits *= self.chance(0.8 if self.about == "extremes" else 0.2)
        # (what is larger is refused, so that its name has no block)
        self.most = min([max(heaps)] + [int(line.split()[2]) for line in limits])
        self.has_address = self.chance(0.2)
        lines += limits + ["address"] * self.has_address
        lines += [self.refusal() for _ in range(random.choice([0, 0, 1, 4, 12]))]
        if self.chance(0.3):
            # (types stand behind the heaps that they name only for the reader)
            random.shuffle(lines)
        return lines

    def heap(self):
        if self.about == "extremes" and self.chance(0.5):
            return self.random.choice(LARGE[1:] + [0, 1, 31] + BETWEEN * (not self.is_seen))
        if self.about == "full heaps":
            return self.random.choice([self.usual, 5 * self.usual, 12 * self.usual + 100, 2**14])
        small = self.random.choice([0, 31, 3200, 1024])
        return self.random.choice([2**20, 2**20, 2**21, 2**21 + 1, 2**18 - 1, 2**16, small])

    def left(self):
        """How many bytes the heap of the first type has left, if each block has an object of its own there."""
        return max(0, self.room - sum(size for size, _ in self.live.values()))

    def props(self):
        local = self.random.choice([0, 1])
        if not self.is_seen:
            return self.random.choice([local, local, local, local | 8, local | 16])
        return self.random.choice([2, 2, 6, 6, 14, 10, 0, self.random.randrange(64)]) | local

    def refusal(self):
        kind = self.random.choice(KINDS)
        nth, causes = self.random.choice([1, 1, 2, 3, 5, 9, 20]), CAUSES if kind == "map" else CAUSES[:2]
        return f"refuse {kind} {nth} {self.random.choice(causes)}"

    def name(self, lives):
        """A name that probably has a block, or that probably has none."""
        if lives and self.live and self.chance(0.97):
            return self.random.choice(list(self.live))
        free = [name for name in range(self.names) if name not in self.live]
        if free and self.chance(0.9):
            return self.random.choice(free)
        return self.random.choice([0, WORD, self.random.randrange(self.names)])

    def mask(self):
        if self.about == "extremes" and self.chance(0.2):
            return self.random.choice([2**62 - 1, 2**63 - 1, LONG, 6])
        if self.chance(0.6):
            return 0
        return 2**self.random.randrange(17) - 1 if self.chance(0.95) else self.random.choice([2, 6, LONG])

    def data(self):
        if self.chance(0.04):
            return "-"
        text = self.random.randbytes(self.random.choice([1, 1, 2, 5, 40])).hex()
        return text.upper() if self.chance(0.1) else text

    def place(self, size, length):
        """An offset of that many bytes in a block of this size; sometimes past its end."""
        inside, past = self.random.randrange(min(size, 2**63) + 1), size + 1 if self.chance(0.2) else 0
        return self.random.choice([0, max(0, size - length), inside, size // 2, past])

    def request(self, word):
        name, usage = self.name(False), self.random.choice([0, 1, 2, 2, 4, 10] if self.is_seen else [0, 0, 1])
        usage = usage | 16 * self.chance(0.35) if self.chance(0.93) else self.random.randrange(256)
        is_full = self.about == "full heaps"
        size = max(self.number(self.near + [self.left()] * 5 * is_full), 0 if self.chance(0.02) else 1)
        mask, types = self.mask(), 2**self.types - 1
        if not self.chance(0.85):
            types = self.random.choice([0, 1, 2, WORD, self.random.getrandbits(32)])
        is_served = types & 1 and not mask & mask + 1 and (self.has_address or not usage & 32)
        if is_served and 0 < size <= (self.left() if is_full else self.most):
            self.live.setdefault(name, [size, 0])
        return f"{word} {name} {size} {mask} {usage} {types}"

    def imported(self):
        name, size = self.name(False), max(self.number([self.room] * (self.about == "full heaps")), 1)
        offset = self.random.choice([0, 0, self.atom, min(size - 1, 7)])
        length = self.random.choice([size - offset, (size - offset) // self.atom * self.atom, self.atom, 1, size])
        self.live.setdefault(name, [max(1, length), 0])
        return f"import {name} {self.memory_type()} {size} {min(offset, LONG)} {max(0, min(length, LONG))}"

    def memory_type(self):
        return self.random.randrange(self.types) if self.chance(0.97) else self.random.choice([self.types, WORD])

    def of_block(self, word):
        """A command on a block."""
        is_mapped = word in ("put", "get", "unmap")
        mapped = [name for name in self.live if self.live[name][1]] if is_mapped else []
        name = self.random.choice(mapped) if mapped and self.chance(0.9) else self.name(True)
        known = self.live.get(name, [10, 0])
        size, data = known[is_mapped], self.data()
        if word == "free":
            self.live.pop(name, None)
        elif word == "map":
            known[1] = self.random.choice([size, max(1, size // 2), 1, 0 if self.chance(0.1) else 1])
            return f"map {name} {min(LONG, self.place(size, known[1]))} {known[1]}"
        elif word == "unmap":
            known[1] = 0
        elif word in ("write", "put"):
            return f"{word} {name} {min(LONG, self.place(size, len(data) // 2))} {data}"
        elif word in ("read", "get"):
            usual, rare = [1, 2, 8, min(size, 300)], [0, min(size, 9000), LONG, 2**63]
            length = self.random.choice(usual if self.chance(0.96) else rare)
            length = size if size >= 2**50 and self.chance(0.5) else length
            return f"{word} {name} {min(LONG, self.place(size, length))} {length}"
        return f"{word} {name}"

    def command(self, word):
        if word in ("alloc", "required", "preferred"):
            return self.request(word)
        if word == "import":
            return self.imported()
        # (where nothing is live, few commands are on a block)
        is_idle = not self.live and word not in ("remaining", "cleanup", "ranges", "counts") and self.chance(0.95)
        return self.request("alloc") if is_idle else self.other(word)

    def other(self, word):
        if word == "remaining":
            near = WORD - self.random.randrange(self.names)
            return f"remaining {self.random.choice([0, 1, 2, 10, 10, 4096, 4096, near, WORD])}"
        if word == "ranges":
            return f"ranges {self.memory_type()}"
        return word if word in ("cleanup", "counts") else self.of_block(word)

    def commands(self):
        words = list(ABOUT[self.about])
        # (memory that the host doesn't see has few calls on bytes)
        has_bytes, counts = self.is_seen or self.about == "extremes", ABOUT[self.about].items()
        often = [count if has_bytes or word not in OF_BYTES else 1 for word, count in counts]
        drawn = []
        for word in self.random.choices(words, often, k=self.random.choice([5, 40, 120, 300])):
            drawn.append(self.command(word))
            if self.chance(0.05):
                # (a question behind a command that may have been refused shows whether that changed anything)
                drawn += ["counts", f"ranges {self.memory_type()}"]
        return drawn + ["counts"]

    def broken(self, setup, commands):
        """Spoils a line, or puts a wrong one among them."""
        lines = setup + commands
        at = self.random.randrange(len(setup if self.chance(0.5) else lines))
        fields = lines[at].split()
        spot = self.random.randrange(len(fields))
        field = self.random.choice(NO_BYTES if fields[0] in ("write", "put") and spot == 3 else NO_NUMBERS)
        worse = [fields[:-1], fields + ["1"], fields[:spot] + [field] + fields[spot + 1:]]
        other = [self.random.choice(STRANGE), self.random.choice(LATE), self.random.choice(UNUSABLE)]
        if self.chance(0.5):
            return lines[:at] + [" ".join(self.random.choice(worse))] + lines[at + 1:]
        return lines[:at] + [self.random.choice(other)] + lines[at:]

    def dressed(self, line):
        """The same line, written otherwise."""
        if self.chance(0.9):
            return line
        fields = [f"00{field}" if field.isdigit() and self.chance(0.3) else field for field in line.split(" ")]
        blank = self.random.choice([" ", "  ", "\t", " \t "])
        before, after = self.random.choice(["", blank]), self.random.choice(["", blank, "\r", blank + "\r"])
        return before + blank.join(fields) + after

    def noise(self):
        """Now and then a line that says nothing."""
        return [self.random.choice(NOISE)] if self.chance(0.05) else []

    def script(self):
        setup = self.setup()
        commands = self.commands()
        lines = self.broken(setup, commands) if self.chance(0.08) else setup + commands
        if self.chance(0.3):
            lines = [one for line in lines for one in (*self.noise(), self.dressed(line))]
        return "\n".join(lines).encode("latin-1") + b"\n" * self.chance(0.9)


def draw(random):
    return Drawer(random).script()
