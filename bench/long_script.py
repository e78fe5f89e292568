#!/usr/bin/env python3
"""Prints a script of many commands: [LIVE=N] [MIX=1] bench/long_script.py COMMANDS

The first LIVE commands (100 where LIVE is not set) take a block each, each an object of its own. From then on a block
is returned and its name takes another one, in an order that a fixed generator picks. The device is large enough for all
of them, so that none is refused.

With MIX=1 the host sees the memory, the blocks are in turn objects of their own, buddies and tails of a free list, and
after each new block some of its bytes are written and read.
"""
import os
import sys

LARGEST = 64 + 4095

# What a request is, by its name and its size. Usage 2 is HOST_ACCESS, 18 that with TRANSIENT.
OWN = ["required {} {} 0 0 1"]
MIXED = ["required {} {} 0 2 1", "alloc {} {} 0 2 1", "alloc {} {} 0 18 1"]


def requests(kinds, live):
    """The commands, without an end: blocks are taken, then returned and taken again."""
    state = 12345
    number = 0
    while True:
        state = (state * 1103515245 + 12345) % 2**31
        name = number + 1
        if number >= live:
            name = state * live // 2**31 + 1
            yield f"free {name}"
            state = (state * 1103515245 + 12345) % 2**31
        yield kinds[number % len(kinds)].format(name, 64 + state % 4096)
        if number >= live and kinds is MIXED:
            yield f"write {name} 32 {state:08x}"
            yield f"read {name} 32 4"
        number += 1


def main() -> None:
    commands = int(sys.argv[1])
    live = int(os.environ.get("LIVE", "100"))
    kinds = MIXED if os.environ.get("MIX") else OWN
    lines = [
        f"heap {live * LARGEST + 1073741824}",
        f"type 0 {2 if kinds is MIXED else 1}",
        # A free list keeps a chunk without a live block.
        f"limits {live + 1} {LARGEST}",
        "config potato",
    ]
    for _, command in zip(range(commands), requests(kinds, live)):
        lines.append(command)
    print("\n".join(lines))


main()
