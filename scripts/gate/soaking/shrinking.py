"""Cuts a script that fails down to one that is small and fails in the same way."""
import time

LONGEST = 120


def without(lines, length):
    """The script with a part of that many lines left out, for each such part."""
    return [lines[:at] + lines[at + length:] for at in range(0, len(lines), length)]


def shrunk(script, broken, failing):
    """Leaves lines out as long as `failing` finds a text that still fails: half of them at a time, then a quarter, and
    in the end one by one."""
    lines, length, until = script.split(b"\n"), max(1, script.count(b"\n") // 2), time.monotonic() + LONGEST
    while len(lines) > 1 and time.monotonic() < until:
        found = failing([b"\n".join(left) for left in without(lines, length)])
        if found:
            lines, broken = found[0].split(b"\n"), found[1]
            length = max(1, min(length, len(lines) // 2))
        elif length == 1:
            break
        else:
            length = length // 2
    return b"\n".join(lines), broken
