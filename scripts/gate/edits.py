"""What an edit of crates/*/must-fail says: the wrong bodies that it holds, each under a line 'FUNCTION: what it does',
and the texts that they stand in.

An edit in crates/*/must-fail-second holds wrong bodies of private functions, or second ones of functions that a crate's
first edit turns: rt ci tries that one alone, and scripts/gate/refuse_each all. Where a store is refused, no goal of an
allocator over it is tried, so bodies of both stand in different edits.

A check proves also each function that an edit does not turn. So texts under a line 'leaves out: WHAT' take away what
nothing else needs, as laws. The crate is proved without it, so the wrong bodies alone are refused.
"""
import os
import re

FIRST, SECOND = "must-fail", "must-fail-second"
LEAVES_OUT = "leaves out: "
# What an edit leaves out by its name.
LEFT_OUT = re.compile(r"^new:\s*#\[cfg\(test\)\] (?:pub )?(?:mod|fn) (\w+)", re.M)


def read(path):
    with open(path, encoding="utf-8") as file:
        return file.read()


def edits_of(root, folder=FIRST):
    """Each edit of the repository in a crate's folder, as its crate and its name there."""
    for crate in sorted(os.listdir(f"{root}/crates")):
        place = f"{root}/crates/{crate}/{folder}"
        names = sorted(os.listdir(place)) if os.path.isdir(place) else []
        yield from ((crate, name) for name in names if name.endswith(".edit"))


def unfit_edits(root, folder):
    """Says of each of those edits that cannot be applied why it can't."""
    for crate, edit in edits_of(root, folder):
        try:
            apply_edit(f"{root}/crates/{crate}/{folder}/{edit}", f"{root}/crates/{crate}")
        except (AssertionError, KeyError, OSError, UnicodeDecodeError) as reason:
            yield f"{crate}/{folder}/{edit} cannot be applied: {reason}"


def apply_edit(edit, crate):
    """Returns the functions that the edit names, and the texts of the crate's files as it leaves them, by their paths
    in the crate's folder."""
    functions, texts, path, old = [], {}, "", ""
    for line in read(edit).splitlines():
        if line.startswith("file: "):
            path = line[len("file: "):].strip()
            texts.setdefault(path, read(f"{crate}/{path}"))
        elif line.startswith("old: "):
            old = line[len("old: "):]
        elif line.startswith("new:"):
            assert texts[path].count(old) == 1, f"{edit}: '{old}' stands {texts[path].count(old)} times in {path}"
            texts[path] = texts[path].replace(old, line[len("new: "):])
        elif line.strip() and not line.startswith(LEAVES_OUT):
            functions.append(line.partition(": ")[0])
    for name in LEFT_OUT.findall(read(edit)):
        turned = [function for function in functions if name in function.split("::")]
        assert not turned, f"{edit}: {turned} cannot be refused, since {name} is left out"
    return functions, texts
