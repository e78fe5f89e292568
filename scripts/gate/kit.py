"""A copy of the kit by links, some of whose tools do something before what they do."""
import os
import shutil

from proved import answered

# A tool of the copy: what it does before, and then the kit's own, under the name by which it was called.
TOOL = '#!/bin/bash\n{before}\nexec -a "$0" "{tool}" "$@"\n'
# These two ask where they lie, and so are copies.
COPIED = ("rt", "rtlib.py")


def folder_of_kit():
    return os.path.dirname(answered("doc").decode().strip())


def link(folder, tools, others=()):
    """Makes a copy of the kit in an empty folder, with these tools of its toolchain: what each of them does before. Of
    bin/ it leaves `others` out. Returns the folder of the kit's own tools."""
    kit = folder_of_kit()
    left_out = {"": {"bin", "toolchain"}, "bin": {*COPIED, *others}, "toolchain": {"bin"}, "toolchain/bin": {*tools}}
    for part, names in left_out.items():
        os.makedirs(f"{folder}/{part}", exist_ok=True)
        for name in set(os.listdir(f"{kit}/{part}")) - names:
            os.symlink(f"{kit}/{part}/{name}", f"{folder}/{part}/{name}")
    for name in COPIED:
        shutil.copy(f"{kit}/bin/{name}", f"{folder}/bin/{name}")
    for name, before in tools.items():
        with open(f"{folder}/toolchain/bin/{name}", "w", encoding="utf-8") as file:
            file.write(TOOL.format(before=before, tool=f"{kit}/toolchain/bin/{name}"))
        os.chmod(f"{folder}/toolchain/bin/{name}", 0o755)
    return f"{kit}/toolchain/bin"
