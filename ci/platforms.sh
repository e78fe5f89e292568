#!/usr/bin/env bash
# Tries a released archive on the machine that it is for: Windows, macOS, or Linux on x86-64 or ARM64. It needs no `rt`.
#
#     ci/platforms.sh ARCHIVE [VULKAN]
#
# ARCHIVE was made of the commit that is checked out. VULKAN is a folder with vulkan/ and vk_video/ alone; without it what
# needs Vulkan's headers is left out. It needs Python 3 and a C and a C++ compiler: on Windows gcc and g++ of mingw, and
# cl where it is on the path; elsewhere cc and c++. All goes into out/platforms. NOT YET RUN on Windows or macOS.
#
# It compares the archive's files with their sums, builds and runs the first use, and runs c/tests/portable over the
# library. What drawn calls print has to have the sum that PROVENANCE has from x86-64 Linux.
set -euo pipefail
if [ ! -f "${1:-}" ]; then
    awk 'NR > 1 && !/^#/ { exit } NR > 1 { sub(/^# ?/, ""); print }' "$0" >&2
    echo "There is no archive '${1:-}'." >&2
    exit 2
fi
archive=$(realpath "$1")
vulkan=${2:+$(realpath "$2")}
cd "$(dirname "${BASH_SOURCE[0]}")/.."
out=$(cygpath -m "$PWD" 2> /dev/null || pwd)/out/platforms
python=$(command -v python3 || command -v python)
rm -rf "$out"
mkdir -p "$out"

"$python" - "$archive" "$out" <<'PYTHON'
import hashlib, pathlib, shutil, subprocess, sys
archive, out = sys.argv[1:]
shutil.unpack_archive(archive, out)
[stage] = [each for each in pathlib.Path(out).iterdir() if each.is_dir()]
listed = [line.split("  ", 1) for line in (stage / "SHA256SUMS").read_text("utf-8").splitlines()]
wrong = [name for wanted, name in listed if hashlib.sha256((stage / name).read_bytes()).hexdigest() != wanted]
commit = subprocess.run(["git", "rev-parse", "HEAD"], stdout=subprocess.PIPE, text=True, check=True).stdout.strip()
if wrong or f"\ncommit: {commit}\n" not in (stage / "PROVENANCE").read_text("utf-8"):
    sys.exit(f"FAILED: not as SHA256SUMS has it: {wrong}" if wrong else f"FAILED: the archive is not of commit {commit}")
print(f"{len(listed)} files are as SHA256SUMS has them")
stage.rename(stage.parent / "archive")
PYTHON
at=$out/archive

# The first use, which has to greet.
greets() { # HOW PROGRAM
    local said
    said=$("$2" | tr -d '\r')
    [ "$said" = 'hello block' ] || { echo "FAILED: the first use, $1, prints '$said'"; exit 1; }
    echo "the first use runs, $1"
}

# The program that draws reports, as it comes.
draws() { # PROGRAM
    "$1" c/tests/picture/triangle.json | cmp - c/tests/picture/triangle.svg ||
        { echo "FAILED: $1 draws a report otherwise"; exit 1; }
    echo "$(basename "$1") draws a report"
}

# Each kind of library: its words for the tests.
tests() { # NAME LIBRARY WORDS ..
    local name=$1 library=$2 wanted
    shift 2
    "$python" c/tests/portable "$library" "$out/$name" ${vulkan:+VULKAN="$vulkan"} "$@" | tee "$out/$name.log"
    wanted=$(sed -n 's/^what drawn calls print everywhere: //p' "$at/PROVENANCE" | tr -d '\r')
    grep -qxF "$wanted" <(tr -d '\r' < "$out/$name.log") || { echo "FAILED: $name: drawn calls print something else"; exit 1; }
    echo "$name: drawn calls print what they print on x86-64 Linux"
}

case $(uname -s) in
    MINGW* | MSYS* | CYGWIN*)
        cp "$at"/bin/*.dll "$out"
        draws "$at/bin/wallthyme-picture.exe"
        if command -v cl > /dev/null; then
            (cd "$out" && cl -nologo -std:c11 -I"$at/include" "$at/examples/first_use.c" "$at/lib/wallthyme.lib" \
                -Fe:cl.exe &&
                cl -nologo -std:c11 -DWT_DLL -I"$at/include" "$at/examples/first_use.c" "$at/lib/wallthyme.dll.lib" \
                    -Fe:cl_dll.exe)
            greets "built by cl" "$out/cl.exe"
            greets "built by cl with the DLL" "$out/cl_dll.exe"
            [ -z "$vulkan" ] || (cd "$out" && cl -nologo -std:c11 -W3 -c -I"$at/include" -I"$vulkan" \
                "$at/src/wallthyme_vulkan.c")
            (cd "$out" && cl -nologo -std:c11 -W3 "$at/src/wallthyme_picture.c" -Fe:cl_picture.exe)
            draws "$out/cl_picture.exe"
        else
            echo 'left out: what is built by cl, since it is not on the path'
        fi
        left='WITHOUT=stack:Windows has no such stacks;memory,size:Windows does not say how much a process holds'
        # (the side's libraries need no headers, but its tests do)
        side=${vulkan:+$at/lib/libwallthyme-vulkan.a}
        tests static "$at/lib/libwallthyme.a" CC=gcc CXX=g++ LINK=-static "SIDE=$side" "$left"
        tests dll "$at/lib/wallthyme.dll.lib" CC=gcc CXX=g++ "SIDE=${vulkan:+$at/lib/wallthyme-vulkan.dll.lib}" \
            "DLLS=$at/bin/wallthyme.dll $at/bin/wallthyme-vulkan.dll" "$left"
        ;;
    Darwin)
        cc -I"$at/include" "$at/examples/first_use.c" "$at/lib/libwallthyme.a" -o "$out/first_use"
        greets "built by cc" "$out/first_use"
        cc -O2 "$at/src/wallthyme_picture.c" -o "$out/wallthyme-picture"
        draws "$out/wallthyme-picture"
        tests static "$at/lib/libwallthyme.a" \
            'WITHOUT=scarce,misuse_vulkan:this linker replaces no calls;stack,memory,size:macOS does not say it so'
        ;;
    *)
        cc -I"$at/include" "$at/examples/first_use.c" "$at/lib/libwallthyme.a" -o "$out/first_use"
        greets "built by cc" "$out/first_use"
        draws "$at/bin/wallthyme-picture"
        tests static "$at/lib/libwallthyme.a"
        ;;
esac
