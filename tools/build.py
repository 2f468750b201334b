#!/usr/bin/env python3
"""Builds programs of the repository into bin/.

The toolchain builds a program only once it is proved, with all that it stands on. This runs `rt ci` over a copy of what the
programs named need, without tests of other crates and without wrong bodies: it proves crates that do not stand on each
other side by side, and what it has proved counts for the gate where the toolchain keeps it. From time to time it says how far it is. Where the
programs of bin/ are newer than all that they are made of, it does nothing.

    build.py NAME..
"""

import os
import re
import shutil
import subprocess
import sys
import tempfile
import time

REPOSITORY = os.path.dirname(os.path.dirname(os.path.abspath(__file__)))
BIN = os.path.join(REPOSITORY, "bin")
SAYS_EACH = 20


def lines_of(path):
    with open(path, encoding="utf-8") as file:
        return [it for it in map(str.strip, file) if it and not it.startswith("#")]


def uses_of(lines):
    return {line.partition(":")[0].split()[0]: line.partition(":")[2].split() for line in lines}


def needed(names, uses):
    """These crates, and those that they stand on."""
    found, new = set(), list(names)
    while new:
        one = new.pop()
        if one not in found:
            found.add(one)
            new += [it for it in uses[one] if it in uses]
    return found


def newest(paths):
    return max((os.path.getmtime(it) for it in paths), default=0)


def sources(crates):
    for name in crates:
        for at, folders, files in os.walk(os.path.join(REPOSITORY, "crates", name)):
            folders[:] = [it for it in folders if it not in ("out", "must-fail")]
            yield from (os.path.join(at, it) for it in files)


def is_current(names, crates):
    programs = [os.path.join(BIN, it) for it in names]
    if not all(map(os.path.isfile, programs)):
        return False
    made_of = [os.path.join(REPOSITORY, it) for it in ("crates.txt", "HANDLES")]
    return min(map(os.path.getmtime, programs)) >= newest([*made_of, *sources(crates)])


def put(made, path):
    """Puts a program in its place at once, also where the one that stands there runs."""
    shutil.copy(made, path + ".new")
    os.replace(path + ".new", path)


def copy_to(room, crates, lines):
    with open(os.path.join(room, "crates.txt"), "w", encoding="utf-8") as file:
        file.writelines(f"{it}\n" for it in lines if it.partition(":")[0].split()[0] in crates)
    shutil.copy(os.path.join(REPOSITORY, "HANDLES"), room)
    for name in crates:
        shutil.copytree(
            os.path.join(REPOSITORY, "crates", name),
            os.path.join(room, "crates", name),
            ignore=shutil.ignore_patterns("out", "must-fail"),
        )


def prove(room, crates):
    """Runs the proofs, says from time to time how far they are, and answers the status and what was printed."""
    waiting, said, printed, began = set(crates), 0.0, [], time.monotonic()
    with subprocess.Popen(
        ["rt", "ci"], cwd=room, stdout=subprocess.PIPE, stderr=subprocess.STDOUT, text=True, errors="replace"
    ) as gate:
        for line in gate.stdout:
            printed.append(line)
            found = re.match(r"(?:rt: )?(\w+) (?:proved|is kept)\b", line)
            if not found or found[1] not in waiting:
                continue
            waiting.discard(found[1])
            now = time.monotonic() - began
            if not waiting or now - said >= SAYS_EACH or said == 0.0:
                said = now
                print(f"{now / 60:.0f} min: {found[1]} is proved, {len(waiting)} of {len(crates)} crates are left", flush=True)
    return gate.returncode, printed


def main(names):
    lines = lines_of(os.path.join(REPOSITORY, "crates.txt"))
    uses = uses_of(lines)
    if not names or any(it not in uses for it in names):
        print(__doc__, file=sys.stderr)
        return 2
    crates = needed(names, uses)
    if is_current(names, crates):
        return 0
    print(f"{len(crates)} crates are proved before {', '.join(names)} are built. Only the first time takes long.", flush=True)
    with tempfile.TemporaryDirectory(prefix="build-") as room:
        copy_to(room, crates, lines)
        status, printed = prove(room, crates)
        if status:
            sys.stdout.writelines(printed[-60:])
            return status
        os.makedirs(BIN, exist_ok=True)
        for name in names:
            put(os.path.join(room, "crates", name, "out", name), os.path.join(BIN, name))
    return 0


if __name__ == "__main__":
    sys.exit(main(sys.argv[1:]))
