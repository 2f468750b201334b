#!/usr/bin/env python3
"""The wrong bodies of the crates, in two tiers.

While a crate's contracts are being changed, its wrong bodies are `must-fail/NAME.edit`, and each gate tries them. Once
they stand, they are kept as `must-fail/NAME.edit.md`, which the gate leaves alone, and `must-fail/tried.md` says how many
the prover refused, and over which files.

    wrong_bodies.py check          fails where a crate is not as its tried.md says, has no wrong body at all, or has one whose
                                   text does not stand once where it says; of the crates of the two top calls also where a
                                   definition below them changed since, which it only notes of the others
    wrong_bodies.py try [NAME..]   names the kept ones back in a copy of the tree, tries them there, and writes tried.md
                                   where each was refused; without names those of every crate that keeps some
    wrong_bodies.py open NAME..    names the kept ones back, since the crate's contracts are to be changed
    wrong_bodies.py close NAME..   keeps the wrong bodies of these crates, and tries them as `try` does
"""

import hashlib
import os
import re
import shutil
import subprocess
import sys
import tempfile

REPOSITORY = os.path.dirname(os.path.dirname(os.path.abspath(__file__)))
CRATES = os.path.join(REPOSITORY, "crates")
WITHOUT = os.path.join(REPOSITORY, "tools", "without_wrong_bodies.txt")
TRIED = "tried.md"
KEPT = ".edit.md"
OPEN = ".edit"
# The crates of the two top calls: their clauses cite definitions of all crates below.
TOPS = ("sb_client", "sb_service")


def stop(why):
    print(f"wrong bodies: {why}", file=sys.stderr)
    sys.exit(2)


def lines_of(path):
    """The lines of a list that are no comment, each as the word before its colon and the text behind it."""
    with open(path, encoding="utf-8") as file:
        for line in file:
            line = line.strip()
            if line and not line.startswith("#"):
                name, _, rest = line.partition(":")
                yield name.split()[0], rest.strip()


def uses_of():
    """What each crate of the repository uses, as crates.txt has it, those of the toolchain among it."""
    return {name: rest.split() for name, rest in lines_of(os.path.join(REPOSITORY, "crates.txt"))}


def below(name, uses):
    """The crates of the repository that a crate stands on."""
    found = set()
    new = [it for it in uses[name] if it in uses]
    while new:
        one = new.pop()
        if one not in found:
            found.add(one)
            new += [it for it in uses[one] if it in uses]
    return sorted(found)


def files_of(*folders):
    for folder in folders:
        for at, _, names in os.walk(folder):
            yield from (os.path.join(at, name) for name in names)


def bodies_of(name, ending):
    folder = os.path.join(CRATES, name, "must-fail")
    if not os.path.isdir(folder):
        return []
    return sorted(os.path.join(folder, it) for it in os.listdir(folder) if it.endswith(ending))


def sum_of(paths, words=()):
    """The SHA-256 over some words and the names and bytes of files."""
    total = hashlib.sha256()
    for word in words:
        total.update(f"{word}\n".encode())
    for path in sorted(paths):
        with open(path, "rb") as file:
            data = file.read()
        total.update(f"{os.path.relpath(path, CRATES)} {len(data)}\n".encode())
        total.update(data)
    return total.hexdigest()


def own_sum(name, uses):
    """Over what a crate is: its sources, definitions, proofs, what it uses, and its kept wrong bodies."""
    folder = os.path.join(CRATES, name)
    parts = [os.path.join(folder, it) for it in ("src", "specs", "proofs")]
    return sum_of([*files_of(*parts), *bodies_of(name, KEPT)], [name, *uses[name]])


def specs_sum(name, uses):
    """Over the definitions of the crates below."""
    return sum_of(files_of(*(os.path.join(CRATES, it, "specs") for it in below(name, uses))))


def text_of(count, own, specs):
    return (
        f"{count} wrong bodies were refused by the prover when they were last tried.\n\n"
        f"- the crate and its wrong bodies: {own}\n"
        f"- the definitions of the crates below: {specs}\n"
    )


def read_tried(name):
    """The count and the two sums of a tried.md, or None."""
    try:
        with open(os.path.join(CRATES, name, "must-fail", TRIED), encoding="utf-8") as file:
            text = file.read()
    except FileNotFoundError:
        return None
    found = re.fullmatch(
        r"(\d+) wrong bodies were .*\n\n- .*: ([0-9a-f]{64})\n- .*: ([0-9a-f]{64})\n", text
    )
    return (int(found[1]), found[2], found[3]) if found else None


def lacks(name, path):
    """Whether a wrong body names text that does not stand exactly once where it says."""
    with open(path, encoding="utf-8") as file:
        lines = file.read().splitlines()
    texts, at, old = {}, None, None
    for line in lines:
        word, _, rest = line.partition(":")
        if word == "file":
            at = os.path.join(CRATES, name, rest.strip())
            if not os.path.isfile(at):
                return True
            with open(at, encoding="utf-8") as file:
                texts.setdefault(at, file.read())
        elif word == "old":
            old = rest[1:]
        elif word == "new":
            if at is None or old is None or texts[at].count(old) != 1:
                return True
            texts[at] = texts[at].replace(old, rest[1:])
    return old is None


def faults_of(name, uses, without):
    """Why a crate's wrong bodies are not as they have to be, and what is only to be known."""
    kept, opened = bodies_of(name, KEPT), bodies_of(name, OPEN)
    tried = os.path.exists(os.path.join(CRATES, name, "must-fail", TRIED))
    if name in without:
        return (["is listed as a crate without wrong bodies, and has some"] if kept or opened else []), []
    if not kept and not opened:
        return ["has no wrong body, and is not listed with its reason"], []
    if kept and opened:
        return ["has wrong bodies of both kinds: open or close all of them"], []
    stale = [os.path.basename(it) for it in kept + opened if lacks(name, it)]
    if stale:
        return [f"has wrong bodies that name text which does not stand once: {', '.join(stale)}"], []
    if opened:
        return (["is open, and has a tried.md"] if tried else []), []
    found = read_tried(name)
    if not found:
        return ["has no tried.md that can be read: `make wrong-bodies` writes it"], []
    count, own, specs = found
    if count != len(kept):
        return [f"has {len(kept)} wrong bodies, and {count} were tried"], []
    if own != own_sum(name, uses):
        return ["changed since its wrong bodies were tried: `make wrong-bodies NAMES=%s`" % name], []
    if specs != specs_sum(name, uses):
        told = ["stands on definitions that changed since its wrong bodies were tried"]
        return (told, []) if name in TOPS else ([], told)
    return [], []


def check():
    uses = uses_of()
    without = dict(lines_of(WITHOUT))
    failed = kept = opened = 0
    for name in sorted(without):
        if name not in uses:
            print(f"wrong bodies: {name} is listed as a crate without any, and is no crate")
            failed += 1
        elif not without[name]:
            print(f"wrong bodies: {name} is listed without its reason")
            failed += 1
    for name in uses:
        faults, notes = faults_of(name, uses, without)
        for text in faults + notes:
            print(f"wrong bodies: {name} {text}")
        failed += len(faults)
        kept += len(bodies_of(name, KEPT))
        opened += len(bodies_of(name, OPEN))
    print(f"wrong bodies: {opened} are tried by each gate, {kept} were refused when their crate last changed")
    return 1 if failed else 0


def copy_to(room, names):
    """Copies what `rt` reads, with the wrong bodies of these crates named back and of no others."""
    for name in ("crates.txt", "HANDLES"):
        shutil.copy(os.path.join(REPOSITORY, name), room)
    shutil.copytree(CRATES, os.path.join(room, "crates"), ignore=shutil.ignore_patterns("out", "must-fail"))
    for name in names:
        folder = os.path.join(room, "crates", name, "must-fail")
        os.mkdir(folder)
        for path in bodies_of(name, KEPT):
            shutil.copy(path, os.path.join(folder, os.path.basename(path)[: -len(".md")]))


def copy_libraries(room, names, uses):
    """Copies the built libraries of the crates below these, as far as there are any."""
    for name in {it for one in names for it in below(one, uses)}:
        built = os.path.join(CRATES, name, "out", "rlib")
        if os.path.isdir(built):
            shutil.copytree(built, os.path.join(room, "crates", name, "out", "rlib"), copy_function=shutil.copy2)


def tell(ran, refused):
    """Prints what a run says of wrong bodies, and notes those that were refused. Answers whether it was taken as a command at all."""
    is_command = True
    for line in ran.stdout:
        found = re.match(r"rt: must-fail (\w+)/(\S+)\.edit: refused, as it must be( \(only .*)?", line)
        if line.startswith("usage:"):
            is_command = False
        if found:
            refused.add((found[1], found[2]))
        if is_command and found and not found[3]:
            print(line.rstrip()[:200], flush=True)
        elif is_command and not line.startswith(("fn ", "statements ", "library ", "checked ")):
            print(line.rstrip(), flush=True)
    return is_command


def refused_in(room, names, uses):
    """Has the wrong bodies in a copy tried, and answers those that were refused, and whether nothing else failed. A toolchain whose
    `rt ci` takes no names keeps nothing either: there `rt must-fail` tries them, over the libraries that checks have built."""
    refused = set()
    given = {"cwd": room, "stdout": subprocess.PIPE, "stderr": subprocess.STDOUT, "text": True, "errors": "replace"}
    with subprocess.Popen(["rt", "ci", *names], **given) as tries:
        is_command = tell(tries, refused)
    if is_command:
        return refused, tries.returncode == 0
    copy_libraries(room, names, uses)
    with subprocess.Popen(["rt", "must-fail", *names], **given) as tries:
        tell(tries, refused)
    return refused, tries.returncode == 0


def try_bodies(names):
    """Has them tried, and writes tried.md where each was refused."""
    uses = uses_of()
    names = names or [name for name in uses if bodies_of(name, KEPT)]
    for name in names:
        if name not in uses or not bodies_of(name, KEPT):
            stop(f"{name} keeps none")
    wanted = {(name, os.path.basename(it)[: -len(KEPT)]) for name in names for it in bodies_of(name, KEPT)}
    texts = {name: text_of(len(bodies_of(name, KEPT)), own_sum(name, uses), specs_sum(name, uses)) for name in names}
    with tempfile.TemporaryDirectory(prefix="wrong-bodies-") as room:
        copy_to(room, names)
        refused, is_well = refused_in(room, names, uses)
    left = sorted(f"{name}/{body}" for name, body in wanted - refused)
    if left or not is_well:
        stop(f"no tried.md was written: not refused, or something else failed: {', '.join(left) or 'see above'}")
    for name, text in texts.items():
        with open(os.path.join(CRATES, name, "must-fail", TRIED), "w", encoding="utf-8") as file:
            file.write(text)
    print(f"wrong bodies: {len(wanted)} of {len(names)} crates were refused")
    return 0


def rename(names, old, new):
    uses = uses_of()
    for name in names:
        if name not in uses or not bodies_of(name, old):
            stop(f"{name} has none to rename")
        for path in bodies_of(name, old):
            os.rename(path, path[: -len(old)] + new)
        tried = os.path.join(CRATES, name, "must-fail", TRIED)
        if os.path.exists(tried):
            os.remove(tried)


def main(words):
    if words == ["check"]:
        return check()
    if words[:1] == ["try"]:
        return try_bodies(words[1:])
    if words[:1] in (["open"], ["close"]) and words[1:]:
        ends = (KEPT, OPEN) if words[0] == "open" else (OPEN, KEPT)
        rename(words[1:], *ends)
        return 0 if words[0] == "open" else try_bodies(words[1:])
    print(__doc__, file=sys.stderr)
    return 2


if __name__ == "__main__":
    sys.exit(main(sys.argv[1:]))
