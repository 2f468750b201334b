#!/usr/bin/env python3
"""Runs `sbjournal` beside a second program of the same rules, and compares what they print.

The second program is the first part of this file, with compare/server.py and compare/urls.py. It makes records, checks,
verdicts and compacted journals as docs/FORMATS.md says, with Python's own SHA-256. Inputs and journals are seeded: URLs that repeat in other spellings,
with signs, comments, CR LF and lines that are no URLs, and journals of both forms, some of them with a bad line or cut. The exit
status is 1 where a run differs.
"""

import argparse
import collections
import hashlib
import os
import random
import re
import subprocess
import sys
import tempfile

import server
import urls

REPOSITORY = os.path.dirname(os.path.dirname(os.path.abspath(__file__)))
SBJOURNAL = os.path.join(REPOSITORY, "bin", "sbjournal")
RECORD = 1_024
# The first line of a journal, up to the epoch, which is drawn.
EPOCH = re.compile(rb"\A(sblist 2 )[0-9a-f]{16}\n")
NAMES = ["MALWARE/ANY_PLATFORM/URL", "SOCIAL_ENGINEERING/ANY_PLATFORM/URL", "MALWARE/LINUX/EXECUTABLE"]


# ---- the second program


def lines_of(text):
    """The lines of a text, each without the LF or CR LF that ends it."""
    *ended, last = text.split(b"\n")
    return [line.removesuffix(b"\r") for line in ended] + ([last] if last else [])


def own_hash(url):
    """The SHA-256 of the expression that a URL is itself."""
    _, host, _, components, query = urls.canonical(url)
    return hashlib.sha256(host + urls.path_text(components) + (b"" if query is None else b"?" + query)).digest()


def is_mute(line):
    return line == b"" or line.startswith(b"#")


def taken(lines, hash_of):
    """What the lines that say something say, and a line for each that is refused."""
    said, refused = [], []
    for number, line in enumerate(lines, 1):
        if is_mute(line):
            continue
        try:
            said.append(hash_of(line))
        except urls.NoUrl as fault:
            refused.append(f"{number} refused {fault}\n")
    return said, "".join(refused).encode()


def records(name, lines):
    """The records of hash lines, each a sign and its text: 1,024 a record, those that add first."""
    text = []
    for at in range(0, len(lines), RECORD):
        some = lines[at : at + RECORD]
        adds, removes = ([line for line in some if line[0] == sign] for sign in "+-")
        text.append(f"change {name} {len(adds)} {len(removes)}")
        text += adds + removes
    return "".join(line + "\n" for line in text).encode()


def bad(fault):
    return f"journal {fault}\n".encode(), 7


def journal_with(data, name):
    """A journal that declares a list."""
    journal = server.read_journal(data)
    if name not in journal.declared:
        raise server.BadJournal("unknown-list")
    return journal


def sync(data, name, text, flags):
    try:
        journal = journal_with(data, name)
    except server.BadJournal as fault:
        return bad(fault)
    said, refused = taken(lines_of(text), own_hash)
    if refused and "--skip" not in flags:
        return refused, 21
    if not said and "--empty" not in flags:
        return b"empty\n", 21
    held, wanted = set(journal.newest[name]), set(said)
    size = f" {journal.declared[name]}" if journal.sized else ""
    lines = ["-" + full.hex() for full in sorted(held - wanted)] + ["+" + full.hex() + size for full in sorted(wanted - held)]
    made = records(name, lines)
    try:
        server.read_journal(data + made)
    except server.BadJournal as fault:
        return bad(fault)
    return made, 0


def change(name, text, size, flags):
    def edit(line):
        sign = line[:1] if line[:1] in (b"+", b"-") else b""
        return "-" if sign == b"-" else "+", own_hash(line.removeprefix(sign))

    said, refused = taken(lines_of(text), edit)
    if refused and "--skip" not in flags:
        return refused, 21
    last = {full: place for place, (_, full) in enumerate(said)}
    tail = "" if size is None else f" {size}"
    kept = [(sign, full) for place, (sign, full) in enumerate(said) if last[full] == place]
    return records(name, [sign + full.hex() + (tail if sign == "+" else "") for sign, full in kept]), 0


def check(data):
    try:
        journal = server.read_journal(data)
    except server.BadJournal as fault:
        return bad(fault)
    text = ""
    for name, size in journal.declared.items():
        entries = journal.newest[name]
        text += f"{name} {size}, {len(entries)} hashes, {len(server.prefixes_of(entries))} prefixes\n"
    used = sum(len(added) + len(removed) for _, added, removed in journal.changes)
    changes = len(journal.changes)
    text += f"{changes} changes, {server.MOST_CHANGES - changes} left; {used} hash lines, {server.MOST_HASH_LINES - used} left; "
    return (text + f"{len(unended(data))} bytes of a record that has not ended\n").encode(), 0


def unended(data):
    """The bytes of a good journal that belong to no whole record."""
    *lines, part = data.split(b"\n")
    front, open_lines, left = lines[1:], [], 0
    for line in front:
        if left == 0 and line.startswith(b"change "):
            left = sum(map(int, line.split(b" ")[2:]))
            open_lines = [line]
        elif left:
            left -= 1
            open_lines = open_lines + [line] if left else []
    return b"".join(line + b"\n" for line in open_lines) + part


def has(data, name, text):
    try:
        journal = journal_with(data, name)
    except server.BadJournal as fault:
        return bad(fault)
    printed, status = [], 0
    for number, line in enumerate(lines_of(text), 1):
        try:
            _, host, is_address, components, query = urls.canonical(line)
        except urls.NoUrl as fault:
            printed.append(b"%d refused %s" % (number, str(fault).encode()))
            status = status or 21
            continue
        found = [one for one in urls.expressions(host, is_address, components, query) if hashlib.sha256(one).digest() in journal.newest[name]]
        printed.append(b"%d listed %s" % (number, b" ".join(found)) if found else b"%d not-listed" % number)
        status = 20 if found else status
    return b"".join(line + b"\n" for line in printed), status


def compact(data, epoch):
    try:
        journal = server.read_journal(data)
    except server.BadJournal as fault:
        return bad(fault)
    text = f"sblist 2 {epoch}\n" + "".join(f"list {name} {size}\n" for name, size in journal.declared.items())
    made = b"".join(records(name, [f"+{full.hex()} {size}" for full, size in sorted(journal.newest[name].items())]) for name in journal.declared)
    return text.encode() + made, 0


# ---- seeded runs


def any_text(rand, pool, signed):
    """Lines of URLs, some of which come again, are comments or no URLs, or end in CR LF."""
    text = b""
    for _ in range(rand.choice([0, 1, 3, 20, 20, 60])):
        kind = rand.random()
        line = b"" if kind < 0.05 else b"# a comment" if kind < 0.1 else rand.choice(pool)
        if kind > 0.97:
            line = rand.choice([b"http:///", b"?", b"http://h/" + b"a" * 9_000])
        if signed and rand.random() < 0.6:
            line = rand.choice([b"+", b"-"]) + line
        text += line + rand.choice([b"\n", b"\n", b"\r\n"])
    return text[:-1] if text and rand.random() < 0.2 else text


def any_data(rand, pool):
    """A journal in which hashes of these URLs stand."""
    return server.any_journal(rand, NAMES, lambda rand: own_hash(rand.choice(pool)) if rand.random() < 0.9 else server.some_hash(rand))


def found(words, text):
    done = subprocess.run([SBJOURNAL, *words], input=text, capture_output=True)
    return done.stdout, done.returncode


def main():
    parser = argparse.ArgumentParser(description=__doc__.splitlines()[0])
    parser.add_argument("--runs", type=int, default=2_000, help="how many runs (2000)")
    parser.add_argument("--seed", type=int, default=20_261_130, help="where they begin")
    options = parser.parse_args()
    rand = random.Random(options.seed)
    pool = [url for url in urls.some_urls(rand, 400) if not url.startswith((b"#", b"+", b"-"))]
    pool = [url for url in pool if is_url(url)][:120]
    differing, kinds = 0, collections.Counter()
    with tempfile.TemporaryDirectory() as folder:
        path = os.path.join(folder, "journal")
        for number in range(options.runs):
            name, kind = rand.choice(NAMES), rand.choice(["sync", "sync", "change", "check", "has", "compact"])
            data = any_data(rand, pool)
            with open(path, "wb") as file:
                file.write(data)
            if kind == "sync":
                flags = [flag for flag in ("--skip", "--empty") if rand.random() < 0.4]
                text = any_text(rand, pool, False)
                words, wanted = ["sync", name, "--journal", path, *flags], sync(data, name, text, flags)
            elif kind == "change":
                flags = ["--skip"] if rand.random() < 0.4 else []
                size = rand.choice([None, 4, 8, 32])
                text = any_text(rand, pool, True)
                words, wanted = ["change", name, *([] if size is None else ["--size", str(size)]), *flags], change(name, text, size, flags)
            elif kind == "check":
                text, words, wanted = data, ["check"], check(data)
            elif kind == "compact":
                text, words, wanted = data, ["compact"], compact(data, "EPOCH")
            else:
                text = any_text(rand, pool, False)
                words, wanted = ["has", name, "--journal", path], has(data, name, text)
            kinds[f"{kind} with {wanted[1]}"] += 1
            got = found(words, text)
            if kind == "compact":
                got = EPOCH.sub(rb"\1EPOCH\n", got[0], count=1), got[1]
            if got != wanted:
                differing += 1
                print(f"run {number}, {' '.join(words)}: {text[:600]!r} over {data[:600]!r}")
                print(f"  wanted {wanted[1]} {wanted[0][:900]!r}\n  found  {got[1]} {got[0][:900]!r}")
    print(f"{options.runs:,} runs: " + ", ".join(f"{count:,} {kind}" for kind, count in sorted(kinds.items())))
    print(f"{differing} differ")
    return 1 if differing else 0


def is_url(url):
    try:
        urls.canonical(url)
    except urls.NoUrl:
        return False
    return True


if __name__ == "__main__":
    sys.exit(main())
