#!/usr/bin/env python3
"""Runs the programs beside a second program of the same rules, and compares what they print.

The second program is the first part of this file, and the files that it imports. It follows docs/FORMATS.md with Python's own
JSON, base64 and SHA-256, and shares nothing with the crates. First come the recordings of compare/recordings.py, whose
texts are known; then seeded inputs: bodies that are right, bodies with changed fields, and bodies with changed
bytes, and texts that stand at the limits of lists, objects and values. `sbcheck show` runs beside compare/urls.py on seeded
URLs, and `sblistd answer` beside compare/server.py on seeded journals, fetch, find and look-up requests. Runs of `sbcheck judge`
are seeded with their stores, URLs, clocks, rounds and finds, which are scripted or served: they are cases for `stored_cases`.
Where a URL is looked up, no round of theirs installs a list, so that what is printed does not depend on when that is. The exit
status is 1 where a run differs.
"""

import argparse
import base64
import collections
import hashlib
import json
import os
import random
import subprocess
import sys
import tempfile

import dense
import judged
import server
import urls
from changing import change_bytes, change_field
from messages import DEEPEST, ENTRIES, PLATFORMS, THREATS, Unreadable, read_body
from recordings import RECORDINGS
from updates import order, shown, take

REPOSITORY = os.path.dirname(os.path.dirname(os.path.abspath(__file__)))
SBUPDATE = os.path.join(REPOSITORY, "bin", "sbupdate")
SBCHECK = os.path.join(REPOSITORY, "bin", "sbcheck")
SBLISTD = os.path.join(REPOSITORY, "bin", "sblistd")
STORED_CASES = os.path.join(REPOSITORY, "bin", "stored_cases")


# ---- the second program: a replay


def replay(text, names):
    """What is printed, the status, and how often each thing came of a line or an update."""
    lines = text.split(b"\n")
    if lines[-1] == b"":
        lines.pop()
    held = {name: (b"", []) for name in names}
    printed, outcomes = [], collections.Counter()
    for number, line in enumerate(lines, 1):
        try:
            updates = read_body(line)
        except Unreadable as fault:
            cause = str(fault).split(" ")[0]
            outcomes[{"not-json": "not JSON", "too-dense": "too dense"}.get(cause, "with a field fault")] += 1
            printed.append(f"{number} unreadable {fault}")
            continue
        for update in updates:
            told, outcome = take(held, update)
            outcomes[outcome] += 1
            printed.append(f"{number} {told}")
    for name in sorted(names, key=order):
        token, members = held[name]
        printed.append(f"list {name} {len(members)} {shown(token)}")
        printed += [member.hex() for member in members]
    status = 0 if set(outcomes) <= {"installed", "not kept"} else 5
    return "".join(line + "\n" for line in printed).encode("ascii"), status, outcomes


# ---- the inputs

ODD_LINES = [b"", b" ", b"x", b"7", b"null", b'"a"', b"\xff", b"{}", b"[]", b"\r"]


def text_of(data):
    return base64.b64encode(data).decode("ascii")


def rice_of(rand, numbers):
    """A record of rising numbers, of which some field may be wrong."""
    parameter = rand.randrange(20, 29)
    bits = []
    for before, number in zip(numbers, numbers[1:]):
        delta = number - before
        bits += [1] * (delta >> parameter) + [0] + [delta >> place & 1 for place in range(parameter)]
    bits += [rand.randrange(2) for _ in range(-len(bits) % 8)]
    coded = bytes(sum(bit << place for place, bit in enumerate(bits[at : at + 8])) for at in range(0, len(bits), 8))
    record = {"firstValue": rand.choice([str, int])(numbers[0])}
    if len(numbers) > 1:
        record |= {"riceParameter": parameter, "numEntries": len(numbers) - 1, "encodedData": text_of(coded)}
    if rand.random() < 0.1:
        kind = rand.randrange(4)
        record["numEntries"] = record.get("numEntries", 0) + (1 if kind == 0 else 0)
        if kind == 1:
            record["riceParameter"] = rand.choice([0, 1, 2, 29])
        elif kind == 2:
            record["encodedData"] = text_of(coded[:-1])
        elif kind == 3:
            record["encodedData"] = text_of(coded + b"\0\0")
    return record


def additions_of(rand, members):
    sets = []
    for size in {len(member) for member in members}:
        some = [member for member in members if len(member) == size]
        if size == 4 and rand.random() < 0.5:
            numbers = sorted(int.from_bytes(member, "little") for member in some)
            sets.append({"compressionType": "RICE", "riceHashes": rice_of(rand, numbers)})
        else:
            rand.shuffle(some)
            raw = {"prefixSize": size, "rawHashes": text_of(b"".join(some))}
            sets.append({"compressionType": "RAW", "rawHashes": raw})
    return sets


def removals_of(rand, places):
    if rand.random() < 0.5:
        return [{"compressionType": "RICE", "riceIndices": rice_of(rand, places)}]
    rand.shuffle(places)
    return [{"compressionType": "RAW", "rawIndices": {"indices": places}}]


def right_update(rand, name, versions):
    """An update of a list, from one of its versions to another or whole."""
    threat, platform, entry = name.split("/")
    target = rand.randrange(len(versions))
    wanted = versions[target]
    digest = hashlib.sha256(b"".join(wanted)).digest()
    if rand.random() < 0.08:
        digest = bytes([digest[0] ^ 1]) + digest[1:]
    update = {
        "threatType": threat,
        "platformType": platform,
        "threatEntryType": entry,
        "newClientState": text_of(bytes([target])),
        "checksum": {"sha256": text_of(digest)},
    }
    if target == 0 or rand.random() < 0.5:
        update["responseType"] = "FULL_UPDATE"
        added = list(wanted)
    else:
        start = rand.choice([target - 1, target - 1, rand.randrange(len(versions))])
        update["responseType"] = "PARTIAL_UPDATE"
        if rand.random() < 0.6:
            update["baseState"] = text_of(bytes([start]))
        places = [place for place, member in enumerate(versions[start]) if member not in wanted]
        added = [member for member in wanted if member not in versions[start]]
        if places:
            update["removals"] = removals_of(rand, places)
    if added or rand.random() < 0.2:
        update["additions"] = additions_of(rand, added)
    return update


def any_line(rand, histories):
    kind = rand.random()
    if kind < 0.03:
        return rand.choice(ODD_LINES)
    if kind < 0.05:
        depth = rand.choice([DEEPEST - 1, DEEPEST, DEEPEST + 1, 5_000])
        return b"[" * depth + b"]" * rand.choice([depth, depth, depth - 1])
    count = rand.choice([0, 1, 1, 1, 2, 3])
    updates = [right_update(rand, name, histories[name]) for name in rand.choices(list(histories), k=count)]
    body = {"listUpdateResponses": updates}
    if rand.random() < 0.3:
        body["minimumWaitDuration"] = rand.choice(["1800s", "0.5s", "593.440s"])
    if kind < 0.35:
        for _ in range(rand.choice([1, 1, 2])):
            change_field(rand, body)
    separators = rand.choice([(",", ":"), (", ", ": ")])
    text = json.dumps(body, ensure_ascii=rand.random() < 0.5, separators=separators)
    line = text.encode("utf-8", "surrogatepass")
    return change_bytes(rand, line) if rand.random() < 0.25 else line


def any_history(rand):
    """The sets of a list, version by version; prefixes have four bytes, or also more."""
    sizes = rand.choice([[4], [4], [4, 4, 5, 32]])
    choices = [bytes(rand.choices(b"\x00ab\xff", k=rand.choice(sizes))) for _ in range(12)]
    return [sorted(set(rand.choices(choices, k=rand.randrange(8)))) if at else [] for at in range(5)]


def any_input(rand):
    every = [f"{t}/{p}/{e}" for t in THREATS for p in PLATFORMS for e in ENTRIES]
    names = rand.sample(every, rand.choice([1, 1, 2, 3, 9]))
    histories = {name: any_history(rand) for name in names}
    lines = [any_line(rand, histories) for _ in range(rand.choice([0, 1, 2, 10, 40]))]
    return names[:8], b"\n".join(lines) + rand.choice([b"", b"\n"])


# ---- the comparison


def run(names, text):
    found = subprocess.run(
        [SBUPDATE, "replay", *names], input=text, stdout=subprocess.PIPE, check=False
    )
    return found.stdout, found.returncode


def show(names, text):
    found = subprocess.run([SBCHECK, "show"], input=text, stdout=subprocess.PIPE, check=False)
    return found.stdout, found.returncode


def answered(data, text, kind, times):
    with tempfile.NamedTemporaryFile() as journal:
        journal.write(data)
        journal.flush()
        words = ["answer", "--journal", journal.name, "--kind", kind]
        words += [f"--{name}={seconds}" for name, seconds in times.items()]
        found = subprocess.run([SBLISTD, *words], input=text, stdout=subprocess.PIPE, check=False)
    return found.stdout, found.returncode


def answers_differ(number, question):
    wanted, found = server.answer(*question), answered(*question)
    if found != wanted:
        print(f"answer {number}: {question!r:.2000}\n  wanted {wanted}\n  found  {found}")
    return found != wanted


def compare_answers(rand, kind, count):
    """Runs both list servers on seeded journals and requests of a kind: how many of the answers differ."""
    differing, statuses, matches = 0, collections.Counter(), 0
    for number in range(count):
        question = server.any_question(rand, kind)
        printed, status = server.answer(*question)
        statuses[status] += 1
        matches += printed.count(b'"threat":')
        differing += answers_differ(number, question)
    told = ", ".join(f"{count:,} with status {status}" for status, count in sorted(statuses.items()))
    found = "" if kind == "fetch" else f"; {matches:,} matches"
    print(f"{count:,} journals and {kind} requests: {told}{found}")
    return differing


def compare_dense(rand, count):
    """Runs the programs on texts about the limits of lists, objects and values: how many runs differ."""
    differing, refused = 0, 0
    for number in range(count):
        text = dense.any_text(rand)
        wanted, status, outcomes = replay(text, ["MALWARE/ANY_PLATFORM/URL"])
        refused += outcomes["too dense"]
        differing += differs(f"dense text {number}", ["MALWARE/ANY_PLATFORM/URL"], text, (wanted, status))
        for kind in server.BODIES:
            question = b"sblist 1 0000000000000001\n", text, kind, {"wait": 1, "find-wait": 1, "cache": 1, "negative": 1}
            differing += answers_differ(f"to dense text {number}", question)
    print(f"{count:,} texts about the limits of lists, objects and values, {refused:,} of them too dense")
    return differing


def compare_judged(rand, count):
    """Runs seeded cases of `sbcheck judge`: how many differ."""
    text, kinds = judged.some_runs(rand, count)
    found = subprocess.run([STORED_CASES], input=text, stdout=subprocess.PIPE, check=False)
    differing = 0 if (found.stdout, found.returncode) == (b"%d cases, 0 differ\n" % count, 0) else 1
    if differing:
        print(f"runs that judge: status {found.returncode}\n{found.stdout.decode('utf-8', 'replace'):.4000}")
    told = ", ".join(f"{number:,} {kind}" for kind, number in sorted(kinds.items()))
    print(f"{count:,} runs that judge: {told}")
    return differing


def differs(told, names, text, wanted, run=run):
    found = run(names, text)
    if found == wanted:
        return False
    print(f"{told}, {' '.join(names)}: {text[:2000]!r}\n  wanted {wanted[1]} {wanted[0][:2000]!r}")
    print(f"  found  {found[1]} {found[0][:2000]!r}")
    return True


def main():
    parser = argparse.ArgumentParser(description=__doc__.splitlines()[0])
    parser.add_argument("--runs", type=int, default=5_000, help="how many inputs (5000)")
    parser.add_argument("--dense", type=int, default=300, help="how many texts about the limits of density (300)")
    parser.add_argument("--urls", type=int, default=20_000, help="how many URLs (20000)")
    parser.add_argument("--answers", type=int, default=3_000, help="how many journals and requests of each kind (3000)")
    parser.add_argument("--judged", type=int, default=2_000, help="how many runs that judge (2000)")
    parser.add_argument("--seed", type=int, default=20_240_229, help="where they begin")
    options = parser.parse_args()
    differing = 0
    for name, lists, text, status, printed in RECORDINGS:
        wanted = printed.encode("ascii"), status
        differing += differs(name, lists, text, wanted)
        if replay(text, lists)[:2] != wanted:
            differing += 1
            print(f"{name}: the second program finds {replay(text, lists)[:2]}")
    print(f"{len(RECORDINGS)} recordings whose texts are known")
    rand = random.Random(options.seed)
    outcomes = collections.Counter()
    for number in range(options.runs):
        names, text = any_input(rand)
        wanted, status, became = replay(text, names)
        outcomes += became
        differing += differs(f"input {number}", names, text, (wanted, status))
    told = ", ".join(f"{count:,} {outcome}" for outcome, count in sorted(outcomes.items()))
    print(f"{options.runs:,} inputs: {told}")
    differing += compare_dense(random.Random(options.seed), options.dense)
    refused = 0
    for number in range(options.urls // 1_000):
        lines = urls.some_urls(rand, 1_000)
        wanted, status = urls.show(lines)
        refused += sum(line.split(b" ")[1] == b"refused" for line in wanted.splitlines())
        differing += differs(f"URLs {number}", [], b"\n".join(lines) + b"\n", (wanted, status), run=show)
    print(f"{options.urls // 1_000 * 1_000:,} URLs, {refused:,} of them refused")
    for kind in server.BODIES:
        differing += compare_answers(rand, kind, options.answers)
    differing += compare_judged(rand, options.judged)
    print(f"{differing} differ")
    return 1 if differing else 0


if __name__ == "__main__":
    sys.exit(main())
