#!/usr/bin/env python3
"""Measures how much memory the programs take to read hostile JSON.

Each shape is a value that makes a large tree of few bytes. It is repeated in a list, in a field that is passed over and in
one that is read, and the text is given to `sbupdate replay` as a line, and to `sblistd serve` as the body of a request, of
which there are 1,048,576 bytes at most. Each text comes twice: as it is, when it is refused as too dense, and with fewer values
and with blanks in their place, so that one value more would be refused. For each the peak of the memory is printed, as the
system counts it. The exit status is 1 where a peak is above 32 times the bytes and 16 MiB, or above 33 times for the mixture at both
limits that is known to be the worst, or where a text is refused that is
not too dense, or the other way round.
"""

import argparse
import ctypes
import os
import socket
import subprocess
import sys
import tempfile
import time

REPOSITORY = os.path.dirname(os.path.dirname(os.path.abspath(__file__)))
LIST = "MALWARE/ANY_PLATFORM/URL"
SIZES = (1_000_000, 20_000_000)
MOST_BODY = 1_048_576
MOST_TIMES, MOST_OF_WORST, MOST_BESIDE = 32, 33, 16 << 20
PR_SET_CHILD_SUBREAPER = 36

# how deep lists and objects are read, less two for those around
DEPTH = 125
ALPHABET = b"abcdefghijklmnopqrstuvwxyz"
KEYS = [bytes([one, two, three]) for one in ALPHABET for two in ALPHABET for three in ALPHABET]


def members(value):
    """An object of 200 members with distinct rising keys."""
    return b"{" + b",".join(b'"%s":%s' % (key, value) for key in KEYS[:200]) + b"}"


SHAPES = {
    "nested lists": b"[" * DEPTH + b"]" * DEPTH,
    "nested objects": b'{"":' * (DEPTH - 1) + b"{}" + b"}" * (DEPTH - 1),
    "nested by turns": b'[{"":' * (DEPTH // 2) + b"[]" + b"}]" * (DEPTH // 2),
    "numbers": b"0",
    "empty lists": b"[]",
    "empty objects": b"{}",
    "lists of one number": b"[0]",
    "objects of one member": b'{"":0}',
    "empty strings": b'""',
    "strings of one letter": b'"a"',
    "members, numbers": members(b"0"),
    "members, objects": members(b'{"":0}'),
}

# of texts at both limits: the value of a member that opens an object, and of one that does not
MIXTURES = {"both limits, numbers": (b'{"":0}', b"0"), "both limits, strings": (b'{"a":"a"}', b'"a"')}
WORST = "both limits, strings"

NAMES = b'"threatType":"MALWARE","platformType":"ANY_PLATFORM","threatEntryType":"URL","responseType":"FULL_UPDATE"'
UPDATE = b'{"listUpdateResponses":[{' + NAMES + b","
EMPTY_ADDITION = b'{"compressionType":"RAW","rawHashes":{"prefixSize":4}}'
EMPTY_REMOVAL = b'{"compressionType":"RAW","rawIndices":{}}'
PASSED_OVER = (b'{"x":[', b"]}")


def fields(read):
    """The shapes with what stands before and after their list: in a field that is passed over, and in one that is read."""
    for name, piece in SHAPES.items():
        yield name, "passed over", PASSED_OVER, piece
        yield name, "read", (b'{"%s":[' % read, b"]}"), piece
    for name in MIXTURES:
        yield name, "passed over", PASSED_OVER, None
        yield name, "read", (b'{"%s":[' % read, b"]}"), None


def sets():
    """Sets and places of an update, in the fields that are theirs and passed over."""
    places = b'{"compressionType":"RAW","rawIndices":{"indices":['
    ends = b"]}]}"
    yield "empty additions", "passed over", PASSED_OVER, EMPTY_ADDITION
    yield "empty additions", "read", (UPDATE + b'"additions":[', ends), EMPTY_ADDITION
    yield "empty removals", "passed over", PASSED_OVER, EMPTY_REMOVAL
    yield "empty removals", "read", (UPDATE + b'"removals":[', ends), EMPTY_REMOVAL
    yield "removal places", "passed over", (b'{"x":[' + places, b"]}}]}"), b"0"
    yield "removal places", "read", (UPDATE + b'"removals":[' + places, b"]}}" + ends), b"0"


# ---- the texts


def counts(text):
    """The openings and the values of a text that has none of the signs in a string."""
    openings = text.count(b"[") + text.count(b"{")
    return openings, openings + text.count(b",") + text.count(b":")


def limits(size):
    return 8_192 + size // 48, 65_536 + size // 6


def is_too_dense(text):
    return any(count > most for count, most in zip(counts(text), limits(len(text))))


def most_pieces(size, front, end, piece):
    """How often a piece, with commas in between, can stand in a text of so many bytes that is not too dense."""
    fixed, each = counts(front + end), counts(piece + b",")
    room = [(size + 1 - len(front) - len(end)) // (len(piece) + 1)]
    room += [(most - count + 1) // more for count, more, most in zip(fixed, each, limits(size)) if more]
    count = min(room)
    while is_too_dense(with_blanks(size, front + b",".join([piece] * count), end)):
        count -= 1
    return count


def with_blanks(size, text, end):
    return text + b" " * (size - len(text) - len(end)) + end


def at_both_limits(size, front, end, nested, plain):
    """Objects of members with distinct rising keys, some of whose values are objects of one member: a tree at both limits.

    A member with an object has four values, and another two. An object around them opens one more, and has one value more. In a
    short text the bytes end before the values do.
    """
    openings, values = (most - count for most, count in zip(limits(size), counts(front + end)))
    around = (openings + values // 2) // len(KEYS) + 1
    inner = openings - around
    room = size - len(front) - len(end) - 2 * around - (len(nested) + 7) * inner
    total = inner + min((values - around - 4 * inner) // 2, room // (len(plain) + 7))
    texts = []
    for begin in range(0, total, len(KEYS)):
        places = range(begin, min(begin + len(KEYS), total))
        opens = [(place + 1) * inner // total > place * inner // total for place in places]
        some = [b'"%s":%s' % (key, nested if deep else plain) for key, deep in zip(KEYS, opens)]
        texts.append(b"{" + b",".join(some) + b"}")
    return with_blanks(size, front + b",".join(texts), end)


def as_it_is(size, front, end, piece, mixture):
    piece = piece or members(mixture[0])
    count = (size + 1 - len(front) - len(end)) // (len(piece) + 1)
    return front + b",".join([piece] * count) + end


def thinned(size, front, end, piece, mixture):
    """The text with as many pieces as are taken; without a piece, the mixture at both limits."""
    if piece is None:
        return at_both_limits(size, front, end, *mixture)
    return with_blanks(size, front + b",".join([piece] * most_pieces(size, front, end, piece)), end)


# ---- the programs


def started(words, given, printed):
    """Starts a program, and answers its process.

    A process counts what its parent held when it was started. So a shell, which is small, starts the program and ends, and
    this process, which then stands in for the parent, takes the figure.
    """
    script = 'given=$1; printed=$2; shift 2; "$@" < "$given" > "$printed" & echo $!'
    return int(subprocess.run(["sh", "-c", script, "sh", given, printed, *words], stdout=subprocess.PIPE, check=True).stdout)


def ended(process):
    """The bytes of memory that a program held at most."""
    return os.wait4(process, 0)[2].ru_maxrss * 1024


def replayed(programs, folder, text):
    """The peak of a replay, and whether its line was told as too dense."""
    given, printed = os.path.join(folder, "input"), os.path.join(folder, "printed")
    with open(given, "wb") as line:
        line.write(text)
    peak = ended(started([os.path.join(programs, "sbupdate"), "replay", LIST], given, printed))
    with open(printed, "rb") as lines:
        told = lines.read()
    if f"list {LIST}".encode() not in told:
        raise SystemExit(f"sbupdate replay did not come to its end: {told[:200]!r}")
    return peak, told.startswith(b"1 unreadable too-dense ")


def served(programs, folder, text):
    """The peak of a server that answers one request, and the status of its answer."""
    journal, printed = os.path.join(folder, "journal"), os.path.join(folder, "printed")
    with open(journal, "w", encoding="ascii") as lines:
        print(f"sblist 1 {1:016x}\nlist {LIST} 4", file=lines)
    with socket.socket() as free:
        free.bind(("127.0.0.1", 0))
        port = free.getsockname()[1]
    words = [os.path.join(programs, "sblistd"), "serve", "--journal", journal, "--listen", f"127.0.0.1:{port}"]
    process = started([*words, "--connections", "1"], os.devnull, printed)
    head = f"POST /v4/threatListUpdates:fetch HTTP/1.1\r\nContent-Length: {len(text)}\r\n\r\n"
    answer = b""
    for _ in range(1_000):
        try:
            with socket.create_connection(("127.0.0.1", port)) as wire:
                wire.sendall(head.encode("ascii") + text)
                while piece := wire.recv(1 << 16):
                    answer += piece
            break
        except ConnectionRefusedError:
            time.sleep(0.01)
    return ended(process), answer.split(b" ")[1]


# ---- the table


class Table:
    """Prints a row for each run, and counts those that are not as they should be."""

    def __init__(self):
        self.runs, self.wrong, self.worst = 0, 0, 0.0

    def row(self, command, name, field, form, text, peak, is_right):
        self.runs += 1
        self.worst = max(self.worst, (peak - MOST_BESIDE) / len(text))
        most = MOST_OF_WORST if name == WORST else MOST_TIMES
        is_within = peak <= most * len(text) + MOST_BESIDE
        self.wrong += not (is_within and is_right)
        remark = "" if is_within else "  above the limit"
        remark += "" if is_right else "  not answered as it should be"
        what = f"{command:6} {name:22} {field:11} {form:8}"
        print(f"{what} {len(text):>10,} bytes {peak / 2**20:>7.1f} MiB {peak / len(text):>6.1f} times{remark}", flush=True)


def forms(size, around, name, piece):
    mixture = MIXTURES.get(name)
    yield "as it is", as_it_is(size, *around, piece, mixture)
    yield "thinned", thinned(size, *around, piece, mixture)


def main():
    words = argparse.ArgumentParser(description=__doc__.splitlines()[0])
    words.add_argument("--programs", default=os.path.join(REPOSITORY, "bin"), help="the folder of the programs (bin)")
    programs = words.parse_args().programs
    if ctypes.CDLL(None).prctl(PR_SET_CHILD_SUBREAPER, 1, 0, 0, 0) != 0:
        raise SystemExit("the peak of the memory can be read on Linux alone")
    table = Table()
    with tempfile.TemporaryDirectory() as folder:
        for size in SIZES:
            for name, field, around, piece in [*fields(b"listUpdateResponses"), *sets()]:
                for form, text in forms(size, around, name, piece):
                    peak, is_refused = replayed(programs, folder, text)
                    table.row("replay", name, field, form, text, peak, is_refused == is_too_dense(text))
        for name, field, around, piece in fields(b"listUpdateRequests"):
            for form, text in forms(MOST_BODY, around, name, piece):
                peak, status = served(programs, folder, text)
                expected = [b"400"] if is_too_dense(text) or field == "read" else [b"200"]
                table.row("serve", name, field, form, text, peak, status in expected)
    print(f"{table.runs} runs, {table.wrong} wrong; at most {table.worst:.1f} times the bytes, and 16 MiB")
    return 1 if table.wrong else 0


if __name__ == "__main__":
    sys.exit(main())
