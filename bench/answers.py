#!/usr/bin/env python3
"""Measures what an answer of the built `sblistd serve` costs, where it hurts: of a list of about a million hashes.

Each request goes over loopback to a server. A row tells the processor time of the server for an answer, user and system, the
least of some rounds; the bytes of the last answer; the peak of the server's memory while they were asked, and what that is above
its memory before; and how many came a second, if some were asked by turns. An answer has to have status 200 and to come whole.
The last answer is checked of each row that asks for one list in spellings of its own, and of a partial answer after a change: the
client `sbupdate`, who holds the version that was asked from, installs it, and comes to the set that this script itself makes of
the journal.

    answers.py [--quick] [--beside COMMAND]

With --quick lists are small and rounds few, to see that all runs. With --beside the answers of `sblistd answer` are timed by
turns with those of another program, which takes the same words and has to write the same bytes.
"""

import argparse
import base64
import bisect
import contextlib
import ctypes
import dataclasses
import hashlib
import itertools
import json
import os
import re
import shlex
import socket
import statistics
import subprocess
import sys
import tempfile
import time

import started

REPOSITORY = os.path.dirname(os.path.dirname(os.path.abspath(__file__)))
sys.path.insert(0, os.path.join(REPOSITORY, "compare"))

import protos  # noqa: E402

SBUPDATE = os.path.join(REPOSITORY, "bin", "sbupdate")
SBLISTD = os.path.join(REPOSITORY, "bin", "sblistd")

LIST = "MALWARE/ANY_PLATFORM/URL"
OTHER_LIST = "SOCIAL_ENGINEERING/ANY_PLATFORM/URL"
CODES = {LIST: bytes([1, 6, 1]), OTHER_LIST: bytes([2, 6, 1])}
EPOCH = 1
FETCH, FIND = "/v4/threatListUpdates:fetch", "/v4/fullHashes:find"
AS_PROTOBUF = "?alt=proto"
NO_LIMIT = 2_147_483_647
MOST_ITEMS = 8
MOST_BODY = 1_048_576
HELD_VERSIONS = 32
SPELLINGS = 64
CROWD = 64
READERS = 100
READ_A_SECOND = 1_500_000
MIB = 1 << 20

A_CHANGE = 1_024
SWAPPED = (LIST, A_CHANGE // 2, A_CHANGE // 2)

blanks = itertools.count(1)


@dataclasses.dataclass(frozen=True)
class Sizes:
    """How much is measured: how many changes only add, and are of the other list; rounds; and how many changes fill a list."""

    growing: int = 1_023
    other: int = 16
    rounds: int = 3
    turns: int = 5
    long_turns: int = 3
    repeats: int = 200
    full: int = 1_024
    small_changes: int = 65_536


QUICK = Sizes(growing=63, other=2, rounds=1, turns=1, long_turns=1, repeats=20, full=64, small_changes=4_096)


def text_of(data):
    return base64.b64encode(data).decode("ascii")


def token_of(name, version):
    """The state token of this server for a version of a list."""
    return bytes([1]) + EPOCH.to_bytes(8, "big") + version.to_bytes(8, "big") + CODES[name]


def hash_of(name, number):
    """The full hash of a list that has this number, in hexadecimal."""
    return hashlib.sha256(f"{name} {number}".encode("ascii")).hexdigest()


class Journal:
    """A journal that grows. Each change adds the hashes of the next numbers of its list and takes out those of the lowest, so a
    list at a version is what stands between two numbers."""

    def __init__(self, path, lists=(LIST,), size=4):
        self.path, self.version, self.sets = path, 0, {}
        self.windows = {name: ([0], [(0, 0)]) for name in lists}
        with open(path, "w", encoding="ascii") as file:
            file.write(f"sblist 1 {EPOCH:016x}\n")
            file.writelines(f"list {name} {size}\n" for name in lists)

    def window(self, name, version):
        versions, windows = self.windows[name]
        return windows[bisect.bisect_right(versions, version) - 1]

    def grow(self, changes):
        """Appends changes, each of which has a list and says how many hashes come and how many go."""
        with open(self.path, "a", encoding="ascii") as file:
            for change in changes:
                file.write(self.text_of_change(*change))

    def text_of_change(self, name, come, gone):
        first, last = self.window(name, self.version)
        self.version += 1
        versions, windows = self.windows[name]
        versions.append(self.version)
        windows.append((first + gone, last + come))
        lines = [f"change {name} {come} {gone}\n"]
        lines += [f"+{hash_of(name, number)}\n" for number in range(last, last + come)]
        lines += [f"-{hash_of(name, number)}\n" for number in range(first, first + gone)]
        return "".join(lines)

    def prefixes_at(self, name, version):
        """The rising prefixes of a list at a version, one after the other."""
        if (name, version) not in self.sets:
            some = {bytes.fromhex(hash_of(name, number)[:8]) for number in range(*self.window(name, version))}
            self.sets[name, version] = b"".join(sorted(some))
        return self.sets[name, version]

    def size(self):
        """How many hashes the list has at the newest version."""
        first, last = self.window(LIST, self.version)
        return last - first


def usual_journal(folder, sizes):
    """The journal of most rows: the list grows by changes of 1,024 lines, the other list comes, and then changes of 1,024 lines each
    take out as many hashes as they add."""
    journal = Journal(os.path.join(folder, "usual"), (LIST, OTHER_LIST))
    journal.grow([(LIST, A_CHANGE, 0)] * sizes.growing)
    journal.grow([(OTHER_LIST, A_CHANGE, 0)] * sizes.other)
    journal.grow([SWAPPED] * (HELD_VERSIONS + 1))
    return journal


def turned_journal(folder, sizes):
    """The longest journal of one list: it is filled, and then as many lines replace half of its hashes."""
    journal = Journal(os.path.join(folder, "turned"))
    journal.grow([(LIST, A_CHANGE, 0)] * sizes.full)
    journal.grow([SWAPPED] * sizes.full)
    return journal


@dataclasses.dataclass(frozen=True)
class Item:
    """An item of a fetch request: the version that is held, or none, and the limits."""

    held: int | None = None
    update: int = 0
    database: int = 0
    name: str = LIST
    codings: tuple = ("RAW", "RICE")

    def message(self):
        threat, platform, entry = self.name.split("/")
        item = {"threatType": threat, "platformType": platform, "threatEntryType": entry}
        if self.held is not None:
            item["state"] = text_of(token_of(self.name, self.held))
        limits = {"maxUpdateEntries": self.update, "maxDatabaseEntries": self.database}
        item["constraints"] = {key: value for key, value in limits.items() if value}
        item["constraints"]["supportedCompressions"] = list(self.codings)
        return item


def fetch(*items):
    """The body of a fetch request."""
    message = {"client": {"clientId": "a", "clientVersion": "1"}, "listUpdateRequests": [item.message() for item in items]}
    return json.dumps(message, separators=(",", ":")).encode("ascii")


def find(prefixes):
    """The body of a find request."""
    info = {"threatTypes": ["MALWARE"], "platformTypes": ["ANY_PLATFORM"], "threatEntryTypes": ["URL"]}
    info["threatEntries"] = [{"hash": text_of(prefix)} for prefix in prefixes]
    return json.dumps({"threatInfo": info}, separators=(",", ":")).encode("ascii")


def proto_fetch(item):
    """The message of a fetch request for one item, in Protocol Buffers."""
    threat, platform, entry = CODES[item.name]
    limits = [(1, item.update), (2, item.database)] + [(4, ("RAW", "RICE").index(coding) + 1) for coding in item.codings]
    constraints = b"".join(protos.number_field(place, number) for place, number in limits if number)
    state = b"" if item.held is None else protos.bytes_field(3, token_of(item.name, item.held))
    names = protos.number_field(1, threat) + protos.number_field(2, platform)
    return protos.bytes_field(3, names + state + protos.bytes_field(4, constraints) + protos.number_field(5, entry))


def proto_find(prefixes):
    """The message of a find request, in Protocol Buffers."""
    entries = b"".join(protos.bytes_field(3, protos.bytes_field(1, prefix)) for prefix in prefixes)
    threat, platform, entry = CODES[LIST]
    types = [protos.number_field(1, threat), protos.number_field(2, platform), entries, protos.number_field(4, entry)]
    return protos.bytes_field(3, b"".join(types))


def spelled_anew(body):
    """The same request in other bytes than any before: blanks stand behind it."""
    number = next(blanks)
    return body + bytes(b" \t"[number >> place & 1] for place in range(20))


class Server(started.Started):
    """A server of a journal, which has loaded it, and is ended with the block."""

    def __init__(self, journal, *options):
        words = [SBLISTD, "serve", "--journal", journal.path, "--listen", "127.0.0.1:0", *options]
        begun = time.perf_counter()
        super().__init__(words)
        self.clock = clock_of(self.ran.pid)
        self.ask(fetch(Item(journal.version)))
        self.load_time = time.perf_counter() - begun
        self.load_processor_time = self.settled()

    def connect(self):
        return socket.create_connection(("127.0.0.1", self.port), timeout=600)

    def send(self, body, path=FETCH):
        """A connection over which a request was sent."""
        stream = self.connect()
        stream.sendall(b"POST %s HTTP/1.1\r\nContent-Length: %d\r\n\r\n" % (path.encode("ascii"), len(body)) + body)
        return stream

    def ask(self, body, path=FETCH):
        """The body of an answer, which has to have status 200."""
        with self.send(body, path) as stream:
            return received(stream)

    def settled(self):
        """Its processor time so far, once it does nothing more for who was answered."""
        before = -1.0
        while before != (now := time.clock_gettime(self.clock)):
            before = now
            time.sleep(0.02)
        return now

    def memory(self, word):
        """A figure of its memory, in bytes."""
        with open(f"/proc/{self.ran.pid}/status", encoding="ascii") as file:
            return int(re.search(rf"^{word}:\s+(\d+) kB", file.read(), re.M)[1]) * 1024

    def forget_peak(self):
        """From here on the peak of its memory begins anew."""
        with open(f"/proc/{self.ran.pid}/clear_refs", "w", encoding="ascii") as file:
            file.write("5")


def clock_of(pid):
    """The clock of a process: its user and system time, finer than the hundredths of a second that are in /proc."""
    clock = ctypes.c_int()
    if ctypes.CDLL(None).clock_getcpuclockid(pid, ctypes.byref(clock)) != 0:
        raise SystemExit("answers: the processor time of the server cannot be read")
    return clock.value


def received(stream):
    """The body of the answer that comes over a connection."""
    pieces = []
    while piece := stream.recv(MIB):
        pieces.append(piece)
    head, _, body = b"".join(pieces).partition(b"\r\n\r\n")
    if head.split(b" ")[1:2] != [b"200"] or f"Content-Length: {len(body)}".encode("ascii") not in head.split(b"\r\n"):
        raise SystemExit(f"answers: not answered with 200, or not whole: {head!r} and {len(body)} bytes")
    return body


@dataclasses.dataclass
class Cost:
    """What some rounds cost: the processor times of an answer, the seconds of one, the bytes of the last, and memory."""

    took: list
    walls: list
    answer: bytes
    peak: int
    rise: int

    def tell(self, what, remark=""):
        figures = f"{min(self.took) * 1e3:9.2f} ms {len(self.answer):11,} bytes"
        memory = f"{self.peak / MIB:7.1f} MiB, {self.rise / MIB:+.1f}"
        print(f"  {what:<64}{figures} {memory}{remark}", flush=True)

    def tell_rate(self, what):
        self.tell(what, f", {1 / min(self.walls):,.1f} a second")


def cost_of_rounds(server, rounds):
    """What rounds cost, each a function that gives the bodies to be asked in it and their path."""
    held, took, walls, answer = server.memory("VmRSS"), [], [], b""
    server.forget_peak()
    for begin in rounds:
        bodies, path = begin()
        before, begun = server.settled(), time.perf_counter()
        for body in bodies:
            answer = server.ask(body, path)
        walls.append((time.perf_counter() - begun) / len(bodies))
        took.append((server.settled() - before) / len(bodies))
    peak = server.memory("VmHWM")
    return Cost(took, walls, answer, peak, peak - held)


def cost(server, bodies, rounds, anew=True, path=FETCH):
    """What an answer to these requests costs, which are asked by turns: each time in another spelling, or in the same bytes."""
    return cost_of_rounds(server, [lambda: ([spelled_anew(it) for it in bodies] if anew else bodies, path)] * rounds)


def full_update(name, version, prefixes):
    """A recorded body: a full update of a list that brings it to a version."""
    threat, platform, entry = name.split("/")
    raw = {"prefixSize": 4, "rawHashes": text_of(prefixes)}
    update = {
        "threatType": threat,
        "platformType": platform,
        "threatEntryType": entry,
        "responseType": "FULL_UPDATE",
        "additions": [{"compressionType": "RAW", "rawHashes": raw}] if prefixes else [],
        "newClientState": text_of(token_of(name, version)),
        "checksum": {"sha256": text_of(hashlib.sha256(prefixes).digest())},
    }
    return json.dumps({"listUpdateResponses": [update]}, separators=(",", ":")).encode("ascii")


def check_leads(journal, item, answer):
    """Ends the script if the answer to one item does not lead from what is held to the list at the version that it names."""
    update = json.loads(answer)["listUpdateResponses"][0]
    version = int.from_bytes(base64.b64decode(update["newClientState"])[9:17], "big")
    wanted = journal.prefixes_at(item.name, version)
    if base64.b64decode(update["checksum"]["sha256"]) != hashlib.sha256(wanted).digest():
        raise SystemExit(f"answers: the checksum is not that of version {version}: {item}")
    before = [] if item.held is None else [full_update(item.name, item.held, journal.prefixes_at(item.name, item.held))]
    recording = b"".join(line + b"\n" for line in [*before, answer])
    ran = subprocess.run([SBUPDATE, "replay", item.name], input=recording, stdout=subprocess.PIPE, check=False)
    told = f"{len(before) + 1} {item.name} installed {len(wanted) // 4}".encode("ascii")
    if ran.returncode != 0 or told not in ran.stdout[:1_000].split(b"\n"):
        raise SystemExit(f"answers: not installed: {item} {ran.stdout[:1_000]!r}")


def tell_made(journal, what, item, rounds):
    """Measures the answer to one item, made anew at each of some servers that have told one client that it is up to date and
    nothing more, and checks it."""
    found = []
    for _ in range(rounds):
        with Server(journal) as server:
            found.append(cost(server, [fetch(item)], 1))
    check_leads(journal, item, found[-1].answer)
    took, walls = [it.took[0] for it in found], [it.walls[0] for it in found]
    Cost(took, walls, found[-1].answer, max(it.peak for it in found), max(it.rise for it in found)).tell(what)


def tell_load(journal, what, runs):
    """What loading a journal takes, up to the first answer."""
    loads = []
    for _ in range(runs):
        with Server(journal) as server:
            loads.append((server.load_processor_time, server.load_time, server.memory("VmHWM"), server.memory("VmRSS")))
    took, wall, peak, held = map(min, zip(*loads))
    seconds = f"{took:.2f} s of the processor, {wall:.2f} s by the clock"
    print(f"  {what:<64}{seconds}, {peak / MIB:.1f} MiB at most, {held / MIB:.1f} MiB when loaded", flush=True)


def tell_whole(journal, sizes):
    """Who has the newest version, and who has nothing."""
    newest, nothing = fetch(Item(journal.version)), Item()
    tell_made(journal, "nothing held", nothing, sizes.rounds)
    tell_made(journal, "the same, not Rice coded", Item(codings=("RAW",)), sizes.rounds)
    with Server(journal) as server:
        cost(server, [newest] * sizes.repeats, sizes.rounds).tell_rate("the newest held, another spelling each time")
        cost(server, [newest] * sizes.repeats, sizes.rounds, anew=False).tell_rate("the newest held, the same bytes")
        server.ask(fetch(nothing))
        cost(server, [fetch(nothing)] * 8, sizes.rounds).tell_rate("nothing held, asked again, another spelling each time")
        cost(server, [fetch(nothing)] * 8, sizes.rounds, anew=False).tell_rate("nothing held, asked again in the same bytes")


def tell_partial(journal, sizes):
    """Who holds an older version."""
    newest, last = journal.version, HELD_VERSIONS
    by_turns = [fetch(Item(newest - behind)) for behind in range(1, last + 1)]
    tell_made(journal, "one change behind", Item(newest - 1), 2 * sizes.rounds)
    tell_made(journal, f"{last} changes behind", Item(newest - last), sizes.rounds)
    tell_made(journal, "from the middle", Item(sizes.growing // 2), sizes.rounds)
    tell_made(journal, "from version 1", Item(1), sizes.rounds)
    with Server(journal) as server:
        for body in by_turns:
            server.ask(body)
        cost(server, by_turns, 2, anew=False).tell_rate(f"one to {last} changes behind, asked again by turns")


def tell_forms(journal, what, asked, path, written, rounds):
    """Measures an answer in JSON and the same in Protocol Buffers, both made anew, by turns at servers of their own. The second has
    to be the first in the other spelling."""
    paths = (path, path + AS_PROTOBUF)
    found = {form: [] for form in paths}
    for turn in range(2 * rounds):
        with Server(journal) as server:
            for form in paths if turn % 2 else reversed(paths):
                found[form].append(cost_of_rounds(server, [lambda: ([asked[form == paths[1]]], form)]))
    plain, other = (Cost([it.took[0] for it in found[form]], [it.walls[0] for it in found[form]], found[form][-1].answer,
        max(it.peak for it in found[form]), max(it.rise for it in found[form])) for form in paths)  # fmt: skip
    if written(json.loads(plain.answer)) != other.answer:
        raise SystemExit(f"answers: not the same answer in both forms: {what}")
    plain.tell(what)
    shares = [b.took[0] / a.took[0] for a, b in zip(*(found[form] for form in paths))]
    remark = f", {statistics.median(shares):.2f} of the time, {len(other.answer) / len(plain.answer):.2f} of the bytes"
    other.tell("  in Protocol Buffers", remark)


def tell_both_forms(journal, sizes):
    """Answers in both forms."""
    codes = list(CODES[LIST])[:1]
    some = [journal.prefixes_at(LIST, journal.version)[4 * at : 4 * at + 4] for at in range(500)]
    for what, item in (
        ("nothing held", Item()),
        ("the same, not Rice coded", Item(codings=("RAW",))),
        ("from the middle", Item(sizes.growing // 2)),
        ("the newest held", Item(journal.version)),
    ):
        asked = (fetch(item), proto_fetch(item))
        tell_forms(journal, what, asked, FETCH, lambda body: protos.written_fetch(body, codes), sizes.rounds)
    asked = (find(some), proto_find(some))
    tell_forms(journal, f"full hashes, {len(some)} prefixes", asked, FIND, lambda body: protos.written_find(body, 2), sizes.rounds)


def tell_spellings(journal, sizes):
    """Who says the same in other bytes."""
    spelled = [spelled_anew(fetch(Item())) for _ in range(SPELLINGS)]
    one, other = Item(), Item(name=OTHER_LIST)
    orders = [fetch(one, other), fetch(other, one)]
    with Server(journal) as server:
        for body in [fetch(one), *orders]:
            server.ask(body)
        cost(server, spelled, 2, anew=False).tell_rate(f"nothing held, asked again in {SPELLINGS} spellings by turns")
        cost(server, orders, sizes.rounds).tell_rate("two lists in both orders, asked again in another spelling")
        cost(server, orders * 4, sizes.rounds, anew=False).tell_rate("two lists in both orders, asked again in the same bytes")


def tell_crowd(journal, sizes):
    """Who has nothing, in another spelling each time, while as many others ask between them as have older versions each. Eight of the
    former come before each of the latter, whose answers are made anew the first time."""
    first, newest = fetch(Item()), journal.version
    with Server(journal) as server:
        server.ask(first)
        took = []
        for behind in range(1, CROWD + 1):
            for _ in range(8):
                body = spelled_anew(first)
                begun = time.perf_counter()
                server.ask(body)
                took.append(time.perf_counter() - begun)
            server.ask(fetch(Item(max(newest - behind, 1))))
    rate = len(took) / sum(took)
    print(f"  nothing held, {CROWD} others at older versions between them: {rate:,.1f} a second, the longest {max(took) * 1e3:.1f} ms", flush=True)


def tell_slow_readers(folder, sizes):
    """One answer of some 16.8 MB that a hundred clients read at 1.5 MB a second each, all at once: how many get it whole. It has two
    lists of prefixes of six bytes, as long as an answer may be that is kept."""
    lists = (LIST, OTHER_LIST)
    journal = Journal(os.path.join(folder, "wide"), lists, size=6)
    journal.grow([(name, A_CHANGE, 0) for name in lists] * sizes.growing)
    body = fetch(*(Item(name=name, codings=("RAW",)) for name in lists))
    with Server(journal) as server:
        with server.send(body) as stream:
            length = sum(map(len, iter(lambda: stream.recv(MIB), b"")))
        begun, came = time.perf_counter(), {server.send(spelled_anew(body)): 0 for _ in range(READERS)}
        for stream in came:
            stream.setblocking(False)
        server.forget_peak()
        open_ones = set(came)
        while open_ones:
            most = (time.perf_counter() - begun) * READ_A_SECOND
            for stream in list(open_ones):
                with contextlib.suppress(BlockingIOError):
                    try:
                        piece = stream.recv(min(MIB, max(1, int(most - came[stream]))))
                    except ConnectionError:
                        piece = b""
                    came[stream] += len(piece)
                    if not piece:
                        open_ones.discard(stream)
            time.sleep(0.005)
        took, peak = time.perf_counter() - begun, server.memory("VmHWM")
        for stream in came:
            stream.close()
    whole = sum(count == length for count in came.values())
    what = f"{READERS} clients of one answer of {length:,} bytes at {READ_A_SECOND / 1e6:.1f} MB a second"
    print(f"  {what}: {whole} got it whole in {took:.1f} s, {peak / MIB:.1f} MiB at most", flush=True)
    os.remove(journal.path)
    if whole != READERS:
        raise SystemExit("answers: a slow reader was cut")


def limited_items(journal, sizes):
    """Items with limits that do not bind, and that do, with what they are called."""
    few, most, database = 5, 1_048_576, journal.size() * 19 // 20
    rows = (("nothing held", None), ("one change behind", journal.version - 1), ("from the middle", sizes.growing // 2))
    for name, held in rows:
        binding = few if held == journal.version - 1 else journal.size() // 4
        yield f"{name}, update limit {NO_LIMIT:,}", Item(held, update=NO_LIMIT)
        if held is not None:
            yield f"{name}, update limit {most:,}", Item(held, update=most)
        yield f"{name}, update limit {binding:,}, which binds", Item(held, update=binding)
        yield f"{name}, database limit {most:,}", Item(held, database=most)
        yield f"{name}, database limit {database:,}, which binds", Item(held, database=database)


def tell_limits(journal, sizes):
    """Who sets limits."""
    for what, item in limited_items(journal, sizes):
        tell_made(journal, what, item, sizes.rounds)


def tell_turn(server, journal, changes, kind, rounds):
    """The answer after the journal has gained changes: what was gained is read in the same turn."""

    def begin():
        held = journal.version
        journal.grow(changes)
        _, last = journal.window(LIST, journal.version)
        added = bytes.fromhex(hash_of(LIST, last - 1))
        questions = {
            "a find": (find([added[:4]]), FIND),
            "a partial answer": (fetch(Item(held)), FETCH),
            "a whole one": (spelled_anew(fetch(Item())), FETCH),
        }
        body, path = questions[kind]
        return [body], path

    found = cost_of_rounds(server, [begin] * rounds)
    lines = sum(come + gone for _, come, gone in changes)
    found.tell(f"after {lines:,} {'line' if lines == 1 else 'lines'}, {kind}", f", the longest {max(found.took) * 1e3:.1f} ms")
    return found.answer


def tell_turns(journal, sizes):
    """The turn after a change of one line, of 1,024 and of 65,536. The last partial answer and the last find are checked."""
    with Server(journal) as server:
        for changes in ([(LIST, 1, 0)], [SWAPPED], [SWAPPED] * 64):
            rounds = sizes.turns if len(changes) == 1 else sizes.long_turns
            answer = tell_turn(server, journal, changes, "a find", rounds)
            if len(json.loads(answer).get("matches", [])) != 1:
                raise SystemExit(f"answers: a hash that was added is not found: {answer!r}")
            answer = tell_turn(server, journal, changes, "a partial answer", rounds)
            check_leads(journal, Item(journal.version - len(changes)), answer)
            tell_turn(server, journal, changes, "a whole one", rounds)


def tell_held(journal, sizes):
    """Finds of a server that holds its lists: before it meets a bad line, and from then on."""
    added = bytes.fromhex(hash_of(LIST, journal.window(LIST, journal.version)[1] - 1))
    length = os.path.getsize(journal.path)
    with Server(journal, "--hold") as server:
        bodies = [find([added[:4]])] * sizes.repeats
        cost(server, bodies, sizes.rounds, anew=False, path=FIND).tell("a find")
        with open(journal.path, "ab") as file:
            file.write(b"# no line of a journal\n")
        server.ask(*bodies[:1], FIND)
        cost(server, bodies, sizes.rounds, anew=False, path=FIND).tell("a find after a growth that was refused")
    os.truncate(journal.path, length)


def wait_beside(server, dear, path, good):
    """How long a client who has the newest version waits for its answer, who comes when a dear request is being answered."""
    with server.send(spelled_anew(dear), path) as stream:
        time.sleep(0.01)
        begun = time.perf_counter()
        server.ask(good)
        waited = time.perf_counter() - begun
        received(stream)
    return waited


def tell_dear(journal, what, body, path=FETCH):
    """What a dear request costs at a server that has answered nothing, and how long a good client beside it waits."""
    with Server(journal) as server:
        found = cost(server, [body], 1, path=path)
        waited = wait_beside(server, body, path, fetch(Item(journal.version)))
        found.tell(f"{what} ({len(body):,} B)", f"; a good client beside it waits {waited * 1e3:.1f} ms")


def eight(held=None, **limits):
    """The body of a request with as many items as it may have: of the versions from one on, or of none."""
    return fetch(*(Item(None if held is None else held + place, **limits) for place in range(MOST_ITEMS)))


def dense_body():
    """A fetch request of the most bytes that is just not too dense: its values stand in a field that is passed over."""
    lists, values = 8_192 + MOST_BODY // 48, 65_536 + MOST_BODY // 6
    front, end = b'{"x":[', b'],"listUpdateRequests":[]}'
    # the front and the end open four lists and objects, and have seven values
    objects = [b'{"a":"a"}'] * (lists - 4)
    numbers = [b"0.1"] * (values - 7 - 3 * len(objects))
    text = front + b",".join(objects + numbers)
    return text + b" " * (MOST_BODY - 20 - len(text) - len(end)) + end


def tell_dearest(journal, sizes):
    """The dearest requests of each kind at the usual journal."""
    newest, middle = journal.version, sizes.growing // 2
    half, most = journal.size() // 2, journal.size() * 19 // 20
    listed = [bytes.fromhex(hash_of(LIST, number)[:8]) for number in range(*journal.window(LIST, newest))[:1_024]]
    tell_dear(journal, "a find of 1,024 prefixes", find(listed), FIND)
    tell_dear(journal, "a fetch as dense as may be", dense_body())
    tell_dear(journal, "eight items, nothing held", eight())
    tell_dear(journal, "the same, not Rice coded", eight(codings=("RAW",)))
    tell_dear(journal, "eight items, one to eight behind", eight(newest - 8))
    tell_dear(journal, "the same, update limit 1,000", eight(newest - 8, update=1_000))
    tell_dear(journal, f"eight items, the middle, update limit {half:,}", eight(middle, update=half))
    tell_dear(journal, f"eight items, nothing held, database limit {most:,}", eight(database=most))
    apart = [most - most // 512 * place for place in range(MOST_ITEMS)]
    tell_dear(journal, f"the same, eight database limits from {apart[-1]:,}", fetch(*(Item(None, database=limit) for limit in apart)))


def tell_dearest_turned(journal, sizes):
    """The dearest requests that were found of all, at the longest journal of one list. If an update limit is below the sizes of
    both sets together the server walks through all later changes, and one just below what differs in the end has it fold most."""
    full, most = sizes.full, journal.size() * 19 // 20
    half, both = full // 2, journal.size() * 3 // 2 * 19 // 20
    tell_load(journal, "loaded", 1)
    tell_dear(journal, "eight items, the full list", eight(full))
    tell_dear(journal, "the same, not Rice coded", eight(full, codings=("RAW",)))
    tell_dear(journal, f"the same, Rice coded, update limit {most:,}", eight(full, update=most))
    tell_dear(journal, f"eight items, half the list, update limit {both:,}", eight(half, update=both))
    tell_dear(journal, "the same, not Rice coded", eight(half, update=both, codings=("RAW",)))
    tell_dear(journal, f"eight items, nothing held, database limit {most:,}", eight(database=most))


def tell_longest(folder, sizes):
    """The longest journals, of two lists and of one of which each hash is removed: what it takes to load them."""
    both, small = [LIST, OTHER_LIST], 2 * sizes.full * A_CHANGE // sizes.small_changes
    kinds = (
        (f"two lists, {2 * sizes.full:,} changes of {A_CHANGE:,}", both, [(it, A_CHANGE, 0) for it in both] * sizes.full),
        (f"two lists, {sizes.small_changes:,} changes of {small}", both, [(it, small, 0) for it in both] * (sizes.small_changes // 2)),
        ("one list, filled and then emptied", [LIST], [(LIST, A_CHANGE, 0)] * sizes.full + [(LIST, 0, A_CHANGE)] * sizes.full),
    )
    for what, lists, changes in kinds:
        journal = Journal(os.path.join(folder, "longest"), lists)
        journal.grow(changes)
        tell_load(journal, what, sizes.rounds)
        os.remove(journal.path)


def answered(command, journal, body, path):
    """The processor time of a program that answers a request from a journal, and the answer."""
    words = [*command, "answer", "--journal", journal.path, "--kind", "fetch"]
    with open(path, "wb") as request:
        request.write(body)
    with open(path, "rb") as given, tempfile.TemporaryFile() as out:
        ran = subprocess.Popen(words, stdin=given, stdout=out)
        _, status, usage = os.wait4(ran.pid, 0)
        ran.returncode = os.waitstatus_to_exitcode(status)
        if ran.returncode != 0:
            raise SystemExit(f"{' '.join(words)}: status {ran.returncode}")
        out.seek(0)
        return usage.ru_utime + usage.ru_stime, out.read()


def times_above_load(commands, journal, folder, item, runs):
    """What each of some programs takes for an answer to an item, above an answer to one who has the newest version, which is the
    load: the middle of some differences. All take turns, and have to write the same."""
    requests = {"load": fetch(Item(journal.version)), "asked": fetch(item)}
    above, answers = [[] for _ in commands], {"load": set(), "asked": set()}
    for _, (place, command) in itertools.product(range(runs), enumerate(commands)):
        took = {}
        for kind, body in requests.items():
            took[kind], answer = answered(command, journal, body, os.path.join(folder, "request"))
            answers[kind].add(answer)
        above[place].append(took["asked"] - took["load"])
    if any(len(some) != 1 for some in answers.values()):
        raise SystemExit(f"answers: the programs write different answers: {item}")
    return [statistics.median(some) for some in above]


def tell_beside(journal, folder, command, sizes):
    """What answers take beside those of another program."""
    middle = sizes.growing // 2
    questions = [("nothing held", Item()), ("nothing held, not Rice coded", Item(codings=("RAW",)))]
    questions += [("one change behind", Item(journal.version - 1)), ("from the middle", Item(middle)), ("from version 1", Item(1))]
    questions += [(what, item) for what, item in limited_items(journal, sizes) if what.endswith("which binds")]
    print(f"sblistd answer beside {command}, above the load")
    for what, item in questions:
        commands = [shlex.split(command), [SBLISTD]]
        other, own = times_above_load(commands, journal, folder, item, 2 * sizes.rounds - 1)
        ratio = f"{own / other:.2f} times" if min(own, other) > 0 else "beside"
        print(f"  {what:<64}{own * 1e3:9.1f} ms, {ratio} the {other * 1e3:.1f} ms of the other", flush=True)


def measure(folder, sizes, beside=None):
    """Measures all, and prints it."""
    journal = usual_journal(folder, sizes)
    print(f"sblistd serve, a list of {journal.size():,} hashes, {journal.version:,} changes; processor times of the server for an answer")
    tell_load(journal, "loaded", sizes.rounds)
    tell_whole(journal, sizes)
    tell_partial(journal, sizes)
    tell_spellings(journal, sizes)
    tell_crowd(journal, sizes)
    print("the same answers in JSON and in Protocol Buffers, made anew")
    tell_both_forms(journal, sizes)
    print("limits")
    tell_limits(journal, sizes)
    print("the dearest requests")
    tell_dearest(journal, sizes)
    if beside is not None:
        tell_beside(journal, folder, beside, sizes)
    print("the turn after a change, with what the journal has gained")
    tell_turns(journal, sizes)
    print("a server with --hold")
    tell_held(journal, sizes)
    os.remove(journal.path)
    lines = 2 * sizes.full * A_CHANGE
    turned = turned_journal(folder, sizes)
    print(f"the dearest requests, a list of {turned.size():,} hashes in a journal of {lines:,} lines: filled, and then half replaced")
    tell_dearest_turned(turned, sizes)
    os.remove(turned.path)
    print(f"loads of journals of {lines:,} lines")
    tell_longest(folder, sizes)
    print("slow readers")
    tell_slow_readers(folder, sizes)


def main():
    words = argparse.ArgumentParser(description="Measures what answers of sblistd cost.")
    words.add_argument("--quick", action="store_true", help="small lists and few rounds, to see that all runs")
    words.add_argument("--beside", metavar="COMMAND", help="a program that answers as sblistd does, to be timed beside it")
    words = words.parse_args()
    with tempfile.TemporaryDirectory(prefix="answers-") as folder:
        measure(folder, QUICK if words.quick else Sizes(), words.beside)


if __name__ == "__main__":
    main()
