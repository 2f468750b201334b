#!/usr/bin/env python3
"""Measures what look-ups at a built `sbproxy serve` take, beside finds at the `sblistd serve` that it is a client of.

The list has about a million hashes. All goes over loopback, and each request has a connection of its own, which both servers close. Some
processes ask, both servers in the same way: each keeps some connections open at once, and begins the next when one has ended. A time goes
from the connect to the last byte of the answer. A rate is told by the clock, and by the processor time of the server that is asked, user
and system. The client is in Python and takes a part of the clock: a line tells how busy the busiest of its processes was.

First a proxy whose store is up to date is asked for URLs without a hit, in turn with finds of one prefix at its server. At the end a listed
URL has to be a match.

Then two proxies are asked in turn. The server of one is up, and that of the other takes connections and says nothing, while a round is open.

Then a proxy begins with a few hashes of another epoch, and its first round installs the whole list. Its store lies in memory. The longest
time that anybody waited meanwhile is told, and what an fsync of a file as long as the store takes on a disk. The store has to be the
right set.

Each look-up without a hit has to be answered 200 without a match, and each find with one. Each figure has a line of its own, with its
goal if it has one. A goal that is missed does not fail the run.

    proxy.py [--quick] [--prefixes N] [--clients N] [--seconds S] [--turns N] [--pairs N] [--installs N]
             [--programs FOLDER] [--stores FOLDER] [--disk FOLDER]

With --quick the list is small and all is short, to see that it runs. A proxy waits for up to a minute, at random, before its first round,
and before its first find. It takes up to eight minutes.
"""

import argparse
import array
import concurrent.futures
import dataclasses
import hashlib
import math
import multiprocessing
import os
import random
import re
import select
import socket
import statistics
import sys
import tempfile
import time

import answers
import bench
import started
from answers import A_CHANGE, FIND, LIST, Journal, find
from lookups import LOOKUP, lookup

sys.path.insert(0, os.path.join(answers.REPOSITORY, "compare"))

from judging import read_store, written_store  # noqa: E402

AT_ONCE = (1, 8, 64)
URLS = (1, 50)
REQUESTS, APART = 500, 37  # so many requests are asked by turns, and each process begins so far behind the one before
HIT = "http://hit.example/"
NO_MATCH, SOME_MATCH = b"\r\n\r\n{}", b'"matches":['
BEGIN_AFTER = 0.2  # seconds until the processes of a client begin together
LONGEST = 300.0  # seconds: a proxy's first wait, and what follows
OPEN_SECONDS, MOST_PAIRS = 30.0, 24  # so long a session waits for a server that says nothing
BETWEEN = 0.001  # seconds from one look-up to the next while a round is waited for
BESIDE_INSTALL = 8
A_PIECE, AFTER_INSTALL = 0.25, 1.0
FSYNCS = 5
LEAST_RATIO = 0.9
MORE_MILLIS = 2.0
WAIT_MILLIS = 300.0


def tell(what, figure, goal=""):
    print(f"  {what:<72}{figure:>24}  {goal}".rstrip(), flush=True)


def judged(bound, reached):
    return f"goal: {bound}, {'reached' if reached else 'missed'}"


def percentile(took, share):
    """The least of some sorted times that so great a share of them does not pass."""
    return took[max(math.ceil(share * len(took)) - 1, 0)]


# ---- the client


def request(path, body):
    return b"POST %s HTTP/1.1\r\nHost: a\r\nContent-Length: %d\r\n\r\n" % (path.encode("ascii"), len(body)) + body


def drive(port, requests, wanted, at_once, goes_on, between=0.0):
    """Asks by turns, so many at once, as long as it is to go on, and gives the times in seconds. Each answer has status 200 and what is wanted.
    From one connection to the next it takes so many seconds at least."""
    poll, took, streams, at, following = select.epoll(), array.array("d"), {}, 0, 0.0
    while True:
        pause = LONGEST
        while len(streams) < at_once and goes_on():
            begun = time.perf_counter()
            if begun < following:
                pause = following - begun
                break
            stream = socket.socket()
            stream.connect(("127.0.0.1", port))
            stream.sendall(requests[at % len(requests)])
            poll.register(stream, select.EPOLLIN)
            streams[stream.fileno()] = [stream, begun, begun, b""]
            at, following = at + 1, begun + between
        if not streams and pause == LONGEST:
            poll.close()
            return took
        events = poll.poll(pause)
        if not events and pause == LONGEST:
            raise SystemExit("proxy: nobody was answered")
        for number, _ in events:
            one = streams[number]
            if piece := one[0].recv(65_536):
                one[2], one[3] = time.perf_counter(), one[3] + piece
                continue
            if not one[3].startswith(b"HTTP/1.1 200 ") or wanted not in one[3]:
                raise SystemExit(f"proxy: answered otherwise: {one[3][:400]!r}")
            took.append(one[2] - one[1])
            poll.unregister(number)
            one[0].close()
            del streams[number]


def drive_for(port, requests, wanted, at_once, begin, seconds):
    """What one process of a client does from a moment on: its times, how long it took, and its processor time."""
    time.sleep(max(begin - time.monotonic(), 0))
    first, end, used = time.monotonic(), time.monotonic() + seconds, time.process_time()
    took = drive(port, requests, wanted, at_once, lambda: time.monotonic() < end)
    return took, time.monotonic() - first, time.process_time() - used


@dataclasses.dataclass
class Load:
    """What some requests took: their rising times, how many came a second, how many the server makes of one of the processor, and the share of a
    processor that the busiest process of the client took."""

    took: list
    rate: float
    by_processor: float
    busy: float


class Client:
    """Some processes that ask together."""

    def __init__(self, count):
        self.count = count
        self.pool = concurrent.futures.ProcessPoolExecutor(count, multiprocessing.get_context("fork"))

    def load(self, server, requests, wanted, at_once, seconds):
        """Asks a server, so many at once, for so long."""
        shares = [at_once // self.count + (place < at_once % self.count) for place in range(self.count)]
        before, begin, ends = server.settled(), time.monotonic() + BEGIN_AFTER, []
        for place, share in enumerate(share for share in shares if share):
            turned = requests[place * APART :] + requests[: place * APART]
            ends.append(self.pool.submit(drive_for, server.port, turned, wanted, share, begin, seconds))
        found = [end.result() for end in ends]
        used = server.settled() - before
        took = sorted(one for part, _, _ in found for one in part)
        return Load(took, sum(len(part) / wall for part, wall, _ in found), len(took) / used, max(spent / wall for _, wall, spent in found))

    def __enter__(self):
        return self

    def __exit__(self, *_):
        self.pool.shutdown()


# ---- what is asked


class Proxy(answers.Server):
    """A proxy of the server at a port, which has loaded its store, and is ended with the block."""

    def __init__(self, programs, port, store):
        words = [os.path.join(programs, "sbproxy"), "serve", "--store", store, "--server", f"127.0.0.1:{port}", "--listen", "127.0.0.1:0", LIST]
        started.Started.__init__(self, words)
        self.clock = answers.clock_of(self.ran.pid)
        self.store = store
        # it has its port before it has loaded its store
        self.ask(lookup([]), LOOKUP)


class Lists:
    """A journal of so many hashes, one of which is of a host, and what is asked of it."""

    def __init__(self, folder, count):
        changes, self.count = count // A_CHANGE, count // A_CHANGE * A_CHANGE
        self.journal = Journal(os.path.join(folder, "journal"))
        self.journal.grow([(LIST, A_CHANGE, 0)] * (changes - 1) + [(LIST, A_CHANGE - 1, 0)])
        prefixes = self.journal.prefixes_at(LIST, self.journal.version)
        listed = hashlib.sha256(b"hit.example/")
        with open(self.journal.path, "a", encoding="ascii") as file:
            file.write(f"change {LIST} 1 0\n+{listed.hexdigest()}\n")
        self.journal.version += 1
        self.token = answers.token_of(LIST, self.journal.version)
        self.members = {prefixes[at : at + 4] for at in range(0, len(prefixes), 4)} | {listed.digest()[:4]}
        some = random.Random(bench.SEED + 6).sample(sorted(self.members), REQUESTS)
        self.finds = [request(FIND, find([one])) for one in some]
        urls = self.urls()
        self.looks = {count: [request(LOOKUP, lookup([next(urls) for _ in range(count)])) for _ in range(REQUESTS)] for count in URLS}

    def urls(self):
        """URLs of eight expressions each, of which no prefix is listed."""
        place = 0
        while place := place + 1:
            hosts = (f"www.n{place}.example", f"n{place}.example")
            ends = (f"/a/b{place}.html?c={place}", f"/a/b{place}.html", "/", "/a/")
            if not any(hashlib.sha256((host + end).encode("ascii")).digest()[:4] in self.members for host in hosts for end in ends):
                yield f"http://{hosts[0]}{ends[0]}"

    def write_store(self, path, is_newest=True):
        """The list as a store that is up to date, or the same with a few hashes and a token of another epoch, so that the next update is whole."""
        token = self.token if is_newest else self.token[:1] + (answers.EPOCH + 1).to_bytes(8, "big") + self.token[9:]
        with open(path, "wb") as file:
            file.write(written_store({LIST: (token, sorted(self.members)[: len(self.members) if is_newest else A_CHANGE])}))
        return path

    def check_store(self, path):
        """Ends the script if a store is not up to date."""
        with open(path, "rb") as file:
            token, members = read_store(file.read())[0][LIST]
        if token != self.token or set(members) != self.members:
            raise SystemExit(f"proxy: the store has other lists: {token.hex()}, {len(members):,} prefixes")


def check_hit(proxy):
    """Ends the script if a listed URL is no match. Its find may be the first, so it waits."""
    answer = proxy.ask(lookup([HIT]), LOOKUP)
    if SOME_MATCH not in answer or HIT.encode("ascii") not in answer:
        raise SystemExit(f"proxy: a listed URL is no match: {answer!r}")


# ---- look-ups beside finds


def tell_load(what, at_once, loads):
    """Tells some loads of one kind."""
    what = f"{what}, {at_once} at once"
    took = sorted(it for one in loads for it in one.took)
    tell(f"{what}: by the clock", f"{statistics.median(one.rate for one in loads):,.0f} a second")
    tell(f"{what}: by the processor", f"{statistics.median(one.by_processor for one in loads):,.0f} a second")
    for share in (0.5, 0.99, 0.999):
        tell(f"{what}: {100 * share:g}th percentile of {len(took):,}", f"{percentile(took, share) * 1e3:.3f} ms")
    tell(f"{what}: the busiest process of the client", f"{max(one.busy for one in loads):.2f} processors")


def tell_ratio(clock, at_once, ratios):
    ratio = statistics.median(ratios)
    tell(f"1 URL beside a find, {at_once} at once: ratio by the {clock}", f"{ratio:.2f}", judged(f"at least {LEAST_RATIO}", ratio >= LEAST_RATIO))


def tell_beside_finds(client, lists, proxy, server, at_once, words):
    """Look-ups at the proxy in turn with finds at its server."""
    rows = {f"{count} URL{'s' if count > 1 else ''}": (proxy, lists.looks[count], NO_MATCH) for count in URLS}
    rows["a find at sblistd"] = (server, lists.finds, SOME_MATCH)
    loads = {what: [] for what in rows}
    for turn in range(words.turns):
        for what in rows if turn % 2 else reversed(rows):
            loads[what].append(client.load(*rows[what], at_once, words.seconds))
    for what, some in loads.items():
        tell_load(what, at_once, some)
    pairs = list(zip(loads["1 URL"], loads["a find at sblistd"]))
    tell_ratio("clock", at_once, [one.rate / other.rate for one, other in pairs])
    tell_ratio("processor", at_once, [one.by_processor / other.by_processor for one, other in pairs])


# ---- beside a server that says nothing


def is_open(stream):
    """Whether a peer that sent something waits for an answer."""
    stream.setblocking(False)
    try:
        while stream.recv(65_536):
            pass
    except BlockingIOError:
        return True
    except ConnectionError:
        pass
    return False


def ask_in_turn(client, lists, up, alone, words):
    """The 99.9th percentiles at two proxies, in milliseconds, in pairs that have an end before the session of a round has."""
    # each load has a beginning and an end of its own, and some seconds are left at the end
    seconds, pairs = min(words.seconds, (OPEN_SECONDS - 5) / words.pairs / 2 - 2 * BEGIN_AFTER), []
    for turn in range(words.pairs):
        found = {one: client.load(one, lists.looks[1], NO_MATCH, 1, seconds) for one in ((up, alone) if turn % 2 else (alone, up))}
        pairs.append([percentile(found[one].took, 0.999) * 1e3 for one in (up, alone)])
    return pairs


def tell_silence(client, lists, server, folder, words):
    """The same look-ups at a proxy whose server is up, and at one whose server says nothing while a round is open, in turn."""
    stores = [lists.write_store(os.path.join(folder, name)) for name in ("up", "silent")]
    with socket.create_server(("127.0.0.1", 0), backlog=64) as silent:
        silent.settimeout(LONGEST)
        port = silent.getsockname()[1]
        with Proxy(words.programs, server.port, stores[0]) as up, Proxy(words.programs, port, stores[1]) as alone:
            with silent.accept()[0] as opened:
                begun = time.monotonic()
                pairs = ask_in_turn(client, lists, up, alone, words)
                took, lasted = time.monotonic() - begun, is_open(opened)
    for what, place in (("is up", 0), ("says nothing", 1)):
        tell(f"1 URL, the server {what}: 99.9th percentile, median of {words.pairs}", f"{statistics.median(one[place] for one in pairs):.3f} ms")
    more = statistics.median(without - beside for beside, without in pairs)
    tell("1 URL, what a silent server adds to it, median of the pairs", f"{more:+.3f} ms", judged(f"at most {MORE_MILLIS:g} ms", more <= MORE_MILLIS))
    tell("seconds of these pairs, and whether the silent round was open at their end", f"{took:.1f} s, {'yes' if lasted else 'no'}")


# ---- while a round installs


def written_bytes(server):
    """How many bytes a server has written: it writes a line when it has answered."""
    with open(f"/proc/{server.ran.pid}/io", encoding="ascii") as file:
        return int(re.search(r"^wchar: (\d+)$", file.read(), re.M)[1])


def longest_wait(lists, server, store, programs):
    """The longest times that anybody waited before the server had answered the fetch of the whole list, and from then until a while after the
    new store stood. What is asked is cut into short pieces, so that the former are told apart."""
    lists.write_store(store, is_newest=False)
    first_store, first_written = os.stat(store).st_ino, written_bytes(server)
    before, longest, fetched, stood = 0.0, 0.0, False, None
    with Proxy(programs, server.port, store) as proxy:
        end = time.monotonic() + LONGEST
        while stood is None or time.monotonic() < stood + AFTER_INSTALL:
            until = time.monotonic() + A_PIECE
            took = drive(proxy.port, lists.looks[1], NO_MATCH, BESIDE_INSTALL, lambda: time.monotonic() < until, BETWEEN)
            fetched = fetched or written_bytes(server) > first_written
            if fetched:
                longest = max([longest, *took])
            else:
                before = max([before, *took])
            if stood is None and os.stat(store).st_ino != first_store:
                stood = time.monotonic()
            if stood is None and time.monotonic() > end:
                raise SystemExit("proxy: no round installed the list")
    lists.check_store(store)
    return before, longest


def fsync_seconds(folder, size):
    """What an fsync takes of a file of so many bytes that was just written: the median of some."""
    took = []
    for _ in range(FSYNCS):
        with tempfile.TemporaryFile(dir=folder) as file:
            file.write(os.urandom(size))
            file.flush()
            begun = time.perf_counter()
            os.fsync(file.fileno())
            took.append(time.perf_counter() - begun)
    return statistics.median(took)


def tell_installs(lists, server, folder, words):
    store = os.path.join(folder, "installed")
    found = [longest_wait(lists, server, store, words.programs) for _ in range(words.installs)]
    for number, (before, longest) in enumerate(found, 1):
        what = f"install {number} of {lists.count:,} prefixes, {BESIDE_INSTALL} who ask"
        tell(f"{what}: the longest wait before it", f"{before * 1e3:.1f} ms")
        reached = longest * 1e3 <= WAIT_MILLIS
        tell(f"{what}: the longest wait", f"{longest * 1e3:.1f} ms", judged(f"at most {WAIT_MILLIS:.0f} ms", reached))
    size = os.path.getsize(store)
    tell(f"an fsync of {size:,} bytes in {words.disk}, median of {FSYNCS}", f"{fsync_seconds(words.disk, size) * 1e3:.1f} ms")


# ---- all


def measure(lists, folder, words):
    with Client(words.clients) as client, answers.Server(lists.journal) as server:
        print(f"look-ups without a hit beside finds, {words.turns} of each in turn; the rates are medians", flush=True)
        with Proxy(words.programs, server.port, lists.write_store(os.path.join(folder, "newest"))) as proxy:
            for at_once in AT_ONCE:
                tell_beside_finds(client, lists, proxy, server, at_once, words)
            check_hit(proxy)
            lists.check_store(proxy.store)
        print("look-ups beside a server that says nothing", flush=True)
        tell_silence(client, lists, server, folder, words)
        print(f"look-ups while a round installs, the store in {words.stores}", flush=True)
        tell_installs(lists, server, folder, words)


def parsed():
    parser = argparse.ArgumentParser(description="Measures what look-ups at sbproxy serve take.")
    parser.add_argument("--quick", action="store_true", help="a small list, and all is short, to see that it runs")
    parser.add_argument("--prefixes", type=int, help="how many hashes the list has: a multiple of 1,024")
    parser.add_argument("--clients", type=int, default=min(max((os.cpu_count() or 1) - 1, 1), 3), help="how many processes ask")
    parser.add_argument("--seconds", type=float, help="how long each load lasts")
    parser.add_argument("--turns", type=int, help="how many loads there are of each kind")
    parser.add_argument("--pairs", type=int, help="how many pairs there are beside a silent server")
    parser.add_argument("--installs", type=int, help="how many rounds install the list")
    parser.add_argument("--programs", default=os.path.join(answers.REPOSITORY, "bin"), help="where sblistd and sbproxy are")
    parser.add_argument("--stores", default="/dev/shm", help="a folder in memory")
    parser.add_argument("--disk", default="/var/tmp", help="a folder on a disk")
    words = parser.parse_args()
    usual = {"prefixes": (1_048_576, 65_536), "seconds": (1.5, 0.3), "turns": (5, 1), "pairs": (7, 3), "installs": (3, 1)}
    for name, some in usual.items():
        if getattr(words, name) is None:
            setattr(words, name, some[words.quick])
    if words.prefixes < 2 * A_CHANGE or min(words.clients, words.turns, words.pairs, words.installs) < 1:
        parser.error(f"at least {2 * A_CHANGE} prefixes, and one of all else")
    if words.pairs > MOST_PAIRS:
        parser.error(f"at most {MOST_PAIRS} pairs, which have an end before the session of a round has")
    return words


def main():
    words = parsed()
    answers.SBLISTD = os.path.join(words.programs, "sblistd")
    with tempfile.TemporaryDirectory(prefix="proxy-") as folder, tempfile.TemporaryDirectory(prefix="proxy-", dir=words.stores) as stores:
        lists = Lists(folder, words.prefixes)
        print(f"sbproxy serve, a list of {lists.count:,} hashes; {words.clients} processes ask, on {os.cpu_count()} processors", flush=True)
        measure(lists, stores, words)
    return 0


if __name__ == "__main__":
    sys.exit(main())
