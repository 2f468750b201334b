#!/usr/bin/env python3
"""Asks a built proxy of a built `sblistd` for URLs side by side while the journal grows, and proxies of servers that do not answer.

With each change of the journal two hosts come, and one goes later, as in beside.py. Some look-ups are asked by several threads, and some
by `curl`, if that is installed. Each answer has to be right for a version that stood during its request: one that the proxy held, or that
the journal had. The proxy is killed (SIGKILL) and started again in between. It has to be ready at once then, with its store.

Then four proxies begin with that store, and their servers do not answer: one takes connections and says nothing, one sends a byte now and
then, one is away, and one has a name that leads nowhere. Each look-up without a hit has to be answered within 50 ms, for a minute and as
long as it takes until a look-up with a hit is answered 503, since its find failed. A further one has to be answered 503 at once.

A proxy waits for up to a minute, at random, before its first round, and before its first find. It takes up to ten minutes.

    proxy.py [--requests N] [--seconds N] [--programs FOLDER]
"""

import argparse
import http.client
import json
import os
import random
import shutil
import socket
import subprocess
import sys
import tempfile
import threading
import time

REPOSITORY = os.path.dirname(os.path.dirname(os.path.abspath(__file__)))

from beside import FIRST_VERSION, LIST, Journal, Server, is_listed, some_urls  # noqa: E402
from mirror import Growing, Run, SilentServer, Wrong, wait_until  # noqa: E402
from readme import free_port  # noqa: E402

LOOK = "/v4/threatMatches:find"
THREADS, A_REQUEST, BY_CURL = 8, 20, 5  # of so many requests curl asks one
PAUSE = 0.4  # seconds between the requests of a thread, at most
LONGEST = 200.0  # two waits before a first session, and a find's time
MOST_MILLIS = 50.0
AT_ONCE = 1.0
TRICKLE = 0.5
HIT = ("a1.example", "http://a1.example/")


# ---- asking


def look_message(urls):
    threat, platform, entry = LIST.split("/")
    asks = {"threatTypes": [threat], "platformTypes": [platform], "threatEntryTypes": [entry]}
    if urls:
        asks["threatEntries"] = [{"url": url} for url in urls]
    return json.dumps({"threatInfo": asks})


def asked(port, urls):
    """The status and the body that a look-up is answered with."""
    one = http.client.HTTPConnection("127.0.0.1", int(port), timeout=LONGEST)
    try:
        one.request("POST", LOOK, look_message(urls))
        answer = one.getresponse()
        return answer.status, answer.read()
    finally:
        one.close()


def asked_by_curl(port, urls):
    words = ["curl", "-s", "-m", str(int(LONGEST)), "-d", look_message(urls), "-w", "\n%{http_code}", f"http://127.0.0.1:{port}{LOOK}"]
    body, _, status = subprocess.run(words, capture_output=True, check=False).stdout.rpartition(b"\n")
    return int(status or 0), body


def matched(body, urls):
    """The URLs of an answer's matches, each of which is one that was asked for, on the list."""
    threat, platform, entry = LIST.split("/")
    found = set()
    for one in json.loads(body).get("matches", []):
        url = one.get("threat", {}).get("url")
        if url not in urls or (one["threatType"], one["platformType"], one["threatEntryType"]) != (threat, platform, entry):
            raise Wrong(f"a match that nobody asked for: {one}")
        found.add(url)
    return found


def is_ready(port):
    """Whether a look-up without URLs is answered 200. None is answered otherwise than 200 and 503."""
    status, body = asked(port, [])
    if (status, body) not in ((200, b"{}"), (503, b"")):
        raise Wrong(f"a look-up without URLs was answered {status} {body[:80]}")
    return status == 200


def see_hit(port, wanted, what):
    """What a look-up of a host that is listed at each version is answered, and after how many seconds."""
    began = time.monotonic()
    status, body = asked(port, [HIT[1]])
    if status != wanted or (status == 200 and matched(body, [HIT[1]]) != {HIT[1]}):
        raise Wrong(f"{what} a listed URL was answered {status} {body[:80]}")
    return time.monotonic() - began


# ---- beside a journal that grows


class Asking(threading.Thread):
    """Some requests, one after the other, whose answers are held to the versions that stood meanwhile."""

    def __init__(self, run, port, journal, count, seed):
        super().__init__(daemon=True)
        self.run_of, self.port, self.journal, self.count = run, port, journal, count
        self.rand, self.fault, self.hits, self.open = random.Random(seed), None, 0, 0

    def look(self, number):
        urls = dict(map(reversed, some_urls(self.rand, A_REQUEST, "abc", self.journal.version + 20)))
        first = self.run_of.version()
        by_curl = number % BY_CURL == 0 and shutil.which("curl")
        status, body = (asked_by_curl if by_curl else asked)(self.port, list(urls))
        last, newest = self.run_of.version(), self.journal.version + 1
        if status != 200:
            raise Wrong(f"a look-up was answered {status}")
        found = matched(body, urls)
        self.hits += len(found)
        for url, host in urls.items():
            held = [is_listed(host, version) for version in range(first, last + 1)]
            right = any(held) if url in found else not all(held) or not is_listed(host, newest)
            if not right:
                raise Wrong(f"{url} is {'' if url in found else 'not '}listed, while versions {first} to {last} were held, and {newest} was the newest")

    def run(self):
        try:
            for number in range(self.count):
                self.look(number)
                time.sleep(self.rand.random() * PAUSE)
        except (Wrong, OSError, http.client.HTTPException, ValueError) as fault:
            self.fault = fault


def ask_side_by_side(run, port, journal, count, what):
    threads = [Asking(run, port, journal, (count + THREADS - 1) // THREADS, seed) for seed in range(THREADS)]
    first = run.version()
    for one in threads:
        one.start()
    for one in threads:
        one.join()
    for one in threads:
        if one.fault:
            raise Wrong(f"{what}: {one.fault}")
    asks, hits = sum(one.count for one in threads), sum(one.hits for one in threads)
    print(f"{what}: {asks} look-ups of {A_REQUEST} URLs, {hits} matches, while versions {first} to {run.version()} were held", flush=True)
    if not hits:
        raise Wrong(f"{what}: no URL was listed")


def proxy(programs, name, server, port, store, folder):
    words = [os.path.join(programs, "sbproxy"), "serve", "--store", store, "--server", server, "--listen", f"127.0.0.1:{port}", LIST]
    return Run(name, words, store, folder)


def first_round(run, port):
    wait_until(lambda: has_port(port), 10, "the proxy takes no connection")
    if is_ready(port):
        raise Wrong("a proxy without a list was ready")
    status, body = asked(port, ["http://c1.example/"])
    if (status, body) != (503, b""):
        raise Wrong(f"a look-up before the first round was answered {status} {body[:80]}")
    began = time.monotonic()
    wait_until(lambda: is_ready(port), 70, "the proxy has made no round")
    print(f"before the first round each look-up was answered 503, and after {time.monotonic() - began:.0f} s it was ready", flush=True)
    print(f"a listed URL was answered after {see_hit(port, 200, 'with its first find'):.1f} s", flush=True)
    if asked(port, ["http://c1.example/"]) != (200, b"{}"):
        raise Wrong("a URL that is not listed was answered otherwise than 200 {}")


def has_port(port):
    try:
        with socket.create_connection(("127.0.0.1", int(port)), timeout=1):
            return True
    except OSError:
        return False


def beside_journal(programs, count, folder):
    """Asks a proxy of a server whose journal grows, and kills it. Gives its store."""
    journal = Journal(os.path.join(folder, "journal"))
    while journal.version < FIRST_VERSION:
        journal.grow()
    port, store = free_port(), os.path.join(folder, "store")
    with open(os.path.join(folder, "served"), "wb") as printed, Server(os.path.join(programs, "sblistd"), journal.path, 1, printed) as server:
        run = proxy(programs, "proxy", server, port, store, folder)
        try:
            run.start()
            first_round(run, port)
            with Growing(journal):
                ask_side_by_side(run, port, journal, count, "the journal grows")
                run.kill()
                began = time.monotonic()
                run.start()
                wait_until(lambda: has_port(port), 10, "the proxy takes no connection after it was killed")
                if not is_ready(port):
                    raise Wrong("after it was killed the proxy had no lists")
                if asked(port, ["http://c1.example/"]) != (200, b"{}"):
                    raise Wrong("after it was killed a URL without a hit was not answered 200 {}")
                print(f"killed and started again, it was ready with its store after {time.monotonic() - began:.2f} s", flush=True)
                ask_side_by_side(run, port, journal, count // 4, "it was killed")
        finally:
            run.kill()
    return store


# ---- servers that do not answer


class TricklingServer(SilentServer):
    """It sends each connection a byte of a head now and then."""

    def __init__(self):
        super().__init__()
        self.closed = threading.Event()
        self.sending = threading.Thread(target=self.send, daemon=True)

    def send(self):
        text = b"HTTP/1.1 200 OK\r\nX-Slow: " + b"a" * 10_000
        while not self.closed.wait(TRICKLE):
            for one in self.taken:
                self.sent[one] = self.sent.get(one, 0) + 1
                try:
                    one.sendall(text[self.sent[one] - 1 : self.sent[one]])
                except OSError:
                    pass

    def __enter__(self):
        self.sent = {}
        self.sending.start()
        return super().__enter__()

    def __exit__(self, *words):
        self.closed.set()
        super().__exit__(*words)


class Quiet(threading.Thread):
    """A proxy whose server does not answer: it is asked for URLs without a hit, beside a look-up with one."""

    def __init__(self, programs, what, server, store, seconds, folder):
        super().__init__(daemon=True)
        self.what, self.seconds, self.fault, self.took = what, seconds, None, []
        self.port, name = free_port(), what.replace(" ", "-")
        copy = os.path.join(folder, f"{name}.store")
        shutil.copy(store, copy)
        self.proxy = proxy(programs, name, server, self.port, copy, folder)

    def ask(self, number):
        began = time.monotonic()
        found = asked(self.port, [f"http://c{number}.example/"])
        self.took.append(1_000 * (time.monotonic() - began))
        if found != (200, b"{}"):
            raise Wrong(f"a look-up without a hit was answered {found[0]} {found[1][:80]}")

    def look(self):
        wait_until(lambda: has_port(self.port), 10, "the proxy takes no connection")
        hit = Hit(self.port)
        hit.start()
        began, number = time.monotonic(), 0
        while hit.is_alive() or time.monotonic() - began < self.seconds:
            number += 1
            self.ask(number)
            time.sleep(0.02)
        if hit.fault:
            raise Wrong(hit.fault)
        again = see_hit(self.port, 503, "after a find that failed")
        self.proxy.version()
        took = sorted(self.took)
        print(
            f"{self.what}: {len(took)} look-ups without a hit in {time.monotonic() - began:.0f} s, the median {took[len(took) // 2]:.1f} ms, the "
            f"longest {took[-1]:.1f} ms; one with a hit was answered 503 after {hit.seconds:.1f} s, and the next after {1_000 * again:.1f} ms",
            flush=True,
        )
        if took[-1] > MOST_MILLIS:
            raise Wrong(f"a look-up without a hit took {took[-1]:.1f} ms")
        if again > AT_ONCE:
            raise Wrong(f"after a find that failed a listed URL was answered after {again:.1f} s")

    def run(self):
        self.proxy.start()
        try:
            self.look()
        except (Wrong, OSError, http.client.HTTPException) as fault:
            self.fault = fault
        finally:
            self.proxy.kill()


class Hit(threading.Thread):
    """A look-up of a listed URL, which waits until its find has failed."""

    def __init__(self, port):
        super().__init__(daemon=True)
        self.port, self.seconds, self.fault = port, None, None

    def run(self):
        try:
            self.seconds = see_hit(self.port, 503, "beside a server that does not answer")
        except (Wrong, OSError, http.client.HTTPException) as fault:
            self.fault = fault


def without_server(programs, store, seconds, folder):
    with SilentServer() as silent, TricklingServer() as trickling:
        servers = [
            ("a server that says nothing", f"127.0.0.1:{silent.port}"),
            ("a server that trickles", f"127.0.0.1:{trickling.port}"),
            ("a server that is away", f"127.0.0.1:{free_port()}"),
            ("a name that leads nowhere", "lists.invalid:80"),
        ]
        asking = [Quiet(programs, what, server, store, seconds, folder) for what, server in servers]
        for one in asking:
            one.start()
        for one in asking:
            one.join()
    for one in asking:
        if one.fault:
            raise Wrong(f"{one.what}: {one.fault}")


def main():
    parser = argparse.ArgumentParser(description="Asks a proxy for URLs while its journal grows, and proxies of servers that do not answer.")
    parser.add_argument("--requests", type=int, default=200)
    parser.add_argument("--seconds", type=float, default=60.0)
    parser.add_argument("--programs", default=os.path.join(REPOSITORY, "bin"))
    words = parser.parse_args()
    missing = [it for it in ("sblistd", "sbproxy") if not os.path.isfile(os.path.join(words.programs, it))]
    if missing:
        print(f"try-proxy: there is no {', '.join(missing)}", file=sys.stderr)
        return 1
    with tempfile.TemporaryDirectory(prefix="proxy-") as folder:
        try:
            store = beside_journal(words.programs, words.requests, folder)
            without_server(words.programs, store, words.seconds, folder)
        except Wrong as fault:
            print(f"try-proxy: {fault}", file=sys.stderr)
            return 1
    return 0


if __name__ == "__main__":
    sys.exit(main())
