#!/usr/bin/env python3
"""Puts two built mirrors in a row behind a built `sblistd`, and twenty built clients behind them, while the journal grows.

With each change of the journal two hosts come, and one goes later: how many there are tells the versions apart, as in beside.py. Each set
that a mirror or a client has saved has to be the set of a version, whenever it is looked at. The first mirror is killed and started again,
then the second, and then all clients, one after the other: a client whose request fails would wait for a quarter of an hour and more.
When the journal stands still, all have to come to its newest set.

Then a mirror of a server that takes connections and says nothing is asked, before its first round, beside a round that is open, and beside
a find that is open too. Each fetch has to be answered within 50 ms, and a find 502 after 5 s, and the next 503 at once. Beside 100 silent
peers the mirror may run for 20 ms in 2 s: its loop has nothing to do.

A mirror and a client wait for up to a minute, at random, before their first request. It takes up to eight minutes.

    mirror.py [--clients N] [--programs FOLDER]
"""

import argparse
import base64
import json
import os
import socket
import subprocess
import sys
import tempfile
import threading
import time

REPOSITORY = os.path.dirname(os.path.dirname(os.path.abspath(__file__)))
sys.path.insert(0, os.path.join(REPOSITORY, "compare"))

from beside import FIRST_VERSION, LIST, Journal, Server, set_at, version_of  # noqa: E402
from judging import NoStore, read_store  # noqa: E402
from readme import free_port  # noqa: E402

STEP = 0.5  # seconds from change to change
LONGEST = 240.0
FETCHES, FETCH_MILLIS = 50, 50.0
SILENT, IDLE_SECONDS, IDLE_MILLIS = 100, 2.0, 20.0
FIND_SECONDS = (4.5, 8.0)
FETCH, FIND = "/v4/threatListUpdates:fetch", "/v4/fullHashes:find"


class Wrong(Exception):
    """Something did what it may not do, as the exception's text says."""


# ---- what runs


class Run:
    """A run of a program with these words, which can be killed and started again. It has a store."""

    def __init__(self, name, words, store, folder):
        self.name, self.words, self.store, self.folder, self.ran, self.starts = name, words, store, folder, None, 0

    def start(self):
        self.starts += 1
        with open(os.path.join(self.folder, f"{self.name}-{self.starts}"), "wb") as printed:
            self.ran = subprocess.Popen(self.words, stdout=printed, stderr=subprocess.STDOUT)

    def kill(self):
        if self.ran is not None:
            self.ran.kill()
            self.ran.wait()

    def again(self):
        self.kill()
        self.start()

    def version(self):
        """The version of its set, or none while it has no store. It runs, and its set is that of a version."""
        if self.ran is not None and self.ran.poll() is not None:
            raise Wrong(f"{self.name} ended with status {self.ran.returncode}")
        try:
            with open(self.store, "rb") as file:
                held = read_store(file.read())[0][LIST]
        except FileNotFoundError:
            return None
        except NoStore as cause:
            raise Wrong(f"{self.name} has no store any more: {cause}") from cause
        found = version_of(len(held[1]))
        if sorted(held[1]) != set_at(found)[1]:
            raise Wrong(f"{self.name} holds {len(held[1])} prefixes that are those of no version")
        return found


class Growing:
    """A journal that grows until the block ends."""

    def __init__(self, journal):
        self.journal, self.stopped = journal, threading.Event()
        self.thread = threading.Thread(target=self.grow)

    def grow(self):
        while not self.stopped.wait(STEP):
            self.journal.grow()

    def __enter__(self):
        self.thread.start()
        return self

    def __exit__(self, *_):
        self.stopped.set()
        self.thread.join()


def wait_for(runs, version, what):
    """Waits until each holds this version or a later one, and looks at all their sets meanwhile."""
    began = time.monotonic()
    while True:
        held = [run.version() for run in runs]
        if all(it is not None and it >= version for it in held):
            print(f"{what}: {len(runs)} sets of version {version} or later, after {time.monotonic() - began:.0f} s", flush=True)
            return
        if time.monotonic() - began > LONGEST:
            late = [f"{run.name} at {it}" for run, it in zip(runs, held) if it is None or it < version]
            raise Wrong(f"{what}: not at version {version} after {LONGEST:.0f} s: {', '.join(late)}")
        time.sleep(0.2)


def mirror(programs, name, server, port, folder):
    store = os.path.join(folder, f"{name}.store")
    words = [os.path.join(programs, "sbmirror"), "serve", "--store", store, "--server", server, "--listen", f"127.0.0.1:{port}", "--wait", "1", LIST]
    return Run(name, words, store, folder)


def client(programs, name, port, folder):
    store = os.path.join(folder, f"{name}.store")
    words = [os.path.join(programs, "sbupdate"), "run", "--store", store, "--server", f"127.0.0.1:{port}", LIST]
    return Run(name, words, store, folder)


def row_of_mirrors(programs, count, folder):
    """Two mirrors in a row and their clients come to the newest set, killed and started again. Gives the store of the second mirror."""
    journal = Journal(os.path.join(folder, "journal"))
    while journal.version < FIRST_VERSION:
        journal.grow()
    ports = free_port(), free_port()
    with open(os.path.join(folder, "served"), "wb") as printed, Server(os.path.join(programs, "sblistd"), journal.path, 1, printed) as server:
        mirrors = [
            mirror(programs, "mirror-1", server, ports[0], folder),
            mirror(programs, "mirror-2", f"127.0.0.1:{ports[0]}", ports[1], folder),
        ]
        clients = [client(programs, f"client-{number}", ports[number % 2], folder) for number in range(1, count + 1)]
        runs = [*mirrors, *clients]
        try:
            for run in runs:
                run.start()
            with Growing(journal):
                wait_for(runs, FIRST_VERSION, "the journal grows")
                wait_for(runs, journal.version, "it grows on")
                for run in runs:
                    run.again()
                    # the next one finds who it asks at its port
                    time.sleep(0.5 if run in mirrors else 0.05)
                wait_for(runs, journal.version, "all but the server were killed")
            wait_for(runs, journal.version, f"the journal stands at version {journal.version}")
        finally:
            for run in runs:
                run.kill()
    return mirrors[1].store


# ---- a server that says nothing


class SilentServer:
    """It takes connections, and says nothing, until the block ends."""

    def __init__(self):
        self.socket = socket.create_server(("127.0.0.1", 0), backlog=128)
        self.port, self.taken = self.socket.getsockname()[1], []
        self.thread = threading.Thread(target=self.take, daemon=True)

    def take(self):
        try:
            while True:
                self.taken.append(self.socket.accept()[0])
        except OSError:
            pass

    def __enter__(self):
        self.thread.start()
        return self

    def __exit__(self, *_):
        self.socket.close()
        for one in self.taken:
            one.close()


def asked(port, path, message):
    """The status and the body that a POST is answered with, and after how many seconds."""
    body = json.dumps(message).encode("ascii")
    head = f"POST {path} HTTP/1.1\r\nHost: a\r\nContent-Length: {len(body)}\r\n\r\n".encode("ascii")
    began = time.monotonic()
    text = b""
    with socket.create_connection(("127.0.0.1", port), timeout=30) as one:
        one.sendall(head + body)
        while True:
            piece = one.recv(65_536)
            if not piece:
                break
            text += piece
    status = int(text[9:12]) if text.startswith(b"HTTP/1.1 ") else 0
    return status, text.partition(b"\r\n\r\n")[2], time.monotonic() - began


def fetch_message():
    threat, platform, entry = LIST.split("/")
    item = {"threatType": threat, "platformType": platform, "threatEntryType": entry, "constraints": {"supportedCompressions": ["RAW"]}}
    return {"listUpdateRequests": [item]}


def find_message():
    threat, platform, entry = LIST.split("/")
    asks = {"threatTypes": [threat], "platformTypes": [platform], "threatEntryTypes": [entry]}
    return {"threatInfo": {**asks, "threatEntries": [{"hash": base64.b64encode(b"1234").decode("ascii")}]}}


def look_at_fetches(port, what):
    """Each of some fetches is answered in time, with the list."""
    took = []
    for _ in range(FETCHES):
        status, body, seconds = asked(port, FETCH, fetch_message())
        if status != 200 or len(json.loads(body).get("listUpdateResponses", [])) != 1:
            raise Wrong(f"a fetch {what} was answered {status} {body[:80]}")
        took.append(1_000 * seconds)
    print(f"{FETCHES} fetches {what}: the longest took {max(took):.1f} ms, the median {sorted(took)[FETCHES // 2]:.1f} ms", flush=True)
    if max(took) > FETCH_MILLIS:
        raise Wrong(f"a fetch {what} took {max(took):.1f} ms")


def processor_millis(pid):
    """For how many milliseconds the threads of a process have run."""
    found = 0
    for thread in os.listdir(f"/proc/{pid}/task"):
        with open(f"/proc/{pid}/task/{thread}/schedstat", encoding="ascii") as file:
            found += int(file.read().split()[0])
    return found / 1e6


def look_at_idle(pid, what):
    before = processor_millis(pid)
    time.sleep(IDLE_SECONDS)
    took = processor_millis(pid) - before
    print(f"beside {SILENT} silent peers {what} it ran for {took:.1f} ms in {IDLE_SECONDS:.0f} s", flush=True)
    if took > IDLE_MILLIS:
        raise Wrong(f"with nothing to do it ran for {took:.1f} ms in {IDLE_SECONDS:.0f} s {what}")


def wait_until(reached, seconds, what):
    end = time.monotonic() + seconds
    while not reached():
        if time.monotonic() > end:
            raise Wrong(what)
        time.sleep(0.05)


class Find(threading.Thread):
    """A find that is on its way."""

    def __init__(self, port):
        super().__init__(daemon=True)
        self.port, self.status, self.seconds = port, None, None

    def run(self):
        self.status, _, self.seconds = asked(self.port, FIND, find_message())


def passed_on(port, server):
    """A find that the mirror has passed on. Until its first moment has come, a mirror refuses each at once."""
    end = time.monotonic() + 70
    while time.monotonic() < end:
        count, find = len(server.taken), Find(port)
        find.start()
        find.join(0.5)
        if find.is_alive() and len(server.taken) > count:
            return find
        find.join()
        if find.status != 503:
            raise Wrong(f"a find that was not passed on was answered {find.status}")
        time.sleep(1)
    raise Wrong("no find was passed on")


def look_at_silence(pid, port, server, peers):
    """What a mirror does while its server says nothing."""
    look_at_fetches(port, "before the first round")
    wait_until(lambda: server.taken, 70, "no round was begun")
    look_at_fetches(port, "beside an open round")
    peers += [socket.create_connection(("127.0.0.1", port)) for _ in range(SILENT)]
    time.sleep(0.5)
    look_at_idle(pid, "and an open round")
    find = passed_on(port, server)
    look_at_fetches(port, "beside an open find")
    look_at_idle(pid, "and an open find")
    find.join()
    if find.status != 502 or not FIND_SECONDS[0] <= find.seconds <= FIND_SECONDS[1]:
        raise Wrong(f"a find was answered {find.status} after {find.seconds:.1f} s")
    status, _, seconds = asked(port, FIND, find_message())
    if status != 503 or 1_000 * seconds > FETCH_MILLIS:
        raise Wrong(f"a further find was answered {status} after {1_000 * seconds:.1f} ms")
    print(f"a find was answered 502 after {find.seconds:.1f} s, and the next one 503 after {1_000 * seconds:.1f} ms", flush=True)


def silent_server(programs, store, folder):
    port = free_port()
    with SilentServer() as server:
        words = [os.path.join(programs, "sbmirror"), "serve", "--store", store, "--server", f"127.0.0.1:{server.port}"]
        run = Run("beside-silence", [*words, "--listen", f"127.0.0.1:{port}", LIST], store, folder)
        run.start()
        peers = []
        try:
            time.sleep(1)
            look_at_silence(run.ran.pid, port, server, peers)
        finally:
            for one in peers:
                one.close()
            run.kill()


def main():
    parser = argparse.ArgumentParser(description="Puts two mirrors and twenty clients behind a server.")
    parser.add_argument("--clients", type=int, default=20)
    parser.add_argument("--programs", default=os.path.join(REPOSITORY, "bin"))
    words = parser.parse_args()
    missing = [it for it in ("sblistd", "sbmirror", "sbupdate") if not os.path.isfile(os.path.join(words.programs, it))]
    if missing:
        print(f"try-mirror: there is no {', '.join(missing)}", file=sys.stderr)
        return 1
    with tempfile.TemporaryDirectory(prefix="mirror-") as folder:
        try:
            store = row_of_mirrors(words.programs, words.clients, folder)
            silent_server(words.programs, store, folder)
        except Wrong as fault:
            print(f"try-mirror: {fault}", file=sys.stderr)
            return 1
    return 0


if __name__ == "__main__":
    sys.exit(main())
