#!/usr/bin/env python3
"""Drives a built `sblistd serve` with slow peers, and measures how long good clients wait beside them.

For each kind of slow peer and each number of them, the peers are kept for --seconds, a minute where that is left out, and a
good client asks once a second: heads and bodies of which a byte comes a second, readers of an answer of 100,000 bytes that
take 4 KB a second, silence, and heads that are broken off by a reset. Then ten such readers take an answer of 1,048,576
prefixes, all begun before the first good client. Where `slowhttptest` is installed, its slow heads, bodies and readers are
tried too. It prints a table: the median and the longest wait of the good clients, and how many were not answered within a
second. It fails where one was not, where there was no time for all the peers, and where the server does not tell a reset in a
head as a read fault. It raises its own limit of descriptors, and so the server's, which it starts: with the usual limit
`attack.py` tries it.

    slow.py [--seconds N] [--peers N,N,..] [--program COMMAND]
"""

import argparse
import hashlib
import os
import re
import resource
import shlex
import shutil
import signal
import socket
import statistics
import struct
import subprocess
import sys
import tempfile
import time

REPOSITORY = os.path.dirname(os.path.dirname(os.path.abspath(__file__)))
LIST = "MALWARE/ANY_PLATFORM/URL"
# so many prefixes of four bytes are 100,000 bytes in base64
SOME_HASHES = 18_750
MANY_HASHES = 1_048_576
A_CHANGE = 1_024
READERS = 10
A_SECOND = 4_096
BOUND = 1.0
BODY = (
    b'{"client":{"clientId":"a","clientVersion":"1"},"listUpdateRequests":[{"threatType":"MALWARE",'
    b'"platformType":"ANY_PLATFORM","threatEntryType":"URL","state":"","constraints":{"supportedCompressions":["RAW"]}}]}'
)
HEAD = b"POST /v4/threatListUpdates:fetch HTTP/1.1\r\nHost: a\r\nContent-Length: %d\r\n\r\n" % len(BODY)
GOOD = b"GET /none HTTP/1.1\r\nHost: a\r\n\r\n"
KINDS = ("slow heads", "slow bodies", "slow reading", "silence", "resets")
TOOLS = {"slow heads": "-H", "slow bodies": "-B", "slow reading": "-X"}


def raise_limit():
    hard = resource.getrlimit(resource.RLIMIT_NOFILE)[1]
    resource.setrlimit(resource.RLIMIT_NOFILE, (hard, hard))


def write_journal(path, count):
    hashes = sorted(hashlib.sha256(it.to_bytes(4, "big")).hexdigest() for it in range(count))
    with open(path, "w", encoding="ascii") as file:
        file.write(f"sblist 1 0000000000000001\nlist {LIST} 4\n")
        for at in range(0, count, A_CHANGE):
            added = hashes[at : at + A_CHANGE]
            file.write(f"change {LIST} {len(added)} 0\n")
            file.writelines(f"+{it}\n" for it in added)


class Server:
    """A server of a journal, which is ended with the block. `before` is called in its process before it begins."""

    def __init__(self, program, journal, *more, stdout=subprocess.DEVNULL, before=None):
        words = shlex.split(program) + ["serve", "--journal", journal, "--listen", "127.0.0.1:0", *more]
        self.ran = subprocess.Popen(words, stdout=stdout, stderr=subprocess.PIPE, text=True, preexec_fn=before)
        line = self.ran.stderr.readline()
        found = re.search(r":(\d+)$", line.strip())
        if not found:
            self.ran.kill()
            sys.exit(f"slow: the server did not tell its port: {line!r}")
        self.port = int(found[1])

    def __enter__(self):
        return self.port

    def __exit__(self, *_):
        self.ran.kill()
        self.ran.wait()
        self.ran.stderr.close()


def close_by_reset(stream):
    stream.setsockopt(socket.SOL_SOCKET, socket.SO_LINGER, struct.pack("ii", 1, 0))
    stream.close()


class Peer:
    """A slow peer of a kind: what it sends at once, and what it does each second."""

    def __init__(self, kind, port):
        self.kind, self.port, self.sent, self.stream = kind, port, 0, None
        self.whole = HEAD + BODY
        self.connect()

    def connect(self):
        self.close()
        self.sent = 0
        try:
            self.stream = socket.socket()
            if self.kind == "slow reading":
                self.stream.setsockopt(socket.SOL_SOCKET, socket.SO_RCVBUF, A_SECOND)
            self.stream.settimeout(1)
            self.stream.connect(("127.0.0.1", self.port))
            self.stream.setblocking(False)
            if self.kind == "slow bodies":
                self.send(len(HEAD))
            elif self.kind == "slow reading":
                self.send(len(self.whole))
        except OSError:
            self.close()

    def close(self):
        if self.stream is not None:
            self.stream.close()
        self.stream = None

    def send(self, count):
        piece = self.whole[self.sent : self.sent + count]
        self.sent += self.stream.send(piece) if piece else 0

    def reset(self):
        close_by_reset(self.stream)
        self.stream = None
        self.connect()

    def step(self):
        if self.stream is None:
            self.connect()
            return
        try:
            if self.kind in ("slow heads", "slow bodies"):
                self.send(1)
            elif self.kind == "resets":
                self.send(10)
                self.reset()
                return
            if self.stream.recv(A_SECOND if self.kind == "slow reading" else 1) == b"":
                self.connect()
        except BlockingIOError:
            pass
        except OSError:
            self.connect()


def wait_of_good(port, source=None):
    """How long a good client waits, which may come from another address, or `None` if it is not answered."""
    begun = time.monotonic()
    try:
        with socket.create_connection(("127.0.0.1", port), timeout=30, source_address=source and (source, 0)) as stream:
            stream.sendall(GOOD)
            if not stream.recv(64).startswith(b"HTTP/1.1 404"):
                return None
    except OSError:
        return None
    return time.monotonic() - begun


def ask_once_a_second(port, seconds, each_turn):
    """The waits of good clients, one a second: `None` is one that was not answered."""
    waits, begun = [], time.monotonic()
    for turn in range(seconds):
        each_turn(begun + turn + 0.8)
        waits.append(wait_of_good(port))
        time.sleep(max(0, begun + turn + 1 - time.monotonic()))
    return waits


def tell(kind, count, waits):
    """Prints a row, and says how many were not answered in time."""
    late = sum(wait is None or wait > BOUND for wait in waits)
    waits = [wait for wait in waits if wait is not None] or [float("nan")]
    middle, longest = statistics.median(waits) * 1e3, max(waits) * 1e3
    print(f"| {kind} | {count:,} | {middle:.1f} ms | {longest:.1f} ms | {late} |", flush=True)
    return late


def is_read_fault(program, journal):
    """Whether a head that is broken off by a reset has its turn, in which it cannot be read."""
    server = Server(program, journal, "--connections", "2", stdout=subprocess.PIPE)
    with server as port:
        stream = socket.create_connection(("127.0.0.1", port))
        stream.sendall(GOOD[:10])
        time.sleep(0.5)
        close_by_reset(stream)
        time.sleep(0.5)
        wait_of_good(port)
        lines = server.ran.stdout.read().splitlines()
    print(*lines, sep="\n")
    return "connection 1 read-fault" in lines


def is_answered_behind_urgent_data(program, journal):
    """Whether a request is answered within a second whose rest is there when a read stops at urgent data in it."""
    server = Server(program, journal)
    with server as port, socket.create_connection(("127.0.0.1", port), timeout=BOUND) as stream:
        # (it is taken first, so that what comes is reported while the server stands still, and is read then)
        time.sleep(0.5)
        server.ran.send_signal(signal.SIGSTOP)
        stream.sendall(GOOD[:10])
        stream.send(b"!", socket.MSG_OOB)
        stream.sendall(GOOD[10:])
        server.ran.send_signal(signal.SIGCONT)
        try:
            return stream.recv(64).startswith(b"HTTP/1.1 404")
        except OSError:
            return False


def measure(port, kind, count, seconds):
    peers = []

    def each_turn(until):
        while len(peers) < count and time.monotonic() < until:
            peers.append(Peer(kind, port))
        for peer in peers:
            peer.step()

    waits = ask_once_a_second(port, seconds, each_turn)
    for peer in peers:
        peer.close()
    return tell(kind, len(peers), waits) + (len(peers) < count)


def measure_readers(port, seconds):
    """Readers of a long answer, all of which have its first byte before the first good client asks."""
    readers = [Peer("slow reading", port) for _ in range(READERS)]
    for reader in readers:
        reader.stream.settimeout(120)
        if reader.stream.recv(1) == b"":
            sys.exit("slow: a reader of a long answer was closed")
        reader.stream.setblocking(False)
    waits = ask_once_a_second(port, seconds, lambda _: [reader.step() for reader in readers])
    for reader in readers:
        reader.close()
    return tell(f"readers of {MANY_HASHES:,} prefixes", READERS, waits)


def measure_tool(port, kind, count, seconds):
    url = f"http://127.0.0.1:{port}/v4/threatLists"
    words = ["slowhttptest", TOOLS[kind], "-c", str(count), "-r", "500", "-i", "1", "-l", str(seconds), "-p", "1", "-v", "0", "-u", url]
    with subprocess.Popen(words, stdin=subprocess.DEVNULL, stdout=subprocess.DEVNULL, stderr=subprocess.DEVNULL) as tool:
        waits = ask_once_a_second(port, seconds, lambda _: None)
        tool.kill()
    return tell(f"{kind} of slowhttptest", count, waits)


def main():
    parser = argparse.ArgumentParser()
    parser.add_argument("--seconds", type=int, default=60)
    parser.add_argument("--peers", default="50,900,2000")
    parser.add_argument("--program", default=os.path.join(REPOSITORY, "bin", "sblistd"))
    said = parser.parse_args()
    counts = [int(count) for count in said.peers.split(",")]
    raise_limit()
    late = 0
    with tempfile.TemporaryDirectory(prefix="slow-") as room:
        some, many = os.path.join(room, "some"), os.path.join(room, "many")
        write_journal(some, SOME_HASHES)
        write_journal(many, MANY_HASHES)
        if not is_read_fault(said.program, some):
            sys.exit("slow: a reset in a head was not told as a read fault")
        if not is_answered_behind_urgent_data(said.program, some):
            sys.exit("slow: a request with urgent data in it was not answered")
        print("| Slow peers | How many | Median wait | Longest wait | Not within 1 s |")
        print("|---|---|---|---|---|")
        for kind in KINDS:
            for count in counts:
                with Server(said.program, some) as port:
                    late += measure(port, kind, count, said.seconds)
        with Server(said.program, many) as port:
            late += measure_readers(port, said.seconds)
        has_tool = shutil.which("slowhttptest") is not None
        for kind in TOOLS if has_tool else ():
            for count in counts:
                with Server(said.program, some) as port:
                    late += measure_tool(port, kind, count, said.seconds)
    if not has_tool:
        print("slow: slowhttptest is not installed, so only this script's own peers were tried")
    return 1 if late else 0


if __name__ == "__main__":
    sys.exit(main())
