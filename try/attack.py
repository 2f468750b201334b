#!/usr/bin/env python3
"""Attacks a built `sblistd serve` over loopback, and says what it costs good clients.

1. Silence: with 1,024 open files, the default of a shell and of a unit, 3,000 peers that say nothing are kept, and a good
   client asks once a second. Each has to be answered within a second, and the server says once on standard error that it has
   no room.
2. A flood: one address asks for 200 dear answers at one moment, no two of one wish. Good clients of another address have to
   be answered within the longest of such answers and 0.2 seconds, each.
3. Gone: 100 dear answers are asked for at one moment by peers that reset their connections at once. None but those that have
   their turn then is made, so a good client of the same address has to be answered within two of such answers and 0.2 seconds.
4. An end: 100 peers are sent the whole list and read it slowly, and then the journal gets a bad line. The run has to end
   within 11 seconds: answers are sent on for 10.
5. Memory: the server is put under a limit of memory that refuses an answer. That one connection ends so, and the next is
   answered.

It prints a row for each and fails if one does not hold. It raises its own limit of open files, and the server's only where
nothing else is said.

It keeps the silent peers for --seconds, a minute if that is left out.

    attack.py [--seconds N] [--peers N] [--program COMMAND] [--only WORD]
"""

import argparse
import base64
import os
import resource
import select
import socket
import statistics
import subprocess
import sys
import tempfile
import time

from slow import GOOD, LIST, MANY_HASHES, REPOSITORY, SOME_HASHES, Peer, Server, close_by_reset, raise_limit, wait_of_good, write_journal

SILENT = 3_000
FILES = 1_024
DEAR = 200
READERS = 100
GONE = 100
FIRST_DEAR = 300
FAR = "127.0.0.2"
NO_ROOM = "has no room for a further connection"
A_SECOND = 4_096


def token(version):
    """The state token of a version of the one list."""
    return base64.b64encode(b"\x01" + (1).to_bytes(8, "big") + version.to_bytes(8, "big") + b"\x01\x06\x01").decode()


def request(state, update=0):
    threat, platform, entry = LIST.split("/")
    body = (
        '{"client":{"clientId":"a","clientVersion":"1"},"listUpdateRequests":[{"threatType":"%s","platformType":"%s",'
        '"threatEntryType":"%s","state":"%s","constraints":{"maxUpdateEntries":%d,"supportedCompressions":["RAW"]}}]}'
        % (threat, platform, entry, state, update)
    ).encode()
    head = "POST /v4/threatListUpdates:fetch HTTP/1.1\r\nHost: a\r\nContent-Length: %d\r\n\r\n" % len(body)
    return head.encode() + body


def connect(port):
    return socket.create_connection(("127.0.0.1", port), timeout=60)


def answer_to(stream):
    """All that a server sends on a connection."""
    pieces = []
    while piece := stream.recv(1 << 20):
        pieces.append(piece)
    return b"".join(pieces)


def tell(what, waits, bound):
    """Prints a row, and says whether each wait is within its bound."""
    late = sum(wait is None or wait > bound for wait in waits)
    known = [wait for wait in waits if wait is not None] or [float("nan")]
    print(
        f"| {what} | {statistics.median(known):.3f} s | {max(known):.3f} s | {bound:.3f} s | {late} of {len(waits)} |",
        flush=True,
    )
    return late == 0


def lower_files():
    resource.setrlimit(resource.RLIMIT_NOFILE, (FILES, FILES))


def silence(program, some, _many, seconds, most):
    server = Server(program, some, before=lower_files)
    with server as port:
        peers, waits, begun = [], [], time.monotonic()
        for turn in range(seconds):
            while len(peers) < most and time.monotonic() < begun + turn + 0.7:
                peers.append(Peer("silence", port))
            for peer in peers:
                if time.monotonic() < begun + turn + 0.8:
                    peer.step()
            waits.append(wait_of_good(port))
            time.sleep(max(0, begun + turn + 1 - time.monotonic()))
        for peer in peers:
            peer.close()
        server.ran.kill()
        told = server.ran.stderr.read().splitlines()
    held = tell(f"{len(peers):,} silent peers, {FILES:,} open files", waits, 1)
    if len(peers) < most:
        print(f"attack: there was time for {len(peers):,} silent peers alone")
        return False
    if most > FILES and [NO_ROOM in line for line in told] != [True]:
        print(f"attack: on standard error the server said {told}")
        return False
    return held


def flood(program, _some, many, *_):
    with Server(program, many) as port:
        # (the journal is read before the first is answered)
        wait_of_good(port)
        costs = []
        for version in range(FIRST_DEAR - 10, FIRST_DEAR):
            begun = time.monotonic()
            with connect(port) as stream:
                stream.sendall(request(token(version)))
                answer_to(stream)
            costs.append(time.monotonic() - begun)
        streams = []
        for at in range(DEAR):
            stream = connect(port)
            stream.sendall(request(token(FIRST_DEAR + at)))
            streams.append(stream)
        waits = [wait_of_good(port, FAR) for _ in range(20)]
        still = len(select.select(streams, [], [], 0)[0])
        for stream in streams:
            stream.close()
    if still == len(streams):
        print("attack: all dear answers were there before the good clients asked, so nothing was shown")
        return False
    return tell(f"{DEAR} requests of one address, {max(costs) * 1e3:.0f} ms each", waits, max(costs) + 0.2)


def gone(program, _some, many, *_):
    server = Server(program, many, stdout=subprocess.PIPE)
    with server as port:
        wait_of_good(port)
        begun = time.monotonic()
        with connect(port) as stream:
            stream.sendall(request(token(FIRST_DEAR - 1)))
            answer_to(stream)
        cost = time.monotonic() - begun
        streams = []
        for at in range(GONE):
            stream = connect(port)
            stream.sendall(request(token(FIRST_DEAR + at)))
            streams.append(stream)
        for stream in streams:
            close_by_reset(stream)
        wait = wait_of_good(port)
        server.ran.kill()
        lines = len(server.ran.stdout.read().splitlines())
    held = tell(f"{GONE} requests, reset at once, {cost * 1e3:.0f} ms each", [wait], 2 * cost + 0.2)
    if lines > GONE // 4:
        print(f"attack: {lines} connections had a turn")
        return False
    return held


def end(program, _some, many, *_):
    server = Server(program, many, stdout=subprocess.PIPE)
    with server as port:
        readers = []
        for _ in range(READERS):
            stream = socket.socket()
            stream.setsockopt(socket.SOL_SOCKET, socket.SO_RCVBUF, A_SECOND)
            stream.settimeout(60)
            stream.connect(("127.0.0.1", port))
            stream.sendall(request(""))
            readers.append(stream)
        for stream in readers:
            stream.recv(1)
        with open(many, "a", encoding="ascii") as journal:
            journal.write("no line of a journal\n")
        with connect(port) as stream:
            stream.sendall(GOOD)
            begun = time.monotonic()
            while server.ran.poll() is None and time.monotonic() < begun + 120:
                for reader in readers:
                    try:
                        reader.recv(A_SECOND, socket.MSG_DONTWAIT)
                    except OSError:
                        pass
                time.sleep(0.1)
            took = time.monotonic() - begun
        for reader in readers:
            reader.close()
        if server.ran.poll() != 7:
            print(f"attack: the run ended with {server.ran.poll()}, and not with 7")
            return False
    return tell(f"an end beside {READERS} slow readers of the whole list", [took], 11)


def size_of(pid):
    with open(f"/proc/{pid}/status", encoding="ascii") as file:
        for line in file:
            if line.startswith("VmSize:"):
                return int(line.split()[1]) * 1024
    return 0


def memory(program, _some, many, *_):
    server = Server(program, many, "--connections", "3", stdout=subprocess.PIPE)
    with server as port:
        if wait_of_good(port) is None:
            print("attack: the server answers nobody")
            return False
        most = size_of(server.ran.pid) + (1 << 21)
        resource.prlimit(server.ran.pid, resource.RLIMIT_AS, (most, most))
        with connect(port) as stream:
            stream.sendall(request(""))
            try:
                answer = answer_to(stream)
            except OSError:
                answer = b""
        wait = wait_of_good(port)
        lines = server.ran.stdout.read().split("\n")
    if answer and not b"HTTP/1.1 503 Service Unavailable".startswith(answer[:32]):
        print(f"attack: an answer for which there was no memory begins {answer[:32]!r}")
        return False
    if "connection 2 out-of-memory" not in lines:
        print(f"attack: the lines are {lines}")
        return False
    return tell("one behind a request that memory was refused to", [wait], 1)


ATTACKS = {"silence": silence, "flood": flood, "gone": gone, "end": end, "memory": memory}


def main():
    parser = argparse.ArgumentParser()
    parser.add_argument("--seconds", type=int, default=60)
    parser.add_argument("--peers", type=int, default=SILENT)
    parser.add_argument("--program", default=os.path.join(REPOSITORY, "bin", "sblistd"))
    parser.add_argument("--only", choices=ATTACKS)
    said = parser.parse_args()
    raise_limit()
    failed = 0
    print("| Attack | Median wait of good ones | Longest wait | Bound | Past it |")
    print("|---|---|---|---|---|")
    for name, attack in ATTACKS.items():
        if said.only in (None, name):
            # (each has journals of its own, since one of them ends the run by a bad line)
            with tempfile.TemporaryDirectory(prefix="attack-") as room:
                some, many = os.path.join(room, "some"), os.path.join(room, "many")
                write_journal(some, SOME_HASHES)
                if name != "silence":
                    write_journal(many, MANY_HASHES)
                failed += not attack(said.program, some, many, said.seconds, said.peers)
    return 1 if failed else 0


if __name__ == "__main__":
    sys.exit(main())
