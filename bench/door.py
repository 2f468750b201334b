#!/usr/bin/env python3
"""Measures the door of a built `sblistd serve`, and prints a table in which each bound stands beside what was measured.

Connections a second and the server's processor time for each, with 1, 8 and 64 at once, alone and beside 1,000 silent peers;
the resident memory that each silent peer adds; how long one lone connection takes from its connect to its answer, which is
all that the door can add to it. It fails where a bound is passed. Each connection asks for what is not there, so that the
server has little else to do, and its client is this one process.

    door.py [--connections N] [--program COMMAND]
"""

import argparse
import os
import resource
import selectors
import shlex
import socket
import statistics
import sys
import tempfile
import time

import started

REPOSITORY = os.path.dirname(os.path.dirname(os.path.abspath(__file__)))
REQUEST = b"GET /none HTTP/1.1\r\nHost: a\r\n\r\n"
JOURNAL = "sblist 1 0000000000000001\nlist MALWARE/ANY_PLATFORM/URL 4\n"
AT_ONCE = (1, 8, 64)
SILENT = 1_000
LONE = 300
KIB_EACH = 32
LONE_MILLIS = 1.0


def raise_limit():
    hard = resource.getrlimit(resource.RLIMIT_NOFILE)[1]
    resource.setrlimit(resource.RLIMIT_NOFILE, (hard, hard))


class Server(started.Started):
    """A server of a journal without hashes, which is ended with the block."""

    def __init__(self, program, folder):
        journal = os.path.join(folder, "journal")
        with open(journal, "w", encoding="ascii") as file:
            file.write(JOURNAL)
        words = shlex.split(program) + ["serve", "--journal", journal, "--listen", "127.0.0.1:0"]
        super().__init__(words)

    def processor_time(self):
        """Its user and system time so far, in seconds."""
        with open(f"/proc/{self.ran.pid}/stat", encoding="ascii") as file:
            fields = file.read().rpartition(")")[2].split()
        return (int(fields[11]) + int(fields[12])) / os.sysconf("SC_CLK_TCK")

    def resident(self):
        """Its resident memory, in bytes."""
        with open(f"/proc/{self.ran.pid}/statm", encoding="ascii") as file:
            return int(file.read().split()[1]) * resource.getpagesize()


def connect(port):
    return socket.create_connection(("127.0.0.1", port), timeout=30)


def drive(port, at_once, count):
    """So many connections, of which so many are open at once: the wall time."""
    ready, begun, ended = selectors.DefaultSelector(), 0, 0

    def begin():
        stream = connect(port)
        stream.sendall(REQUEST)
        ready.register(stream, selectors.EVENT_READ)

    start = time.perf_counter()
    while ended < count:
        while begun < count and begun - ended < at_once:
            begin()
            begun += 1
        for key, _ in ready.select():
            if not key.fileobj.recv(4096):
                ready.unregister(key.fileobj)
                key.fileobj.close()
                ended += 1
    return time.perf_counter() - start


def settle(server):
    """Waits until the server has taken what came to it."""
    before = -1.0
    while server.processor_time() != before:
        before = server.processor_time()
        time.sleep(0.5)


def lone(port):
    """How long one connection takes that nobody is beside, in milliseconds: the median of some."""
    took = []
    for _ in range(LONE):
        start = time.perf_counter()
        with connect(port) as stream:
            stream.sendall(REQUEST)
            stream.recv(64)
            took.append((time.perf_counter() - start) * 1e3)
        time.sleep(0.002)
    return statistics.median(took)


def tell(what, figure, bound=""):
    print(f"  {what:<40} {figure:>34}  {bound}".rstrip(), flush=True)


def tell_rates(server, beside, count):
    for at_once in AT_ONCE:
        before = server.processor_time()
        wall = drive(server.port, at_once, count)
        each = (server.processor_time() - before) / count
        tell(f"{at_once} at once{beside}", f"{count / wall:,.0f} a second, {each * 1e3:.3f} ms each")


def main():
    words = argparse.ArgumentParser(description="Measures the door of sblistd.")
    words.add_argument("--connections", type=int, default=5_000, help="how many connections are driven each time")
    words.add_argument("--program", default=os.path.join(REPOSITORY, "bin", "sblistd"))
    words = words.parse_args()
    raise_limit()
    print(f"the door of sblistd serve, {words.connections:,} connections each; processor times of the server")
    with tempfile.TemporaryDirectory(prefix="door-") as folder, Server(words.program, folder) as server:
        drive(server.port, 8, 100)
        tell_rates(server, "", words.connections)
        delay = lone(server.port)
        tell("a lone one, connect to answer", f"{delay:.3f} ms", f"at most {LONE_MILLIS:.0f} ms")
        settle(server)
        before = server.resident()
        silent = [connect(server.port) for _ in range(SILENT)]
        settle(server)
        each = (server.resident() - before) / SILENT / 1024
        tell(f"memory of each of {SILENT:,} silent ones", f"{each:.1f} KiB", f"at most {KIB_EACH} KiB")
        tell_rates(server, f" beside {SILENT:,} silent ones", words.connections)
        for stream in silent:
            stream.close()
    return 1 if delay > LONE_MILLIS or each > KIB_EACH else 0


if __name__ == "__main__":
    sys.exit(main())
