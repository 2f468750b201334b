#!/usr/bin/env python3
"""Lets each allocation and each call of the built programs fail, one in each run.

`try/faults.c` is compiled and loaded before the C library. A run is made again and again: with the first call of a kind failing,
then with the second, up to the run in which no call failed. The kinds are memory that is refused, reads and writes that have an
error, and reads and writes that move one byte. After each run is looked at:

- it ended within ten seconds and by no signal, with a status that its fault may have;
- what it printed is a front of the right output, or tells of what failed;
- the store is, byte for byte, the one before or the new one;
- a served connection had a right answer, a front of it or nothing, or was told that memory is refused, and the others were answered;
- the same run without a fault, over what was left, comes to the right end.

It prints how many calls there were of each run and kind, and with which statuses they ended. The exit status is 1 where anything
is otherwise.
"""

import argparse
import base64
import collections
import dataclasses
import hashlib
import json
import operator
import os
import re
import shutil
import socket
import subprocess
import sys
import tempfile
import threading
import time

REPOSITORY = os.path.dirname(os.path.dirname(os.path.abspath(__file__)))
BIN = os.path.join(REPOSITORY, "bin")
LIST, OTHER_LIST = "MALWARE/ANY_PLATFORM/URL", "SOCIAL_ENGINEERING/ANY_PLATFORM/URL"
KINDS = ("memory", "read", "write", "short")
MOST_SECONDS = 10
FETCH, FIND = "/v4/threatListUpdates:fetch", "/v4/fullHashes:find"
STORE = "lists.store"

# what tells that a call failed: causes of rounds, verdicts and connections, and of journals and stores
TOLD = re.compile(rb"failed|undecided|ignored|refused|journal |out-of-memory|-fault|cut")


def names(*lists):
    """The fields of requests that name lists."""
    words = [sorted(set(some)) for some in zip(*(one.split("/") for one in lists))]
    return dict(zip(("threatTypes", "platformTypes", "threatEntryTypes"), words))


def expression_hash(text):
    return hashlib.sha256(text.encode("ascii")).digest()


def request(message):
    return json.dumps(message, separators=(",", ":")).encode("ascii")


ASKED = dict(zip(("threatType", "platformType", "threatEntryType"), LIST.split("/")))
A_FETCH = request({"listUpdateRequests": [{**ASKED, "constraints": {"supportedCompressions": ["RAW", "RICE"]}}]})
A_FIND = request({"threatInfo": {**names(LIST), "threatEntries": [{"hash": base64.b64encode(expression_hash("bad.example/")[:4]).decode()}]}})
A_LOOKUP = request({"threatInfo": {**names(LIST), "threatEntries": [{"url": "http://bad.example/a"}]}})


@dataclasses.dataclass
class Run:
    """A run: its words, its input, whether a store is there before, and which statuses a fault of each kind may have."""

    name: str
    words: list
    told: bytes = b""
    store: str = ""
    statuses: dict = dataclasses.field(default_factory=dict)


@dataclasses.dataclass
class Ended:
    status: int
    out: bytes
    store: bytes | None
    has_failed: bool
    answers: tuple = ()


def without_moments(out):
    """What was printed, without what differs from run to run: the moments of rounds, and which publication a check saw."""
    out = re.sub(rb"^(\d+ (?:un)?safe) \d+ ", rb"\1 - ", out, flags=re.M)
    return re.sub(rb" at \d+ ", b" at - ", out)


def bytes_of(path):
    if not os.path.exists(path):
        return None
    with open(path, "rb") as file:
        return file.read()


class Place:
    """A folder with journals, stores, the library that lets calls fail, and a server."""

    def __init__(self, folder):
        self.folder = folder
        self.library = os.path.join(folder, "faults.so")
        self.at = os.path.join(folder, "at")
        self.said = os.path.join(folder, "said")
        self.compile()
        self.make_journals()
        self.server = subprocess.Popen([f"{BIN}/sblistd", "serve", "--journal", "new", "--listen", "127.0.0.1:0"], cwd=folder,
                                       stdout=subprocess.DEVNULL, stderr=subprocess.PIPE)
        self.address = "127.0.0.1:%d" % port_of(self.server)
        self.make_stores()

    def compile(self):
        source = os.path.join(REPOSITORY, "try", "faults.c")
        subprocess.run(["cc", "-O1", "-Wall", "-Wextra", "-Werror", "-shared", "-fPIC", "-o", self.library, source], check=True)

    def run_plain(self, *words, told=b""):
        return subprocess.run([f"{BIN}/{words[0]}", *words[1:]], input=told, cwd=self.folder, check=True, capture_output=True).stdout

    def make_journals(self):
        """`old` has a change of the list, and `new` another one."""
        old = self.run_plain("sbjournal", "new", LIST, OTHER_LIST)
        old += self.run_plain("sbjournal", "change", LIST, told=b"bad.example\ngone.example\n")
        self.change = self.run_plain("sbjournal", "change", LIST, told=b"-gone.example\nworse.example\nthird.example\n")
        for name, text in (("old", old), ("new", old + self.change)):
            with open(os.path.join(self.folder, name), "wb") as file:
                file.write(text)

    def make_stores(self):
        """`old.store` is the store of a client of the old journal."""
        server = subprocess.Popen([f"{BIN}/sblistd", "serve", "--journal", "old", "--listen", "127.0.0.1:0"], cwd=self.folder,
                                  stdout=subprocess.DEVNULL, stderr=subprocess.PIPE)
        words = ["sbupdate", "run", "--store", STORE, "--server", "127.0.0.1:%d" % port_of(server), "--rounds", "1", LIST]
        os.mkdir(self.at)
        ended = self.run(Run("", words), "memory", 0)
        server.kill()
        server.wait()
        if ended.status != 0:
            raise SystemExit(f"faults: the first store is not made: status {ended.status}")
        shutil.copy(os.path.join(self.at, STORE), os.path.join(self.folder, "old.store"))

    def clear(self, run):
        """The folder of a run as it is before it."""
        shutil.rmtree(self.at, ignore_errors=True)
        os.mkdir(self.at)
        if run.store:
            shutil.copy(os.path.join(self.folder, run.store), os.path.join(self.at, STORE))
        for name in ("old", "new"):
            shutil.copy(os.path.join(self.folder, name), self.at)

    def outside(self, kind, number):
        return {**os.environ, "LD_PRELOAD": self.library, "FAULTS_KIND": kind, "FAULTS_AT": str(number), "FAULTS_SAID": self.said}

    def run(self, run, kind, number):
        """A run over the folder as it is, in which this call fails, or none if it is 0."""
        if os.path.exists(self.said):
            os.remove(self.said)
        own = "127.0.0.1:%d" % free_port()
        words = [f"{BIN}/{run.words[0]}", *({"SERVER": self.address, "OWN": own}.get(it, it) for it in run.words[1:])]
        ran = subprocess.Popen(words, cwd=self.at, env=self.outside(kind, number), stdin=subprocess.PIPE, stdout=subprocess.PIPE,
                               stderr=subprocess.PIPE)
        answers = ()
        late = threading.Timer(MOST_SECONDS, ran.kill)
        late.start()
        if "serve" in run.words:
            answers = self.ask(ran, own)
            out, _ = ran.communicate()
        else:
            out, _ = ran.communicate(run.told)
        late.cancel()
        return Ended(ran.returncode, without_moments(out), bytes_of(os.path.join(self.at, STORE)), os.path.exists(self.said), answers)

    def ask(self, ran, own):
        """Three connections to a server, of which the second comes after its journal has grown: what each was answered."""
        port = int(own.partition(":")[2])
        answers = [answer_of(ran, port, FETCH, A_FETCH)]
        with open(os.path.join(self.at, "old"), "ab") as file:
            file.write(self.change)
        answers += [answer_of(ran, port, FETCH, A_FETCH), answer_of(ran, port, FIND, A_FIND)]
        # a connection that was let go of before it was heard is none of the three, so another takes its place
        if b"" in answers and not has_ended(ran):
            answer_of(ran, port, FIND, A_FIND)
        return tuple(answers)


def free_port():
    with socket.create_server(("127.0.0.1", 0)) as server:
        return server.getsockname()[1]


def port_of(server):
    """The port that a server tells."""
    found = re.search(rb":(\d+)$", server.stderr.readline().strip())
    if not found:
        raise SystemExit("faults: a server did not tell its port")
    return int(found[1])


def has_ended(ran):
    """Whether a program has ended, or does so in a tenth of a second."""
    try:
        ran.wait(0.1)
    except subprocess.TimeoutExpired:
        return False
    return True


def connected(ran, port):
    """A connection to a server once it listens. None if it has ended."""
    while ran.poll() is None:
        try:
            return socket.create_connection(("127.0.0.1", port), timeout=MOST_SECONDS)
        except (ConnectionRefusedError, ConnectionResetError):
            time.sleep(0.001)
    return None


def answer_of(ran, port, path, body):
    """All that comes over a connection that asks this."""
    head = b"POST %s HTTP/1.1\r\nContent-Length: %d\r\n\r\n" % (path.encode("ascii"), len(body))
    found = b""
    stream = connected(ran, port)
    if stream is None:
        return found
    with stream:
        try:
            stream.sendall(head + body)
            while piece := stream.recv(65_536):
                found += piece
        except OSError:
            pass
    return found


def all_runs():
    """The runs, with the statuses that a fault may have beside that of the right run."""
    client = {"memory": {8}, "read": {2, 4, 5}, "write": {3, 4, 5}}
    judging = {"memory": {8}, "read": {2, 4, 5, 20, 21}, "write": {3, 4, 5, 20, 21}}
    plain = {"memory": {8}, "read": {2}, "write": {3}}
    with open(os.path.join(REPOSITORY, "demo", "recording.jsonl"), "rb") as file:
        recording = file.read()
    urls = b"http://bad.example/a\nfine.example\n"
    at_server = ["--store", STORE, "--server", "SERVER"]
    yield Run("sbupdate replay", ["sbupdate", "replay", LIST], recording, statuses=plain)
    yield Run("sbupdate run, no store", ["sbupdate", "run", *at_server, "--rounds", "2", LIST], statuses=client)
    yield Run("sbupdate run, a store", ["sbupdate", "run", *at_server, "--rounds", "2", LIST], store="old.store", statuses=client)
    yield Run("sbcheck show", ["sbcheck", "show"], urls, statuses=plain)
    yield Run("sbcheck judge", ["sbcheck", "judge", *at_server, LIST], urls, store="old.store", statuses=judging)
    yield Run("sbcheck judge --update 1 --workers 2", ["sbcheck", "judge", *at_server, "--update", "1", "--workers", "2", LIST], urls,
              store="old.store", statuses=judging)
    for kind, body in (("fetch", A_FETCH), ("find", A_FIND), ("lookup", A_LOOKUP)):
        yield Run(f"sblistd answer --kind {kind}", ["sblistd", "answer", "--journal", "new", "--kind", kind], body, statuses=plain)
    yield Run("sblistd serve", ["sblistd", "serve", "--journal", "old", "--listen", "OWN", "--connections", "3"],
              statuses={"memory": {8, 9}, "read": {2}, "write": {3}})
    yield Run("sbjournal sync", ["sbjournal", "sync", LIST, "--journal", "old"], b"bad.example\nfourth.example\n", statuses=plain)


def faults_of(run, right, before, kind, ended):
    """What is otherwise of a run in which a call of this kind failed."""
    if ended.status < 0:
        yield f"ended by signal {-ended.status}"
    elif ended.status not in {right.status} | run.statuses.get(kind, set()):
        yield f"status {ended.status}"
    if not right.out.startswith(ended.out) and not (kind != "short" and TOLD.search(ended.out)):
        yield f"printed {ended.out!r}"
    if ended.status == right.status and ended.out != right.out and not TOLD.search(ended.out):
        yield f"status {ended.status} and not all of its output"
    if kind == "short" and (ended.status, ended.out, ended.store) != (right.status, right.out, right.store):
        yield "one byte at a time, and another end"
    if ended.store not in (before, right.store):
        yield "the store is another"
    for place, (answer, whole) in enumerate(zip(ended.answers, right.answers), 1):
        if not whole.startswith(answer) and not (kind == "memory" and answer.startswith(b"HTTP/1.1 503 ")):
            yield f"connection {place} was answered {answer!r}"
    if ended.status == right.status and sum(map(operator.ne, ended.answers, right.answers)) > 1:
        yield "more than one connection was not answered"


def again_of(right, ended):
    """What is otherwise of the same run without a fault, after one."""
    if (ended.status, ended.store) != (right.status, right.store):
        yield f"the run after it: status {ended.status}" + ("" if ended.store == right.store else ", another store")


def tell(run, kind, statuses):
    ends = ", ".join(f"{count} with {status}" for status, count in sorted(statuses.items()))
    print(f"{run.name:<40}{kind:<8}{sum(statuses.values()):>6} calls: {ends}", flush=True)


def try_kind(place, run, right, before, kind):
    """Lets each call of a kind fail, and answers how many of the runs came to another end than they may."""
    wrong, statuses, number = 0, collections.Counter(), 1
    while True:
        place.clear(run)
        ended = place.run(run, kind, number)
        if not ended.has_failed:
            break
        statuses[ended.status] += 1
        found = list(faults_of(run, right, before, kind, ended))
        if run.store or "--store" in run.words:
            found += again_of(right, place.run(run, kind, 0))
        for one in found:
            print(f"faults: {run.name}, {kind} {number}: {one}")
        wrong += bool(found)
        number += 1
    if (ended.status, ended.out, ended.store) != (right.status, right.out, right.store):
        print(f"faults: {run.name}, {kind}: a run without a fault came to another end")
        wrong += 1
    tell(run, kind, statuses)
    return wrong


def main():
    words = argparse.ArgumentParser(description="Lets each allocation and each call of the built programs fail, one in each run.")
    words.add_argument("--run", metavar="TEXT", default="", help="only runs whose name has this")
    words = words.parse_args()
    if shutil.which("cc") is None:
        print("faults: there is no C compiler here, so nothing was tried")
        return 0
    wrong = 0
    with tempfile.TemporaryDirectory(prefix="faults-") as folder:
        place = Place(folder)
        for run in all_runs():
            if words.run not in run.name:
                continue
            place.clear(run)
            before = bytes_of(os.path.join(place.at, STORE))
            right = place.run(run, "memory", 0)
            for kind in KINDS:
                wrong += try_kind(place, run, right, before, kind)
        place.server.kill()
        place.server.wait()
    print(f"faults: {wrong} runs came to another end than they may" if wrong else "each run came to an end that it may come to")
    return 1 if wrong else 0


if __name__ == "__main__":
    sys.exit(main())
