#!/usr/bin/env python3
"""Judges URLs on sixteen threads while updates replace the lists of a journal that grows: built clients beside a built server.

Twenty runs of `sbcheck judge --update 2 --workers 16` stand side by side, each with a store of its own, or none. As soon as the threads
of one have begun it is stopped (SIGSTOP), for more than the minute that a client waits at most, and then goes on: so its rounds come
while URLs are checked. Every other one asks a server that bids to wait for a second between rounds. With each change of the journal two
hosts come, and the second of them goes with a later change; how many there are tells the versions apart. The verdict of each line has to
be right for the publication that its number names: publication 0 is what the store had, and publication K what the K-th round that was
saved tells. Along the lines of a thread the numbers may not fall, and the store that a run leaves has to be the set that it was told last.

Beside them stands a run that can start no thread, as a user who may have one process: it has to print what one worker prints. It takes
about two minutes.

    beside.py [--runs N] [--urls N] [--seed N] [--programs FOLDER]
"""

import argparse
import collections
import hashlib
import os
import random
import re
import resource
import shutil
import signal
import subprocess
import sys
import tempfile
import threading
import time

REPOSITORY = os.path.dirname(os.path.dirname(os.path.abspath(__file__)))
sys.path.insert(0, os.path.join(REPOSITORY, "compare"))

from judging import NoStore, read_store, written_store  # noqa: E402

LIST = "MALWARE/ANY_PLATFORM/URL"
EPOCH = 1
FIRST_VERSION = 60
KEPT_FOR = 50  # so many versions the second host of a change is on the list
STEP = 0.1  # seconds from change to change
HOSTS = 900  # of so many changes the URLs have hosts
WORKERS = 16
STOPPED = 61.0
LONGEST = 300.0
OTHER_USER = 54_321
LINE = re.compile(rf"(\d+) (?:safe (\d+)|unsafe (\d+) {LIST}) http://([^/]+)/\S+")


class Wrong(Exception):
    """A run did what it may not do, as the exception's text says."""


# ---- the journal: at version V come the hosts aV.example and bV.example, and the second goes again


def is_listed(host, version):
    number = int(host[1:].partition(".")[0])
    return host[0] in "ab" and number <= version and (host[0] == "a" or version < number + KEPT_FOR)


def is_gone(host, version):
    return host[0] == "b" and int(host[1:].partition(".")[0]) + KEPT_FOR <= version


def hash_of(host):
    return hashlib.sha256(f"{host}/".encode("ascii")).digest()


def hosts_at(version):
    return [f"a{number}.example" for number in range(1, version + 1)] + [
        f"b{number}.example" for number in range(max(1, version - KEPT_FOR + 1), version + 1)
    ]


def version_of(count):
    """The version at which the list has so many prefixes."""
    return count // 2 if count <= 2 * KEPT_FOR else count - KEPT_FOR


def set_at(version):
    """The token and the rising prefixes of the list."""
    token = b"\x01" + EPOCH.to_bytes(8, "big") + version.to_bytes(8, "big") + b"\x01\x06\x01"
    return token, sorted(hash_of(host)[:4] for host in hosts_at(version))


class Journal:
    def __init__(self, path):
        self.path, self.version = path, 0
        self.append([f"sblist 1 {EPOCH:016x}", f"list {LIST} 4"])

    def append(self, lines):
        with open(self.path, "a", encoding="ascii") as file:
            file.write("".join(line + "\n" for line in lines))

    def grow(self):
        version = self.version + 1
        added = [hash_of(f"{letter}{version}.example").hex() for letter in "ab"]
        gone = [hash_of(f"b{version - KEPT_FOR}.example").hex()] if version > KEPT_FOR else []
        self.append([f"change {LIST} 2 {len(gone)}", *(f"+{one}" for one in added), *(f"-{one}" for one in gone)])
        self.version = version


# ---- programs


class Server:
    """A server of a journal, which is ended with the block."""

    def __init__(self, program, journal, wait, printed):
        words = [program, "serve", "--journal", journal, "--listen", "127.0.0.1:0", "--wait", str(wait)]
        self.ran = subprocess.Popen(words, stdout=printed, stderr=subprocess.PIPE, text=True)
        found = re.search(r":(\d+)$", self.ran.stderr.readline().strip())
        if not found:
            self.ran.kill()
            sys.exit("try-run: the server did not tell its port")
        self.address = f"127.0.0.1:{found[1]}"

    def __enter__(self):
        return self.address

    def __exit__(self, *_):
        self.ran.kill()
        self.ran.wait()
        self.ran.stderr.close()


def some_urls(rand, count, letters, host_count):
    """URLs of thirty expressions each, with hosts of these letters."""
    hosts = [f"{rand.choice(letters)}{rand.randrange(1, host_count + 1)}.example" for _ in range(count)]
    return [(host, f"http://w.x.y.{host}/p/q/r/s/{number}.html?{'0123456789' * 8}") for number, host in enumerate(hosts, 1)]


def written(path, text):
    with open(path, "wb") as file:
        file.write(text)


def has_socket(pid):
    try:
        return any(os.readlink(f"/proc/{pid}/fd/{one}").startswith("socket:") for one in os.listdir(f"/proc/{pid}/fd"))
    except OSError:
        return False


def has_threads(pid):
    try:
        return len(os.listdir(f"/proc/{pid}/task")) > WORKERS
    except OSError:
        return False


class Run(threading.Thread):
    """A run beside the journal: it is started, stopped and let go on, and what it printed is looked at."""

    def __init__(self, rand, folder, program, address, journal, count):
        super().__init__()
        self.journal, self.pause = journal, rand.random() / 20
        self.version = rand.choice([0, rand.randrange(1, FIRST_VERSION + 1), FIRST_VERSION])
        self.store, self.printed = os.path.join(folder, "store"), os.path.join(folder, "printed")
        self.urls = some_urls(rand, count, "aabc", HOSTS)
        self.fault, self.numbers = None, collections.Counter()
        os.mkdir(folder)
        self.input = os.path.join(folder, "urls")
        written(self.input, "".join(f"{url}\n" for _, url in self.urls).encode("ascii"))
        if self.version:
            written(self.store, written_store({LIST: set_at(self.version)}))
        self.words = [program, "judge", "--store", self.store, "--server", address, "--update", "2", "--workers", str(WORKERS)]
        self.words += ["--patience", "86400", LIST]

    def stopped(self, ran):
        """Stops it once its threads have begun, until its waits are over. A run whose session is open goes on."""
        began = time.monotonic()
        while ran.poll() is None and not has_threads(ran.pid) and time.monotonic() - began < STOPPED:
            time.sleep(0.002)
        time.sleep(self.pause)
        ran.send_signal(signal.SIGSTOP)
        if not has_socket(ran.pid):
            time.sleep(STOPPED)
        ran.send_signal(signal.SIGCONT)

    def run(self):
        with open(self.input, "rb") as given, open(self.printed, "wb") as printed:
            ran = subprocess.Popen(self.words, stdin=given, stdout=printed, stderr=subprocess.PIPE)
            self.stopped(ran)
            try:
                said = ran.communicate(timeout=LONGEST)[1]
            except subprocess.TimeoutExpired:
                ran.kill()
                said = ran.communicate()[1]
        # what a find was answered is the list at a version up to this one
        latest = self.journal.version
        try:
            self.look(ran.returncode, said.decode("utf-8", "replace"), latest)
        except Wrong as fault:
            self.fault = str(fault)

    def look(self, status, said, latest):
        with open(self.printed, encoding="ascii") as file:
            lines = file.read().splitlines()
        versions, lines = self.publications(lines)
        if len(lines) != len(self.urls) + 1 or said:
            raise Wrong(f"status {status}, {len(lines)} lines behind those of the rounds; it said: {said} {lines[:3]}")
        kinds = collections.Counter()
        last = collections.Counter()
        for place, (line, (host, url)) in enumerate(zip(lines, self.urls)):
            kind, number = self.verdict(line, place, host, url, versions, latest)
            if number < last[place % WORKERS]:
                raise Wrong(f"the numbers of a thread fall at: {line}")
            last[place % WORKERS] = number
            kinds[kind] += 1
            self.numbers[number] += 1
        summary = f"checked {len(self.urls)}: {kinds['safe']} safe, {kinds['unsafe']} unsafe, 0 undecided, 0 refused"
        if lines[-1] != summary or status != (20 if kinds["unsafe"] else 0):
            raise Wrong(f"status {status}, and the summary {lines[-1]} in place of {summary}")
        self.look_at_store(versions[-1])

    def publications(self, lines):
        """The version of each publication, and the lines behind those of the rounds."""
        versions = [self.version]
        for number in (1, 2):
            told = re.fullmatch(
                rf"round {number} at \d+ ok\nround {number} {LIST} installed (\d+)\nround {number} saved", "\n".join(lines[:3])
            )
            if told is None:
                raise Wrong(f"round {number} told: {lines[:3]}")
            versions.append(version_of(int(told[1])))
            lines = lines[3:]
        if versions != sorted(versions) or versions[1] < FIRST_VERSION:
            raise Wrong(f"the versions of its publications are {versions}")
        return versions, lines

    def verdict(self, line, place, host, url, versions, latest):
        """The kind and the number of a verdict that is right."""
        found = LINE.fullmatch(line)
        if found is None or int(found[1]) != place + 1 or not line.endswith(f" {url}"):
            raise Wrong(f"line {place + 1} is: {line}")
        kind, number = ("safe", int(found[2])) if found[2] else ("unsafe", int(found[3]))
        if number >= len(versions):
            raise Wrong(f"there is no such publication: {line}")
        listed = is_listed(host, versions[number])
        # a host that has gone may be found or not, by when the server was asked
        if kind == "safe" and listed and not is_gone(host, latest) or kind == "unsafe" and not listed:
            raise Wrong(f"at version {versions[number]} this is wrong: {line}")
        return kind, number

    def look_at_store(self, version):
        try:
            with open(self.store, "rb") as file:
                kept = read_store(file.read())[0]
        except (OSError, NoStore) as fault:
            raise Wrong(f"the store cannot be read: {fault}") from fault
        if kept != {LIST: set_at(version)}:
            raise Wrong(f"the store is not the list at version {version}")


# ---- a run that can start no thread


def become_limited():
    """Makes this process one of a user who may have no other, so that it can start no thread."""
    os.setgroups([])
    os.setgid(OTHER_USER)
    os.setuid(OTHER_USER)
    resource.setrlimit(resource.RLIMIT_NPROC, (1, 1))


def can_start_threads():
    """Whether such a process can start one all the same."""
    child = os.fork()
    if child == 0:
        become_limited()
        try:
            threading.Thread(target=len, args=("",)).start()
        except RuntimeError:
            os._exit(1)
        os._exit(0)
    return os.waitstatus_to_exitcode(os.waitpid(child, 0)[1]) == 0


class Limited(threading.Thread):
    """One run that can start no thread, and one with one worker, over the same URLs and lists."""

    def __init__(self, rand, folder, program, address, count):
        super().__init__()
        os.mkdir(folder)
        self.program, self.folder, self.address, self.told = os.path.join(folder, "sbcheck"), folder, address, None
        shutil.copy(program, self.program)
        urls = some_urls(rand, count, "ac", 2 * FIRST_VERSION)
        self.input = "".join(f"{url}\n" for _, url in urls).encode("ascii") + b"http:///x\n"
        written(os.path.join(folder, "store"), written_store({LIST: set_at(FIRST_VERSION)}))
        for path in (os.path.dirname(folder), folder, self.program):
            os.chmod(path, 0o755)

    def begin(self, workers, prepare):
        words = [self.program, "judge", "--store", os.path.join(self.folder, "store"), "--server", self.address]
        words += ["--patience", "60", "--workers", str(workers), LIST]
        ran = subprocess.Popen(words, stdin=subprocess.PIPE, stdout=subprocess.PIPE, stderr=subprocess.STDOUT, preexec_fn=prepare)
        ran.stdin.write(self.input)
        ran.stdin.close()
        return ran

    def run(self):
        both = [self.begin(1, None), self.begin(WORKERS, become_limited)]
        wanted, found = [(ran.stdout.read(), ran.wait()) for ran in both]
        if wanted[1] != 20 or found != wanted:
            self.told = f"status {found[1]} in place of {wanted[1]}: {found[0][:300]!r} in place of {wanted[0][:300]!r}"


def why_no_limited():
    if os.geteuid() != 0:
        return "this is not root, so a run that can start no thread was not seen"
    return "threads can be started in spite of the limit, so a run without them was not seen" if can_start_threads() else None


# ---- all of it


def keep_growing(journal, runs):
    for run in runs:
        run.start()
    while any(run.is_alive() for run in runs):
        journal.grow()
        time.sleep(STEP)


def report(runs, urls):
    numbers = sum((run.numbers for run in runs), collections.Counter())
    mixed = sum(len(run.numbers) > 1 for run in runs)
    told = ", ".join(f"{numbers[number]:,} in publication {number}" for number in sorted(numbers))
    print(f"{len(runs)} runs of {urls:,} URLs beside updates: {told}; each verdict is right for its publication")
    print(f"  {mixed} runs looked URLs up in several publications; each store is the set that its run was told last")
    if not mixed:
        sys.exit("try-run: no update came while URLs were checked")


def main():
    parser = argparse.ArgumentParser(description=__doc__.splitlines()[0])
    parser.add_argument("--runs", type=int, default=20, help="how many runs (20)")
    parser.add_argument("--urls", type=int, default=20_000, help="how many URLs each judges (20000)")
    parser.add_argument("--seed", type=int, default=20, help="where they begin")
    parser.add_argument("--programs", default=os.path.join(REPOSITORY, "bin"), help="where the programs stand")
    options = parser.parse_args()
    rand = random.Random(options.seed)
    check, serve = (os.path.join(options.programs, name) for name in ("sbcheck", "sblistd"))
    with tempfile.TemporaryDirectory() as folder, open(os.path.join(folder, "answered"), "wb") as answered:
        journal = Journal(os.path.join(folder, "journal"))
        for _ in range(FIRST_VERSION):
            journal.grow()
        with Server(serve, journal.path, 0, answered) as hasty, Server(serve, journal.path, 1, answered) as slow:
            runs = [
                Run(rand, os.path.join(folder, f"run-{number}"), check, (hasty, slow)[number % 2], journal, options.urls)
                for number in range(options.runs)
            ]
            skipped = why_no_limited()
            limited = [] if skipped else [Limited(rand, os.path.join(folder, "limited"), check, hasty, 2_000)]
            keep_growing(journal, runs + limited)
    for number, run in enumerate(runs):
        if run.fault:
            sys.exit(f"try-run: run {number} beside updates: {run.fault}")
    report(runs, options.urls)
    for one in limited:
        if one.told:
            sys.exit(f"try-run: a run that can start no thread: {one.told}")
    print(skipped or "a run that can start no thread prints what one worker prints")


if __name__ == "__main__":
    main()
