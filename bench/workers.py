#!/usr/bin/env python3
"""Measures judging on several threads, and looks at publications, with the programs in bin/.

60,000 URLs of which no prefix is listed are judged by a store of 1,048,576 prefixes, with so many workers in turn: the wall
time and the processor time of each, the median of some runs in turn, and the wall time beside a run without URLs, which is
that of the checks and of their report. Then `publication_looks` looks at publications of these lists: the mean of many looks,
and the longest of a million, alone and while another thread publishes sixteen copies of the lists.

    workers.py [--runs N] [--workers N,N,..]
"""

import argparse
import hashlib
import os
import re
import statistics
import subprocess
import tempfile
import time

REPOSITORY = os.path.dirname(os.path.dirname(os.path.abspath(__file__)))
SBCHECK = os.path.join(REPOSITORY, "bin", "sbcheck")
LOOKER = os.path.join(REPOSITORY, "bin", "publication_looks")
LIST = "MALWARE/ANY_PLATFORM/URL"
PREFIXES = 1_048_576
URLS = 60_000
LOOKS = 10_000_000
TIMED_LOOKS = 1_000_000
PAIRS = 15


def write_store(path):
    """A store of one list of so many prefixes of four bytes; the set of them."""
    members, at = set(), 0
    while len(members) < PREFIXES:
        members.add(hashlib.sha256(b"%d" % at).digest()[:4])
        at += 1
    head = b"SBST\x02\x01" + bytes([1, 6, 1, 0, 0, 1, 1]) + len(members).to_bytes(4, "big")
    store = head + b"".join(b"\x04" + one for one in sorted(members))
    with open(path, "wb") as file:
        file.write(store + hashlib.sha256(store).digest())
    return members


def write_urls(path, members):
    """URLs of ten expressions each, of which no prefix is listed."""
    with open(path, "wb") as file:
        made = place = 0
        while made < URLS:
            place += 1
            hosts = (b"www.n%d.example" % place, b"n%d.example" % place)
            ends = (b"/a/b%d.html?c=%d" % (place, place), b"/a/b%d.html" % place, b"/", b"/a/")
            if all(hashlib.sha256(host + end).digest()[:4] not in members for host in hosts for end in ends):
                file.write(b"http://%s%s\n" % (hosts[0], ends[0]))
                made += 1


def write_inputs(folder):
    members = write_store(os.path.join(folder, "store"))
    write_urls(os.path.join(folder, "urls"), members)


def run(words, path):
    """Runs a program on a file: its wall time, its processor time and its output."""
    with open(path, "rb") as given, tempfile.TemporaryFile() as out:
        begun = time.monotonic()
        ran = subprocess.Popen(words, stdin=given, stdout=out, stderr=subprocess.DEVNULL)
        _, status, used = os.wait4(ran.pid, 0)
        took = time.monotonic() - begun
        ran.returncode = os.waitstatus_to_exitcode(status)
        if ran.returncode != 0:
            raise SystemExit(f"{words} ended with {ran.returncode}")
        out.seek(0)
        return took, used.ru_utime + used.ru_stime, out.read()


def look_time(name, count, store):
    """What a series of looks told of its time, in seconds."""
    with open(store, "rb") as given:
        ran = subprocess.run([LOOKER, name, str(count)], stdin=given, capture_output=True, check=True)
    return int(re.fullmatch(rb"(\d+) ns\n", ran.stderr)[1]) / 1e9


def judge(folder, counts, runs):
    store, urls = os.path.join(folder, "store"), os.path.join(folder, "urls")
    words = [SBCHECK, "judge", "--store", store, "--server", "127.0.0.1:1"]
    took = {count: [] for count in counts}
    checks = {count: [] for count in counts}
    texts = set()
    for _ in range(runs):
        for count in counts:
            wall, processor, text = run([*words, "--workers", str(count), LIST], urls)
            took[count].append((wall, processor))
            checks[count].append(wall - run([*words, "--workers", str(count), LIST], os.devnull)[0])
            texts.add(text)
    if len(texts) != 1:
        raise SystemExit("the reports differ")
    one = [statistics.median(values) for values in zip(*took[counts[0]])], statistics.median(checks[counts[0]])
    print("| Workers | Processor time | Ratio | Wall time | Without the start, wall time | Ratio |")
    print("|---|---|---|---|---|---|")
    for count in counts:
        wall, processor = (statistics.median(values) for values in zip(*took[count]))
        alone = statistics.median(checks[count])
        row = f"| {count} | {processor * 1e3:.1f} ms | {processor / one[0][1]:.2f} | {wall * 1e3:.1f} ms "
        print(row + f"| {alone * 1e3:.1f} ms | {alone / one[1]:.2f} |")


def look(folder, runs):
    store = os.path.join(folder, "store")
    mean = statistics.median(look_time("looks", LOOKS, store) for _ in range(runs)) / LOOKS
    print(f"a look: {mean * 1e9:.1f} ns, the mean of {LOOKS:,}")
    alone, beside = [], []
    for _ in range(PAIRS):
        alone.append(look_time("longest-look", TIMED_LOOKS, store))
        beside.append(look_time("looks-beside", TIMED_LOOKS, store))
    for name, values in (("alone", alone), ("beside 16 publications", beside)):
        every = ", ".join(f"{value * 1e6:.1f}" for value in values)
        print(f"the longest of {TIMED_LOOKS:,} looks {name}: {statistics.median(values) * 1e6:.1f} µs in the middle of {every}")


def main():
    words = argparse.ArgumentParser(description="Measures judging on several threads, and looks at publications.")
    words.add_argument("--runs", type=int, default=15, help="the runs of each number of workers")
    words.add_argument("--workers", default="1,2,4,8,16", help="the numbers of workers")
    words = words.parse_args()
    counts = [int(count) for count in words.workers.split(",")]
    print(f"{URLS:,} URLs by {PREFIXES:,} prefixes, on {os.cpu_count()} processors; medians of {words.runs} runs in turn")
    with tempfile.TemporaryDirectory() as folder:
        write_inputs(folder)
        judge(folder, counts, words.runs)
        look(folder, words.runs)


if __name__ == "__main__":
    main()
