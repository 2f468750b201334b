#!/usr/bin/env python3
"""Measures the programs in bin/ on seeded data, and prints the figures.

Each time is the best of a few runs. Processor times are less disturbed by what else runs. What a part of a command
takes is the difference of two of them: that of a run with the part, and that of one without it. The peak of the memory is
the largest resident set, as the system counts it. Where `valgrind` is installed, the instructions of the work on URLs are
counted too: they do not depend on what else runs.
"""

import argparse
import array
import base64
import ctypes
import hashlib
import json
import multiprocessing
import os
import platform
import random
import re
import shutil
import socket
import subprocess
import sys
import tempfile
import time

import answers

REPOSITORY = os.path.dirname(os.path.dirname(os.path.abspath(__file__)))
SBUPDATE = os.path.join(REPOSITORY, "bin", "sbupdate")
SBCHECK = os.path.join(REPOSITORY, "bin", "sbcheck")
SBLISTD = os.path.join(REPOSITORY, "bin", "sblistd")

LIST = "MALWARE/ANY_PLATFORM/URL"
OTHER_LIST = "SOCIAL_ENGINEERING/ANY_PLATFORM/URL"
SEED = 20240229
MANY_PREFIXES = 1_048_576
MANY_LINES = 1_000
SET_CHANGES = 4_000
JOURNAL_CHANGES = 65_536
LONG_CHANGES = 2_048
LONG_HASHES = 1_024
GENERATED = 65_536
JUDGED_URLS = 60_000
JUDGED_HITS = 2_000
SERVED_CHANGES = 1_023
KEPT_URLS = 60_000
USUAL_URLS = 50_000
HOSTILE_URLS = 2_000
HOSTILE_BYTES = 8_192
COUNTED_URLS = 200

PR_SET_CHILD_SUBREAPER = 36
MIB = 1 << 20


def text_of(data):
    return base64.b64encode(data).decode("ascii")


def full_update(prefixes, state):
    """A body: one full update of the list, its prefixes in the order given."""
    sha256 = hashlib.sha256(b"".join(sorted(prefixes))).digest()
    raw = {"prefixSize": 4, "rawHashes": text_of(b"".join(prefixes))}
    update = {
        "threatType": "MALWARE",
        "threatEntryType": "URL",
        "platformType": "ANY_PLATFORM",
        "responseType": "FULL_UPDATE",
        "additions": [{"compressionType": "RAW", "rawHashes": raw}],
        "newClientState": text_of(state),
        "checksum": {"sha256": text_of(sha256)},
    }
    return json.dumps({"listUpdateResponses": [update]}, separators=(",", ":"))


def random_prefixes(numbers, count):
    """Distinct prefixes of four bytes, in no order."""
    return [value.to_bytes(4, "big") for value in numbers.sample(range(1 << 32), count)]


def write_large(path):
    numbers = random.Random(SEED)
    with open(path, "w", encoding="ascii") as recording:
        prefixes = random_prefixes(numbers, MANY_PREFIXES)
        print(full_update(prefixes, b"\x01"), file=recording)


def write_small(path):
    numbers = random.Random(SEED + 1)
    with open(path, "w", encoding="ascii") as recording:
        for number in range(MANY_LINES):
            prefixes = random_prefixes(numbers, numbers.randint(64, 256))
            print(full_update(prefixes, number.to_bytes(4, "big")), file=recording)


def in_child(work, *words):
    """Calls a function in a process of its own and gives its result.

    This process stays small, so that what it holds shows in no figure.
    """
    with multiprocessing.get_context("spawn").Pool(1) as pool:
        return pool.apply(work, words)


def sorted_by_bytes(raw):
    return b"".join(sorted(raw[at : at + 4] for at in range(0, len(raw), 4)))


def sorted_by_numbers(raw):
    numbers = array.array("I", raw)
    if sys.byteorder == "little":
        numbers.byteswap()
    numbers = array.array("I", sorted(numbers))
    if sys.byteorder == "little":
        numbers.byteswap()
    return numbers.tobytes()


def yardstick(path, sort, runs):
    """The processor time that Python takes to do with a recording what the program does.

    It reads the bodies, sorts the prefixes of each and compares the checksum.
    """
    with open(path, "rb") as recording:
        data = recording.read()
    best = float("inf")
    for _ in range(runs):
        start = time.process_time()
        for line in data.splitlines():
            update = json.loads(line)["listUpdateResponses"][0]
            raw = base64.b64decode(update["additions"][0]["rawHashes"]["rawHashes"])
            wanted = base64.b64decode(update["checksum"]["sha256"])
            if hashlib.sha256(sort(raw)).digest() != wanted:
                raise ValueError("a checksum of the recording is wrong")
        best = min(best, time.process_time() - start)
    return best


def run(words, stdin=os.devnull, wanted=0):
    """Runs a program to its end, with this status: the wall time and the processor time that it takes."""
    with open(stdin, "rb") as given:
        start = time.perf_counter()
        ran = subprocess.Popen(words, stdin=given, stdout=subprocess.DEVNULL)
        _, status, usage = os.wait4(ran.pid, 0)
        wall = time.perf_counter() - start
    ran.returncode = os.waitstatus_to_exitcode(status)
    if ran.returncode != wanted:
        raise SystemExit(f"{' '.join(words)}: status {ran.returncode}")
    return wall, usage.ru_utime + usage.ru_stime


def peak_memory(words, stdin):
    """The bytes of memory that a program holds at most.

    A process counts what its parent held when it was started. So a shell, which is smaller than
    any program here, starts the program and ends, and this process, which then stands in for the
    parent, takes the figure.
    """
    if ctypes.CDLL(None).prctl(PR_SET_CHILD_SUBREAPER, 1, 0, 0, 0) != 0:
        raise SystemExit("the peak of the memory can be read on Linux alone")
    script = 'given=$1; shift; "$@" < "$given" > /dev/null & echo $!'
    shell = ["sh", "-c", script, "sh", stdin, *words]
    told = subprocess.run(shell, stdout=subprocess.PIPE, check=True).stdout
    _, status, usage = os.wait4(int(told), 0)
    if os.waitstatus_to_exitcode(status) != 0:
        raise SystemExit(f"{' '.join(words)}: status {os.waitstatus_to_exitcode(status)}")
    return usage.ru_maxrss * 1024


def tell(what, figure, remark):
    print(f"  {what:34}{figure:>12}, {remark}")


def bench_replay(title, path, runs):
    words = [SBUPDATE, "replay", LIST]
    size = os.path.getsize(path)
    walls, processor_times = zip(*(run(words, path) for _ in range(runs)))
    wall, took = min(walls), min(processor_times)
    peak = peak_memory(words, path)
    by_numbers = in_child(yardstick, path, sorted_by_numbers, runs)
    by_bytes = in_child(yardstick, path, sorted_by_bytes, runs)
    print(f"sbupdate replay, {title}: {size:,} bytes")
    tell("wall time", f"{wall * 1e3:.1f} ms", f"{size / wall / MIB:.1f} MiB/s")
    tell("processor time", f"{took * 1e3:.1f} ms", f"{size / took / MIB:.1f} MiB/s")
    tell("peak memory", f"{peak / MIB:.1f} MiB", f"{peak / size:.2f} times the input")
    for name, wanted in (("numbers", by_numbers), ("bytes objects", by_bytes)):
        ratio = f"sbupdate takes {took / wanted:.2f} times as long"
        tell(f"yardstick, sorted as {name}", f"{wanted * 1e3:.1f} ms", ratio)


def least(words, path, runs, wanted=0):
    """The least processor time of a program on an input."""
    return min(run(words, path, wanted)[1] for _ in range(runs))


def least_in_turn(pairs, runs):
    """The least processor time of each of some programs on their inputs. They take turns, so that what else runs disturbs them alike."""
    best = [float("inf")] * len(pairs)
    for _ in range(runs):
        for place, (words, path) in enumerate(pairs):
            best[place] = min(best[place], run(words, path)[1])
    return best


def write_journal(path, lists, changes, hashes):
    """A journal of lists that take turns: each change has so many hash lines, and every fourth of a list takes one hash out."""
    numbers = random.Random(SEED + 2)
    added = {name: [] for name in lists}
    with open(path, "w", encoding="ascii") as journal:
        print(f"sblist 1 {1:016x}", file=journal)
        for name in lists:
            print(f"list {name} 4", file=journal)
        for change in range(changes):
            name, removes = lists[change % len(lists)], change // len(lists) % 4 == 3
            some = [numbers.randbytes(32).hex() for _ in range(hashes - removes)]
            gone = [numbers.choice(added[name])] if removes else []
            added[name] += some[:1]
            print(f"change {name} {len(some)} {len(gone)}", file=journal)
            for line in [f"+{text}" for text in some] + [f"-{text}" for text in gone]:
                print(line, file=journal)


def write_request(path, version, max_update, codings=("RAW", "RICE")):
    """A fetch request of one who holds a version, or nothing, and takes sets of these codings."""
    item = {"threatType": "MALWARE", "threatEntryType": "URL", "platformType": "ANY_PLATFORM"}
    if version is not None:
        item["state"] = text_of(bytes([1]) + (1).to_bytes(8, "big") + version.to_bytes(8, "big") + bytes([1, 6, 1]))
    item["constraints"] = {"maxUpdateEntries": max_update, "supportedCompressions": list(codings)}
    with open(path, "w", encoding="ascii") as request:
        json.dump({"listUpdateRequests": [item]}, request)


def bench_answers(folder, runs):
    journal, request = os.path.join(folder, "journal"), os.path.join(folder, "request")
    words = [SBLISTD, "answer", "--journal", journal, "--kind", "fetch"]
    in_child(write_journal, journal, [LIST], JOURNAL_CHANGES, 1)
    print(f"sblistd answer, a journal of {JOURNAL_CHANGES:,} changes: {os.path.getsize(journal):,} bytes")
    questions = (
        ("the whole set", None, 0),
        ("from the middle", JOURNAL_CHANGES // 2, 0),
        ("from the middle, within 2,048", JOURNAL_CHANGES // 2, 2_048),
        ("to one who has the newest", JOURNAL_CHANGES, 0),
    )
    for name, version, max_update in questions:
        write_request(request, version, max_update)
        took = min(run(words, request)[1] for _ in range(runs))
        tell(name, f"{took * 1e3:.1f} ms", f"{peak_memory(words, request) / MIB:.1f} MiB at most")
    in_child(write_journal, journal, [LIST, OTHER_LIST], LONG_CHANGES, LONG_HASHES)
    write_request(request, LONG_CHANGES, 0)
    size = os.path.getsize(journal)
    took = min(run(words, request)[1] for _ in range(runs))
    peak = peak_memory(words, request)
    print(f"sblistd answer, a journal of {LONG_CHANGES * LONG_HASHES:,} hash lines: {size:,} bytes")
    tell("to one who has the newest", f"{took:.2f} s", f"{peak / MIB:.1f} MiB at most")


def bench_generated(runs):
    """A generated load, which is the same at each run."""
    print(f"sblistd, a generated load of {GENERATED:,} changes")
    for name, *words in (("its journal", "generate"), ("its URLs", "generate", "--urls"), ("made, loaded and answered", "exercise")):
        words = [SBLISTD, *words, str(GENERATED), "0"]
        took = min(run(words)[1] for _ in range(runs))
        tell(name, f"{took * 1e3:.1f} ms", f"{peak_memory(words, os.devnull) / MIB:.1f} MiB at most")


def generated_hosts(seed):
    """The hosts of the numbers of a seed, from place 1 on."""
    for _ in range(GENERATED):
        seed = (seed * 6364136223846793005 + 1442695040888963407) % (1 << 64)
        yield b"h%d.example" % (seed >> 48)


def write_judged(folder):
    """A generated load: its journal, a store of its newest list, URLs of which no prefix is listed, and URLs whose host is listed. The
    number of prefixes."""
    journal = subprocess.run([SBLISTD, "generate", str(GENERATED), "0"], stdout=subprocess.PIPE, check=True).stdout
    hashes = set()
    for line in journal.splitlines():
        if line.startswith(b"+"):
            hashes.add(bytes.fromhex(line[1:65].decode()))
        elif line.startswith(b"-"):
            hashes.discard(bytes.fromhex(line[1:65].decode()))
    members = sorted({one[:4] for one in hashes})
    store = b"SBST\x02\x01" + bytes([1, 6, 1, 0, 0, 1, 1]) + len(members).to_bytes(4, "big") + b"".join(b"\x04" + one for one in members)
    hosts = dict.fromkeys(host for host in generated_hosts(0) if hashlib.sha256(host + b"/").digest() in hashes)
    with_hits = [b"http://%s/p%d\n" % (host, place) for place, host in enumerate(list(hosts)[:JUDGED_HITS])]
    kept = [b"http://%s/p%d\n" % (list(hosts)[0], place) for place in range(KEPT_URLS)]
    listed, without, place = set(members), [], 0
    while len(without) < JUDGED_URLS:
        place += 1
        ends = [b"/a/b%d.html?c=%d" % (place, place), b"/a/b%d.html" % place, b"/", b"/a/"]
        expressions = [host + end for host in (b"www.n%d.example" % place, b"n%d.example" % place) for end in ends]
        if all(hashlib.sha256(one).digest()[:4] not in listed for one in expressions):
            without.append(b"http://%s\n" % expressions[0])
    texts = {"journal": journal, "store": store + hashlib.sha256(store).digest(), "without": b"".join(without)}
    texts |= {"with": b"".join(with_hits), "kept": b"".join(kept)}
    for name, text in texts.items():
        with open(os.path.join(folder, name), "wb") as file:
            file.write(text)
    return len(members)


def free_port():
    with socket.socket() as free:
        free.bind(("127.0.0.1", 0))
        return free.getsockname()[1]


def bench_judged(folder, runs):
    """URLs that are judged on a generated load. Each of those with hits asks for a find of its own, which the server answers; the first
    one waits for up to 60 seconds, at random, in which no time of a processor is taken."""
    count = in_child(write_judged, folder)
    print(f"sbcheck judge, by the {count:,} prefixes of a generated load")
    store, port = os.path.join(folder, "store"), free_port()
    words = [SBCHECK, "judge", "--store", store, "--server", f"127.0.0.1:{port}", LIST]
    without, with_hits = os.path.join(folder, "without"), os.path.join(folder, "with")
    took = min(run(words, without)[1] for _ in range(runs))
    remark = f"{took / JUDGED_URLS * 1e6:.2f} µs a URL, {peak_memory(words, without) / MIB:.1f} MiB at most"
    tell(f"{JUDGED_URLS:,} URLs without hits", f"{took * 1e3:.1f} ms", remark)
    served = ["--journal", os.path.join(folder, "journal"), "--listen", f"127.0.0.1:{port}", "--find-wait", "0"]
    with subprocess.Popen([SBLISTD, "serve", *served], stdout=subprocess.DEVNULL) as server:
        time.sleep(1)
        took = run(words, with_hits, 20)[1]
        kept = run(words, os.path.join(folder, "kept"), 20)[1]
        server.kill()
    tell(f"{JUDGED_HITS:,} URLs with a find each", f"{took * 1e3:.1f} ms", f"{took / JUDGED_HITS * 1e6:.1f} µs a URL")
    tell(f"{KEPT_URLS:,} URLs by one kept answer", f"{kept * 1e3:.1f} ms", f"{kept / KEPT_URLS * 1e6:.2f} µs a URL")


def ask(port, request):
    """One connection: sends a request, and reads to the end of the response."""
    with socket.create_connection(("127.0.0.1", port)) as wire:
        wire.sendall(request)
        while wire.recv(1 << 16):
            pass


def serve(journal, requests, connections):
    """Serves connections with these requests by turns, one after the other: the wall time from the second to the last, and the
    server's processor times."""
    port = free_port()
    words = ["--journal", journal, "--listen", f"127.0.0.1:{port}", "--connections", str(connections)]
    ran = subprocess.Popen([SBLISTD, "serve", *words], stdout=subprocess.DEVNULL)
    for _ in range(1_000):
        try:
            ask(port, requests[0])
            break
        except ConnectionRefusedError:
            time.sleep(0.01)
    start = time.perf_counter()
    for turn in range(1, connections):
        ask(port, requests[turn % len(requests)])
    wall = time.perf_counter() - start
    _, status, usage = os.wait4(ran.pid, 0)
    ran.returncode = os.waitstatus_to_exitcode(status)
    if ran.returncode != 0:
        raise SystemExit(f"sblistd serve: status {ran.returncode}")
    return wall, usage.ru_utime, usage.ru_stime


def time_connections(name, journal, path, bodies, few, many):
    """Tells what each further connection takes, with these bodies by turns."""
    texts = [f"POST {path} HTTP/1.1\r\nContent-Length: {len(body)}\r\n\r\n".encode("ascii") + body for body in bodies]
    small, large = serve(journal, texts, few), serve(journal, texts, many)
    wall, user, system = ((more - less) / (many - few) for less, more in zip(small, large))
    tell(name, f"{1 / wall:,.0f} a second", f"{user * 1e3:.2f} ms of its own and {system * 1e3:.2f} ms of the system's each")


def find_body(journal, count):
    """A find request of so many prefixes of four bytes: of every second one a full hash was added."""
    numbers, prefixes = random.Random(SEED + 3), []
    with open(journal, encoding="ascii") as lines:
        for line in lines:
            if line.startswith("+") and numbers.random() < 0.01:
                prefixes += [bytes.fromhex(line[1:9]), numbers.randbytes(4)]
            if len(prefixes) >= count:
                break
    info = {"threatTypes": ["MALWARE"], "platformTypes": ["ANY_PLATFORM"], "threatEntryTypes": ["URL"]}
    info["threatEntries"] = [{"hash": text_of(prefix)} for prefix in prefixes[:count]]
    return json.dumps({"threatInfo": info}).encode("ascii")


def bench_serve(folder):
    """A server of one list. What it does for itself is its user time; the rest is the system's, of its sockets, and the client's. It
    keeps 8 answers, so 16 bodies that say the same in other bytes have each answer made."""
    journal, request = os.path.join(folder, "journal"), os.path.join(folder, "request")
    in_child(write_journal, journal, [LIST], SERVED_CHANGES, LONG_HASHES)
    print(f"sblistd serve, a list of about {SERVED_CHANGES * LONG_HASHES:,} prefixes")
    for name, version, few, many in (("one who has the newest", SERVED_CHANGES, 2, 1_002), ("one who has nothing", None, 2, 22)):
        write_request(request, version, 0)
        with open(request, "rb") as file:
            body = file.read()
        bodies = [body + b" " * more for more in range(16)]
        time_connections(name, journal, "/v4/threatListUpdates:fetch", bodies, few, many)
        time_connections(f"{name}, kept", journal, "/v4/threatListUpdates:fetch", [body], few, many)
    for count in (1, 30, 1_024):
        name = "a find of a prefix" if count == 1 else f"a find of {count:,} prefixes"
        time_connections(name, journal, "/v4/fullHashes:find", [find_body(journal, count)], 2, 502)


def write_sets(folder):
    """Recordings of one full update: its prefixes in order, in no order, and in order with a partial update behind it, which takes
    some out and puts as many in."""
    numbers = random.Random(SEED)
    prefixes = random_prefixes(numbers, MANY_PREFIXES)
    rising = sorted(prefixes)
    full = full_update(rising, b"\x01")
    half = SET_CHANGES // 2
    gone = sorted(numbers.sample(range(MANY_PREFIXES), half))
    members = set(rising)
    come = [it for it in random_prefixes(numbers, 2 * half) if it not in members][:half]
    out = set(gone)
    after = sorted([it for at, it in enumerate(rising) if at not in out] + come)
    partial = json.loads(full_update(come, b"\x02"))
    update = partial["listUpdateResponses"][0]
    update["responseType"] = "PARTIAL_UPDATE"
    update["removals"] = [{"compressionType": "RAW", "rawIndices": {"indices": gone}}]
    update["checksum"] = {"sha256": text_of(hashlib.sha256(b"".join(after)).digest())}
    change = json.dumps(partial, separators=(",", ":"))
    for name, lines in (("rising", [full]), ("shuffled", [full_update(prefixes, b"\x01")]), ("changed", [full, change])):
        with open(os.path.join(folder, name), "w", encoding="ascii") as recording:
            recording.writelines(f"{line}\n" for line in lines)


def bench_sets(folder, runs):
    """What a replay takes for a set whose prefixes come in order, and in none, and for a change of a set."""
    in_child(write_sets, folder)
    words = [SBUPDATE, "replay", LIST]
    names = ("rising", "shuffled", "changed")
    rising, shuffled, changed = least_in_turn([(words, os.path.join(folder, name)) for name in names], runs)
    print(f"sbupdate replay, sets of {MANY_PREFIXES:,} prefixes of four bytes, with reading and printing")
    for name, took in (("made of sorted prefixes", rising), ("made of shuffled prefixes", shuffled)):
        tell(name, f"{took * 1e3:.1f} ms", f"{took / MANY_PREFIXES * 1e9:.2f} ns a prefix")
    merge = changed - rising
    tell(f"a change of {SET_CHANGES:,} behind it", f"{merge * 1e3:.1f} ms", f"{merge / MANY_PREFIXES * 1e9:.2f} ns a member")


def bench_messages(folder, runs):
    """What an answer of a whole set takes, beside one to who has it, and a replay of that answer: raw and Rice coded."""
    journal = os.path.join(folder, "journal")
    in_child(write_journal, journal, [LIST], SERVED_CHANGES, LONG_HASHES)
    answer, replay = [SBLISTD, "answer", "--journal", journal, "--kind", "fetch"], [SBUPDATE, "replay", LIST]
    print(f"sblistd answer and sbupdate replay, a list of about {SERVED_CHANGES * LONG_HASHES:,} prefixes")
    newest = os.path.join(folder, "newest")
    write_request(newest, SERVED_CHANGES, 0)
    for name, codings in (("as they are", ["RAW"]), ("Rice coded", ["RAW", "RICE"])):
        request, response = os.path.join(folder, "request"), os.path.join(folder, "response")
        write_request(request, None, 0, codings)
        with open(request, "rb") as given, open(response, "wb") as out:
            subprocess.run(answer, stdin=given, stdout=out, check=True)
        whole, none = least_in_turn([(answer, request), (answer, newest)], runs)
        read = least(replay, response, runs)
        tell(f"{name}: the set, coded and written", f"{(whole - none) * 1e3:.1f} ms", f"{os.path.getsize(response):,} bytes")
        tell(f"{name}: a replay of it", f"{read * 1e3:.1f} ms", "with the set that it makes and prints")


def instructions_of(words, path):
    """How many instructions a program takes on an input, as callgrind counts them. They hang on nothing else that runs."""
    counted = ["valgrind", "--tool=callgrind", "--callgrind-out-file=/dev/null", *words]
    with open(path, "rb") as given:
        ran = subprocess.run(counted, stdin=given, stdout=subprocess.DEVNULL, stderr=subprocess.PIPE, check=True, text=True, errors="replace")
    return int(re.search(r"Collected : (\d+)", ran.stderr)[1])


FRONTS = ["http://"] * 3 + ["https://"] * 3 + ["HTTP://user@", "https://user:secret@"]
LABELS = ["www", "mail", "Shop", "news-archive", "cdn7", "static", "Example", "a"]
LAST_LABELS = ["com", "org", "NET", "example"]
COMPONENTS = ["index.html", "images", "Some%20page", "100%25", "2024", "..", "long-name-of-an-article", "download.php"]
TAILS = ["?id=12345&page=2", "?q=two%20words", "#top"] + [""] * 5


def usual_url(numbers):
    """A URL such as pages have."""
    host = ".".join([numbers.choice(LABELS) for _ in range(numbers.randint(1, 4))] + [numbers.choice(LAST_LABELS)])
    port = ":8080" if numbers.randrange(8) == 0 else ""
    path = "".join("/" + numbers.choice(COMPONENTS) for _ in range(numbers.randint(1, 5)))
    return numbers.choice(FRONTS) + host + port + path + numbers.choice(TAILS)


def hostile_url(numbers):
    """A URL of the most bytes that one may have, which is long to work on: an escape that is one again as often as it is unescaped,
    escapes in a row, or components that are to be taken away, or empty."""
    front = "http://a.b.c/"
    rest = HOSTILE_BYTES - len(front)
    texts = ("%" + "25" * rest, "%25" * rest, "../" * rest, "/" * rest)
    return front + numbers.choice(texts)[:rest]


def write_urls(path, make, count):
    numbers = random.Random(SEED + 4)
    with open(path, "w", encoding="ascii") as file:
        file.writelines(f"{make(numbers)}\n" for _ in range(count))


def bench_urls(folder, title, make, count, runs):
    """What is shown of URLs: their canonical forms, and the hashes of their expressions."""
    path, few, none = (os.path.join(folder, name) for name in ("urls", "few", "none"))
    write_urls(path, make, count)
    write_urls(few, make, COUNTED_URLS)
    write_urls(none, make, 0)
    words = [SBCHECK, "show"]
    shown, empty = least_in_turn([(words, path), (words, none)], runs)
    print(f"sbcheck show, {count:,} {title}")
    tell("shown", f"{(shown - empty) * 1e3:.1f} ms", f"{(shown - empty) / count * 1e6:.2f} µs a URL")
    if shutil.which("valgrind") is not None:
        counted = instructions_of(words, few) - instructions_of(words, none)
        tell("instructions", f"{counted / 1e6:.2f} million", f"{counted / COUNTED_URLS:,.0f} a URL, of {COUNTED_URLS}")


def main():
    words = argparse.ArgumentParser(description="Measures the programs in bin/.")
    words.add_argument("--runs", type=int, default=3, help="the runs of a replay")
    words.add_argument("--part-runs", type=int, default=9, help="the runs of what is a difference of two")
    words = words.parse_args()
    python = platform.python_version()
    print(f"Best of {words.runs} runs, and of {words.part_runs} where two are compared. All but the")
    print(f"wall times are processor times. The yardstick is Python {python}, without its")
    print("start: it reads the same bodies, sorts their prefixes and compares the checksums, and")
    print("prints nothing. Its json, base64, sort and SHA-256 are C code.")
    with tempfile.TemporaryDirectory() as folder:
        large, small = os.path.join(folder, "large"), os.path.join(folder, "small")
        in_child(write_large, large)
        in_child(write_small, small)
        bench_replay(f"one update of {MANY_PREFIXES:,} prefixes", large, words.runs)
        bench_replay(f"{MANY_LINES:,} updates of 64 to 256 prefixes", small, words.runs)
        bench_answers(folder, words.runs)
        bench_generated(words.runs)
        bench_judged(folder, words.runs)
        bench_serve(folder)
        bench_sets(folder, words.part_runs)
        bench_messages(folder, words.part_runs)
        bench_urls(folder, "URLs such as pages have", usual_url, USUAL_URLS, words.part_runs)
        bench_urls(folder, f"hostile URLs of {HOSTILE_BYTES:,} bytes", hostile_url, HOSTILE_URLS, words.part_runs)
        answers.measure(folder, answers.Sizes())


if __name__ == "__main__":
    main()
