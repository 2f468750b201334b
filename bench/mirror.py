#!/usr/bin/env python3
"""Measures what the clients of a built `sbmirror serve` cost it, with a list of about a million hashes.

A mirror begins without a store, at a built `sblistd serve` over loopback, and fetches the list. Then the journal grows eight times by a
change of 1,024 lines, each of which the mirror gets in a round of its own. After each its clients ask for updates: who has nothing, and
who has the place before. At last come who is up to date, and finds, which the mirror passes on one after the other. The first such answer is made, and further ones are kept. A row tells the processor time of the mirror for an
answer, user and system, the least of the rounds; how many came a second; and the bytes of the last. While rounds are made, one client
after the other asks for a list that the mirror does not have: the longest of their waits is told. The last answers are checked: the client `sbupdate`
comes by them to the set that this script itself makes of the journal. It fails where the mirror took more than 100 MiB.

    mirror.py [--quick]

With --quick the list is small, to see that all runs. A mirror waits for up to a minute, at random, before its first round.
"""

import argparse
import base64
import hashlib
import json
import os
import subprocess
import sys
import tempfile
import time

import answers
import started
from answers import A_CHANGE, FETCH, FIND, LIST, MIB, OTHER_LIST, SBUPDATE, SWAPPED, Item, Journal, fetch, find

REPOSITORY = os.path.dirname(os.path.dirname(os.path.abspath(__file__)))
SBMIRROR = os.path.join(REPOSITORY, "bin", "sbmirror")
WAIT = 4  # seconds from round to round
PLACES = 8
KEPT = 8
REPEATS = 200
FIRST_FIND = 62  # seconds after which a first find may be passed on
MOST_MIB = 100
LONGEST = 120.0


class Mirror(answers.Server):
    """A mirror of the server at a port, which is ended with the block."""

    def __init__(self, port, store):
        words = [SBMIRROR, "serve", "--store", store, "--server", f"127.0.0.1:{port}", "--listen", "127.0.0.1:0", LIST]
        self.begun = time.monotonic()
        started.Started.__init__(self, words)
        self.clock = answers.clock_of(self.ran.pid)


def message_of(token, codings=("RAW", "RICE")):
    """The body of a fetch request of one who has this token, or nothing."""
    message = Item(codings=codings).message()
    if token is not None:
        message["state"] = token
    return json.dumps({"listUpdateRequests": [message]}, separators=(",", ":")).encode("ascii")


def token_in(body):
    """The token in an answer, or none while the mirror has no list."""
    updates = json.loads(body).get("listUpdateResponses", [])
    return updates[0]["newClientState"] if updates else None


def next_place(mirror, token):
    """Waits until the mirror has another place than this token names. Gives its token, and the longest wait of one who asked meanwhile
    for a list that the mirror does not have."""
    other, asked = fetch(Item(name=OTHER_LIST)), message_of(token, ("RAW",))
    longest, count, end = 0.0, 0, time.monotonic() + LONGEST
    while time.monotonic() < end:
        begun = time.perf_counter()
        mirror.ask(other)
        longest, count = max(longest, time.perf_counter() - begun), count + 1
        if count % 20 == 0 and (found := token_in(mirror.ask(asked))) not in (None, token):
            return found, longest
        time.sleep(0.002)
    raise SystemExit("mirror: no further place came")


def joined(costs):
    """The costs of rounds as those of one."""
    return answers.Cost([it.took[0] for it in costs], [it.walls[0] for it in costs], costs[-1].answer, max(it.peak for it in costs), 0)


def tell(costs, what):
    one = joined(costs)
    print(f"  {what:<64}{min(one.took) * 1e3:9.2f} ms {len(one.answer):11,} bytes, {1 / min(one.walls):,.1f} a second", flush=True)


def made_and_kept(mirror, body):
    """What it costs to make an answer, and then to give it again."""
    made = answers.cost_of_rounds(mirror, [lambda: ([body], FETCH)])
    return made, answers.cost_of_rounds(mirror, [lambda: ([body] * KEPT, FETCH)])


def check(journal, bodies):
    """Ends the script if these answers, one after the other, do not lead a client to the newest set."""
    wanted = journal.prefixes_at(LIST, journal.version)
    update = json.loads(bodies[-1])["listUpdateResponses"][0]
    if base64.b64decode(update["checksum"]["sha256"]) != hashlib.sha256(wanted).digest():
        raise SystemExit("mirror: the checksum is not that of the newest version")
    recording = b"".join(line + b"\n" for line in bodies)
    ran = subprocess.run([SBUPDATE, "replay", LIST], input=recording, stdout=subprocess.PIPE, check=False)
    told = f"{len(bodies)} {LIST} installed {len(wanted) // 4}".encode("ascii")
    if ran.returncode != 0 or told not in ran.stdout[:1_000].split(b"\n"):
        raise SystemExit(f"mirror: not installed: {ran.stdout[:1_000]!r}")


def measure(folder, growing):
    journal = Journal(os.path.join(folder, "journal"))
    journal.grow([(LIST, A_CHANGE, 0)] * growing)
    rows = {what: ([], []) for what in ("nothing held", "the same, not Rice coded", "the place before")}
    with answers.Server(journal, "--wait", str(WAIT)) as server, Mirror(server.port, os.path.join(folder, "store")) as mirror:
        token, longest = next_place(mirror, None)
        print(f"  while a round installs {journal.size():,} prefixes: the longest wait of another {longest * 1e3:.0f} ms", flush=True)
        waits, whole = [], b""
        for _ in range(PLACES):
            whole = mirror.ask(message_of(None))
            journal.grow([SWAPPED])
            before = token
            token, longest = next_place(mirror, before)
            waits.append(longest)
            asked = message_of(None), message_of(None, ("RAW",)), message_of(before)
            for body, (made, kept) in zip(asked, rows.values()):
                first, again = made_and_kept(mirror, body)
                made.append(first)
                kept.append(again)
        print(f"  while a round installs a change of {A_CHANGE:,} lines: the longest wait of another {max(waits) * 1e3:.0f} ms", flush=True)
        for what, (made, kept) in rows.items():
            tell(made, f"{what}, made")
            tell(kept, f"{what}, kept")
        tell([answers.cost_of_rounds(mirror, [lambda: ([message_of(token)] * REPEATS, FETCH)])], "the newest place")
        time.sleep(max(mirror.begun + FIRST_FIND - time.monotonic(), 0))
        some = [journal.prefixes_at(LIST, journal.version)[4 * at : 4 * at + 4] for at in range(REPEATS)]
        tell([answers.cost_of_rounds(mirror, [lambda: ([find([one]) for one in some], FIND)])], "full hashes of a prefix, passed on over loopback")
        check(journal, [rows["nothing held"][0][-1].answer])
        check(journal, [whole, rows["the place before"][0][-1].answer])
        peak, held = mirror.memory("VmHWM") / MIB, mirror.memory("VmRSS") / MIB
    print(f"  memory of the mirror with {PLACES} places: {held:.1f} MiB, and {peak:.1f} MiB at most", flush=True)
    if peak > MOST_MIB:
        raise SystemExit(f"mirror: it took more than {MOST_MIB} MiB")


def main():
    parser = argparse.ArgumentParser(description="Measures what the clients of sbmirror serve cost.")
    parser.add_argument("--quick", action="store_true")
    words = parser.parse_args()
    growing = 63 if words.quick else 1_023
    with tempfile.TemporaryDirectory(prefix="mirror-") as folder:
        print(f"sbmirror serve, a list of {growing * A_CHANGE:,} hashes", flush=True)
        measure(folder, growing)
    return 0


if __name__ == "__main__":
    sys.exit(main())
