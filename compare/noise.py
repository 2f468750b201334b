#!/usr/bin/env python3
"""Runs the programs on seeded connections, sessions, stores and words, and compares what they come to with the second program.

Each is a case (docs/FORMATS.md, "Cases") of `serve` or of `run`, or a command line. What it is to print, to send, to write and to
hand in is what the second program finds, so that `stored_cases` has to find no difference. Requests, responses, journals and
stores are made right, chunked or not, and then some of their bytes are turned, cut, doubled or swapped. A case that differs is
shrunk as long as it differs, and printed. The exit status is 1 where one differs.
"""

import argparse
import random
import subprocess
import sys

import browsers
import cases
import exchanges
import judged
import judging
import recordings
import server
import serving
import urls
from changing import change_bytes
from compare import STORED_CASES
from messages import ENTRIES, PLATFORMS, THREATS

PER_RUN = 50
AT_ONCE = 200
PATHS = {kind: path for path, (_, kind) in serving.PATHS.items()}
USAGES = {"sbupdate": "sbupdate", "sbcheck": "sbcheck", "sblistd": "the-server", "sbjournal": "sbjournal"}
WORDS = [
    "sbupdate", "sbcheck", "sblistd", "sbjournal", "run", "replay", "judge", "show", "vectors", "answer", "serve", "generate", "exercise",
    "new", "sync", "change", "has", "check", "compact", "--", "-", "", "--store", "--store=s", "s", "--server", "--server=h:1", "h:1",
    "--rounds", "--rounds=1", "0", "1", "2", "01", "+1", "4294967296", "--key", "--key=k", "--max-update", "--max-database=0", "--raw-only",
    "--no-digest", "--update=0", "--workers", "--workers=17", "--patience=0", "--journal", "--journal=j", "--kind", "--kind=fetch", "find",
    "--wait=0", "--wait=86401", "--find-wait", "--cache=1", "--negative", "--listen=h:1", "--listen", "[::1]:8080", "--connections=1",
    "--peers", "--answers=0", "--hold", "--urls", "--size", "--skip", "--empty", "MALWARE/ANY_PLATFORM/URL", "MALWARE/LINUX/URL", "X/Y/Z",
]  # fmt: skip
BEGUN = [
    ["sbupdate", "replay"], ["sbcheck", "show"], ["sbcheck", "vectors"], ["sblistd", "generate"], ["sblistd", "exercise"],
    ["sbupdate", "run", "--store=s", "--server=h:1", "--rounds=1"], ["sbcheck", "judge", "--store=s", "--server", "h:1"],
    ["sblistd", "answer", "--journal=j", "--kind", "fetch"], ["sblistd", "serve", "--journal", "j", "--listen=h:1"],
    ["sbjournal", "new"], ["sbjournal", "has", "--journal=j"],
]  # fmt: skip


# ---- bytes


def turned(rand, text):
    at = rand.randrange(len(text))
    return text[:at] + bytes([text[at] ^ 1 << rand.randrange(8)]) + text[at + 1 :]


def doubled(rand, text):
    at, end = sorted(rand.choices(range(len(text) + 1), k=2))
    return text[:end] + text[at:end] + text[end:]


def swapped(rand, text):
    at, middle, end = sorted(rand.choices(range(len(text) + 1), k=3))
    return text[:at] + text[middle:end] + text[at:middle] + text[end:]


def noisy(rand, text, share):
    """The text, in so many of all cases with some noise."""
    while text and rand.random() < share:
        text = rand.choice([turned, turned, doubled, swapped, change_bytes, lambda rand, text: text[: rand.randrange(len(text))]])(rand, text)
        share /= 2
    return text


# ---- heads


FIELDS = [
    b"Host: a", b"Accept: */*", b"X:", b"x-y: z\tz", b"Connection: close", b"Content-Type: application/json", b"Cookie: \xff", b"Expect: 100-continue",
]  # fmt: skip


def head_of(rand, first, fields):
    """A head of this line and these fields, and of some others."""
    fields = [*fields, *rand.sample(FIELDS, rand.choice([0, 0, 1, 2]))]
    rand.shuffle(fields)
    fields = [rand.choice([field, field, field.swapcase() if b"sha-256" not in field else field]) for field in fields]
    return b"".join(line + rand.choice([b"\r\n"] * 9 + [b"\n"]) for line in [first, *fields, b""])


def request_of(rand, kind, body):
    """A request by the grammar, mostly a right one."""
    path = PATHS[kind] if rand.random() < 0.9 else rand.choice([*PATHS.values(), b"/", b"*", b"/x"])
    path = rand.choice([b""] * 8 + [b"http://h.example", b"x-y://"]) + path + rand.choice([b""] * 6 + [b"?", b"?key=k&alt=json"])
    method = rand.choice([b"GET" if kind == "lists" else b"POST"] * 12 + [b"GET", b"PUT", b"HEAD", b"OPTIONS"])
    lengths = [b"Content-Length: %d" % len(body)] if body or rand.random() < 0.5 else []
    lengths = lengths if rand.random() < 0.93 else rand.choice([[], lengths * 2, [b"Transfer-Encoding: chunked"], [b"Content-Length: 1048577"]])
    version = rand.choice([b"HTTP/1.1"] * 8 + [b"HTTP/1.0", b"HTTP/1.2"])
    return head_of(rand, b" ".join([method, path, version]), lengths) + body


def chunked(rand, body):
    """The body in chunks, with extensions and a trailer."""
    text = b""
    while body:
        size = rand.randrange(1, len(body) + 1)
        digits = rand.choice([b"%x", b"%X", b"0%x"]) % size
        text += digits + rand.choice([b"", b"", b";a=b", b" "]) + b"\r\n" + body[:size] + b"\r\n"
        body = body[size:]
    return text + b"0\r\n" + rand.choice([b"", b"", b"X: y\r\n"]) + b"\r\n"


def response_of(rand, body):
    """A response by the grammar, mostly a right one, whole or in chunks."""
    whole = exchanges.response(body)
    if rand.random() < 0.3:
        return whole
    digest = whole.partition(b"Content-Digest: ")[2].partition(b"\r\n")[0]
    fields = [b"Content-Digest: " + digest] if rand.random() < 0.9 else []
    is_chunked = rand.random() < 0.5
    fields += [b"Transfer-Encoding: chunked"] if is_chunked else [b"Content-Length: %d" % len(body)]
    first = rand.choice([b"HTTP/1.1 200 OK"] * 12 + [b"HTTP/1.0 200", b"HTTP/1.1 200 ", b"HTTP/1.1 404 Not Found", b"HTTP/1.1 503 x"])
    return head_of(rand, first, fields) + (chunked(rand, body) if is_chunked else body)


# ---- cases: the lines of what is given, each with its text


def any_served(rand):
    """A run of a list server."""
    kind = rand.choice(["fetch", "find", "lookup"])
    journal, body, _, times = server.any_question(rand, kind)
    fields = [(f"server sblistd serve --journal=j --listen=h:1 --connections=9 --wait={times['wait']}" + rand.choice(["", " --hold"]), None)]
    cut = rand.choice([len(journal)] * 3 + [rand.randrange(len(journal) + 1)])
    fields.append(("journal", noisy(rand, journal[:cut], 0.05)))
    for _ in range(rand.choice([1, 2, 3])):
        asked = rand.choice([kind] * 4 + ["lists"])
        text = body if asked == kind else b""
        fields.append(("connection", noisy(rand, request_of(rand, asked, noisy(rand, text, 0.1)), 0.4)))
        if cut < len(journal):
            fields.append(("append", noisy(rand, journal[cut:], 0.05)))
            cut = len(journal)
    return fields


def any_browsed(rand):
    """A run of a list server that browsers ask."""
    journal, _, _, times = server.any_question(rand, "fetch")
    try:
        history = server.read_journal(journal)
    except server.BadJournal:
        history = server.Journal()
    names = rand.sample(["/".join((t, p, e)) for t in THREATS for p in PLATFORMS for e in ENTRIES], 9)
    words = f"--connections={PER_RUN} --wait={times['wait']} --find-wait={times['find-wait']}"
    fields = [(f"server sblistd serve --journal=j --listen=h:1 {words}", None), ("journal", journal)]
    for _ in range(PER_RUN):
        kind = rand.choice(["fetch", "fetch", "find"])
        message = noisy(rand, browsers.MESSAGES[kind](rand, history, names), 0.1)
        first, lines, body = browsers.request_of(rand, PATHS[kind], message)
        fields.append(("connection", noisy(rand, head_of(rand, first, lines) + body, 0.03)))
    return fields


def any_updated(rand):
    """A run of updates."""
    lists = judged.any_lists(rand)
    words = ["sbupdate", "run", "--store=s", "--server=h:80", f"--rounds={rand.choice([1, 2, 3])}", *lists]
    words += rand.sample(["--no-digest", "--raw-only", "--max-update=1", "--key=k"], rand.choice([0, 0, 1]))
    fields = [("client " + " ".join(words), None), ("clock 1000000", None), (f"dice {rand.randrange(2**32)} {rand.randrange(2**32)}", None)]
    fields.append(("journal", judged.any_journal(rand, lists)))
    store = judged.any_store(rand, lists) if rand.random() < 0.6 else None
    fields += [] if store is None else [("store", noisy(rand, store, 0.3))]
    for _ in range(3):
        if rand.random() < 0.5:
            fields.append((rand.choice(["serve"] * 6 + ["serve lost", "serve without 1", "serve front 20", "serve byte 1 33", "serve again"]), None))
            continue
        updates = (judged.refused_update(rand, rand.choice(list(lists))) for _ in range(rand.choice([0, 1, 1, 2])))
        body = recordings.body(*updates).encode("ascii") if rand.random() < 0.8 else rand.choice(judged.ODD_BODIES)
        fields.append(("session", noisy(rand, response_of(rand, noisy(rand, body, 0.1)), 0.4)))
    # `again` has something to bring only after a session
    first = next(at for at, (name, _) in enumerate(fields) if name.startswith(("serve", "session")))
    return [(("serve" if at == first and name == "serve again" else name), text) for at, (name, text) in enumerate(fields)]


def any_words(rand):
    """A command line: words of a right one, of which some are left out, doubled, swapped or others."""
    words = [*rand.choice(BEGUN), *rand.choices(WORDS, k=rand.choice([0, 1, 1, 2, 3]))]
    while rand.random() < 0.3:
        at = rand.randrange(len(words))
        words[at : at + 1] = rand.choice([[], words[at : at + 1] * 2, words[at : at + 2][::-1], [rand.choice(WORDS)]])
        words = words or [""]
    words = words if words[0] in USAGES else [rand.choice(list(USAGES)), *words]
    field = {"sbupdate": "client", "sbcheck": "client", "sblistd": "server", "sbjournal": "maker"}[words[0]]
    return [(f"{field} " + " ".join(word or '""' for word in words), None), ("journal", b"sblist 2 0000000000000001\n"), ("clock 1000000", None)]


KINDS = {"runs of a server": any_served, "runs of a server for browsers": any_browsed, "runs of updates": any_updated, "command lines": any_words}


# ---- the comparison


def given_lines(fields):
    return [line for name, text in fields for line in [name, *([] if text is None else judged.lines_of(text))]]


def spelled(number, fields):
    """The lines of a case, and its status; or None where the second program does not know what is to come."""
    lines = given_lines(fields)
    book = cases.Book("\n".join(["# noise", "## case", *lines, ""]).encode("latin-1"))
    run = cases.Run(book, range(2, len(book.lines)), range(1, 1), range(2, 2), None)
    try:
        printed, status, left, _ = run.result(0)
    except (urls.Skipped, judging.Scheduled):
        return None
    usage = USAGES[run.words[0]]
    lines = [f"## {number}", *lines, f"status {status}", *(["out", *judged.lines_of(printed)] if printed is not None else [f"out @usage-of-{usage}"])]
    for name, came in left.items():
        if name == "moments":
            lines.append("moments " + (" ".join(map(str, came)) or "none"))
        else:
            lines += [line for text in came for line in [name, *judged.lines_of(text)]] or [f"{name} none"]
    return lines, status


def usages():
    """The texts of the stored cases that say how the programs are used."""
    with open(cases.CASES, encoding="latin-1") as data:
        lines = data.read().split("\n")
    kept, is_usage = [], False
    for line in lines:
        is_usage = line.startswith("text usage-of-") or is_usage and line[:1] in ("", *cases.SIGNS)
        kept += [line] if is_usage and line else []
    return kept


def differing(said):
    """Which of some cases differ, each by its number and its lines, and what is told of them."""
    text = "\n".join([*usages(), "# Noise", "steps 1000000", *(line for lines in said.values() for line in lines), ""])
    found = subprocess.run([STORED_CASES], input=text.encode("latin-1"), stdout=subprocess.PIPE, check=False)
    told = found.stdout.decode("latin-1")
    if not told.endswith(" differ\n") and not told.endswith(" differs\n"):
        return list(said), told
    return [int(line) for line in told.split("\n") if line.isdecimal()], told


def smaller(fields):
    """Smaller things to give: without a field, or with less of a text."""
    for at in range(len(fields) - 1, 0, -1):
        yield fields[:at] + fields[at + 1 :]
    for at, (name, text) in enumerate(fields):
        size = len(text or b"") // 2
        while size:
            for begin in range(0, len(text), size):
                yield [*fields[:at], (name, text[:begin] + text[begin + size :]), *fields[at + 1 :]]
            size //= 2


def shrunk(fields):
    """The smallest case that still differs and is found by leaving out."""
    found = True
    while found:
        found = False
        for less in smaller(fields):
            said = spelled(0, less)
            if said and differing({0: said[0]})[0]:
                fields, found = less, True
                break
    return fields


def compare_some(rand, kind, count, statuses):
    """Runs so many cases of a kind at once: how many differ."""
    made, said = {}, {}
    while len(said) < count:
        fields = KINDS[kind](rand)
        lines = spelled(len(said), fields)
        if lines is not None:
            made[len(said)] = fields
            statuses[lines[1]] = statuses.get(lines[1], 0) + 1
            said[len(said)] = lines[0]
    wrong, told = differing(said)
    if len(wrong) == count > 1:
        raise SystemExit(f"noise: the {kind} were not told one by one: {told[:2_000]!r}")
    if wrong:
        fields = shrunk(made[wrong[0]])
        print("\n".join([f"{len(wrong)} of the {kind} differ", told[:2_000], *(spelled(wrong[0], fields)[0])]))
    return len(wrong)


def compare(rand, kind, count):
    """Runs so many cases of a kind, some at once, since a text of cases has a limit: how many differ."""
    statuses = {}
    wrong = sum(compare_some(rand, kind, min(AT_ONCE, count - at), statuses) for at in range(0, count, AT_ONCE))
    ended = ", ".join(f"{number:,} with status {status}" for status, number in sorted(statuses.items()))
    print(f"{count:,} {kind}: {ended}", flush=True)
    return wrong


def main():
    parser = argparse.ArgumentParser(description=__doc__.splitlines()[0])
    parser.add_argument("--count", type=int, default=2_000, help="how many of each kind (2000)")
    parser.add_argument("--seed", type=int, default=20_261_130, help="where they begin")
    options = parser.parse_args()
    wrong = sum(compare(random.Random(options.seed), kind, options.count) for kind in KINDS)
    print(f"{wrong} differ")
    return 1 if wrong else 0


if __name__ == "__main__":
    sys.exit(main())
