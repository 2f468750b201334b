"""Seeded runs that judge, written as cases (docs/FORMATS.md, "Cases"). What each is to print, to send and to read of its clock is what
the second program finds, so that `stored_cases`, which runs `sbcheck judge` on them, has to find no difference. Any number of
workers look the URLs up. Where there are URLs no round of updates installs a list: each is refused, lost or of no known list.
"""

import base64
import hashlib
import json

import exchanges
import judging
import recordings

LISTS = ["MALWARE/ANY_PLATFORM/URL", "MALWARE/WINDOWS/URL", "SOCIAL_ENGINEERING/ANY_PLATFORM/URL", "UNWANTED_SOFTWARE/LINUX/EXECUTABLE"]
EXPRESSIONS = [b"a.example/", b"b.example/", b"b.example/x/", b"c.b.example/", b"d.example/y", b"d.example/y?z", b"192.0.2.1/", b"xn--bcher-kva.example/"]
URLS = [
    b"http://a.example/", b"A.example:80/p/q", b"http://b.example/x/y.html", b"http://c.b.example/x/", b"http://d.example/y?z", b"d.example/y",
    b"http://3221225985/n", b"http://fine.example/", b"http://xn--bcher-kva.example/", b"", b"http:///x", b" ", b"http://e.c.b.example/x/..",
]  # fmt: skip
STEPS = [0, 0, 0, 1, 500, 59_999, 60_000, 299_999, 300_000, 900_000, 1_800_000]
DURATIONS = ["0s", "1s", "60s", "299.9999s", "300s", "300.0009s", "1800s", "315576000000s"]
ODD_BODIES = [b"", b"x", b"[]", b'{"matches":7}', b'{"matches":[{}]}', b'{"minimumWaitDuration":"1"}', b'{"negativeCacheDuration":"315576000001s"}']


def full_of(expression):
    return hashlib.sha256(expression).digest()


def other_than(full, size):
    """Another hash that begins with so many bytes of this one."""
    return full[:size] + bytes(byte ^ 255 for byte in full[size:])


def any_lists(rand):
    """The token and the rising members of some lists."""
    lists = {}
    for name in rand.sample(LISTS, rand.choice([1, 1, 2, 3])):
        members = {full_of(rand.choice(EXPRESSIONS))[: rand.choice([4, 4, 4, 5, 8, 32])] for _ in range(rand.choice([0, 3, 8, 8]))}
        lists[name] = rand.choice([b"", b"\x01", rand.randbytes(20)]), sorted(members)
    return lists


def any_store(rand, lists):
    """What the keeper keeps, or None: mostly a store, which may be damaged or in the first format."""
    kind = rand.random()
    if kind < 0.05:
        return None
    text = judging.written_store(lists)
    if kind < 0.1:
        return text[: rand.randrange(len(text))]
    if kind < 0.15:
        at = rand.randrange(len(text))
        text = text[:at] + bytes([text[at] ^ 1 << rand.randrange(8)]) + text[at + 1 :]
    if kind < 0.13:
        text = text[:-32] + hashlib.sha256(text[:-32]).digest()
    return text


def any_journal(rand, lists):
    """A journal in which each listed prefix has its own hash, another one, both or none."""
    lines = ["sblist 2 0000000000000001", *(f"list {name} 4" for name in lists)]
    for name, (_, members) in lists.items():
        for member in members:
            own = next(full for full in map(full_of, EXPRESSIONS) if full.startswith(member))
            hashes = rand.choice([[own], [own], [own], [other_than(own, len(member))], [own, other_than(own, len(member))], []])
            hashes = sorted({full for full in hashes if len(member) < 32 or full == own})
            if hashes:
                lines += [f"change {name} {len(hashes)} 0", *(f"+{full.hex()} {len(member)}" for full in hashes)]
    return "".join(line + "\n" for line in lines).encode("ascii")


def any_match(rand, lists):
    name = rand.choice([*lists, rand.choice(LISTS)])
    full = full_of(rand.choice(EXPRESSIONS))
    full = full if rand.random() < 0.7 else other_than(full, rand.choice([4, 5, 8]))
    threat, platform, entry = name.split("/")
    match = {"threatType": threat, "platformType": platform, "threatEntryType": entry, "cacheDuration": rand.choice(DURATIONS)}
    return match | {"threat": {"hash": base64.b64encode(full).decode("ascii")}}


def any_answer(rand, lists):
    """The bytes of a session that was written by nobody's rules."""
    body = {"matches": [any_match(rand, lists) for _ in range(rand.choice([0, 1, 2, 5]))]}
    body |= {"minimumWaitDuration": rand.choice(DURATIONS[:-1])} if rand.random() < 0.5 else {}
    body |= {"negativeCacheDuration": rand.choice(DURATIONS)} if rand.random() < 0.7 else {}
    text = json.dumps(body).encode("ascii") if rand.random() < 0.85 else rand.choice(ODD_BODIES)
    whole = exchanges.response(text)
    kind = rand.random()
    if kind < 0.05:
        return whole[: rand.randrange(len(whole))]
    if kind < 0.1:
        return b"HTTP/1.1 %d Bad\r\n\r\n" % rand.choice([404, 500, 503])
    if kind < 0.15:
        return b"HTTP/1.1 200 OK\r\nContent-Length: %d\r\n\r\n%s" % (len(text), text)
    return whole


def refused_update(rand, name):
    """An update that no list of `any_lists` takes: for its checksum, its base, a place past the members, or a record of no list."""
    return rand.choice([
        recordings.update("FULL", b"\x02", b"other", [recordings.raw(b"1234", b"5678")], name=name),
        recordings.update("PARTIAL", b"\x02", b"", base=b"\x07", name=name),
        recordings.update("PARTIAL", b"\x02", b"", removed=[recordings.places(rand.choice([8, 2**31 - 1]))], name=name),
        recordings.update("FULL", b"\x02", b"", [recordings.rice("riceHashes", firstValue="5", riceParameter=1, numEntries=1)], name=name),
    ])  # fmt: skip


def any_round(rand, lists, installs):
    """The session of a round: a field with its text. No list is installed by it, unless it may be."""
    kind = rand.random()
    if installs and kind < 0.6:
        return b"serve", b"", b""
    if kind < 0.5:
        return b"serve", rand.choice([b"lost", b"without 1", b"front 20", b"byte 1 33"]), b""
    if kind < 0.7:
        return b"session", b"", any_answer(rand, lists)
    text = recordings.body(*(refused_update(rand, rand.choice(LISTS)) for _ in range(rand.choice([0, 1, 1, 2]))))
    wait = f',"minimumWaitDuration":"{rand.choice(DURATIONS[:-1])}"}}' if rand.random() < 0.5 else "}"
    return b"session", b"", exchanges.response((text[:-1] + wait).encode("ascii"))


def any_plays(rand, lists):
    """The sessions of finds that are to come: fields, each with its text."""
    plays = []
    for _ in range(rand.choice([0, 2, 4, 8, 12])):
        if rand.random() < 0.7:
            harm = rand.choice([b""] * 12 + [b"lost", b"without 1", b"front 20", b"byte 1 33"])
            plays.append((b"serve", harm, b""))
        else:
            plays.append((b"session", b"", any_answer(rand, lists)))
    return plays


def any_words(rand, lists):
    """The words of a command line, and what they plan."""
    names = rand.sample(list(lists), len(lists)) + ([LISTS[-1]] if LISTS[-1] not in lists and rand.random() < 0.2 else [])
    plan = {"names": names, "server": f"h{rand.randrange(9)}.example:80", "key": rand.choice(["", "", "", "k-1", "0_a"])}
    patience = rand.choice([None, None, 0, 1, 59, 60, 900, 1_800, 86_400])
    plan |= {"patience": 60 if patience is None else patience, "need_digest": rand.random() < 0.8}
    rounds, workers = rand.choice([0, 0, 0, 1, 1, 2, 4]), rand.choice([None, None, 1, 2, 3, rand.randrange(1, 17), 16])
    plan |= {"rounds": rounds, "options": {"raw-only": False, "max-update": 0, "max-database": 1_048_576}}
    options = [["--store", "s"], ["--server=" + plan["server"]], *([name] for name in names)]
    options += [["--patience", str(patience)]] if patience is not None else []
    options += [["--key=" + plan["key"]]] if plan["key"] else []
    options += [] if plan["need_digest"] else [["--no-digest"]]
    options += [["--update", str(rounds)]] if rounds or rand.random() < 0.1 else []
    options += [[f"--workers={workers}"]] if workers else []
    for name, value in rand.sample([("raw-only", True), ("max-update", 1), ("max-database", 0)], rand.choice([0, 0, 0, 1, 2])):
        plan["options"][name] = value
        options.append([f"--{name}"] if value is True else [f"--{name}", str(value)])
    rand.shuffle(options)
    return ["sbcheck", "judge", *(word for words in options for word in words)], plan


def rising(rand, count):
    moments = [rand.choice([0, 1_000_000, 1_795_809_844_558])]
    while len(moments) < count:
        moments.append(moments[-1] + rand.choice(STEPS))
    return moments


def lines_of(text):
    """The pieces of a text in hexadecimal digits, none of which is long."""
    return ["=" + text[at : at + 64].hex() for at in range(0, len(text), 64)]


def spelled(number, words, given, report):
    """The lines of a case."""
    store, urls, journal, settings, plays, clock, dice = given
    lines = [f"## {number}", "client " + " ".join(words), "input", *lines_of(urls), "journal", *lines_of(journal)]
    lines += ["store", *lines_of(store)] if store is not None else []
    lines += ["settings " + " ".join(map(str, settings)), "clock " + " ".join(map(str, clock)), "dice " + " ".join(map(str, dice))]
    for kind, harm, text in plays:
        lines += [" ".join([kind.decode(), harm.decode()]).rstrip(), *lines_of(text)]
    lines += [f"status {report.status}", "out", *lines_of(report.printed)]
    lines += [line for text in report.handed for line in ["handed", *lines_of(text)]] or ["handed none"]
    lines += [line for sent in report.sent for line in ["sent", *lines_of(sent)]] or ["sent none"]
    return [*lines, "moments " + " ".join(map(str, report.moments))]


def any_run(rand, number):
    """The lines of a case, and what comes of its URLs."""
    lists = any_lists(rand)
    urls = [rand.choice(URLS) for _ in range(rand.choice([0, 1, 2, 5, 12]))]
    (words, plan), text = any_words(rand, lists), b"".join(url + b"\n" for url in urls)
    settings = rand.choice([(0, 300, 300), (0, 0, 0), (0, 1, 1_800), (1_800, 300, 300), (60, 300, 1)])
    clock, dice = rising(rand, rand.choice([1, 2, 3 * len(urls) + 1])), [rand.choice([0, rand.randrange(2**32)]) for _ in range(12)]
    rounds = [any_round(rand, lists, not urls) for _ in range(plan["rounds"])]
    store, journal, plays = any_store(rand, lists), any_journal(rand, lists), rounds + any_plays(rand, lists)
    times = {"wait": settings[0], "find-wait": settings[0], "cache": settings[1], "negative": settings[2]}
    link = judging.Link(list(plays), journal, times)
    report = judging.judge(plan, urls, store, judging.Clock(clock), judging.Dice(dice), link.session)
    return spelled(number, words, (store, text, journal, settings, plays, clock, dice), report), report


def some_runs(rand, count):
    """The text of so many cases, and how many lines of each kind they print."""
    lines, kinds = ["# Runs that judge", "steps 1000000"], {}
    for number in range(count):
        case, report = any_run(rand, number)
        lines += case
        for line in report.printed.splitlines():
            words = line.decode("utf-8", "replace").split(" ")
            kind = "of a round" if words[0] == "round" else words[1]
            if kind in ("safe", "unsafe", "undecided", "refused", "of a round"):
                kinds[kind] = kinds.get(kind, 0) + 1
    return "".join(line + "\n" for line in lines).encode("ascii"), kinds
