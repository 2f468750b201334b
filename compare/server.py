"""The second program's list server: it reads a journal and a fetch, find or look-up request, and answers.

The rules are those of docs/FORMATS.md. A history is folded anew for each version, and a target is looked for from the
newest version down. A find goes through all full hashes of a list for each prefix. A look-up asks each list for the hash
of each expression of a URL.
"""

import base64
import functools
import hashlib
import json
import re

import urls
from changing import change_bytes, change_field
from messages import ENTRIES, PLATFORMS, THREATS, Unreadable, read_find, read_lookup, read_request

MOST_LINE = 128
MOST_LISTS = 8
MOST_CHANGES = 65_536
MOST_HASH_LINES = 2_097_152
MOST_HASHES = 1_048_576
MOST_ALIKE = 16
MOST_BYTES = 8_388_608
MOST_REQUEST = 1_048_576

HEX = "[0-9A-Fa-f]"

# words of the published API, and others, that are none of a name here
OTHER_WORDS = ["IP_RANGE", "THREAT_TYPE_UNSPECIFIED", "MALICIOUS_BINARY", "CSD_DOWNLOAD_WHITELIST", "malware", "url", "", "MALWARE ", "\u00e9"]


class BadJournal(Exception):
    """A journal is refused, for the cause that is the exception's text."""


# ---- the journal


def is_name(word):
    parts = word.split("/")
    return len(parts) == 3 and parts[0] in THREATS and parts[1] in PLATFORMS and parts[2] in ENTRIES


def number_in(text, low, high):
    """The decimal number that a text is, without a zero in front."""
    if re.fullmatch("0|[1-9][0-9]{0,3}", text, re.ASCII) is None or not low <= int(text) <= high:
        return None
    return int(text)


class Journal:
    """A history, which is read line by line."""

    def __init__(self):
        self.epoch = 0
        self.sized = False
        self.declared = {}
        self.changes = []
        self.newest = {}
        self.hash_lines = 0
        self.begun = None

    def first(self, line):
        form = re.fullmatch(f"sblist ([12]) ({HEX}{{16}})", line, re.ASCII)
        if form is None:
            raise BadJournal("header")
        self.sized, self.epoch = form[1] == "2", int(form[2], 16)

    def head(self, line, number):
        words = line.split(" ")
        if len(words) == 3 and words[0] == "list" and is_name(words[1]):
            size = number_in(words[2], 4, 32)
            if size is not None:
                return self.list(words[1], size, number)
        if len(words) == 4 and words[0] == "change" and is_name(words[1]):
            adds, removes = number_in(words[2], 0, 1024), number_in(words[3], 0, 1024)
            if adds is not None and removes is not None and 1 <= adds + removes <= 1024:
                return self.change(words[1], adds, removes, number)
        raise BadJournal(f"line {number}")

    def list(self, name, size, number):
        if name in self.declared:
            raise BadJournal(f"list-twice {number}")
        if len(self.declared) == MOST_LISTS:
            raise BadJournal(f"too-many {number}")
        self.declared[name], self.newest[name] = size, {}

    def change(self, name, adds, removes, number):
        if name not in self.declared:
            raise BadJournal(f"unknown-list {number}")
        if len(self.changes) == MOST_CHANGES:
            raise BadJournal(f"too-many {number}")
        self.begun = name, adds, removes, [], []

    def hash(self, line, number):
        name, adds, removes, added, removed = self.begun
        adds_next = len(added) < adds
        form = re.fullmatch(f"[{'+' if adds_next else '-'}]({HEX}{{64}})(?: ([0-9]+))?", line, re.ASCII)
        if form is None or form[2] is not None and not (adds_next and self.sized):
            raise BadJournal(f"line {number}")
        size = self.declared[name] if form[2] is None else number_in(form[2], 4, 32)
        if size is None:
            raise BadJournal(f"line {number}")
        self.hash_lines += 1
        if self.hash_lines > MOST_HASH_LINES:
            raise BadJournal(f"too-many {number}")
        if adds_next:
            added.append((bytes.fromhex(form[1]), size))
        else:
            removed.append(bytes.fromhex(form[1]))
        if len(added) == adds and len(removed) == removes:
            self.complete(name, added, removed, number)

    def complete(self, name, added, removed, number):
        self.begun = None
        self.changes.append((name, added, removed))
        entries = self.newest[name]
        apply_change(entries, added, removed)
        heads = {}
        for full in entries:
            heads[full[:4]] = heads.get(full[:4], 0) + 1
        if len(entries) > MOST_HASHES or any(count > MOST_ALIKE for count in heads.values()):
            raise BadJournal(f"too-many {number}")
        if sum(map(len, prefixes_of(entries))) > MOST_BYTES:
            raise BadJournal(f"too-large {number}")

    def line(self, line, number):
        if number == 1:
            self.first(line)
        elif self.begun is None:
            self.head(line, number)
        else:
            self.hash(line, number)


def apply_change(entries, added, removed):
    for full in removed:
        entries.pop(full, None)
    for full, size in added:
        entries[full] = size


def prefixes_of(entries):
    return sorted({full[:size] for full, size in entries.items()})


def read_journal(data):
    journal = Journal()
    *lines, part = data.split(b"\n")
    for number, line in enumerate(lines, 1):
        if len(line) > MOST_LINE:
            raise BadJournal("header" if number == 1 else f"line {number}")
        journal.line(line.decode("latin-1"), number)
    if not lines:
        raise BadJournal("header")
    if len(part) > MOST_LINE:
        raise BadJournal(f"line {len(lines) + 1}")
    return journal


# ---- answers


def token_of(journal, name, version):
    threat, platform, entry = name.split("/")
    codes = [THREATS.index(threat) + 1, PLATFORMS.index(platform) + 1, ENTRIES.index(entry) + 1]
    return bytes([1]) + journal.epoch.to_bytes(8, "big") + version.to_bytes(8, "big") + bytes(codes)


def set_at(journal, name, version):
    entries = {}
    for changed, added, removed in journal.changes[:version]:
        if changed == name:
            apply_change(entries, added, removed)
    return prefixes_of(entries)


def is_within(limit, count):
    return limit == 0 or count <= limit


def target_of(journal, asked, held):
    name, newest = asked["name"], len(journal.changes)
    before = [] if held is None else set_at(journal, name, held)
    for version in range(newest, -1 if held is None else held, -1):
        after = set_at(journal, name, version)
        differing = len(set(before) ^ set(after))
        if is_within(asked["max_update"], differing) and is_within(asked["max_database"], len(after)):
            return version
    return 0 if held is None else held


def rice_of(numbers):
    """The one record that is written of rising numbers."""
    first, *others = numbers
    deltas = [number - before for before, number in zip(numbers, others)]
    record = {"firstValue": str(first)} if first else {}
    if not deltas:
        return record
    costs = {k: sum((delta >> k) + 1 + k for delta in deltas) for k in range(2, 29)}
    parameter = min(costs, key=lambda k: (costs[k], k))
    bits = []
    for delta in deltas:
        bits += [1] * (delta >> parameter) + [0] + [delta >> place & 1 for place in range(parameter)]
    bits += [0] * (-len(bits) % 8)
    coded = bytes(sum(bit << place for place, bit in enumerate(bits[at : at + 8])) for at in range(0, len(bits), 8))
    return record | {
        "riceParameter": parameter,
        "numEntries": len(deltas),
        "encodedData": base64.b64encode(coded).decode("ascii"),
    }


def additions_of(members, rice):
    sets = []
    for size in sorted(set(map(len, members))):
        some = [member for member in members if len(member) == size]
        if size == 4 and rice:
            numbers = sorted(int.from_bytes(member, "little") for member in some)
            sets.append({"compressionType": "RICE", "riceHashes": rice_of(numbers)})
        else:
            text = base64.b64encode(b"".join(some)).decode("ascii")
            sets.append({"compressionType": "RAW", "rawHashes": {"prefixSize": size, "rawHashes": text}})
    return sets


def removals_of(places, rice):
    if not places:
        return []
    if rice:
        return [{"compressionType": "RICE", "riceIndices": rice_of(places)}]
    return [{"compressionType": "RAW", "rawIndices": {"indices": places}}]


def answer_item(journal, asked):
    name, newest = asked["name"], len(journal.changes)
    versions = {token_of(journal, name, version): version for version in range(newest + 1)}
    held = versions.get(asked["state"])
    target = target_of(journal, asked, held)
    members = set_at(journal, name, target)
    before = [] if held is None else set_at(journal, name, held)
    threat, platform, entry = name.split("/")
    item = {
        "threatType": threat,
        "platformType": platform,
        "threatEntryType": entry,
        "responseType": "FULL_UPDATE" if held is None else "PARTIAL_UPDATE",
        "newClientState": base64.b64encode(token_of(journal, name, target)).decode("ascii"),
        "checksum": {"sha256": base64.b64encode(hashlib.sha256(b"".join(members)).digest()).decode("ascii")},
    }
    if held is not None:
        item["baseState"] = base64.b64encode(asked["state"]).decode("ascii")
    additions = additions_of([member for member in members if member not in before], asked["rice"])
    places = [place for place, member in enumerate(before) if member not in members]
    removals = removals_of(places, asked["rice"] and journal.declared[name] == 4)
    return item | ({"additions": additions} if additions else {}) | ({"removals": removals} if removals else {})


def answering(journal, name):
    """The declared list that answers for a name: that of the name itself, else that for any platform, or None."""
    threat, _, entry = name.split("/")
    return next((one for one in (name, f"{threat}/ANY_PLATFORM/{entry}") if one in journal.declared), None)


def named_item(journal, asked):
    """The item of an asked list, under the name that was asked, or None if no list answers for it."""
    name = answering(journal, asked["name"])
    return None if name is None else answer_item(journal, asked | {"name": name}) | types_of(asked["name"])


def fetch_answer(journal, items, times):
    """The answer to a fetch request whose items these are, in order."""
    body = {"listUpdateResponses": items} if items else {}
    return body | some_seconds("minimumWaitDuration", times["wait"])


def fetch_body(journal, text, times):
    """The body of the answer to a fetch request. Names for which no list answers have no item."""
    items = [named_item(journal, asked) for asked in read_request(text)]
    return fetch_answer(journal, [item for item in items if item is not None], times)


def some_seconds(name, seconds):
    return {name: f"{seconds}s"} if seconds else {}


def types_of(name):
    return dict(zip(("threatType", "platformType", "threatEntryType"), name.split("/")))


def asked_names(journal, words):
    """The names whose three types are among three lists of words and for which a list answers, in their order."""
    every = ("/".join((t, p, e)) for t in THREATS for p in PLATFORMS for e in ENTRIES)
    return [name for name in every if answering(journal, name) and all(map(list.__contains__, words, name.split("/")))]


def matches_of(journal, name, prefixes, cache):
    """The matches under a name: each of the newest full hashes of the list that answers that begins with one of the prefixes."""
    of_list = types_of(name) | some_seconds("cacheDuration", cache)
    newest = sorted(journal.newest[answering(journal, name)])
    found = [full for full in newest if any(full.startswith(prefix) for prefix in prefixes)]
    return [of_list | {"threat": {"hash": base64.b64encode(full).decode("ascii")}} for full in found]


def find_answer(journal, words, prefixes, times):
    """The answer to a find request of three lists of words and some prefixes."""
    matches = [one for name in asked_names(journal, words) for one in matches_of(journal, name, prefixes, times["cache"])]
    body = {"matches": matches} if matches else {}
    return body | some_seconds("minimumWaitDuration", times["find-wait"]) | some_seconds("negativeCacheDuration", times["negative"])


def find_body(journal, text, times):
    """The body of the answer to a find request."""
    return find_answer(journal, *read_find(text), times)


@functools.lru_cache(maxsize=4_096)
def hashes_of(url):
    """The full hashes of the expressions of a URL, none of a text that has no canonical form."""
    try:
        _, *parts = urls.canonical(url.encode("utf-8"))
    except urls.NoUrl:
        return frozenset()
    return frozenset(hashlib.sha256(expression).digest() for expression in urls.expressions(*parts))


def lookup_body(journal, text, times):
    """The body of the answer to a look-up request: of each URL a match with each asked list that has one of its expressions."""
    words, asked = read_lookup(text)
    names, matches = asked_names(journal, words), []
    for url in asked:
        hashes = hashes_of(url)
        listed = [name for name in names if not hashes.isdisjoint(journal.newest[answering(journal, name)])]
        matches += [types_of(name) | some_seconds("cacheDuration", times["cache"]) | {"threat": {"url": url}} for name in listed]
    return {"matches": matches} if matches else {}


def lists_body(journal):
    """The body of the answer to one who asks which lists there are."""
    every = asked_names(journal, (THREATS, PLATFORMS, ENTRIES))
    names = [name for name in every if name in journal.declared]
    return {"threatLists": list(map(types_of, names))} if names else {}


BODIES = {"fetch": fetch_body, "find": find_body, "lookup": lookup_body}


def written_body(body):
    """A body in its one spelling."""
    return json.dumps(body, ensure_ascii=False, sort_keys=True, separators=(",", ":")).encode("utf-8")


def answer(data, text, kind, times):
    """What `sblistd answer` prints, and its status. The kind is `fetch`, `find` or `lookup`."""
    try:
        journal = read_journal(data)
    except BadJournal as fault:
        return f"journal {fault}\n".encode("ascii"), 7
    if len(text) > MOST_REQUEST:
        return b"", 6
    try:
        body = BODIES[kind](journal, text, times)
    except Unreadable as fault:
        return f"request {fault}\n".encode("ascii"), 5
    return written_body(body) + b"\n", 0


# ---- seeded journals and requests


def some_hash(rand):
    """A full hash that may share its first bytes with others."""
    return bytes(rand.choices(b"\x00a\xff", k=4)) + bytes(rand.choices(b"\x00b", k=2)) + bytes(26)


def hex_of(rand, data):
    return data.hex().upper() if rand.random() < 0.1 else data.hex()


def any_journal(rand, names, any_full):
    """A journal whose full hashes are drawn by a function."""
    form = rand.choice([1, 2])
    lines = [f"sblist {form} {hex_of(rand, rand.choice([0, 1, 2**64 - 1]).to_bytes(8, 'big'))}"]
    declared = rand.sample(names, rand.choice([1, 1, 2, len(names)]))
    lines += [f"list {name} {rand.choice([4, 4, 5, 32])}" for name in declared]
    for _ in range(rand.choice([0, 1, 3, 12])):
        adds, removes = rand.choice([(1, 0), (4, 0), (8, 2), (0, 3), (2, 2)])
        lines.append(f"change {rand.choice(declared)} {adds} {removes}")
        for _ in range(adds):
            size = f" {rand.choice([4, 6, 32])}" if form == 2 and rand.random() < 0.5 else ""
            lines.append(f"+{hex_of(rand, any_full(rand))}{size}")
        lines += [f"-{hex_of(rand, any_full(rand))}" for _ in range(removes)]
    if rand.random() < 0.15:
        at = rand.randrange(len(lines))
        lines[at] = rand.choice([
            "", "x" * 128, "x" * 129, lines[at] + " ", lines[at][:-1], lines[rand.randrange(len(lines))], "list X/Y/Z 4",
            f"list {names[0]} 4", f"change {names[-1]} 1 0", f"change {names[0]} 0 0", f"change {names[0]} 01 0",
        ])  # fmt: skip
    data = "".join(line + "\n" for line in lines).encode("latin-1")
    return data[: rand.randrange(len(data))] if rand.random() < 0.1 else data


def any_state(rand, journal, name, names):
    kind = rand.randrange(6)
    version = rand.randrange(len(journal.changes) + 1)
    if kind == 0:
        return b""
    if kind == 1:
        return token_of(journal, rand.choice(names), version)
    if kind == 2:
        return token_of(journal, name, len(journal.changes) + 1)
    token = token_of(journal, name, version)
    return token[:-1] if kind == 3 and rand.random() < 0.3 else token


def written(rand, body, changed, ascii=True):
    """The text of a body, of which now and then a field is changed (so often), or some bytes."""
    kind = rand.random()
    if kind < changed:
        change_field(rand, body)
    text = json.dumps(body, ensure_ascii=ascii).encode("utf-8", "surrogatepass")
    return change_bytes(rand, text) if kind > 0.93 else text


def any_asked(rand, journal, names):
    """The three words of an item: mostly of a declared list, now and then of one that is not, or of no name."""
    known = rand.random() < 0.85 and journal.declared
    name = rand.choice(list(journal.declared) if known else names)
    words = name.split("/")
    if rand.random() < 0.1:
        words[rand.randrange(3)] = rand.choice(OTHER_WORDS)
    return dict(zip(("threatType", "platformType", "threatEntryType"), words)), name


def any_request(rand, journal, names):
    items = []
    for _ in range(rand.choice([0, 1, 1, 1, 2, 5, 8, 9, 10])):
        item, name = any_asked(rand, journal, names)
        state = any_state(rand, journal, name, names)
        if state:
            item["state"] = base64.b64encode(state).decode("ascii")
        constraints = {}
        if rand.random() < 0.5:
            constraints["maxUpdateEntries"] = rand.choice([0, 1, 2, 5, 2_097_151, 2**31 - 1])
        if rand.random() < 0.3:
            constraints["maxDatabaseEntries"] = rand.choice([1, 3, 6, 1_048_576])
        constraints["supportedCompressions"] = rand.choice([["RAW"], ["RAW", "RICE"], ["RICE"], [], ["OTHER"]])
        items.append(item | {"constraints": constraints})
    body = {"client": {"clientId": "sblist", "clientVersion": "1"}, "listUpdateRequests": items}
    return written(rand, body, 0.1)


def any_hash(rand, journal):
    """The bytes of a prefix, which the journal may have and which may be too short."""
    added = [full for entries in journal.newest.values() for full in entries]
    full = rand.choice(added) if added and rand.random() < 0.7 else some_hash(rand)
    return full[: rand.choice([4, 4, 4, 5, 6, 32, 32, rand.randrange(33)])]


def some_words(rand, table, named):
    """Words of a table, mostly with those that some lists are named by."""
    words = rand.sample(table, rand.choice([0, 1, 1, 2])) + [word for word in named if rand.random() < 0.8]
    rand.shuffle(words)
    for _ in range(rand.choice([0, 0, 0, 1, 2])):
        words.insert(rand.randrange(len(words) + 1), rand.choice(OTHER_WORDS))
    return words


def some_types(rand, journal, names):
    """The three lists of words of a find or a look-up request."""
    threats, platforms, entries = zip(*(name.split("/") for name in list(journal.declared) or names))
    return {
        "threatTypes": some_words(rand, THREATS, threats),
        "platformTypes": some_words(rand, PLATFORMS, platforms),
        "threatEntryTypes": some_words(rand, ENTRIES, entries),
    }


def any_find(rand, journal, names):
    info = some_types(rand, journal, names)
    count = rand.choice([0, 1, 1, 2, 3, 8]) if rand.random() < 0.98 else rand.choice([1_024, 1_025])
    info["threatEntries"] = [{"hash": base64.b64encode(any_hash(rand, journal)).decode("ascii")} for _ in range(count)]
    body = {"client": {"clientId": "sblist", "clientVersion": "1"}, "threatInfo": info}
    if rand.random() < 0.5:
        states = [any_state(rand, journal, name, names) for name in rand.choices(names, k=rand.choice([0, 1, 1, 3]))]
        body["clientStates"] = [base64.b64encode(state).decode("ascii") for state in states]
        body["clientStates"] += [None] * rand.choice([0, 0, 1, 2])
        rand.shuffle(body["clientStates"])
    return written(rand, body, 0.2)


def any_asked_url(rand):
    """The characters of a seeded URL. Bytes that are no UTF-8 stand for the characters of their numbers."""
    url = urls.any_url(rand)
    try:
        return url.decode("utf-8")
    except UnicodeDecodeError:
        return url.decode("latin-1")


def some_asked_urls(rand, count):
    """Seeded URLs, of some of which other pages of the host follow, and one twice."""
    asked = [any_asked_url(rand) for _ in range(count)]
    asked += [url.partition("?")[0] + rand.choice(["/", "/x", "?q", "#f", " "]) for url in rand.sample(asked, count // 3)]
    return asked + asked[:1]


def listed_hash(asked):
    """Draws the hash of an expression of one of some URLs, and now and then one that begins as such a hash, or another."""

    def any_full(rand):
        hashes = sorted(hashes_of(rand.choice(asked)))
        if not hashes or rand.random() < 0.1:
            return some_hash(rand)
        full = rand.choice(hashes)
        return full[:4] + rand.randbytes(28) if rand.random() < 0.25 else full

    return any_full


def any_lookup(rand, journal, names, asked):
    """A look-up request of some of the URLs, and of others."""
    info = some_types(rand, journal, names)
    count = rand.choice([0, 1, 2, 3, 8, 30]) if rand.random() < 0.98 else rand.choice([500, 501])
    chosen = [rand.choice(asked) if rand.random() < 0.8 else any_asked_url(rand) for _ in range(count)]
    info["threatEntries"] = [{"url": url} | ({"x": 1} if rand.random() < 0.02 else {}) for url in chosen]
    body = {"client": {"clientId": "\u00e9\u20ac", "clientVersion": "1"}, "threatInfo": info}
    return written(rand, body, 0.2, ascii=rand.random() < 0.5)


def has_known_hosts(text):
    """Whether no URL of a request that is read has a host that the second program does not know."""
    try:
        for url in read_lookup(text)[1]:
            hashes_of(url)
    except Unreadable:
        return True
    except urls.Skipped:
        return False
    return True


def known_lookup(rand, journal, names, asked):
    while not has_known_hosts(text := any_lookup(rand, journal, names, asked)):
        pass
    return text


def known_urls(rand, count):
    """Seeded URLs whose hosts the second program knows."""
    known = []
    while not known:
        for url in some_asked_urls(rand, count):
            try:
                hashes_of(url)
            except urls.Skipped:
                continue
            known.append(url)
    return known


def any_question(rand, kind):
    """A journal, a request of a kind, the kind, and the times that an answer tells."""
    every = [f"{t}/{p}/{e}" for t in THREATS for p in PLATFORMS for e in ENTRIES]
    names = rand.sample(every, 9)
    asked = known_urls(rand, 12) if kind == "lookup" else []
    data = any_journal(rand, names[: rand.choice([2, 9])], listed_hash(asked) if kind == "lookup" else some_hash)
    try:
        journal = read_journal(data)
    except BadJournal:
        journal = Journal()
    requests = {"fetch": any_request, "find": any_find, "lookup": lambda *given: known_lookup(*given, asked)}
    request = requests[kind](rand, journal, names)
    times = {name: rand.choice([0, 1, 1_800, 86_400]) for name in ("wait", "find-wait", "cache", "negative")}
    return data, request, kind, times
