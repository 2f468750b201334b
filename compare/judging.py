"""The second program's client: it loads a store and makes rounds of updates. Its judge looks URLs up on the lists that it loaded, asks a
link for whole hashes, keeps what is answered, and prints a report.

The rules are those of docs/FORMATS.md, "A run of a client" and "A run that judges". A kept answer is a dictionary, and a link is a
function from what a session sends to what it gives. Where a URL is looked up and a round installs a list, the number of the URL's publication depends on
the schedule of the threads: such a run is left out. Every other comes to the same for any number of workers.
"""

import base64
import collections
import hashlib
import json

import exchanges
import server
import serving
import urls
from messages import ENTRIES, PLATFORMS, THREATS, Unreadable, read_find_answer, read_response
from updates import order, shown, take

MOST_MOMENT = 2**64 - 1
MOST_LISTS = 8
MOST_TOKEN = 4_096
MOST_MEMBERS = 1_048_576
MOST_BYTES = 8_388_608
MOST_PAIRS = 4_096
DAY = 86_400_000

Hit = collections.namedtuple("Hit", "name prefix full")
Report = collections.namedtuple("Report", "printed status sent moments handed")


class NoStore(Exception):
    """A text is no store, for the cause that is the exception's text."""


class Scheduled(Exception):
    """What is printed depends on when URLs were looked up."""


# ---- the store


class StoreReader:
    """Reads fields one after the other, and tells at which byte the first begins that is not right."""

    def __init__(self, text):
        self.text, self.at, self.end = text, 0, len(text) - 32

    def refuse(self, at):
        raise NoStore(f"shape {at}")

    def field(self, count):
        at, self.at = self.at, self.at + count
        if self.at > self.end:
            self.refuse(at)
        return self.text[at : self.at]

    def number(self, count, low, high):
        at = self.at
        value = int.from_bytes(self.field(count), "big")
        if not low <= value <= high:
            self.refuse(at)
        return value

    def name(self):
        at = self.at
        codes = [code - 1 for code in self.field(3)]
        tables = (THREATS, PLATFORMS, ENTRIES)
        if any(not 0 <= code < len(table) for code, table in zip(codes, tables)):
            self.refuse(at)
        return "/".join(table[code] for code, table in zip(codes, tables)), at

    def members(self, form):
        at = self.at
        size = int.from_bytes(self.field(1), "big") if form == 1 else None
        if size is not None and size and not 4 <= size <= 32:
            self.refuse(at)
        place = self.at
        count = int.from_bytes(self.field(4), "big")
        if size is not None and (size == 0) != (count == 0):
            self.refuse(at)
        if count > MOST_MEMBERS:
            self.refuse(place)
        found, total = [], 0
        for _ in range(count):
            place = self.at
            length = self.number(1, 4, 32) if size is None else size
            first = self.at
            member = self.field(length)
            total += length
            if total > MOST_BYTES or found and member <= found[-1]:
                self.refuse(first if size is None else place)
            found.append(member)
        return found


def read_store(text):
    """The token and the rising members of each list of a store, and the names of those of which an update was refused."""
    if len(text) < 38:
        raise NoStore(f"shape {len(text)}")
    if text[:4] != b"SBST":
        raise NoStore("shape 0")
    if text[4] not in (1, 2):
        raise NoStore(f"format {text[4]}")
    digest = hashlib.sha256(text[:-32]).digest()
    if digest != text[-32:]:
        raise NoStore(f"digest {digest.hex()} {text[-32:].hex()}")
    reader, lists, marked = StoreReader(text), {}, set()
    reader.field(5)
    for _ in range(reader.number(1, 0, MOST_LISTS)):
        name, at = reader.name()
        if lists and order(name) <= order(list(lists)[-1]):
            reader.refuse(at)
        marked |= {name} if reader.number(1, 0, 1) else set()
        token = reader.field(reader.number(2, 0, MOST_TOKEN))
        lists[name] = token, reader.members(text[4])
    if reader.at != reader.end:
        reader.refuse(reader.at)
    return lists, marked


def written_store(lists, marked=()):
    """The text of a store in the second format: the token and the rising members of each list, and which of them have the mark."""
    text = b"SBST\x02" + bytes([len(lists)])
    for name in sorted(lists, key=order):
        token, members = lists[name]
        text += bytes([code + 1 for code in order(name)] + [name in marked]) + len(token).to_bytes(2, "big") + token
        text += len(members).to_bytes(4, "big") + b"".join(bytes([len(one)]) + one for one in members)
    return text + hashlib.sha256(text).digest()


# ---- a URL


def judged_text(url):
    """The canonical text of a URL, and its expressions."""
    scheme, host, is_address, components, query = urls.canonical(url)
    tail = b"" if query is None else b"?" + query
    return scheme + b"://" + host + urls.path_text(components) + tail, urls.expressions(host, is_address, components, query)


def hits_of(sets, expressions):
    hits = []
    for name in sorted(sets, key=order):
        for expression in expressions:
            full = hashlib.sha256(expression).digest()
            hits += [Hit(name, full[:size], full) for size in range(4, 33) if full[:size] in sets[name]]
    return hits


# ---- moments, waits and kept answers


def later(moment, milliseconds):
    return min(moment + milliseconds, MOST_MOMENT)


class Clock:
    """The readings of a list; one below an earlier answer answers that one again, and at the end the last one stays."""

    def __init__(self, readings):
        self.readings, self.last, self.answers = list(readings), 0, []

    def answer(self, moment):
        self.last = max(self.last, moment)
        self.answers.append(self.last)
        return self.last

    def now(self):
        return self.answer(self.readings.pop(0) if self.readings else 0)


class Dice:
    def __init__(self, words):
        self.words, self.last = list(words), 0

    def word(self):
        self.last = self.words.pop(0) % 2**32 if self.words else self.last
        return self.last


class Waits:
    """When the next session of its kind may begin."""

    def __init__(self, start, word):
        self.failures, self.allowed = 0, later(start, -(-word * 60_000 // 2**32))

    def succeeded(self, at, nanos):
        self.failures, self.allowed = 0, later(at, -(-nanos // 1_000_000))

    def failed(self, at, word):
        self.failures = min(self.failures + 1, 2**32 - 1)
        delay = -(-(2 ** min(self.failures - 1, 64)) * 900_000 * (2**32 + word) // 2**32)
        self.allowed = later(at, min(DAY, delay))


class Kept:
    """The kept answers, by pairs of a list and a prefix, the last used last."""

    def __init__(self):
        self.pairs = collections.OrderedDict()

    def said(self, now, hit):
        pair = hit.name, hit.prefix
        if pair not in self.pairs:
            return "ask"
        self.pairs.move_to_end(pair)
        negative, ends = self.pairs[pair]
        if hit.full in ends:
            return "unsafe" if now < ends[hit.full] else "ask"
        return "safe" if now < negative else "ask"

    def take(self, at, names, prefixes, answer):
        for pair in [(name, prefix) for name in names for prefix in prefixes]:
            negative, ends = self.pairs.pop(pair, (0, {}))
            ends = {full: end for full, end in ends.items() if end > at}
            for name, full, nanos in answer["matches"]:
                if name == pair[0] and full.startswith(pair[1]):
                    ends[full] = max(ends.get(full, 0), later(at, nanos // 1_000_000))
            if len(self.pairs) == MOST_PAIRS:
                self.pairs.popitem(last=False)
            self.pairs[pair] = later(at, answer["negative"] // 1_000_000), ends


# ---- rounds of updates


def fetch_body(options, lists, marked):
    """The body that asks for updates of all lists, each from its token, or from nothing after a refusal."""
    constraints = {"supportedCompressions": ["RAW"] if options["raw-only"] else ["RAW", "RICE"]}
    constraints |= {"maxUpdateEntries": options["max-update"]} if options["max-update"] else {}
    constraints |= {"maxDatabaseEntries": options["max-database"]} if options["max-database"] else {}
    items = []
    for name in sorted(lists, key=order):
        threat, platform, entry = name.split("/")
        item = {"threatType": threat, "platformType": platform, "threatEntryType": entry, "constraints": constraints}
        token = b"" if name in marked else lists[name][0]
        items.append(item | ({"state": base64.b64encode(token).decode("ascii")} if token else {}))
    body = {"client": {"clientId": "sblist", "clientVersion": "1"}, "listUpdateRequests": items}
    return json.dumps(body, sort_keys=True, separators=(",", ":")).encode("ascii")


class Rounds:
    """The rounds of a run: they change the lists that are held, and hand what is to be kept."""

    def __init__(self, plan, lists, marked, waits, outside):
        self.plan, self.lists, self.marked, self.waits, self.outside = plan, dict(lists), set(marked), waits, outside
        self.printed, self.handed, self.refused = [], [], False

    def tell(self, number, text):
        self.printed.append(f"round {number} {text}")

    def ask(self, number):
        """The updates that a round brings, or None. It tells the moment at which its session began."""
        now = self.outside.clock.now()
        begun = self.outside.clock.answer(self.waits.allowed) if self.waits.allowed > now else now
        given = self.outside.hold(self.plan, "fetch", fetch_body(self.plan["options"], self.lists, self.marked))
        closed = self.outside.clock.now()
        try:
            updates, wait = read_response(self.outside.body_of(given, self.plan))
        except (exchanges.Failed, Unreadable) as fault:
            self.waits.failed(closed, self.outside.dice.word())
            kind = "failed" if isinstance(fault, exchanges.Failed) else "unreadable"
            self.tell(number, f"at {begun} {kind} {fault}")
            return None
        self.waits.succeeded(closed, wait)
        self.tell(number, f"at {begun} ok")
        return updates

    def make(self, number):
        updates = self.ask(number)
        outcomes = []
        for update in updates or []:
            told, outcome = take(self.lists, update)
            self.tell(number, told)
            outcomes.append(outcome)
            if outcome == "refused":
                self.marked.add(update["name"])
            elif outcome == "installed":
                self.marked.discard(update["name"])
        self.refused |= updates is None or "refused" in outcomes
        if "installed" in outcomes:
            self.handed.append(written_store(self.lists, self.marked))
            self.tell(number, "saved")
        if updates is not None:
            answered = {update["name"] for update in updates}
            for name in sorted(set(self.lists) - answered, key=order):
                self.tell(number, f"{name} not-answered")


# ---- URLs


def find_body(states, hits):
    """The body of the find for some hits."""
    parts = [set(words) for words in zip(*(hit.name.split("/") for hit in hits))]
    info = {
        field: [word for word in table if word in words]
        for field, table, words in zip(("threatTypes", "platformTypes", "threatEntryTypes"), (THREATS, PLATFORMS, ENTRIES), parts)
    }
    prefixes = sorted({hit.prefix for hit in hits})
    info["threatEntries"] = [{"hash": base64.b64encode(prefix).decode("ascii")} for prefix in prefixes]
    body = {"client": {"clientId": "sblist", "clientVersion": "1"}, "threatInfo": info}
    if states:
        body["clientStates"] = [base64.b64encode(state).decode("ascii") for state in states]
    return json.dumps(body, sort_keys=True, separators=(",", ":")).encode("ascii"), prefixes


class Outside:
    """The clock, the dice and the link. `session` is called with what each session sends and gives its bytes, or None where it fails."""

    def __init__(self, clock, dice, session):
        self.clock, self.dice, self.session, self.sent = clock, dice, session, []

    def hold(self, plan, kind, body):
        """What the session of a request gives, or None."""
        request = exchanges.request(plan["server"], plan["key"], kind, body)
        given = self.session(request)
        self.sent += [] if given is None else [request]
        return given

    def body_of(self, given, plan):
        if given is None:
            raise exchanges.Failed("link")
        return exchanges.body_of(given, plan["need_digest"])


class Judge:
    """The verdicts of a run, from its lists on."""

    def __init__(self, plan, lists, waits, outside):
        self.plan, self.lists, self.waits, self.outside = plan, lists, waits, outside
        self.sets = {name: set(members) for name, (_, members) in lists.items()}
        self.kept, self.looked = Kept(), False

    def ask(self, hits, now):
        """The answer to a find for hits, which is kept, or why there is none."""
        states = [self.lists[name][0] for name in sorted(self.lists, key=order) if self.lists[name][0]]
        body, prefixes = find_body(states, hits)
        if self.waits.allowed > now:
            self.outside.clock.answer(self.waits.allowed)
        given = self.outside.hold(self.plan, "find", body)
        closed = self.outside.clock.now()
        try:
            answer = read_find_answer(self.outside.body_of(given, self.plan))
        except (exchanges.Failed, Unreadable) as fault:
            self.waits.failed(closed, self.outside.dice.word())
            return None, str(fault)
        names = sorted({hit.name for hit in hits}, key=order)
        self.kept.take(closed, names, prefixes, answer)
        self.waits.succeeded(closed, answer["wait"])
        return {(name, full) for name, full, _ in answer["matches"]}, None

    def verdict(self, hits):
        now = self.outside.clock.now()
        said = [self.kept.said(now, hit) for hit in hits]
        asked = [hit for hit, one in zip(hits, said) if one == "ask"]
        matches, cause = set(), None
        if asked and self.waits.allowed > later(now, self.plan["patience"] * 1_000):
            cause = f"not-before {self.waits.allowed}"
        elif asked:
            matches, cause = self.ask(asked, now)
        matches = matches or set()
        bad = {hit.name for hit, one in zip(hits, said) if one == "unsafe" or one == "ask" and (hit.name, hit.full) in matches}
        if bad:
            return "unsafe", ",".join(sorted(bad, key=order))
        return ("safe", None) if cause is None else ("undecided", cause)

    def line(self, number, url):
        """The kind of verdict, and the line that is printed of a URL."""
        try:
            text, expressions = judged_text(url)
        except urls.NoUrl as fault:
            return "refused", b"%d refused %s\n" % (number, str(fault).encode("ascii"))
        self.looked = True
        kind, more = self.verdict(hits_of(self.sets, expressions))
        words = [str(number), kind, "0"] + ([more] if more else [])
        return kind, " ".join(words).encode("ascii") + b" " + text + b"\n"


def loaded(kept, names):
    """The first line of a run where what was kept is no store, the named lists of the store, and those of them that have the mark."""
    page, stored, marked = b"", {}, set()
    if kept is not None:
        try:
            stored, marked = read_store(kept)
        except NoStore as fault:
            page = f"store ignored: {fault}\n".encode("ascii")
    lists = {name: stored.get(name, (b"", [])) for name in names}
    return page, lists, marked & set(lists)


def update(plan, kept, clock, dice, session):
    """What `sbupdate run` prints, its status, what each session sent, what the clock answered, and what the keeper was handed."""
    page, lists, marked = loaded(kept, plan["names"])
    outside = Outside(clock, dice, session)
    rounds = Rounds(plan, lists, marked, Waits(clock.now(), dice.word()), outside)
    for number in range(1, plan["rounds"] + 1):
        rounds.make(number)
    for name in sorted(lists, key=order):
        token, members = rounds.lists[name]
        rounds.printed.append(f"list {name} {len(members)} {shown(token)}")
    page += "".join(line + "\n" for line in rounds.printed).encode("ascii")
    return Report(page, 5 if rounds.refused else 0, outside.sent, clock.answers, rounds.handed)


def judge(plan, lines, kept, clock, dice, session):
    """What `sbcheck judge` prints, its status, what each session sent, what the clock answered, and what the keeper was handed."""
    page, lists, marked = loaded(kept, plan["names"])
    outside, start = Outside(clock, dice, session), clock.now()
    of_updates, of_finds = Waits(start, dice.word()), Waits(start, dice.word())
    rounds = Rounds(plan, lists, marked, of_updates, outside)
    for number in range(1, plan["rounds"] + 1):
        rounds.make(number)
    page += "".join(line + "\n" for line in rounds.printed).encode("ascii")
    run = Judge(plan, lists, of_finds, outside)
    counts = collections.Counter()
    for number, url in enumerate(lines, 1):
        kind, line = run.line(number, url)
        counts[kind] += 1
        page += line
    told = ", ".join(f"{counts[kind]} {kind}" for kind in ("safe", "unsafe", "undecided", "refused"))
    page += f"checked {len(lines)}: {told}\n".encode("ascii")
    if rounds.handed and run.looked:
        raise Scheduled
    status = 20 if counts["unsafe"] else 21 if counts["undecided"] + counts["refused"] else 0
    return Report(page, 5 if rounds.refused else status, outside.sent, clock.answers, rounds.handed)


# ---- the other side


class Link:
    """The sessions of a run that judges, one after the other: what each gives to what it was sent, or None where it fails."""

    def __init__(self, plays, journal, times, cut=0):
        self.plays, self.journal, self.times, self.cut = list(plays), journal, times, cut
        self.seen, self.given, self.longest = journal, [], 0

    def session(self, sent):
        while self.plays:
            kind, harm, text = self.plays.pop(0)
            if kind == b"append":
                self.journal += text
            else:
                given = text if kind == b"session" else self.served(harm.split(), text if harm == b"instead" else sent)
                self.given.append(given or b"")
                return given
        return None

    def served(self, harm, sent):
        if harm[:1] == [b"again"]:
            return self.given[-int((harm + [1])[1])]
        try:
            history = server.read_journal(self.journal)
        except server.BadJournal:
            # what came has a bad line: the history stays as it was, and the session fails
            self.journal = self.seen
            return None
        self.seen = self.journal
        whole = serving.turn(history, sent, self.times)[0]
        if harm[1:] == [b"each"]:
            self.longest = max(self.longest, len(whole))
            return whole[: self.cut] if harm[0] == b"front" else self.turned(whole)
        if harm[:1] == [b"byte"]:
            place = len(whole) - int(harm[1])
            return whole[:place] + bytes([int(harm[2])]) + whole[place + 1 :]
        if harm[:1] == [b"without"]:
            return whole[: len(whole) - int(harm[1])]
        return whole[: {b"lost": 0, b"front": int((harm + [0, 0])[1])}[harm[0]]] if harm and harm != [b"instead"] else whole

    def turned(self, whole):
        """A response with one bit of its byte of the round turned."""
        place = self.cut
        return whole[:place] + bytes(byte ^ 1 << place % 8 for byte in whole[place : place + 1]) + whole[place + 1 :]
