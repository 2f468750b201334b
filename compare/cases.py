#!/usr/bin/env python3
"""Runs the second program over the stored cases, as docs/FORMATS.md says how a case is written.

A run of a case is left out where an object fails at a call, for another program makes other calls, where the host of a
URL has bytes from 128 on, or where it depends on the threads of a run that judges what it prints. A run of updates is left out, too,
where a session gives other bytes than a whole response, and a server of a journal of more than 262,144 bytes. What a run that is left
out keeps is what its case says. What the sessions of a client send, their moments and what the keeper is handed are compared
too, and what a server writes to each connection. A case with a call that fails beside `each` is told, in a run that is left out
too. The last two cases are wrong on purpose, so exactly these have to differ: else the exit status is 1.
"""

import argparse
import base64
import functools
import hashlib
import itertools
import os
import re
import sys

import exchanges
import judging
import loads
import making
import server
import serving
import urls
import vectors
from compare import REPOSITORY, replay

CASES = os.path.join(REPOSITORY, "crates", "stored_cases", "stdin")
MOST_INPUT = 201_326_592
LONG_JOURNAL = 262_144
MOST_LINES = 65_536
SIGNS = "|:~=@%&()"


def turned(text, place):
    """The text with one bit of the byte at this place turned, if there is such a byte."""
    return text[:place] + bytes(byte ^ 1 << place % 8 for byte in text[place : place + 1]) + text[place + 1 :]


def expression(text):
    return b"  " + hashlib.sha256(text).hexdigest().encode() + b" " + text + b"\n"


class Book:
    """The lines of all cases, and the texts that have a name. A text is read once."""

    def __init__(self, data):
        self.lines = data.split(b"\n")
        self.named, self.read, self.indexed = {}, {}, {}
        for number, line in enumerate(self.lines):
            if line.startswith(b"text "):
                self.named[line[5:]] = self.text(number)[0]

    def fields(self, span):
        """The lines of a span by their first words."""
        if span not in self.indexed:
            found = self.indexed[span] = {}
            for number in span:
                found.setdefault(self.lines[number].split(b" ", 1)[0], []).append(number)
        return self.indexed[span]

    def pieces(self, number):
        """The pieces of the field in a line."""
        word, _, first = self.lines[number].partition(b" ")
        pieces = [first] if word not in (b"text", b"serve") and first else []
        for line in itertools.islice(self.lines, number + 1, None):
            if line and not line.startswith(b"--"):
                if chr(line[0]) not in SIGNS:
                    break
                pieces.append(line)
        return pieces

    def text(self, number, cut=0):
        """The text of the field in a line in a round, and how many rounds it needs."""
        if number not in self.read:
            self.read[number] = Writer(self, self.pieces(number)).until_bracket()
        return in_round(self.read[number], cut)


WORKS = {
    b"base64": lambda text, _: base64.b64encode(text),
    b"hex": lambda text, _: text.hex().encode(),
    b"sha256": lambda text, _: hashlib.sha256(text).digest(),
    b"sealed": lambda text, _: text + hashlib.sha256(text).digest(),
    b"response": lambda text, _: exchanges.response(text),
    b"front": lambda text, count: text[:count],
    b"without": lambda text, count: text[: max(0, len(text) - count)],
    b"rest": lambda text, count: text[count:],
}

# what a bracket makes of a text in a round
EACH_WORKS = {
    b"each-front": lambda text, cut: text[:cut],
    b"each-rest": lambda text, cut: text[cut:],
    b"each-bit": turned,
}


class Varying:
    """A bracket that stands for another text in each round."""

    def __init__(self, work, count, inner):
        self.work, self.count, self.inner = work, count, inner

    def in_round(self, cut):
        """Its text in a round, and how many rounds it needs."""
        text, fronts = in_round(self.inner, cut)
        if self.work not in EACH_WORKS:
            return WORKS[self.work](text, self.count), fronts
        return EACH_WORKS[self.work](text, cut), fronts if self.work == b"each-rest" else max(fronts, len(text))


def in_round(parts, cut):
    """The text of some parts in a round, and how many rounds it needs."""
    if isinstance(parts, bytes):
        return parts, 0
    made = [part.in_round(cut) if isinstance(part, Varying) else (part, 0) for part in parts]
    return b"".join(text for text, _ in made), max(fronts for _, fronts in made)


def joined(parts):
    """The bytes of some parts, or where some stand for another text in each round the parts, those in between as one."""
    if not any(isinstance(part, Varying) for part in parts):
        return b"".join(parts)
    grouped = itertools.groupby(parts, lambda part: isinstance(part, bytes))
    return [part for is_same, some in grouped for part in ([b"".join(some)] if is_same else some)]


class Writer:
    """Puts a text together of its pieces."""

    def __init__(self, book, pieces):
        self.book, self.pieces, self.at, self.number = book, pieces, 0, 0

    def until_bracket(self):
        """What the pieces stand for up to the bracket that closes, or to the end."""
        made = []
        while self.at < len(self.pieces):
            sign, rest = self.pieces[self.at][:1], self.pieces[self.at][1:]
            self.at += 1
            if sign == b")":
                break
            made += self.bracket(rest) if sign == b"(" else [self.piece(sign, rest)]
        return joined(made)

    def piece(self, sign, rest):
        if sign == b"%":
            return self.counted(rest)
        if sign == b"@":
            return self.book.named[rest]
        if sign == b"=":
            return bytes.fromhex(rest.decode())
        return expression(rest) if sign == b"&" else rest + {b":": b"", b"|": b"\n", b"~": b"\r\n"}[sign]

    def counted(self, rest):
        form, _, count = rest.partition(b" ")
        if form == b"from":
            self.number = int(count)
            return b""
        numbers = range(self.number, self.number + int(count or 1))
        self.number = numbers.stop
        if form == b"bytes":
            return b"".join((number % 2**32).to_bytes(4, "big") for number in numbers)
        return (b"%08x" if form == b"hex" else b"%d") % numbers.start

    def bracket(self, rest):
        """The parts that a bracket stands for."""
        work, _, count = rest.partition(b" ")
        if work == b"repeat":
            return self.repeated(int(count))
        inner, count = self.until_bracket(), int(count or 0)
        if isinstance(inner, bytes) and work not in EACH_WORKS:
            return [WORKS[work](inner, count)]
        return [Varying(work, count, inner)]

    def repeated(self, count):
        """The parts of a repeated text. Once a turn leaves the running number where it was, all further turns are like it."""
        begin, made = self.at, []
        for left in range(count, 0, -1):
            self.at, number = begin, self.number
            inner = self.until_bracket()
            times = left if self.number == number else 1
            made += [inner * times] if isinstance(inner, bytes) else inner * times
            if times == left:
                break
        return made


# ---- words


def options_of(words, values, flags=()):
    """The options of a command line and its positional words, or None."""
    options, positional, words = {}, [], list(words)
    while words:
        word = words.pop(0)
        if word == "--":
            return options, positional + words
        if not word.startswith("-"):
            positional.append(word)
            continue
        name, equals, value = word.partition("=")
        if word in flags and word not in options:
            options[word] = "true"
            continue
        if name not in values or name in options:
            return None
        if not equals:
            value = words.pop(0) if words else ""
        if not value or value.startswith("-"):
            return None
        options[name] = value
    return options, positional


def lists_of(words):
    found = options_of(words, ())
    if found is None or not 1 <= len(found[1]) <= 8 or len(set(found[1])) < len(found[1]):
        return None
    return found[1] if all(server.is_name(word) for word in found[1]) else None


def answer_words(words):
    found = options_of(words, ("--journal", "--kind", "--wait", "--find-wait", "--cache", "--negative"))
    if found is None or found[1] or "--journal" not in found[0] or found[0].get("--kind") not in server.BODIES:
        return None
    times = times_of(found[0])
    return times and (found[0]["--kind"], times)


def times_of(said):
    """The times that an answer tells, by the options that are given, or None."""
    unsaid = {"wait": "1800", "find-wait": "0", "cache": "300", "negative": "300"}
    times = {name: said.get("--" + name, seconds) for name, seconds in unsaid.items()}
    if any(not re.fullmatch("0|[1-9][0-9]{0,4}", seconds) or int(seconds) > 86_400 for seconds in times.values()):
        return None
    return {name: int(seconds) for name, seconds in times.items()}


NUMBER = "0|[1-9][0-9]{0,9}"
LISTENED = r"(?:[A-Za-z0-9.][A-Za-z0-9.-]*|\[[0-9A-Fa-f:.]+\]):(0|[1-9][0-9]{0,4})"
SERVED = {"connections": 1_000_000, "peers": 4_096, "answers": 4_096}


def serve_words(words):
    """What the words of `sblistd serve` plan, or None."""
    options = ("journal", "listen", *SERVED, "wait", "find-wait", "cache", "negative")
    found = options_of(words, ["--" + name for name in options], ("--hold", "--quiet"))
    if found is None or found[1] or not {"--journal", "--listen"} <= set(found[0]):
        return None
    said, times = found[0], times_of(found[0])
    address = re.fullmatch(LISTENED, said["--listen"])
    if times is None or address is None or int(address[1]) > 65_535:
        return None
    for name, most in SERVED.items():
        text = said.get("--" + name, "1")
        if re.fullmatch(NUMBER, text) is None or not 1 <= int(text) <= most:
            return None
    plan = {"times": times, "connections": int(said.get("--connections", NO_COUNT))}
    return plan | {"hold": "--hold" in said, "quiet": "--quiet" in said}


NO_COUNT = 4_294_967_295
HOST_AND_PORT = r"([A-Za-z0-9.][A-Za-z0-9.-]*):([1-9][0-9]{0,4})"
ASKED = ("--store", "--server", "--key", "--max-update", "--max-database")

# of each option that is a number: what it is where it is left out, the least and the most that it may be
LIMITS = {"max-update": (0, 0, 2**31 - 1), "max-database": (2**20, 0, 2**31 - 1)}
RUN = LIMITS | {"rounds": (None, 1, 1_024)}
JUDGED = LIMITS | {"update": (0, 0, 16), "workers": (1, 1, 16), "patience": (60, 0, 86_400)}


def client_words(words, ranges):
    """What the words of `sbupdate run` or of `sbcheck judge` plan, or None."""
    found = options_of(words, {*ASKED, *("--" + name for name in ranges)}, ("--raw-only", "--no-digest"))
    if found is None or lists_of(["--", *found[1]]) is None or not {"--store", "--server"} <= set(found[0]):
        return None
    said = found[0]
    numbers = {name: unsaid for name, (unsaid, _, _) in ranges.items()}
    for name, (_, least, most) in ranges.items():
        text = said.get("--" + name)
        if text is not None and (re.fullmatch(NUMBER, text) is None or not least <= int(text) <= most):
            return None
        if text is not None:
            numbers[name] = int(text)
    address, key = re.fullmatch(HOST_AND_PORT, said["--server"]), said.get("--key", "")
    if address is None or int(address[2]) > 65_535 or re.fullmatch("[A-Za-z0-9_-]*", key) is None:
        return None
    plan = {"names": found[1], "server": said["--server"], "key": key, "need_digest": "--no-digest" not in said}
    plan["options"] = {"raw-only": "--raw-only" in said, "max-update": numbers["max-update"], "max-database": numbers["max-database"]}
    rounds = numbers["rounds"] or NO_COUNT if "rounds" in numbers else numbers["update"]
    return plan | {"rounds": rounds, "patience": numbers.get("patience")}


def load_words(words, flags=()):
    found = options_of(words, (), flags)
    if found is None or len(found[1]) != 2 or any(not re.fullmatch("0|[1-9][0-9]{0,19}", word) for word in found[1]):
        return None
    count, seed = map(int, found[1])
    return (found[0], count, seed) if 1 <= count <= 65_536 and seed < loads.BITS else None


MADE = {
    "new": (("--size",), ()),
    "sync": (("--journal",), ("--skip", "--empty")),
    "change": (("--size",), ("--skip",)),
    "has": (("--journal",), ()),
    "check": ((), ()),
    "compact": ((), ()),
}
MOST_MADE_LINES = 2_097_152


def made(words, text, journal, dice):
    """What `sbjournal` prints, and its status. None stands for the usage text."""
    command = words[1] if len(words) > 1 else None
    found = options_of(words[2:], *MADE[command]) if command in MADE else None
    if found is None:
        return None, 1
    said, names = found
    size = said.get("--size")
    if size is not None and (re.fullmatch(NUMBER, size) is None or not 4 <= int(size) <= 32):
        return None, 1
    if command == "check":
        return making.check(text) if not names else (None, 1)
    epoch = "".join(f"{word:08x}" for word in ([*dice, dice[-1]] if dice else [0, 0])[:2])
    if command == "compact":
        return making.compact(text, epoch) if not names else (None, 1)
    if command == "new":
        if lists_of(["--", *names]) is None:
            return None, 1
        lines = [f"sblist 2 {epoch}", *(f"list {name} {size or 4}" for name in names)]
        return "".join(line + "\n" for line in lines).encode(), 0
    if len(names) != 1 or not server.is_name(names[0]) or command != "change" and "--journal" not in said:
        return None, 1
    if len(text) > MOST_INPUT or len(making.lines_of(text)) > MOST_MADE_LINES:
        return b"", 6
    if command == "change":
        return making.change(names[0], text, size, said)
    return making.sync(journal, names[0], text, said) if command == "sync" else making.has(journal, names[0], text)


def lines_of(text):
    lines = text.split(b"\n")
    return lines[:-1] if lines[-1] == b"" else lines


def answer(words, text, journal, make):
    """What the second program prints, and its status. None stands for the usage text. `make` makes a run by its kind and its plan: of
    updates, one that judges, or one that serves."""
    command, rest = words[:2], words[2:]
    if words[0] == "sbjournal":
        return make("made", words)
    if command == ["sbupdate", "run"]:
        plan = client_words(rest, RUN)
        return make("run", plan) if plan else (None, 1)
    if command == ["sblistd", "serve"]:
        plan = serve_words(rest)
        return make("serve", plan) if plan else (None, 1)
    if command == ["sbcheck", "judge"]:
        plan = client_words(rest, JUDGED)
        if plan is None:
            return None, 1
        return make("judge", plan) if len(text) <= MOST_INPUT and len(lines_of(text)) <= MOST_LINES else (b"", 6)
    if command == ["sblistd", "answer"]:
        found = answer_words(rest)
        return server.answer(journal, text, *found) if found else (None, 1)
    if command not in KNOWN:
        return None, 1
    if command == ["sblistd", "generate"]:
        found = load_words(rest, ("--urls",))
        return ((loads.urls if found[0] else loads.journal)(*found[1:]), 0) if found else (None, 1)
    if command == ["sblistd", "exercise"]:
        found = load_words(rest)
        return (loads.exercise(*found[1:]), 0) if found else (None, 1)
    if command == ["sbcheck", "vectors"]:
        found = options_of(rest, ())
        return (vectors.vectors(), 0) if found and not found[1] else (None, 1)
    names = lists_of(rest) if command == ["sbupdate", "replay"] else options_of(rest, ())
    if not names or command == ["sbcheck", "show"] and names[1]:
        return None, 1
    if len(text) > MOST_INPUT or len(lines_of(text)) > MOST_LINES:
        return b"", 6
    return replay(text, names)[:2] if command[1] == "replay" else urls.show(lines_of(text))


# ---- cases

PROGRAMS = {"client": ("sbupdate", "sbcheck"), "server": ("sblistd",), "maker": ("sbjournal",)}
ASKING = ("--help", "-h", "--version")
VERSION = "0.1.0"

KNOWN = (
    ["sbupdate", "replay"],
    ["sbupdate", "run"],
    ["sbcheck", "judge"],
    ["sbcheck", "show"],
    ["sbcheck", "vectors"],
    ["sblistd", "answer"],
    ["sblistd", "serve"],
    ["sblistd", "generate"],
    ["sblistd", "exercise"],
)


class Run:
    """A run of a case: the lines of its fields, its own or those of its group. What is to come may be parted by `or`."""

    def __init__(self, book, own, group, before, earlier):
        self.book, self.group, self.before, self.earlier = book, group, before, earlier
        ends = [number for number in own if book.lines[number] == b"or"]
        self.parts = [range(begin, end) for begin, end in zip([own.start, *(end + 1 for end in ends)], [*ends, own.stop])]
        self.own, self.met = self.parts[0], set()
        # what it was given when it was made last, and what came of that; the round that was asked for last, and its result
        self.given = self.made = self.cut = self.came = None

    def all_in(self, span, names):
        fields = self.book.fields(span)
        return sorted(itertools.chain.from_iterable(fields.get(name, ()) for name in names))

    def find(self, name, spans):
        for span in spans:
            found = self.book.fields(span).get(name)
            if found:
                return found[-1]
        return None

    def every(self, *names, part=None):
        """The lines of fields that may stand several times."""
        return self.all_in(self.own if part is None else part, names) or self.all_in(self.group, names)

    def rest(self, number):
        return self.book.lines[number].partition(b" ")[2]

    def line_of_words(self):
        spans = (self.own, self.before, self.group)
        return max(self.find(name, spans) or -1 for name in (b"client", b"server", b"maker"))

    def asks(self):
        """Whether the words ask about their program."""
        kind, words = self.book.lines[self.line_of_words()].split(b" ")[0].decode(), self.words
        return len(words) == 2 and words[0] in PROGRAMS[kind] and words[1] in ASKING

    @functools.cached_property
    def words(self):
        number = self.line_of_words()
        words = self.rest(number).decode().split(" ")
        return ["" if word == '""' else word for word in words]

    def beside_each(self):
        """The first line of a field that lets calls fail beside an `each` of its name, or None: by it a call fails in each round."""
        for name in COUNTED:
            numbers = self.every(name)
            others = [number for number in numbers if self.rest(number).split(b" ")[0] != b"each"]
            if 0 < len(others) < len(numbers):
                return others[0]
        return None

    def has_known_store(self):
        """Whether it is told what the keeper keeps at first: by the run itself, or by the one before, if that is known or says it."""
        if not self.earlier or self.find(b"store", (self.own,)) is not None:
            return True
        earlier = self.earlier
        if earlier.is_known:
            return True
        if any(earlier.find(b"kept", (part, earlier.group)) is None and not earlier.every(b"handed", part=part) for part in earlier.parts):
            return False
        return len({earlier.said_kept(0, part) for part in earlier.parts}) == 1

    def has_whole_sessions(self):
        """Whether the bytes of each session, where it has any of its own, are a response as a server writes it."""
        texts = self.texts(b"session", 0) or []
        return all(text == exchanges.response(text.partition(b"\r\n\r\n")[2]) for text in texts)

    def has_long_journal(self):
        """Whether its journal has more bytes at the end than this program folds in seconds."""
        turns, _ = self.turns(0)
        return len(self.text(b"journal", 0)[0]) + sum(len(gained) for gained, _ in turns) > LONG_JOURNAL

    @functools.cached_property
    def is_known(self):
        """Whether this program makes the run."""
        fails = any(re.match(rb"[a-z]+-fails ", self.book.lines[number]) for number in self.own)
        command = self.words[:2]
        if fails or not self.has_known_store() or command == ["sblistd", "serve"] and self.has_long_journal():
            return False
        return command != ["sbupdate", "run"] or self.has_whole_sessions()

    def text(self, name, cut, part=None):
        number = self.find(name, (self.own if part is None else part, self.group))
        return (b"", 0) if number is None else self.book.text(number, cut)

    def numbers(self, name):
        number = self.find(name, (self.own, self.before, self.group))
        return [] if number is None else [int(word.replace(b",", b"")) for word in self.rest(number).split(b" ")]

    def store(self, cut):
        """What the keeper keeps at first, or None."""
        number = self.find(b"store", (self.own,) if self.earlier else (self.own, self.group))
        if number is not None:
            return self.book.text(number, cut)[0]
        return self.earlier.kept(cut) if self.earlier else None

    def kept(self, cut):
        """What it keeps at the end: of a run that is left out what its case says."""
        if not self.is_known:
            return self.said_kept(cut, self.own)
        handed = self.result(cut)[2].get("handed")
        return handed[-1] if handed else self.store(cut)

    def said_kept(self, cut, part):
        """What a part says that it keeps at the end: if it does not say so what it was handed last, or what it found."""
        number = self.find(b"kept", (part, self.group))
        if number is None:
            handed = self.texts(b"handed", cut, part)
            return handed[-1] if handed else self.store(cut)
        return None if self.rest(number) == b"none" else self.book.text(number, cut)[0]

    def texts(self, name, cut, part=None):
        """The texts of a field that may stand several times, or None where it does not stand."""
        numbers = self.every(name, part=part)
        return [self.book.text(number, cut)[0] for number in numbers if self.rest(number) != b"none"] if numbers else None

    def link(self, cut):
        """The sessions of the link, its journal and its times, and how many rounds its texts need."""
        plays, fronts = [], [0]
        for number in self.every(b"session", b"serve", b"append"):
            kind, _, harm = self.book.lines[number].partition(b" ")
            text, more = (b"", 0) if kind == b"serve" and harm != b"instead" else self.book.text(number, cut)
            plays.append((kind, harm, text))
            fronts.append(more)
        wait, cache, negative = self.numbers(b"settings") or (1_800, 300, 300)
        times = {"wait": wait, "find-wait": wait, "cache": cache, "negative": negative}
        return (plays, self.text(b"journal", cut)[0], times, cut), max(fronts)

    def turns(self, cut):
        """For each connection what the journal has gained before it, and what it gives; and how many rounds its texts need."""
        turns, gained, fronts = [], b"", 0
        for number in self.every(b"connection", b"append"):
            text, more = self.book.text(number, cut)
            fronts = max(fronts, more)
            if self.book.lines[number].startswith(b"append"):
                gained += text
            else:
                turns.append((gained, text))
                gained = b""
        return turns, fronts

    def result(self, cut):
        """What comes of the second program in a round: what it prints, its status, what it sends, hands, writes and answers; and how
        many rounds there are. It is kept until another round is asked for. A run that is given the same comes to the same."""
        if self.cut != cut:
            self.cut, self.came = cut, self.come(cut)
        return self.came

    def come(self, cut):
        texts = [self.text(name, cut) for name in (b"input", b"journal", b"store")]
        (text, _), (journal, _), _ = texts
        (plays, *served), more = self.link(cut)
        turns, further = self.turns(cut)
        given = text, journal, tuple(plays), tuple(turns), self.store(cut)
        fronts = max(more, further, *(fronts for _, fronts in texts))
        if self.given != given or EACH & {harm for kind, harm, _ in plays if kind == b"serve"}:
            self.given, self.made = given, self.make(given, judging.Link(plays, *served))
        printed, status, left, longest = self.made
        return printed, status, left, max(fronts, longest)

    def make(self, given, link):
        """Makes a run that is given these texts, plays and connections, this store and this link."""
        text, journal, _, turns, store = given
        left = {}

        def make(kind, plan):
            if kind == "made":
                return made(plan, text, journal, self.numbers(b"dice"))
            if kind == "serve":
                report = serving.serve(plan, journal, turns)
                left["written"] = report.written
                return report.printed, report.status
            objects = store, judging.Clock(self.numbers(b"clock")), judging.Dice(self.numbers(b"dice")), link.session
            report = judging.judge(plan, lines_of(text), *objects) if kind == "judge" else judging.update(plan, *objects)
            left.update(sent=report.sent, moments=report.moments, handed=report.handed)
            return report.printed, report.status

        words = self.words
        if self.asks():
            printed = f"{words[0]} {VERSION}\n".encode() if words[1] == "--version" else None
            return printed, 0, left, link.longest
        return *answer(words, text, journal, make), left, link.longest

    def told(self, name, cut, part):
        """What a part says of something that a run leaves, or None."""
        if name != "moments":
            return self.texts(name.encode(), cut, part)
        moments = self.find(b"moments", (part, self.group))
        if moments is None:
            return None
        return [] if self.rest(moments) == b"none" else [int(word) for word in self.rest(moments).split(b" ")]

    def differs_from(self, part, cut, printed, found, left):
        """What is to come by a part, and what came, where they differ; and how many rounds its texts need."""
        wanted, fronts = self.text(b"out", cut, part)
        number = self.find(b"status", (part, self.group))
        status = 0 if number is None else int(self.book.lines[number].split(b" ")[1])
        usage = printed is None and wanted.startswith(b"usage: ")
        if status != found or not usage and printed != wanted:
            return (status, wanted, found, printed), fronts
        for name, came in left.items():
            says = self.told(name, cut, part)
            if says is not None and says != came:
                return (f"what was {name}", repr(says).encode(), "these", came), fronts
        return None, fronts

    def differs(self, cut):
        """What differs, if the run comes to none of its parts; and how many rounds there are."""
        printed, status, left, fronts = self.result(cut)
        first, is_met = None, False
        for number, part in enumerate(self.parts):
            found, more = self.differs_from(part, cut, printed, status, left)
            fronts, first, is_met = max(fronts, more), first or found, is_met or not found
            self.met |= set() if found else {number}
        return None if is_met else first, fronts

    def not_met(self):
        """The first part to which no round came, or None."""
        for number, part in enumerate(self.parts):
            if number not in self.met:
                return "the part in line", b"%d" % (part.start + 1), "no round", b""
        return None


EACH = {b"front each", b"bit each"}

# the fields of failing calls whose objects count every fault
COUNTED = (b"input-fails", b"journal-fails", b"out-fails", b"keeper-fails", b"door-fails", b"read-fails", b"write-fails")


def cases_of(book):
    """The name of each case, and its runs."""
    group = range(0)
    heads = [number for number, line in enumerate(book.lines) if re.match(rb"##? ", line)] + [len(book.lines)]
    for head, end in zip(heads, heads[1:]):
        lines = range(head + 1, end)
        if book.lines[head].startswith(b"# "):
            group = lines
            continue
        cuts = [head] + [number for number in lines if book.lines[number] == b"again"] + [end]
        runs = []
        for begin, stop in zip(cuts, cuts[1:]):
            own = range(begin + 1, stop)
            runs.append(Run(book, own, group, range(head + 1, own.start), runs[-1] if runs else None))
        yield book.lines[head][3:].decode(), runs


def difference(runs):
    """What differs first in the rounds of a case, or None. Its runs that are left out are not made."""
    for run in runs:
        line = run.beside_each()
        if line is not None:
            return "rounds that end", b"", "a call that fails beside `each` in line", line + 1
    known = [run for run in runs if run.is_known]
    cut, rounds = 0, 1
    while cut < rounds:
        for run in known:
            found, more = run.differs(cut)
            rounds = max(rounds, more)
            if found:
                return found
        cut += 1
    return next(filter(None, (run.not_met() for run in known)), None) if known == runs else None


def main():
    parser = argparse.ArgumentParser(description=__doc__.splitlines()[0])
    parser.add_argument("--only", default="", help="only cases whose name has this, and the last two")
    options = parser.parse_args()
    with open(CASES, "rb") as data:
        book = Book(data.read())
    ran, differing = 0, []
    cases = list(cases_of(book))
    wrong = [name for name, _ in cases[-2:]]
    for name, runs in cases:
        if options.only not in name and name not in wrong:
            continue
        if not any(run.is_known or run.beside_each() for run in runs):
            continue
        try:
            found = difference(runs)
        except (urls.Skipped, judging.Scheduled):
            continue
        ran += 1
        if found:
            differing.append(name)
            print(f"{name}\n  to come {found[0]} {found[1][:400]!r}\n  came    {found[2]} {str(found[3])[:400]}")
    told = "1 differs" if len(differing) == 1 else f"{len(differing)} differ"
    print(f"{ran} of {len(cases)} stored cases, {told}")
    return 0 if differing == wrong else 1


if __name__ == "__main__":
    sys.exit(main())
