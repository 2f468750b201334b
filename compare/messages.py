"""How the second program reads messages: JSON, and the fields of docs/FORMATS.md."""

import base64
import binascii
import json
import re

THREATS = ["MALWARE", "SOCIAL_ENGINEERING", "UNWANTED_SOFTWARE", "POTENTIALLY_HARMFUL_APPLICATION"]
PLATFORMS = ["WINDOWS", "LINUX", "ANDROID", "OSX", "IOS", "ANY_PLATFORM", "ALL_PLATFORMS", "CHROME"]
ENTRIES = ["URL", "EXECUTABLE"]
NAME_FIELDS = (("threatType", THREATS), ("platformType", PLATFORMS), ("threatEntryType", ENTRIES))

DEEPEST = 127
MOST_STATE = 4_096
MOST_SECONDS = 315_576_000_000
MOST_ITEMS = 8
MOST_PREFIXES = 1_024
MOST_URLS = 500
I32, I64 = 2**31 - 1, 2**63 - 1


# ---- JSON


class Unreadable(Exception):
    """A line has no reading, for the cause that is the exception's text."""


# a string, to its end or the text's, or a byte that opens a list or an object or stands before a value
SIGNS = re.compile(rb'"(?:[^"\\]+|\\.)*"?|[\[{,:]', re.DOTALL)


def too_dense(text):
    """The place of the byte at which a text has too many lists and objects, or values, for its length."""
    most_openings, most_values = 8_192 + len(text) // 48, 65_536 + len(text) // 6
    openings = text.count(b"[") + text.count(b"{")
    if openings <= most_openings and openings + text.count(b",") + text.count(b":") <= most_values:
        return None
    openings = values = 0
    for found in SIGNS.finditer(text):
        sign = found[0][:1]
        openings += sign in b"[{"
        values += sign in b"[{,:"
        if openings > most_openings or values > most_values:
            return found.start()
    return None


def no_constant(name):
    raise Unreadable("not-json")


def read_float(text):
    number = float(text)
    if number in (float("inf"), float("-inf")):
        raise Unreadable("not-json")
    return number


def read_integer(text):
    """Numbers that no integer of 64 bits holds are floats, and so is -0."""
    number = int(text)
    if text == "-0" or not -(2**63) <= number < 2**64:
        return read_float(text)
    return number


def is_text(value):
    """Whether all characters are scalar values: an escaped half of a pair is none."""
    return not any(0xD800 <= ord(character) <= 0xDFFF for character in value)


def look_through(value, depth=0):
    if isinstance(value, str) and not is_text(value):
        raise Unreadable("not-json")
    if isinstance(value, (list, dict)):
        if depth == DEEPEST:
            raise Unreadable("not-json")
        for item in value:
            look_through(item, depth + 1)
    if isinstance(value, dict):
        for item in value.values():
            look_through(item, depth + 1)


def read_object(pairs):
    """The last field of a name counts; what stood in an earlier one has to be read all the same."""
    for _, value in pairs:
        look_through(value)
    return dict(pairs)


DIGITS = bytes.maketrans(b"123456789", b"000000000")


def has_odd_integer(line):
    """Whether a text may have an integer that is read as a float: none of 18 digits is, but for -0."""
    return b"-0" in line or b"0" * 19 in line.translate(DIGITS)


def is_plain(line):
    """Whether a text has too few lists and objects to be too deep, and no character by its number."""
    return b"\\u" not in line and line.count(b"[") + line.count(b"{") <= DEEPEST


def read_json(line):
    place = too_dense(line)
    if place is not None:
        raise Unreadable(f"too-dense {place}")
    plain = is_plain(line)
    try:
        value = json.loads(
            line.decode("utf-8"),
            parse_constant=no_constant,
            parse_float=read_float,
            parse_int=read_integer if has_odd_integer(line) else None,
            object_pairs_hook=None if plain else read_object,
        )
    except (ValueError, RecursionError) as fault:
        raise Unreadable("not-json") from fault
    if not plain:
        look_through(value)
    return value


# ---- fields


class Reader:
    """Reads the fields of the item with a number, and tells the first that is not as its table says."""

    def __init__(self, item):
        self.item = item

    def refuse(self, what, label):
        raise Unreadable(f"field {what} {label} {self.item}")

    def object(self, value, label):
        if not isinstance(value, dict):
            self.refuse("wrong-kind", label)
        return value

    def needed(self, holder, name, label=None):
        value = holder.get(name)
        if value is None:
            self.refuse("missing", label or name)
        return value

    def inner(self, holder, name):
        return self.object(self.needed(holder, name), name)

    def string(self, value, label):
        if not isinstance(value, str):
            self.refuse("wrong-kind", label)
        return value

    def word(self, holder, name, words):
        value = self.string(self.needed(holder, name), name)
        if value not in words:
            self.refuse("name", name)
        return value

    def list(self, holder, name):
        value = holder.get(name)
        if value is None:
            return []
        if not isinstance(value, list):
            self.refuse("wrong-kind", name)
        return value

    def number(self, value, label, low, high):
        if isinstance(value, bool) or not isinstance(value, (int, float, str)):
            self.refuse("wrong-kind", label)
        if isinstance(value, str):
            value = int(value) if re.fullmatch(r"0|[1-9][0-9]*", value, re.ASCII) else -1
        if isinstance(value, float) or not low <= value <= high:
            self.refuse("number", label)
        return value

    def numbers(self, values, label, low, high):
        if set(map(type, values)) == {int} and low <= min(values) and max(values) <= high:
            return values
        return [self.number(value, label, low, high) for value in values]

    def number_or_zero(self, holder, name, high):
        value = holder.get(name)
        return 0 if value is None else self.number(value, name, 0, high)

    def bytes(self, value, label):
        text = self.string(value, label).replace("-", "+").replace("_", "/")
        if "=" not in text and len(text) % 4 in (2, 3):
            text += "=" * (4 - len(text) % 4)
        try:
            data = base64.b64decode(text.encode("ascii"), validate=True)
        except (UnicodeEncodeError, binascii.Error):
            self.refuse("base64", label)
        if base64.b64encode(data).decode("ascii") != text:
            self.refuse("base64", label)
        return data

    def bytes_or_empty(self, holder, name, label=None):
        value = holder.get(name)
        return b"" if value is None else self.bytes(value, label or name)

    def state(self, holder, name):
        data = self.bytes_or_empty(holder, name)
        if len(data) > MOST_STATE:
            self.refuse(f"size {len(data)}", name)
        return data

    def rice(self, holder, name):
        record = self.inner(holder, name)
        first = self.number_or_zero(record, "firstValue", I64)
        parameter = self.number_or_zero(record, "riceParameter", I32)
        count = self.number_or_zero(record, "numEntries", I32)
        return ("rice", first, parameter, count, self.bytes_or_empty(record, "encodedData"))

    def addition(self, value):
        entry = self.object(value, "additions")
        if self.word(entry, "compressionType", ("RAW", "RICE")) == "RICE":
            return self.rice(entry, "riceHashes")
        raw = self.inner(entry, "rawHashes")
        size = self.number(self.needed(raw, "prefixSize"), "prefixSize", 4, 32)
        data = self.bytes_or_empty(raw, "rawHashes", "rawHashes.rawHashes")
        if len(data) % size != 0:
            self.refuse(f"size {len(data)}", "rawHashes.rawHashes")
        return ("raw", [data[at : at + size] for at in range(0, len(data), size)])

    def removal(self, value):
        entry = self.object(value, "removals")
        if self.word(entry, "compressionType", ("RAW", "RICE")) == "RICE":
            return self.rice(entry, "riceIndices")
        indices = self.list(self.inner(entry, "rawIndices"), "indices")
        return ("raw", self.numbers(indices, "indices", 0, I32))

    def list_name(self, entry):
        return "/".join(self.word(entry, field, words) for field, words in NAME_FIELDS)

    def asked_name(self, entry):
        """The name of the list that an item asks for, or None where its three words are not all in the tables."""
        words = [self.string(self.needed(entry, field), field) for field, _ in NAME_FIELDS]
        return "/".join(words) if all(word in table for word, (_, table) in zip(words, NAME_FIELDS)) else None

    def update(self, value):
        entry = self.object(value, "listUpdateResponses")
        read = {"name": self.list_name(entry)}
        kinds = ("FULL_UPDATE", "PARTIAL_UPDATE")
        read["full"] = self.word(entry, "responseType", kinds) == "FULL_UPDATE"
        read["additions"] = [self.addition(one) for one in self.list(entry, "additions")]
        read["removals"] = [self.removal(one) for one in self.list(entry, "removals")]
        read["state"] = self.state(entry, "newClientState")
        read["base"] = self.state(entry, "baseState")
        digest = self.bytes(self.needed(self.inner(entry, "checksum"), "sha256"), "sha256")
        if len(digest) != 32:
            self.refuse(f"size {len(digest)}", "sha256")
        read["checksum"] = digest
        return read

    def text_or_none(self, holder, name):
        value = holder.get(name)
        return "" if value is None else self.string(value, name)

    def request(self, value):
        entry = self.object(value, "listUpdateRequests")
        read = {"name": self.asked_name(entry)}
        read["state"] = self.state(entry, "state")
        constraints = entry.get("constraints")
        constraints = {} if constraints is None else self.object(constraints, "constraints")
        read["max_update"] = self.number_or_zero(constraints, "maxUpdateEntries", I32)
        read["max_database"] = self.number_or_zero(constraints, "maxDatabaseEntries", I32)
        words = self.list(constraints, "supportedCompressions")
        read["rice"] = "RICE" in [self.string(word, "supportedCompressions") for word in words]
        return read

    def words(self, holder, name, table):
        """The words of a list that are in the table. Others are skipped, but have to be strings."""
        words = [self.string(value, name) for value in self.list(holder, name)]
        return [word for word in words if word in table]

    def prefix(self, value):
        entry = self.object(value, "threatEntries")
        data = self.bytes(self.needed(entry, "hash"), "hash")
        if not 4 <= len(data) <= 32:
            self.refuse(f"size {len(data)}", "hash")
        return data

    def url(self, value):
        entry = self.object(value, "threatEntries")
        return self.string(self.needed(entry, "url"), "url")

    def duration(self, holder, name):
        """The nanoseconds of a duration."""
        value = holder.get(name)
        if value is None:
            return 0
        form = re.fullmatch(r"([0-9]+)(?:\.([0-9]{1,9}))?s", self.string(value, name), re.ASCII)
        if form is None:
            self.refuse("duration", name)
        nanos = int((form[2] or "").ljust(9, "0"))
        if int(form[1]) * 10**9 + nanos > MOST_SECONDS * 10**9:
            self.refuse("duration", name)
        return int(form[1]) * 10**9 + nanos

    def match(self, value):
        """The list of a match, its full hash, and for how many nanoseconds it may be kept."""
        entry = self.object(value, "matches")
        name = self.list_name(entry)
        threat = self.inner(entry, "threat")
        full = self.bytes(self.needed(threat, "hash", "threat.hash"), "threat.hash")
        if len(full) != 32:
            self.refuse(f"size {len(full)}", "threat.hash")
        return name, full, self.duration(entry, "cacheDuration")


def read_response(text):
    """The updates of a response, and for how many nanoseconds updates wait."""
    outside = Reader(0)
    body = outside.object(read_json(text), "message")
    items = outside.list(body, "listUpdateResponses")
    updates = [Reader(number).update(item) for number, item in enumerate(items, 1)]
    return updates, outside.duration(body, "minimumWaitDuration")


def read_body(line):
    """The updates of a response."""
    return read_response(line)[0]


def read_client(outside, body):
    client = body.get("client")
    if client is not None:
        for name in ("clientId", "clientVersion"):
            outside.text_or_none(outside.object(client, "client"), name)


def has_name(item):
    """Whether an item of a fetch request has the three words of a name, whatever else it has."""
    return isinstance(item, dict) and all(isinstance(item.get(field), str) and item[field] in table for field, table in NAME_FIELDS)


def read_request(text):
    """The asked items of a fetch request. One whose words are no name asks for no list, and is left out once it is read."""
    outside = Reader(0)
    body = outside.object(read_json(text), "message")
    read_client(outside, body)
    items = outside.list(body, "listUpdateRequests")
    named = sum(map(has_name, items))
    if named > MOST_ITEMS:
        raise Unreadable(f"too-many-items {named}")
    read = [Reader(number).request(item) for number, item in enumerate(items, 1)]
    return [asked for asked in read if asked["name"]]


def read_info(outside, body, most):
    """The three lists of words of a request's `threatInfo`, and its items, of which it may have so many."""
    info = outside.inner(body, "threatInfo")
    tables = (("threatTypes", THREATS), ("platformTypes", PLATFORMS), ("threatEntryTypes", ENTRIES))
    words = [outside.words(info, field, table) for field, table in tables]
    items = outside.list(info, "threatEntries")
    if len(items) > most:
        raise Unreadable(f"too-many-items {len(items)}")
    return words, items


def read_find(text):
    """The words that a find request asks for, three lists of them, and its prefixes."""
    outside = Reader(0)
    body = outside.object(read_json(text), "message")
    read_client(outside, body)
    for state in outside.list(body, "clientStates"):
        if state is not None:
            outside.bytes(state, "clientStates")
    words, items = read_info(outside, body, MOST_PREFIXES)
    return words, [Reader(number).prefix(item) for number, item in enumerate(items, 1)]


def read_lookup(text):
    """The words that a look-up request asks for, three lists of them, and its URLs."""
    outside = Reader(0)
    body = outside.object(read_json(text), "message")
    read_client(outside, body)
    words, items = read_info(outside, body, MOST_URLS)
    return words, [Reader(number).url(item) for number, item in enumerate(items, 1)]


def read_find_answer(text):
    """The matches of the answer to a find, and its two times in nanoseconds: how long finds wait, and how long there is no further match."""
    outside = Reader(0)
    body = outside.object(read_json(text), "message")
    matches = [Reader(number).match(one) for number, one in enumerate(outside.list(body, "matches"), 1)]
    wait = outside.duration(body, "minimumWaitDuration")
    return {"matches": matches, "wait": wait, "negative": outside.duration(body, "negativeCacheDuration")}
