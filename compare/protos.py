"""The second program's messages in Protocol Buffers: it reads the requests of browsers, and writes their answers.

It follows docs/FORMATS.md, "The wire form of Protocol Buffers" and "Messages in Protocol Buffers". An answer is made of that in JSON.
"""

import base64
import re
import urllib.parse

import server
from messages import ENTRIES, I32, MOST_ITEMS, MOST_PREFIXES, MOST_STATE, PLATFORMS, THREATS, Unreadable

MOST_FIELD = 2**29 - 1
OTHER_SOCIAL = 5
SOCIAL = "SOCIAL_ENGINEERING"
FORM = b"application/x-protobuf"
NO_MESSAGE = "not-base64"


class WireFault(Exception):
    """Bytes are not in the wire form: what is wrong, and where."""


# ---- the wire form


def varint(data, at, begun):
    """The number that a varint spells, and the place behind it."""
    number = 0
    for count in range(10):
        if at == len(data):
            raise WireFault("cut", begun)
        byte = data[at]
        at += 1
        if count == 9 and byte > 1:
            raise WireFault("long-varint", begun)
        number |= (byte & 127) << (7 * count)
        if byte < 128:
            break
    return number, at


def value_at(data, at, begun, kind):
    """The value of a wire type, and the place behind it."""
    if kind == 0:
        return varint(data, at, begun)
    length = {1: 8, 5: 4}.get(kind)
    if length is None:
        length, at = varint(data, at, begun)
    if len(data) - at < length:
        raise WireFault("cut", begun)
    piece = data[at : at + length]
    return (piece if kind == 2 else int.from_bytes(piece, "little")), at + length


def fields_of(data):
    """The fields of a message in order, each as its number, its wire type and its value."""
    fields, at = [], 0
    while at < len(data):
        begun = at
        key, at = varint(data, at, begun)
        number, kind = key >> 3, key & 7
        if not 1 <= number <= MOST_FIELD:
            raise WireFault("field-number", begun)
        if kind not in (0, 1, 2, 5):
            raise WireFault("wire-type", begun)
        value, at = value_at(data, at, begun, kind)
        fields.append((number, kind, value))
    return fields


def spelled(number):
    """The shortest varint of a number."""
    out = bytearray()
    while number > 127:
        out.append(number & 127 | 128)
        number >>= 7
    out.append(number)
    return bytes(out)


def number_field(field, number):
    return spelled(field << 3) + spelled(number)


def bytes_field(field, data):
    return spelled(field << 3 | 2) + spelled(len(data)) + data


# ---- requests


class Part:
    """A message in an item, or outside of all in item 0: its fields, and what is read of them."""

    def __init__(self, fields, item):
        self.fields, self.item = fields, item

    def refuse(self, what, label, kind="field"):
        raise Unreadable(f"{kind} {what} {label} {self.item}")

    def refuse_wire(self, fault, label):
        what, place = fault.args
        self.refuse(f"{what} {place}", label, "wire")

    def read(self, data, label):
        try:
            return fields_of(data)
        except WireFault as fault:
            self.refuse_wire(fault, label)

    def values(self, number):
        return [(kind, value) for field, kind, value in self.fields if field == number]

    def of_kind(self, number, kind, label):
        values = self.values(number)
        if any(other != kind for other, _ in values):
            self.refuse("wrong-kind", label)
        return [value for _, value in values]

    def number(self, number, label):
        return ([0] + self.of_kind(number, 0, label))[-1]

    def whole(self, number, label):
        found = self.number(number, label)
        if found > I32:
            self.refuse("number", label)
        return found

    def bytes(self, number, label):
        return ([b""] + self.of_kind(number, 2, label))[-1]

    def text(self, number, label):
        try:
            return self.bytes(number, label).decode("utf-8")
        except UnicodeDecodeError:
            self.refuse("wrong-kind", label)

    def state(self, number, label):
        data = self.bytes(number, label)
        if len(data) > MOST_STATE:
            self.refuse(f"size {len(data)}", label)
        return data

    def within(self, number, label):
        """The message under a number, that of each time merged."""
        merged = []
        for kind, value in self.values(number):
            if kind != 2:
                self.refuse("wrong-kind", label)
            merged += self.read(value, label)
        return Part(merged, self.item)

    def numbers(self, number, label):
        found = []
        for kind, value in self.values(number):
            if kind == 0:
                found.append(value)
            elif kind == 2:
                found += self.packed(value, label)
            else:
                self.refuse("wrong-kind", label)
        return found

    def packed(self, data, label):
        found, at = [], 0
        try:
            while at < len(data):
                number, at = varint(data, at, at)
                found.append(number)
        except WireFault as fault:
            self.refuse_wire(fault, label)
        return found

    def item_of(self, number, at, label, item):
        """The message that the value at a place is, as an item."""
        kind, value = self.values(number)[at]
        part = Part([], item)
        if kind != 2:
            part.refuse("wrong-kind", label)
        return Part(part.read(value, label), item)


def word_of(number, table):
    return table[number - 1] if 1 <= number <= len(table) else None


def threat_of(number):
    return SOCIAL if number == OTHER_SOCIAL else word_of(number, THREATS)


def name_of(part):
    """The number of an item's threat, and the name that its three numbers are, or None."""
    threat = part.number(1, "threatType")
    words = [threat_of(threat), word_of(part.number(2, "platformType"), PLATFORMS), word_of(part.number(5, "threatEntryType"), ENTRIES)]
    return threat, "/".join(words) if all(words) else None


def has_name(root, at):
    try:
        return name_of(root.item_of(3, at, "listUpdateRequests", at + 1))[1] is not None
    except Unreadable:
        return False


def client_of(root):
    client = root.within(1, "client")
    client.text(1, "clientId")
    client.text(2, "clientVersion")


def read_fetch(data):
    """What a fetch request asks for, and the numbers by which it asks for the threats."""
    outside = Part([], 0)
    root = Part(outside.read(data, "message"), 0)
    client_of(root)
    count = len(root.values(3))
    named = sum(has_name(root, at) for at in range(count))
    if named > MOST_ITEMS:
        raise Unreadable(f"too-many-items {named}")
    asked, threats = [], []
    for at in range(count):
        part = root.item_of(3, at, "listUpdateRequests", at + 1)
        threat, name = name_of(part)
        state = part.state(3, "state")
        constraints = part.within(4, "constraints")
        read = {"name": name, "state": state}
        read["max_update"] = constraints.whole(1, "maxUpdateEntries")
        read["max_database"] = constraints.whole(2, "maxDatabaseEntries")
        read["rice"] = 2 in constraints.numbers(4, "supportedCompressions")
        if name is not None:
            asked.append(read)
            threats.append(threat)
    return asked, threats


def read_find(data):
    """The three lists of words of a find request, its prefixes, and the number by which it asks for SOCIAL_ENGINEERING."""
    outside = Part([], 0)
    root = Part(outside.read(data, "message"), 0)
    client_of(root)
    root.of_kind(2, 2, "clientStates")
    info = root.within(3, "threatInfo")
    threats = info.numbers(1, "threatTypes")
    platforms = info.numbers(2, "platformTypes")
    entries = info.numbers(4, "threatEntryTypes")
    count = len(info.values(3))
    if count > MOST_PREFIXES:
        raise Unreadable(f"too-many-items {count}")
    prefixes = []
    for at in range(count):
        part = info.item_of(3, at, "threatEntries", at + 1)
        data = part.bytes(1, "hash")
        if not 4 <= len(data) <= 32:
            part.refuse(f"size {len(data)}", "hash")
        prefixes.append(data)
    words = [[threat_of(one) for one in threats], [word_of(one, PLATFORMS) for one in platforms], [word_of(one, ENTRIES) for one in entries]]
    social = next((one for one in threats if one in (2, OTHER_SOCIAL)), 2)
    return [[word for word in some if word is not None] for some in words], prefixes, social


# ---- answers


def number_of(word, table, social=2):
    return social if word == SOCIAL else table.index(word) + 1


def nanos_of(text):
    whole, _, part = (text or "0s").removesuffix("s").partition(".")
    return int(whole), int(part.ljust(9, "0") or 0)


def duration_field(field, text):
    seconds, nanos = nanos_of(text)
    inner = (number_field(1, seconds) if seconds else b"") + (number_field(2, nanos) if nanos else b"")
    return bytes_field(field, inner) if inner else b""


def rice_field(field, record):
    return bytes_field(field, number_field(1, int(record.get("firstValue", 0))) + number_field(2, record.get("riceParameter", 0))
        + number_field(3, record.get("numEntries", 0)) + bytes_field(4, base64.b64decode(record.get("encodedData", ""))))  # fmt: skip


def set_field(field, entry):
    """A set of additions, field 5, or of removals, field 6."""
    if entry["compressionType"] == "RICE":
        inner = number_field(1, 2) + (rice_field(4, entry["riceHashes"]) if field == 5 else rice_field(5, entry["riceIndices"]))
    elif field == 5:
        raw = entry["rawHashes"]
        data = base64.b64decode(raw["rawHashes"])
        inner = number_field(1, 1) + bytes_field(2, number_field(1, raw["prefixSize"]) + (bytes_field(2, data) if data else b""))
    else:
        inner = number_field(1, 1) + bytes_field(3, bytes_field(1, b"".join(map(spelled, entry["rawIndices"]["indices"]))))
    return bytes_field(field, inner)


def update_field(item, threat):
    full = item["responseType"] == "FULL_UPDATE"
    additions = item.get("additions", [])
    if full and not additions:
        additions = [{"compressionType": "RAW", "rawHashes": {"prefixSize": 4, "rawHashes": ""}}]
    kind = number_field(1, threat) + number_field(2, number_of(item["threatEntryType"], ENTRIES)) + number_field(3, number_of(item["platformType"], PLATFORMS))
    sets = b"".join(set_field(5, one) for one in additions) + b"".join(set_field(6, one) for one in item.get("removals", []))
    digest = bytes_field(1, base64.b64decode(item["checksum"]["sha256"]))
    end = bytes_field(7, base64.b64decode(item["newClientState"])) + bytes_field(8, digest)
    return bytes_field(1, kind + number_field(4, 2 if full else 1) + sets + end)


def written_fetch(body, threats):
    """The answer to a fetch request, whose items have these numbers of threats."""
    items = b"".join(update_field(item, threat) for item, threat in zip(body.get("listUpdateResponses", []), threats))
    return items + duration_field(2, body.get("minimumWaitDuration"))


def match_field(match, social):
    return bytes_field(1, number_field(1, number_of(match["threatType"], THREATS, social)) + number_field(2, number_of(match["platformType"], PLATFORMS))
        + bytes_field(3, bytes_field(1, base64.b64decode(match["threat"]["hash"]))) + duration_field(5, match.get("cacheDuration"))
        + number_field(6, number_of(match["threatEntryType"], ENTRIES)))  # fmt: skip


def written_find(body, social):
    matches = b"".join(match_field(match, social) for match in body.get("matches", []))
    return matches + duration_field(2, body.get("minimumWaitDuration")) + duration_field(3, body.get("negativeCacheDuration"))


def fetch_body(journal, data, times):
    """The body of the answer to a fetch request."""
    asked = [(one, threat, server.named_item(journal, one)) for one, threat in zip(*read_fetch(data))]
    told = [(item, threat) for _, threat, item in asked if item is not None]
    return written_fetch(server.fetch_answer(journal, [item for item, _ in told], times), [threat for _, threat in told])


def find_body(journal, data, times):
    """The body of the answer to a find request."""
    words, prefixes, social = read_find(data)
    return written_find(server.find_answer(journal, words, prefixes, times), social)


BODIES = {"fetch": fetch_body, "find": find_body}


# ---- a request over HTTP


def query_of(target):
    """The members of a target's query: names and values, with their escapes undone."""
    query = target.partition(b"?")[2]
    members = [member.partition(b"=") for member in query.split(b"&")] if b"?" in target else []
    return [(urllib.parse.unquote_to_bytes(name), urllib.parse.unquote_to_bytes(value)) for name, _, value in members]


def first_of(members, name):
    return next((value for other, value in members if other == name), None)


def form_of(method, target, content_type):
    """How a request has its message: "query", "protobuf" or "plain"."""
    members = query_of(target)
    if method == b"GET" and first_of(members, b"$req") is not None:
        return "query"
    said = content_type.partition(b";")[0].strip(b" \t").lower() == FORM
    asked = (first_of(members, b"$ct") or b"").lower() == FORM or first_of(members, b"alt") == b"proto"
    return "protobuf" if method == b"POST" and (said or asked) else "plain"


def message_of(text):
    """The bytes of a message in a query, or None if the text is no base64: padding stands there whole or not at all."""
    plain = text.translate(bytes.maketrans(b"-_", b"+/"))
    bare = plain.rstrip(b"=")
    if re.fullmatch(rb"[A-Za-z0-9+/]*", bare) is None or len(bare) % 4 == 1:
        return None
    data = base64.b64decode(bare + b"=" * (-len(bare) % 4))
    whole = base64.b64encode(data)
    return data if plain in (whole, whole.rstrip(b"=")) else None
