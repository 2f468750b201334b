"""Seeded requests as browsers make them: messages in Protocol Buffers, right and harmed, and how they are sent over HTTP.

Fields stand in any order, some twice, some unknown; lists of numbers are packed or not; varints may be longer than they have to be.
"""

import base64
import urllib.parse

import protos
import server
from messages import ENTRIES, PLATFORMS, THREATS

NUMBERS = [0, 1, 2, 3, 4, 5, 6, 7, 8, 9, 2**31 - 1, 2**31, 2**64 - 1]
FORM = "application/x-protobuf"


def varint(rand, number):
    """A varint that spells a number, now and then a longer one than the shortest."""
    text = protos.spelled(number)
    more = rand.choice([0] * 12 + [1, 2, 10 - len(text)])
    if not 0 < more <= 10 - len(text):
        return text
    return text[:-1] + bytes([text[-1] | 128]) + b"\x80" * (more - 1) + b"\x00"


def number_field(rand, field, number):
    return varint(rand, field << 3) + varint(rand, number)


def bytes_field(rand, field, data):
    return varint(rand, field << 3 | 2) + varint(rand, len(data)) + data


def unknown_field(rand):
    field = rand.choice([11, 15, 16, 999, protos.MOST_FIELD])
    kind = rand.choice([0, 1, 2, 5])
    value = {0: lambda: varint(rand, rand.choice(NUMBERS)), 1: lambda: bytes(8), 5: lambda: bytes(4)}.get(kind)
    if value is None:
        return bytes_field(rand, field, bytes(rand.randrange(4)))
    return varint(rand, field << 3 | kind) + value()


def odd_field(rand, field):
    """A field of a wire type that may not be its own."""
    return rand.choice([
        number_field(rand, field, rand.choice(NUMBERS)), bytes_field(rand, field, bytes(rand.choices(b"\x00\x08\x01\xff", k=rand.randrange(4)))),
        varint(rand, field << 3 | 1) + bytes(8), varint(rand, field << 3 | 5) + bytes(4), varint(rand, field << 3 | rand.choice([3, 4, 6, 7])),
    ])  # fmt: skip


def joined(rand, fields):
    """Fields in some order, most of the time that of their numbers, with some unknown ones and now and then an odd one."""
    fields = list(fields)
    if rand.random() < 0.2:
        rand.shuffle(fields)
    for _ in range(rand.choice([0] * 8 + [1, 2])):
        fields.insert(rand.randrange(len(fields) + 1), unknown_field(rand))
    if rand.random() < 0.02:
        fields.insert(rand.randrange(len(fields) + 1), odd_field(rand, rand.choice([1, 2, 3, 4, 5])))
    return b"".join(fields)


def numbers_field(rand, field, numbers):
    """A list of numbers: each in a field of its own, or some of them packed."""
    texts, left = [], list(numbers)
    while left:
        count = rand.choice([1, 1, len(left)])
        some, left = left[:count], left[count:]
        if count > 1 or rand.random() < 0.3:
            texts.append(bytes_field(rand, field, b"".join(varint(rand, number) for number in some)))
        else:
            texts.append(number_field(rand, field, some[0]))
    return b"".join(texts)


def halved(rand, field, data):
    """A message that stands in another, now and then as two that are merged."""
    if rand.random() < 0.05:
        return bytes_field(rand, field, b"") + bytes_field(rand, field, data)
    return bytes_field(rand, field, data)


def client_of(rand):
    texts = [rand.choice([b"navclient-auto-ffox", b"", "\u00e9".encode(), b"\xff" if rand.random() < 0.1 else b"a"]) for _ in range(2)]
    return bytes_field(rand, 1, joined(rand, [bytes_field(rand, place, text) for place, text in enumerate(texts, 1) if text or rand.random() < 0.3]))


def codes_of(rand, name):
    """The three numbers of a name, now and then others."""
    words = name.split("/")
    codes = [table.index(word) + 1 for table, word in zip((THREATS, PLATFORMS, ENTRIES), words)]
    if codes[0] == 2 and rand.random() < 0.5:
        codes[0] = protos.OTHER_SOCIAL
    if rand.random() < 0.15:
        codes[rand.randrange(3)] = rand.choice(NUMBERS)
    return codes


def some_name(rand, journal, names):
    return rand.choice(list(journal.declared)) if rand.random() < 0.8 and journal.declared else rand.choice(names)


def any_fetch(rand, journal, names):
    """A fetch request."""
    items = []
    for _ in range(rand.choice([0, 1, 1, 1, 2, 3, 5, 8, 9])):
        name = some_name(rand, journal, names)
        threat, platform, entry = codes_of(rand, name)
        if rand.random() < 0.3:
            platform = rand.randrange(1, 9)
        fields = [number_field(rand, 1, threat), number_field(rand, 2, platform)]
        state = server.any_state(rand, journal, server.answering(journal, name) or name, names)
        fields += [bytes_field(rand, 3, state)] if state or rand.random() < 0.1 else []
        limits = [number_field(rand, place, rand.choice([0, 1, 2, 5, 2**31 - 1, 2**31])) for place in (1, 2) if rand.random() < 0.2]
        taken = numbers_field(rand, 4, rand.choice([[2], [2], [1], [1, 2], [], [7]]))
        fields += [halved(rand, 4, joined(rand, [*limits, taken])), number_field(rand, 5, entry)]
        items.append(bytes_field(rand, 3, joined(rand, fields)))
    return joined(rand, [client_of(rand), *items])


def some_codes(rand, table, words):
    codes = [table.index(word) + 1 for word in words if rand.random() < 0.8] + rand.sample(NUMBERS, rand.choice([0, 0, 1, 2]))
    rand.shuffle(codes)
    return codes


def any_find(rand, journal, names):
    """A find request."""
    threats, platforms, entries = zip(*(name.split("/") for name in list(journal.declared) or names))
    codes = some_codes(rand, THREATS, threats)
    codes = [protos.OTHER_SOCIAL if code == 2 and rand.random() < 0.5 else code for code in codes]
    hashes = [server.any_hash(rand, journal) for _ in range(rand.choice([0, 1, 1, 2, 5]))]
    info = [numbers_field(rand, 1, codes), numbers_field(rand, 2, some_codes(rand, PLATFORMS, platforms))]
    info += [bytes_field(rand, 3, joined(rand, [bytes_field(rand, 1, data)])) for data in hashes]
    info += [numbers_field(rand, 4, some_codes(rand, ENTRIES, entries))]
    states = [bytes_field(rand, 2, server.any_state(rand, journal, name, names)) for name in rand.choices(names, k=rand.choice([0, 1, 3]))]
    return joined(rand, [client_of(rand), *states, halved(rand, 3, joined(rand, info))])


MESSAGES = {"fetch": any_fetch, "find": any_find}


# ---- over HTTP


def query_text(rand, message):
    """A message as base64 of either alphabet, padded or not, and now and then with escapes or a fault."""
    text = rand.choice([base64.urlsafe_b64encode, base64.urlsafe_b64encode, base64.b64encode])(message)
    text = text.rstrip(b"=") if rand.random() < 0.4 else text
    if text and rand.random() < 0.03:
        at = rand.randrange(len(text))
        text = text[:at] + rand.choice([b"", b"*", b"=", b"%", b"AA"]) + text[at + 1 :]
    return urllib.parse.quote_from_bytes(text, safe="").encode("ascii") if rand.random() < 0.2 else text


def members_of(rand, message):
    """The members of the query of a GET."""
    members = [b"$ct=application/x-protobuf", b"$httpMethod=POST", b"key=k", b"alt=proto", b"$req"]
    members = rand.sample(members, rand.choice([0, 1, 2])) if rand.random() < 0.3 else members[:2]
    name = rand.choice([b"$req"] * 8 + [b"%24req", b"req"])
    members.append(name + b"=" + query_text(rand, message))
    return b"&".join(members)


def request_of(rand, path, message):
    """A request over HTTP: its first line, its fields and its body."""
    if rand.random() < 0.6:
        return b"GET " + path + b"?" + members_of(rand, message) + b" HTTP/1.1", [], b""
    says = rand.choice(["type", "type", "query", "alt", "none"])
    fields = [b"Content-Length: %d" % len(message)]
    kind = rand.choice([FORM, FORM, FORM.upper(), FORM + "; charset=x", "application/json"]).encode("ascii")
    fields += [b"Content-Type: " + kind] if says == "type" else []
    query = {"query": b"?$ct=application/x-protobuf", "alt": b"?alt=proto"}.get(says, rand.choice([b"", b"", b"?$req=AA"]))
    return b"POST " + path + query + b" HTTP/1.1", fields, message
