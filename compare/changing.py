"""Changes of a message: a field or some bytes, so that it is no longer what it was."""

import copy

ODD_VALUES = [
    None, True, False, 0, 4, 5, -1, 4.0, 2**31, 2**32, 2**63, 2**64, "", "0", "7", "07", "RAW", "RICE", "AA==", "AB==",
    "AA", "A===", "-_-_", "\u00e9", "\u0000", "\ud800", [], {}, [[]], [{}], [None], {"a": 1}, "FULL_UPDATE",
    "PARTIAL_UPDATE", "MALWARE", "1s", "1.5s", "s", "315576000001s",
]  # fmt: skip

ODD_NAMES = [
    "extra", "removals", "baseState", "riceHashes", "riceIndices", "minimumWaitDuration", "threatType", "additions",
    "rawHashes", "rawIndices", "raw_hashes", "checksum", "numEntries",
]  # fmt: skip

ODD_BYTES = [
    b"\\u0041", b"\\ud800", b"\\ud83d\\ude00", b"\\x", b"\\/", b"1e999", b"-0", b"01", b"1.", b".5", b"1e5",
    b"NaN", b"tru", b"null", b'"a":1,', b"[[", b"\xef\xbb\xbf", b"\xc0\x80", b"\xed\xa0\x80", b"4.0", b"4e0",
    b"04", b"18446744073709551616", b"\x00", b"\t", b"\r", b" ", b'"', b"\\", b",", b":", b"=", b"}",
]  # fmt: skip


def places(value):
    """Each place inside a value: a list or an object, and the key of one of its items."""
    keys = range(len(value)) if isinstance(value, list) else list(value)
    for key in keys:
        yield value, key
        if isinstance(value[key], (list, dict)):
            yield from places(value[key])


def change_field(rand, body):
    inside = list(places(body))
    if not inside:
        return
    holder, key = rand.choice(inside)
    odd = copy.deepcopy(rand.choice(ODD_VALUES))
    kind = rand.randrange(4)
    if kind == 0:
        holder[key] = odd
    elif kind == 1:
        del holder[key]
    elif isinstance(holder, list):
        holder.append(copy.deepcopy(holder[0]) if kind == 2 else odd)
    elif kind == 2:
        holder[rand.choice(ODD_NAMES)] = odd
    else:
        holder[rand.choice([key.upper(), key + " ", rand.choice(ODD_NAMES)])] = holder.pop(key)


def change_bytes(rand, line):
    changed = bytearray(line)
    for _ in range(rand.choice([1, 1, 1, 2, 3])):
        at = rand.randrange(len(changed) + 1)
        over = rand.choice([0, 0, 1, 1, 2])
        changed[at : at + over] = rand.choice([b"", bytes([rand.randrange(256)]), rand.choice(ODD_BYTES)])
    return bytes(changed)
