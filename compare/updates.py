"""The second program's side of updates: what each does to the lists that are held, as docs/FORMATS.md says, "What an update does"."""

import hashlib
import operator

from messages import ENTRIES, PLATFORMS, THREATS

MOST_VALUES = 1_048_576
MOST_BYTES = 8_388_608


class Refused(Exception):
    """An update is refused, for the cause that is the exception's text."""


def decode(record):
    """The numbers of a Rice record."""
    _, first, parameter, count, coded = record
    if count > 0 and not 2 <= parameter <= 28:
        raise Refused(f"rice parameter {parameter}")
    if count + 1 > MOST_VALUES:
        raise Refused(f"rice count-limit {count + 1}")
    if first >= 2**32:
        raise Refused("rice range 0")
    bits = [byte >> place & 1 for byte in coded for place in range(8)]
    numbers, at = [first], 0
    for entry in range(1, count + 1):
        quotient = 0
        while at < len(bits) and bits[at]:
            quotient += 1
            at += 1
        if at + 1 + parameter > len(bits):
            raise Refused(f"rice ended {entry}")
        low = bits[at + 1 : at + 1 + parameter]
        at += 1 + parameter
        delta = (quotient << parameter) + sum(bit << place for place, bit in enumerate(low))
        if numbers[-1] + delta >= 2**32:
            raise Refused(f"rice range {entry}")
        numbers.append(numbers[-1] + delta)
    if len(bits) - at >= 8:
        raise Refused(f"rice left-over {len(bits) - at}")
    return numbers


def members_of(entry):
    if entry[0] == "raw":
        return entry[1]
    return [number.to_bytes(4, "little") for number in decode(entry)]


def places_of(entry):
    return entry[1] if entry[0] == "raw" else decode(entry)


def shown(token):
    return token.hex() or "-"


def propose(token, held, update):
    """The set that an update proposes to one who holds a rising list of prefixes."""
    partial = not update["full"]
    if partial and update["base"] and update["base"] != token:
        raise Refused(f"stale-base {shown(token)} {shown(update['base'])}")
    additions = [member for entry in update["additions"] for member in members_of(entry)]
    places = [place for entry in update["removals"] for place in places_of(entry)] if partial else []
    if max(places, default=-1) >= len(held):
        place = next(place for place in places if place >= len(held))
        raise Refused(f"index-range {place} {len(held)}")
    gone = set(places)
    kept = [member for place, member in enumerate(held) if place not in gone] if partial else []
    members = sorted(kept + additions)
    if any(map(operator.eq, members, members[1:])):
        members = list(dict.fromkeys(members))
    if len(members) > MOST_VALUES:
        raise Refused(f"too-many {len(members)}")
    text = b"".join(members)
    if len(text) > MOST_BYTES:
        raise Refused(f"too-large {len(text)}")
    digest = hashlib.sha256(text).digest()
    if digest != update["checksum"]:
        raise Refused(f"checksum {digest.hex()} {update['checksum'].hex()}")
    return members


def order(name):
    threat, platform, entry = name.split("/")
    return THREATS.index(threat), PLATFORMS.index(platform), ENTRIES.index(entry)


def take(held, update):
    """What is told of an update, and what became of it."""
    name = update["name"]
    if name not in held:
        return f"{name} not-kept", "not kept"
    token, members = held[name]
    try:
        members = propose(token, members, update)
    except Refused as fault:
        return f"{name} refused {fault}", "refused"
    held[name] = update["state"], members
    return f"{name} installed {len(members)}", "installed"
