"""The loads of docs/FORMATS.md, "Loads that a seed makes", as the second program makes them."""

import hashlib

BITS = 1 << 64
LIST = "MALWARE/ANY_PLATFORM/URL"


def hosts(count, seed):
    """The hosts at the places 0 to `count`."""
    found = []
    for _ in range(count + 1):
        found.append(b"h%d.example" % (seed >> 48))
        seed = (seed * 6364136223846793005 + 1442695040888963407) % BITS
    return found


def hashes(count, seed):
    return [hashlib.sha256(host + b"/").digest() for host in hosts(count, seed)]


def journal(count, seed):
    found = hashes(count, seed)
    lines = [f"sblist 1 {seed:016x}", f"list {LIST} 4"]
    for place in range(1, count + 1):
        removes = place % 4 == 0
        lines += [f"change {LIST} 1 {int(removes)}", "+" + found[place].hex()]
        lines += ["-" + found[place - 1].hex()] if removes else []
    return "".join(line + "\n" for line in lines).encode()


def urls(count, seed):
    found = hosts(count, (seed + 1) % BITS)
    return b"".join(b"http://%s/p%d\n" % (found[place], place) for place in range(1, count + 1))


def members(found, count):
    """The rising prefixes after so many changes."""
    held = set()
    for place in range(1, count + 1):
        if place % 4 == 0:
            held.discard(found[place - 1])
        held.add(found[place])
    return sorted({digest[:4] for digest in held})


def exercise(count, seed):
    found = hashes(count, seed)
    old, new = members(found, count // 2), members(found, count)
    checksum = hashlib.sha256(b"".join(new)).hexdigest()
    removed, added = len(set(old) - set(new)), len(set(new) - set(old))
    return f"exercise {count} {seed}: {len(new)} entries, {removed} removals, {added} additions, checksum {checksum}\n".encode()
