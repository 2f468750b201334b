"""A second reading of the rules of canonical URLs and expressions, and seeded URLs to try it on.

It follows docs/FORMATS.md. Hosts with bytes from 128 on are left out, as Python reads them otherwise, but where a caller says how
they are read.
"""

import hashlib
import re

LONGEST = 8_192
ESCAPE = re.compile(rb"%([0-9A-Fa-f]{2})")


class NoUrl(Exception):
    """A text has no canonical URL, for the cause that is the exception's text."""


class Skipped(Exception):
    """A host has bytes that this reading does not know."""


def unescaped(text):
    while True:
        shorter = ESCAPE.sub(lambda found: bytes([int(found[1], 16)]), text)
        if shorter == text:
            return text
        text = shorter


def escaped(text):
    return b"".join(
        b"%%%02X" % byte if byte <= 32 or byte >= 127 or byte in b"#%" else bytes([byte])
        for byte in text
    )


def number_of(part):
    for form, digits, base in (
        (rb"0[xX]([0-9A-Fa-f]+)", 1, 16),
        (rb"0([0-7]+)", 1, 8),
        (rb"(0|[1-9][0-9]*)", 1, 10),
    ):
        found = re.fullmatch(form, part)
        if found:
            return int(found[digits], base)
    return None


def address_of(name):
    numbers = [number_of(part) for part in name.split(b".")]
    if len(numbers) > 4 or None in numbers or any(number > 255 for number in numbers[:-1]):
        return None
    if numbers[-1] >= 256 ** (5 - len(numbers)):
        return None
    value = numbers[-1]
    for place, number in enumerate(numbers[:-1]):
        value += number << (24 - 8 * place)
    return b".".join(b"%d" % byte for byte in value.to_bytes(4, "big"))


def unknown(name):
    raise Skipped


def host_of(authority, other_script):
    """The host, and whether it is an address."""
    rest = authority.rpartition(b"@")[2]
    bracketed = rest.lstrip(b".")
    if bracketed.startswith(b"[") and b"]" in bracketed:
        return bracketed[: bracketed.index(b"]") + 1].lower(), True
    name = b".".join(label for label in rest.split(b":")[0].split(b".") if label).lower()
    if any(byte >= 128 for byte in name):
        name = other_script(name)
    if not name:
        raise NoUrl("no-host")
    address = address_of(name)
    return (name, False) if address is None else (address, True)


def path_of(path):
    components, wanted = [], (path or b"/")[1:].split(b"/")
    for component in wanted:
        if component == b"..":
            del components[-1:]
        elif component != b".":
            components.append(component)
    if wanted[-1] in (b".", b".."):
        components.append(b"")
    return [component for component in components[:-1] if component] + components[-1:]


def canonical(text, other_script=unknown):
    """The scheme, the host and whether it is an address, the components of the path, and the query or None."""
    if len(text) > LONGEST:
        raise NoUrl(f"too-long {len(text)}")
    text = text.translate(None, b"\t\n\r").partition(b"#")[0].strip(b" ")
    if not text:
        raise NoUrl("empty")
    text = unescaped(text)
    found = re.match(rb"([A-Za-z][A-Za-z0-9+.\-]*)://", text)
    scheme, text = (found[1].lower(), text[found.end() :]) if found else (b"http", text)
    end = min(place for place in (text.find(b"/"), text.find(b"?"), len(text)) if place >= 0)
    host, is_address = host_of(text[:end], other_script)
    path, mark, query = text[end:].partition(b"?")
    components = [escaped(component) for component in path_of(path)]
    return scheme, escaped(host), is_address, components, escaped(query) if mark else None


def path_text(components):
    return b"".join(b"/" + component for component in components)


def expressions(host, is_address, components, query):
    labels = host.split(b".")
    hosts = [host]
    if not is_address:
        hosts += [b".".join(labels[-count:]) for count in (5, 4, 3, 2) if len(labels) >= count]
    paths = [] if query is None else [path_text(components) + b"?" + query]
    paths.append(path_text(components))
    paths += [path_text(components[:count]) + b"/" for count in range(min(4, len(components)))]
    return list(dict.fromkeys(one + path for one in hosts for path in paths))


def show(lines):
    """What `sbcheck show` prints of URLs, and its status."""
    printed, refused = [], False
    for number, line in enumerate(lines, 1):
        try:
            scheme, host, is_address, components, query = canonical(line)
        except NoUrl as fault:
            printed.append(b"%d refused %s" % (number, str(fault).encode("ascii")))
            refused = True
            continue
        tail = b"" if query is None else b"?" + query
        printed.append(b"%d %s://%s%s%s" % (number, scheme, host, path_text(components), tail))
        for expression in expressions(host, is_address, components, query):
            printed.append(b"  %s %s" % (hashlib.sha256(expression).hexdigest().encode(), expression))
    return b"".join(line + b"\n" for line in printed), 21 if refused else 0


# ---- seeded URLs

PIECES = [
    b"http://", b"https://", b"HTTP://", b"ftp://", b"a+b://", b"://", b"//", b"/", b"/", b"/", b".", b"..", b"/./", b"/../", b"?",
    b"?", b"#", b"@", b":", b":80", b"[", b"]", b"[2001:DB8::1]", b"%", b"%2", b"%25", b"%2525", b"%2E", b"%2f", b"%3F", b"%23", b"%40",
    b"%00", b"%7f", b"%20", b" ", b"  ", b"\t", b"\r", b"\x01", b"\x7f", b"a", b"B", b"www", b"Example", b"example.com", b"a.b.c.d.e.f.g",
    b"1", b"0", b"08", b"0x7f", b"0X1", b"0377", b"255", b"256", b"3221225985", b"4294967296", b"192.0.2.1", b"=", b"&", b";", b"index.html",
    b"1/2/3/4/5", b"x=1&y=2", b"user:pw@", b"%25%32%35", b"\xc3\xa9", b"\xff",
]  # fmt: skip


def any_url(rand):
    kind = rand.random()
    if kind < 0.02:
        return rand.randbytes(rand.randrange(12)).replace(b"\n", b"")
    if kind < 0.03:
        return b"http://h/" + b"%25" * rand.choice([100, 2_727, 2_728]) + b"a" * rand.randrange(3)
    pieces = [rand.choice(PIECES) for _ in range(rand.randrange(14))]
    front = b"" if kind < 0.4 else rand.choice([b"http://", b"https://user@"]) + rand.choice([b"a.example", b"1.2.3.4", b"b.c.example.com:8080", b".x..y."])
    return (front + b"".join(pieces)).replace(b"\n", b"")


def some_urls(rand, count):
    urls = []
    while len(urls) < count:
        url = any_url(rand)
        try:
            canonical(url)
        except NoUrl:
            pass
        except Skipped:
            continue
        urls.append(url)
    return urls
