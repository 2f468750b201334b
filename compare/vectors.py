"""The published examples once more, and what the second program makes of them.

Canonical URLs, refusals, expressions and Rice records: the examples that `sbcheck vectors` counts. Hosts of other scripts are
read here as these examples need it: normalized by NFKC, in lower case, and each label that is not ASCII in Punycode.
"""

import re
import unicodedata

import urls
from updates import Refused, decode

CANONICAL = [
    (b"http://host/%25%32%35", b"http://host/%25"),
    (b"http://host/%%%25%32%35asd%%", b"http://host/%25%25%25asd%25%25"),
    (b"http://.Warn..example.:8080/a/../b//c?x//y#f", b"http://warn.example/b/c?x//y"),
    (b"http://3221225985/blah", b"http://192.0.2.1/blah"),
    (b"http://0300.0.01001/blah", b"http://192.0.2.1/blah"),
    (b"http://256.1.1.1/", b"http://256.1.1.1/"),
    (b"http://host/%25%32%35%25%32%35", b"http://host/%25%25"),
    (b"http://host/%2525252525252525", b"http://host/%25"),
    (b"http://host%23.example/a%2521b%2540c", b"http://host%23.example/a!b@c"),
    (b"warn.example", b"http://warn.example/"),
    (b"http://.[2001:DB8::1]x/", b"http://[2001:db8::1]/"),
    (b"http://warn.example/foo\tbar\rbaz\n2", b"http://warn.example/foobarbaz2"),
    (b"http://warn.example/q?r?s", b"http://warn.example/q?r?s"),
    (b"http://warn.example/blah/..", b"http://warn.example/"),
    (b"  http://warn.example/  ", b"http://warn.example/"),
    (b"http:// warn.example/", b"http://%20warn.example/"),
    (b"http://\x01\x80.example/", b"http://%01%80.example/"),
    (b"https://user:pw@warn.example:8443/", b"https://warn.example/"),
    (b"http://warn.example/ab%23cd", b"http://warn.example/ab%23cd"),
    (b"http://warn.example//two?more//slashes", b"http://warn.example/two?more//slashes"),
    (b"http://[2001:DB8::1]:80/", b"http://[2001:db8::1]/"),
    (b"http://0x7f.1/", b"http://127.0.0.1/"),
    (b"http://b%C3%BCcher.example/", b"http://xn--bcher-kva.example/"),
    (b"http://%EF%BC%91%EF%BC%92%EF%BC%97.0.0.1/", b"http://127.0.0.1/"),
    (b"http://a%E3%80%82example/", b"http://a.example/"),
    (b"http://%EF%BC%85.example/", b"http://%EF%BC%85.example/"),
    (b"http://%80.example/", b"http://%80.example/"),
]
REFUSED = [(b"http:///x", "no-host"), (b"", "empty"), (b" ", "empty")]
EXPRESSIONS = [
    (
        b"http://a.b.c/1/2.html?param=1",
        [b"a.b.c/1/2.html?param=1", b"a.b.c/1/2.html", b"a.b.c/", b"a.b.c/1/", b"b.c/1/2.html?param=1", b"b.c/1/2.html", b"b.c/", b"b.c/1/"],
    ),
    (b"http://192.0.2.1/1/", [b"192.0.2.1/1/", b"192.0.2.1/"]),
]
RICE = [([5, 9, 20], 2, b"\xb1\x01"), ([5, 16_777_216], 23, b"\xed\xff\xff\x01"), ([7], 0, b"")]


def in_ascii(name):
    """A host's name of another script as IDNA has it, where it has one."""
    try:
        text = unicodedata.normalize("NFKC", name.decode()).replace("\u3002", ".").lower()
    except UnicodeDecodeError:
        return name
    labels = text.split(".")
    if not all(re.fullmatch(r"[\w-]*", label) for label in labels):
        return name
    return b".".join(label.encode() if label.isascii() else b"xn--" + label.encode("punycode") for label in labels)


def text_of(url):
    scheme, host, _, components, query = urls.canonical(url, in_ascii)
    return scheme + b"://" + host + urls.path_text(components) + (b"" if query is None else b"?" + query)


def refusal_of(url):
    try:
        text_of(url)
    except urls.NoUrl as fault:
        return str(fault)
    return None


def numbers_of(first, count, parameter, coded):
    try:
        return decode(("rice", first, parameter, count, coded))
    except Refused:
        return None


def vectors():
    """What `sbcheck vectors` prints."""
    met = [text_of(url) == text for url, text in CANONICAL]
    met += [refusal_of(url) == cause for url, cause in REFUSED]
    met += [urls.expressions(*urls.canonical(url)[1:]) == wanted for url, wanted in EXPRESSIONS]
    met += [numbers_of(values[0], len(values) - 1, parameter, coded) == values for values, parameter, coded in RICE]
    return b"vectors %d of %d\n" % (sum(met), len(met))
