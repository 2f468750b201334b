"""The second program's side of HTTP: the request that a client sends, and what comes of the bytes that a server gives.

It follows docs/FORMATS.md, "HTTP". Heads are read by the grammar of RFC 9112 in place of `httparse`.
"""

import base64
import binascii
import hashlib
import re

PATHS = {"fetch": "/v4/threatListUpdates:fetch", "find": "/v4/fullHashes:find"}
MOST_HEAD = 16_384
MOST_FIELDS = 64
MOST_BODY = 201_326_592
MOST_SIZE_LINE = 1_024
MOST_CHUNKS = 1_048_576

STATUS_LINE = re.compile(rb"HTTP/1\.[01] +([0-9]{3})(?: [\t -~\x80-\xff]*)?")
BEGUN_STATUS = re.compile(
    rb"(?:H(?:T(?:T(?:P(?:/(?:1(?:\.(?:[01](?: +(?:[0-9]{0,2}|[0-9]{3}(?: [\t -~\x80-\xff]*)?))?)?)?)?)?)?)?)?)?"
)
FIELD = re.compile(rb"([!#$%&'*+.^_`|~0-9A-Za-z-]+):[ \t]*([\t -~\x80-\xff]*?)[ \t]*")
BEGUN_FIELD = re.compile(rb"(?:[!#$%&'*+.^_`|~0-9A-Za-z-]+(?::[\t -~\x80-\xff]*\r?)?|\r)?")
SIZE_LINE = re.compile(rb"([0-9A-Fa-f]{1,16})[ \t]*(?:;[^\r\n]*)?\r\n")
BEGUN_SIZE_LINE = re.compile(rb"(?:[0-9A-Fa-f]{1,16}[ \t]*(?:;[^\r\n]*)?\r?)?")


class Failed(Exception):
    """A session brought no body, for the cause that is the exception's text."""


def request(server, key, kind, body):
    """What a client sends to a server for this body."""
    path = PATHS[kind] + (f"?key={key}" if key else "")
    lines = [f"POST {path} HTTP/1.1", f"Host: {server}", "Content-Type: application/json"]
    lines += [f"Content-Length: {len(body)}", "Connection: close", "", ""]
    return "\r\n".join(lines).encode("ascii") + body


def response(body, kind="application/json", status=b"200 OK"):
    """What a server gives of a type, with a status."""
    digest = base64.b64encode(hashlib.sha256(body).digest())
    head = b"HTTP/1.1 %s\r\nContent-Type: %s\r\nContent-Length: %d\r\n" % (status, kind.encode("ascii"), len(body))
    return head + b"Content-Digest: sha-256=:" + digest + b":\r\nConnection: close\r\n\r\n" + body


def fields_of(lines):
    """The fields of a head or a trailer, in order, with their names in lower case."""
    fields = []
    for line in lines:
        found = FIELD.fullmatch(line)
        if found is None:
            raise Failed("head")
        fields.append((found[1].lower(), found[2]))
    return fields


def head_of(given):
    """The status, the fields, and the place where the body begins."""
    text = given.lstrip(b"\r\n")
    end = re.search(rb"\r?\n\r?\n", text)
    whole = text[: end.end()] if end else text
    lines = re.split(rb"\r?\n", whole)
    if STATUS_LINE.fullmatch(lines[0]) is None and (len(lines) > 1 or not may_begin(lines[0])):
        raise Failed("head")
    fields = fields_of(lines[1:-2] if end else lines[1:-1])
    if end is None and len(lines) > 1 and BEGUN_FIELD.fullmatch(lines[-1]) is None:
        raise Failed("head")
    at = len(given) - len(text) + len(whole)
    if end is None or at > MOST_HEAD:
        raise Failed("head-limit" if len(given) >= MOST_HEAD else "cut")
    lengths = [value for name, value in fields if name == b"content-length"]
    if len(fields) > MOST_FIELDS or len(lengths) > 1 or any(re.fullmatch(rb"[0-9]+", one) is None for one in lengths):
        raise Failed("head")
    return int(STATUS_LINE.fullmatch(lines[0])[1]), fields, at


def may_begin(line):
    """Whether a status line may begin so."""
    whole = line.endswith(b"\r")
    return (STATUS_LINE if whole else BEGUN_STATUS).fullmatch(line.removesuffix(b"\r")) is not None


def chunked_body(rest):
    """The body of chunks."""
    body, number = b"", 0
    while True:
        number += 1
        if number > MOST_CHUNKS:
            raise Failed(f"chunk {number}")
        found = SIZE_LINE.match(rest)
        if found is None:
            is_open = len(rest) < MOST_SIZE_LINE and BEGUN_SIZE_LINE.fullmatch(rest)
            raise Failed("cut" if is_open else f"chunk {number}")
        size = int(found[1], 16)
        if len(body) + size > MOST_BODY:
            raise Failed(f"body-limit {min(len(body) + size, 2**64 - 1)}")
        rest = rest[found.end() :]
        if size == 0:
            return trailed(body, rest, number)
        if len(rest) < size + 2:
            is_wrong = rest[size:] and not b"\r\n".startswith(rest[size:])
            raise Failed(f"chunk {number}" if is_wrong else "cut")
        if rest[size : size + 2] != b"\r\n":
            raise Failed(f"chunk {number}")
        body, rest = body + rest[:size], rest[size + 2 :]


def trailed(body, rest, number):
    """The body, where its trailer is right."""
    end = re.match(rb"(?:[^\r\n]+\r?\n)*\r?\n", rest)
    lines = re.split(rb"\r?\n", end[0] if end else rest)
    try:
        fields = fields_of(lines[:-2] if end else lines[:-1])
    except Failed as fault:
        raise Failed(f"chunk {number}") from fault
    if end is None:
        is_open = len(rest) < MOST_HEAD and BEGUN_FIELD.fullmatch(lines[-1])
        raise Failed("cut" if is_open else f"chunk {number}")
    if len(fields) > MOST_FIELDS or end.end() > MOST_HEAD:
        raise Failed(f"chunk {number}")
    return body


def digest_in(fields):
    """The digest that a head gives, or None."""
    for name, value in fields:
        for member in value.split(b",") if name == b"content-digest" else []:
            found = re.fullmatch(rb"sha-256=:([0-9A-Za-z+/=]*):", member.strip(b" \t"))
            try:
                digest = base64.b64decode(found[1], validate=True) if found else b""
            except binascii.Error:
                continue
            if len(digest) == 32 and base64.b64encode(digest) == found[1]:
                return digest
    return None


def body_of(given, need_digest):
    """The body that a session brought which gave these bytes and then ended."""
    status, fields, at = head_of(given)
    if status != 200:
        raise Failed(f"status {status}")
    lengths = [int(value) for name, value in fields if name == b"content-length"]
    codings = [value.lower() for name, value in fields if name == b"transfer-encoding"]
    if lengths and not codings:
        length = min(lengths[0], 2**64 - 1)
        if length > MOST_BODY:
            raise Failed(f"body-limit {length}")
        if len(given) - at < length:
            raise Failed("cut")
        body = given[at : at + length]
    elif codings == [b"chunked"] and not lengths:
        body = chunked_body(given[at:])
    else:
        raise Failed("no-length")
    wanted, digest = digest_in(fields), hashlib.sha256(body).digest()
    if wanted is None and need_digest:
        raise Failed("no-digest")
    if wanted not in (None, digest):
        raise Failed(f"digest {digest.hex()} {wanted.hex()}")
    return body
