"""The second program's list server at a door: it hears a request, answers it, and tells of each connection in a line.

It follows docs/FORMATS.md, "HTTP" and "The list server". Heads are read by the grammar of RFC 9112 in place of `httparse`, and no
answer is kept.
"""

import base64
import collections
import hashlib
import re

import exchanges
import protos
import server
from messages import Unreadable

MOST_BODY = 1_048_576
WITHOUT_BODIES = (b"GET", b"HEAD", b"OPTIONS")
REASONS = {
    400: "Bad Request",
    404: "Not Found",
    405: "Method Not Allowed",
    411: "Length Required",
    413: "Content Too Large",
    431: "Request Header Fields Too Large",
}

# of each path: the one method that is answered there, and the kind of request that comes by it
PATHS = {
    b"/v4/threatListUpdates:fetch": (b"POST", "fetch"),
    b"/v4/fullHashes:find": (b"POST", "find"),
    b"/v4/threatMatches:find": (b"POST", "lookup"),
    b"/v4/threatLists": (b"GET", "lists"),
}

TOKEN = rb"[!#$%&'*+.^_`|~0-9A-Za-z-]+"
REQUEST_LINE = re.compile(rb"(%s) ([!-~\x80-\xff]+) HTTP/1\.[01]" % TOKEN)
BEGUN_LINE = re.compile(rb"%s(?: (?:[!-~\x80-\xff]+(?: (?:H(?:T(?:T(?:P(?:/(?:1(?:\.[01]?)?)?)?)?)?)?)?)?)?)?" % TOKEN)
BEGUN_FIELD = exchanges.BEGUN_FIELD
ABSOLUTE = re.compile(rb"[A-Za-z][A-Za-z0-9+.\-]*://[^/?]*")

# the kinds of requests that are taken in Protocol Buffers too: what reads each
FORMS = ("fetch", "find")

JSON, PROTOBUF = "application/json", "application/x-protobuf"

Served = collections.namedtuple("Served", "printed status written")


class Refused(Exception):
    """A request is refused with the status that stands first. Behind it stand the cause in the line, and the type of the response."""


# ---- a request


def begins_well(line):
    """Whether a request line may begin so."""
    line = line.removesuffix(b"\r")
    return not line or BEGUN_LINE.fullmatch(line) is not None


def is_text(target):
    """Whether a target is UTF-8."""
    try:
        target.decode()
    except UnicodeDecodeError:
        return False
    return True


def head_of(given):
    """The request line's method and target, the fields, and the place where the body begins."""
    front = given[: exchanges.MOST_HEAD]
    text = front.lstrip(b"\r\n")
    end = re.search(rb"\r?\n\r?\n", text)
    lines = re.split(rb"\r?\n", text[: end.end()] if end else text)
    found = REQUEST_LINE.fullmatch(lines[0])
    if found is None and (len(lines) > 1 or not begins_well(lines[0])) or found is not None and not is_text(found[2]):
        raise Refused(400)
    try:
        fields = exchanges.fields_of(lines[1:-2] if end else lines[1:-1])
    except exchanges.Failed as fault:
        raise Refused(400) from fault
    if end is None:
        may_end = len(lines) == 1 or BEGUN_FIELD.fullmatch(lines[-1])
        raise Refused(431 if may_end and len(given) >= exchanges.MOST_HEAD else 400)
    lengths = [value for name, value in fields if name == b"content-length"]
    if len(fields) > exchanges.MOST_FIELDS or len(lengths) > 1 or any(re.fullmatch(rb"[0-9]+", one) is None for one in lengths):
        raise Refused(400)
    return found[1], found[2], fields, len(front) - len(text) + end.end()


def heard(given):
    """The method, the path and the body of the request that some bytes are, and its form."""
    method, target, fields, at = head_of(given)
    lengths = [int(value) for name, value in fields if name == b"content-length"]
    if any(name == b"transfer-encoding" for name, _ in fields) or not lengths and method not in WITHOUT_BODIES:
        raise Refused(411)
    length = lengths[0] if lengths else 0
    if length > MOST_BODY:
        raise Refused(413)
    if len(given) - at < length:
        raise Refused(400)
    absolute = ABSOLUTE.match(target)
    path = (target[absolute.end() :] if absolute else target).partition(b"?")[0]
    types = [value for name, value in fields if name == b"content-type"]
    form = protos.form_of(method, target, types[0] if len(types) == 1 else b"")
    return method, path, target, given[at : at + length], form


def answered_in_protobuf(journal, kind, message, times):
    """The body of the answer to a message in Protocol Buffers."""
    if message is None:
        raise Refused(400, protos.NO_MESSAGE, PROTOBUF)
    try:
        return protos.BODIES[kind](journal, message, times)
    except Unreadable as fault:
        raise Refused(400, fault, PROTOBUF) from fault


def answered(journal, given, times):
    """The body of the answer to the request that some bytes are, and its type."""
    method, path, target, body, form = heard(given)
    if path not in PATHS:
        raise Refused(404)
    wanted, kind = PATHS[path]
    if kind in FORMS and form == "query":
        message = protos.message_of(protos.first_of(protos.query_of(target), b"$req"))
        return answered_in_protobuf(journal, kind, message, times), PROTOBUF
    if method != wanted:
        raise Refused(405, wanted)
    if kind in FORMS and form == "protobuf":
        return answered_in_protobuf(journal, kind, body, times), PROTOBUF
    if kind == "lists":
        return server.written_body(server.lists_body(journal)), JSON
    try:
        return server.written_body(server.BODIES[kind](journal, body, times)), JSON
    except Unreadable as fault:
        raise Refused(400, fault) from fault


def refusal(status, allowed, kind=JSON):
    """The response with a status and without a body."""
    digest = base64.b64encode(hashlib.sha256(b"").digest()).decode("ascii")
    lines = [f"HTTP/1.1 {status} {REASONS[status]}", f"Content-Type: {kind}", "Content-Length: 0"]
    lines += [f"Content-Digest: sha-256=:{digest}:"]
    lines += [f"Allow: {allowed}"] if allowed else []
    return "\r\n".join([*lines, "Connection: close", "", ""]).encode("ascii")


def turn(journal, given, times):
    """The response to what came over a connection, and how its line ends."""
    try:
        return exchanges.response(*answered(journal, given, times)), "200"
    except Refused as fault:
        status, said, kind = (*fault.args, None, None)[:3]
        allowed = said.decode("ascii") if status == 405 else None
        return refusal(status, allowed, kind or JSON), f"{status} {said}" if status == 400 and said else str(status)


# ---- a run


def serve(plan, journal, turns):
    """What is printed, the status, and what is written to each connection that is taken. A turn is what the journal has gained, and what
    the connection gives."""
    printed, written, held = [], [], False
    try:
        good = server.read_journal(journal)
        for number, (gained, given) in enumerate(turns[: plan["connections"]], 1):
            journal += gained
            written.append(b"")
            if not held:
                try:
                    good = server.read_journal(journal)
                except server.BadJournal as fault:
                    if not plan["hold"]:
                        raise
                    held = True
                    printed.append(f"journal {fault}")
            response, ending = turn(good, given, plan["times"])
            written[-1] = response
            if not plan["quiet"]:
                printed.append(f"connection {number} answered {ending}")
    except server.BadJournal as fault:
        printed.append(f"journal {fault}")
        return Served("".join(line + "\n" for line in printed).encode("ascii"), 7, written)
    return Served("".join(line + "\n" for line in printed).encode("ascii"), 7 if held else 0, written)
