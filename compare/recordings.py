"""Recordings whose texts are known: each a name, the lists of the command line, the input, the status and what is printed."""

import base64
import hashlib

LIST = "MALWARE/ANY_PLATFORM/URL"
OTHER = "MALWARE/LINUX/URL"


def text_of(data):
    return base64.b64encode(data).decode("ascii")


def raw(*members):
    return (
        '{"compressionType":"RAW","rawHashes":{"prefixSize":%d,"rawHashes":"%s"}}'
        % (len(members[0]), text_of(b"".join(members)))
    )


def rice(name, **fields):
    inside = ",".join(f'"{key}":"{value}"' if isinstance(value, str) else f'"{key}":{value}' for key, value in fields.items())
    return '{"compressionType":"RICE","%s":{%s}}' % (name, inside)


def places(*indices):
    return '{"compressionType":"RAW","rawIndices":{"indices":[%s]}}' % ",".join(map(str, indices))


def update(kind, state, digested, added=(), removed=(), base=None, name=LIST):
    """An update of a list, with the SHA-256 of these bytes as its checksum, or a checksum in base64."""
    checksum = digested if isinstance(digested, str) else text_of(hashlib.sha256(digested).digest())
    threat, platform, entry = name.split("/")
    fields = [
        '"additions":[%s]' % ",".join(added) if added else "",
        '"baseState":"%s"' % text_of(base) if base else "",
        '"checksum":{"sha256":"%s"}' % checksum,
        '"newClientState":"%s"' % text_of(state),
        '"platformType":"%s"' % platform,
        '"removals":[%s]' % ",".join(removed) if removed else "",
        '"responseType":"%s_UPDATE"' % kind,
        '"threatEntryType":"%s"' % entry,
        '"threatType":"%s"' % threat,
    ]
    return "{%s}" % ",".join(field for field in fields if field)


def body(*updates):
    return '{"listUpdateResponses":[%s]}' % ",".join(updates)


def recording(name, lines, status, printed, lists=(LIST,)):
    text = "".join(line + "\n" for line in lines).encode("ascii")
    return name, list(lists), text, status, "".join(line + "\n" for line in printed)


def told(number, rest):
    return f"{number} {LIST} {rest}"


def shown(count, token):
    return f"list {LIST} {count} {token}"


THREE = [bytes.fromhex(member) for member in ("00000001", "05000000", "09000000")]
SEVEN = bytes.fromhex("07000000")
FIRST_STATE = bytes.fromhex("0100000000000000010000000000000001010601")
SECOND_STATE = bytes.fromhex("0100000000000000010000000000000002010601")
BOTH = "73l8gRjwLftklgfdXT+MdiMEjJwGPVMsyVxe16iYpk8="
ONE = "A6xnQhbz4Vx2HuGl4lXwZ5U2I8iziLRFnhP5eNfIRvQ="
WRONG = "B6xnQhbz4Vx2HuGl4lXwZ5U2I8iziLRFnhP5eNfIRvQ="
COMPUTED = "03ac674216f3e15c761ee1a5e255f067953623c8b388b4459e13f978d7c846f4"
GIVEN = "07ac674216f3e15c761ee1a5e255f067953623c8b388b4459e13f978d7c846f4"

WHOLE = body(update("FULL", FIRST_STATE, BOTH, [raw(b"1234", b"5678")]))
STEP = body(update("PARTIAL", SECOND_STATE, ONE, removed=[places(1)]))
BASED = body(update("PARTIAL", SECOND_STATE, ONE, removed=[places(1)], base=FIRST_STATE))

RECORDINGS = [
    recording(
        "a full update without additions",
        [body(update("FULL", b"\x01", "47DEQpj8HBSa+/TImW+5JCeuQeRkm5NMpJWZG3hSuFU="))],
        0,
        [told(1, "installed 0"), shown(0, "01")],
    ),
    recording(
        "a Rice record, whose numbers rise in another order than its bytes",
        [
            body(
                update(
                    "FULL",
                    b"\x01",
                    THREE[0] + THREE[1],
                    [rice("riceHashes", firstValue="5", riceParameter=23, numEntries=1, encodedData="7f//AQ==")],
                )
            )
        ],
        0,
        [told(1, "installed 2"), shown(2, "01"), "00000001", "05000000"],
    ),
    recording(
        "removals by their places, before additions",
        [
            body(update("FULL", b"\x01", b"".join(THREE), [raw(*THREE)])),
            body(update("PARTIAL", b"\x02", THREE[1] + SEVEN, [raw(SEVEN)], [places(2, 0)])),
        ],
        0,
        [told(1, "installed 3"), told(2, "installed 2"), shown(2, "02"), "05000000", "07000000"],
    ),
    recording(
        "a place past the members",
        [
            body(update("FULL", b"\x01", b"".join(THREE), [raw(*THREE)])),
            body(update("PARTIAL", b"\x02", b"".join(THREE), removed=[places(3)])),
        ],
        5,
        [told(1, "installed 3"), told(2, "refused index-range 3 3"), shown(3, "01"), "00000001", "05000000", "09000000"],
    ),
    recording(
        "a wrong checksum, and the same update with the right one",
        [body(update("FULL", b"\x01", WRONG, [raw(b"1234")])), body(update("FULL", b"\x01", ONE, [raw(b"1234")]))],
        5,
        [told(1, f"refused checksum {COMPUTED} {GIVEN}"), told(2, "installed 1"), shown(1, "01"), "31323334"],
    ),
    recording(
        "a partial update that comes twice, and an older full one",
        [WHOLE, STEP, STEP, WHOLE],
        5,
        [
            told(1, "installed 2"),
            told(2, "installed 1"),
            told(3, "refused index-range 1 1"),
            told(4, "installed 2"),
            shown(2, FIRST_STATE.hex()),
            "31323334",
            "35363738",
        ],
    ),
    recording(
        "the same with base states",
        [WHOLE, BASED, BASED, WHOLE],
        5,
        [
            told(1, "installed 2"),
            told(2, "installed 1"),
            told(3, f"refused stale-base {SECOND_STATE.hex()} {FIRST_STATE.hex()}"),
            told(4, "installed 2"),
            shown(2, FIRST_STATE.hex()),
            "31323334",
            "35363738",
        ],
    ),
    recording(
        "prefixes of two sizes",
        [body(update("FULL", b"\x01", b"aaaabbbbcccc", [raw(b"cccc"), raw(b"aaaabbbb")]))],
        0,
        [told(1, "installed 2"), shown(2, "01"), "6161616162626262", "63636363"],
    ),
    recording(
        "two lists in one body, and one that is not kept",
        [
            body(
                update("FULL", b"\x01", b"1234", [raw(b"1234")]),
                update("FULL", b"\x02", b"5678", [raw(b"5678")], name=OTHER),
                update("FULL", b"\x03", b"9abc", [raw(b"9abc")], name="MALWARE/IOS/URL"),
            )
        ],
        0,
        [
            told(1, "installed 1"),
            f"1 {OTHER} installed 1",
            "1 MALWARE/IOS/URL not-kept",
            f"list {OTHER} 1 02",
            "35363738",
            shown(1, "01"),
            "31323334",
        ],
        (LIST, OTHER),
    ),
    recording(
        "more prefixes than a list may have",
        [body(update("FULL", b"\x01", b"", [raw(*[number.to_bytes(4, "big") for number in range(1_048_577)])]))],
        5,
        [told(1, "refused too-many 1048577"), shown(0, "-")],
    ),
    recording(
        "more bytes of prefixes than a list may have",
        [body(update("FULL", b"\x01", b"", [raw(*[number.to_bytes(32, "big") for number in range(262_145)])]))],
        5,
        [told(1, "refused too-large 8388640"), shown(0, "-")],
    ),
]
