"""Texts about the limits of how many lists and objects a message may open, and how many values it may have."""

from messages import too_dense

# What comes first, what is repeated, and what ends the text. The fields are read, or passed over.
SHAPES = [
    (b"", b"[", b""),
    (b"", b"{", b""),
    (b"", b'{"a":', b""),
    (b"[0", b",0", b"]"),
    (b'["\\"[["', b',""', b"]"),
    (b'{"x":[{}', b",{}", b"]}"),
    (b'{"threatInfo":{},"x":["[[["', b',[""]', b"]}"),
    (b'{"threatInfo":{},"":0', b',"":0', b"}"),
    (b'{"threatInfo":{},"listUpdateResponses":[{}', b",{}", b"]}"),
    (b'{"threatInfo":{},"listUpdateRequests":[{}', b", { } ", b"]}"),
    (b'{"threatInfo":{"threatEntries":[0', b",0", b"]}}"),
    (b'{"threatInfo":{"threatEntries":[{"hash":"AAAA"}', b',{"hash":"AAAA"}', b"]}}"),
]  # fmt: skip

EDGES = {}


def edge(shape):
    """How often the middle of a shape can be repeated until the text is too dense."""
    if shape not in EDGES:
        front, piece, end = shape
        low, high = 0, 200_000
        while low < high:
            middle = (low + high) // 2
            if too_dense(front + piece * middle + end) is None:
                low = middle + 1
            else:
                high = middle
        EDGES[shape] = low
    return EDGES[shape]


def any_text(rand):
    shape = rand.choice(SHAPES)
    front, piece, end = shape
    text = front + piece * (edge(shape) + rand.choice([-2, -1, -1, 0, 0, 1, 40])) + end
    blanks = b" " * rand.choice([0, 0, 1, 5, 47, 48, 49])
    return rand.choice([text + blanks, blanks + text, b"\xff" + text, text[:-1]])
