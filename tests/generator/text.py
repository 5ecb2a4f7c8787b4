"""A script as text: a field in each line, its tag and body in hex, after `#` what it says. The length
is left out of the text, and blanks and what follows a `#` mean nothing, so it is easily edited. A last
word x257 stands for as many fields alike."""

from .fields import field, read

BODIES = {
    0x10: ("buffer new", "slots:2"), 0x11: ("insert", "n:2"), 0x12: ("exists", "n:2"),
    0x13: ("remove", "n:2"), 0x14: ("entries", ""), 0x18: ("greater", "a:2 b:2"),
    0x19: ("less", "a:2 b:2"),
    0x20: ("ack new", ""), 0x21: ("ack incoming", "seq:2 ack:2 field:4"),
    0x22: ("ack outgoing", "ordering:1 stream:2 item:3 payload"), 0x23: ("ack dropped", ""),
    0x24: ("ack state", ""), 0x25: ("ack cycle", "count:2 seq:2"),
    0x40: ("fragments new", "F:2 C:2"), 0x41: ("fragment", "number:2 id:1 count:1 payload"),
    0x44: ("split", "F:2 M:1 length:4"),
    0x50: ("ordered stream new", ""), 0x51: ("arrange and take", "index:2 payload"),
    0x52: ("arrange", "index:2 payload"), 0x53: ("take", ""), 0x54: ("next ordered item", ""),
    0x55: ("feed", "first:2 count:2"), 0x58: ("sequencing stream new", ""),
    0x59: ("sequence", "index:2"), 0x5A: ("next sequenced item", ""),
    0x70: ("new", "F:2 C:2 M:1"), 0x71: ("receive", "datagram"),
    0x72: ("send", "delivery:1 ordering:1 stream:2 payload"), 0x74: ("dropped", ""),
    0x75: ("heartbeat", ""), 0x76: ("cycle", "count:2 ordering:1 stream:2 seq:2"),
    0x77: ("feed", "count:2 seq:2 ack:2 field:4 index:2 stream:1"), 0x78: ("line", "place:4"),
    0x79: ("resend", ""), 0x7A: ("state", ""),
}
STANDARD, ACK, ARRANGING = "version:2 type:1 delivery:1 ordering:1", "seq:2 ack:2 field:4", "index:2 stream:1"
FRAGMENT = "number:2 id:1 count:1"
HEADERS = {
    (0, 0, 1): [ARRANGING], (0, 1, 0): [ACK], (0, 1, 1): [ACK, ARRANGING], (0, 1, 2): [ACK, ARRANGING],
    (1, 1, 0): [FRAGMENT],
}
BYTES = ["payload", "body", "left over"]
WORDS = {"delivery": ["unreliable", "reliable"], "ordering": ["none", "sequenced", "ordered"],
         "type": ["packet", "fragment", "heartbeat"]}


def from_text(text):
    """The bytes of a script."""
    rows = (line.split("#")[0].split() for line in text.splitlines())
    return b"".join(from_words(row) for row in rows if row)


def from_words(row):
    times = int(row.pop()[1:]) if row[-1].startswith("x") else 1
    return field(int(row[0], 16), bytes.fromhex("".join(row[1:]))) * times


def to_text(script):
    return "".join(line(tag, body) + "\n" for tag, body in read(script))


def line(tag, body):
    if tag is None:
        return f"# cut: {body.hex()}"
    if tag == 0x00:
        return f"00 {body.hex()}  # {body.decode('latin-1')}"
    end = f"end{tag // 16 - 7} " if tag >= 0x70 else ""
    same_tag = tag - 0x10 if 0x80 <= tag <= 0x8A else tag
    name, shape = BODIES.get(same_tag, ("unknown tag", "body"))
    if shape == "datagram":
        shape = datagram_shape(body)
    elif tag == 0x41 and body[2:3] == b"\0":
        shape = f"{FRAGMENT} {ACK} payload"
    parts = [(word, part) for word, part in split(body, shape) if part]
    row = " ".join([f"{tag:02x}", *(part.hex() for _, part in parts)])
    known = (f", {word} {said(word, part)}" for word, part in parts if word not in BYTES)
    return f"{row}  # {end}{name}" + "".join(known)


def datagram_shape(datagram):
    headers = HEADERS.get(tuple(datagram[2:5]), [])
    if headers == [FRAGMENT] and datagram[7:8] == b"\0":
        headers = [FRAGMENT, ACK]
    return " ".join([STANDARD, *headers, "payload"])


def split(body, shape):
    """The named parts of a body; one without a size is the rest."""
    for part in shape.split():
        word, _, size = part.partition(":")
        size = int(size or len(body))
        yield word, body[:size]
        body = body[size:]
    if body:
        yield "left over", body


def said(word, part):
    if word in ("stream", "item") and len(part) > 1:
        return str(int.from_bytes(part[1:], "big")) if part[0] else "-"
    number = int.from_bytes(part, "big")
    if word == "field":
        return f"0x{number:08X}"
    return WORDS[word][number] if number < len(WORDS.get(word, [])) else str(number)
