"""The fields of a replay script: a tag, a length of two bytes, a body; numbers high byte first."""

NONE, SEQUENCED, ORDERED = 0, 1, 2
UNRELIABLE, RELIABLE = 0, 1
DEFAULT_STREAM = 255


def u8(number):
    return bytes([number])


def u16(number):
    return (number % 65536).to_bytes(2, "big")


def u32(number):
    return number.to_bytes(4, "big")


def stream(id):
    """`stream:2`; None is laminar's default."""
    return b"\0\0" if id is None else b"\1" + u8(id)


def item(number):
    """`item:3`; None is no item identifier."""
    return b"\0\0\0" if number is None else b"\1" + u16(number)


def field(tag, *parts):
    body = b"".join(parts)
    return u8(tag) + u16(len(body)) + body


def read(script):
    """The fields of a script as (tag, body); a cut one ends it as (None, the bytes left)."""
    at = 0
    while at < len(script):
        end = at + 3 + int.from_bytes(script[at + 1:at + 3], "big")
        if at + 3 > len(script) or end > len(script):
            yield None, script[at:]
            return
        yield script[at], script[at + 3:end]
        at = end
