"""A session in which one end is laminar and the other the port, from one in which both are laminar: the
port is given its end's half, every datagram from the line as laminar's end sent it. Where it answers
with the same lines, the datagrams that laminar's end was given are the port's own to the letter."""

from generator.fields import DEFAULT_STREAM, ORDERED, field, read

LINE, SENDING = 8, (2, 5, 9)


def half(script, lines, end):
    """The script of one end, and the lines that laminar answered to it."""
    logs, fields, answers = [[], []], [], []
    for (tag, body), line in zip(read(script), lines):
        if tag < 0x70:
            continue
        which, low = tag // 16 - 7, tag % 16
        if low == LINE and which != end:
            place = int.from_bytes(body, "big")
            fields.append(field(0x71 + 0x10 * end, logs[which][place]))
            answers.append(f"end{end} receive {line.split(' ', 3)[3]}")
        elif low != LINE and which == end:
            fields.append(field(tag, body))
            answers.append(line)
        if low in SENDING:
            logs[which] += (bytes.fromhex(datagram) for datagram in said(line))
    return b"".join(fields), answers


def said(line):
    """The list in the line of a send or an arrival; empty where there is none."""
    words = line.split(" | ")[0].split(" ")[3 if line.startswith("line") else 2:]
    return [] if words[0] in ("-", "refused") else words


def items_sent(script, end):
    """The payloads of the ordered items that an end was given, by stream."""
    items = {}
    for tag, body in read(script):
        if tag == 0x72 + 0x10 * end and body[1] == ORDERED:
            stream = body[3] if body[2] else DEFAULT_STREAM
            items.setdefault(str(stream), []).append(body[4:].hex() or "-")
    return items


def items_handed_out(lines, end):
    """The payloads of the ordered items that came over the line to an end, by stream."""
    items = {}
    for line in lines:
        for packet in said(line) if line.startswith(f"line {1 - end}>{end}") else []:
            _, ordering, stream, payload = packet.split(",")
            if ordering == "ordered":
                items.setdefault(stream, []).append(payload)
    return items


def once_and_in_order(script, lines):
    """How many ordered items were sent and came out, all of them once and in order; None where not."""
    count = 0
    for end in (0, 1):
        sent = items_sent(script, end)
        if sent != items_handed_out(lines, 1 - end):
            return None
        count += sum(map(len, sent.values()))
    return count


def returns(lines):
    """Whether a stream's item after 65,535 was sent, as item 0 of the stream, to the other end."""
    last = {}
    for line in lines:
        for datagram in map(bytes.fromhex, said(line) if " send " in line else []):
            if datagram[2:5] != bytes([0, 1, ORDERED]):
                continue
            stream, item = (line[:4], datagram[15]), int.from_bytes(datagram[13:15], "big")
            if item == 0 and last.get(stream) == 65535:
                return True
            last[stream] = item
    return False
