"""What is tried behind a recorded run: its banners and frames, cut and broken, one by one."""

import struct

from answering import Way
from ciphers import crc
from runs import event_told, place_of, row_of


class Unit:
    """A banner or a frame that a node handles at a turn: its bytes, and where it is sealed the way on which it came, and its plain parts."""

    def __init__(self, event, came, start, kind, way=None, parts=()):
        self.event, self.came, self.start, self.kind, self.way, self.parts = event, came, start, kind, way, list(parts)
        self.bytes, self.lengths = b"", None

    def preamble(self):
        return self.bytes[:32] if self.kind == "plain" else self.parts[0][:32]

    def tag(self):
        return self.preamble()[0]

    def segment(self):
        """A plain frame has one segment, and its sum behind it."""
        return self.bytes[32:-4]

    def anew(self, parts):
        """A sealed frame of other parts in its place."""
        return self.way.copy().seal(parts)


def units_of(blocks):
    """What each node handles on each link, turn by turn, of what came to it in how many earlier pieces."""
    units, came, taken, turns = [], {}, {}, {}
    for event, (words, told) in enumerate(blocks):
        place, kind = (words[0], words[2]), words[1]
        if kind == "bytes":
            came[place] = (event, bytes.fromhex(words[3]))
            taken[place] = 0
        if kind == "turn":
            parts = [line.split() for line in told if line.startswith("opened connection")]
            at, piece = came[place]
            start = taken[place]
            if parts:
                contents = [bytes.fromhex(part[5]) for part in parts]
                unit = Unit(event, at, start, "sealed", Way(bytes.fromhex(parts[0][3]), contents[0][:12]), [c[12:] for c in contents])
                length = sum(len(part) + 16 for part in unit.parts)
            elif turns.get(place, 0) == 0:
                unit = Unit(event, at, start, "banner")
                length = 26
            else:
                unit = Unit(event, at, start, "plain")
                length = 36 + struct.unpack("<I", piece[start + 2 : start + 6])[0]
            turns[place] = turns.get(place, 0) + 1
            unit.bytes = piece[start : start + length]
            taken[place] = start + length
            if unit.kind == "plain":
                assert unit.bytes == plain(unit.preamble()[:28], unit.segment())
            if unit.kind == "sealed":
                assert unit.bytes == unit.anew(unit.parts)
            units.append(unit)
    return units


def plain(preamble, segment):
    """A plain frame of these first 28 bytes of a preamble and this segment, with the sums that are due."""
    return preamble + crc(0, preamble) + segment + crc(0xFFFFFFFF, segment)


def changed(data, place, new):
    return data[:place] + new + data[place + len(new) :]


def flipped(data, place):
    return changed(data, place, bytes([data[place] ^ 1]))


# In the payloads of a login that have blobs: the place of each blob's length, and the place of the field that can't be read where that is too large.
# Those of cephx stand in a blob, and places in them count from there: the place of that blob's bytes comes first.
LENGTHS = {
    2: [(0, 4, 4, "count"), (0, 16, 16, "blob"), (20, 5, 1, "name")],
    4: [(0, 0, 0, "blob")],
    5: [(0, 0, 0, "blob"), (4, 28, 19, "ticket blob")],
    6: [(0, 12, 12, "blob"), (16, 16, 16, "sealed record")],
}


def broken_banner(unit):
    yield "another text", flipped(unit.bytes, 6), "bad-banner"
    yield "a length that is too large", changed(unit.bytes, 8, struct.pack("<H", 257)), "bad-banner"
    yield "a feature that is required and unknown", changed(unit.bytes, 18, struct.pack("<Q", 5)), "features 4"


def broken_plain(unit):
    head, segment = unit.preamble()[:28], unit.segment()
    yield "a wrong sum of the preamble", flipped(unit.bytes, 28), "bad-crc"
    yield "a wrong sum of the segment", flipped(unit.bytes, len(unit.bytes) - 1), "bad-crc"
    yield "another byte of the segment", flipped(unit.bytes, 32), "bad-crc"
    yield "a length that is too large", plain(changed(head, 2, struct.pack("<I", 65537)), segment), "too-long"
    yield "a tag that there isn't", plain(changed(head, 0, b"\x15"), segment), "bad-shape"
    yield "a tag that isn't due", plain(changed(head, 0, b"\x14"), segment), "unexpected 20"
    for base, place, fault, field in LENGTHS.get(unit.tag(), []) if unit.lengths is None else unit.lengths:
        long = changed(segment, base + place, struct.pack("<I", 65536))
        yield f"a length of a {field} that is too large", plain(head, long), f"malformed {fault}"


def blob_at(segment, place):
    """The place of a blob's bytes, whose length stands at this place, and that behind it."""
    start = place + 4
    return start, start + struct.unpack("<I", segment[place:start])[0]


def sealed_parts_of(segment):
    """The sealed parts of an AUTH_DONE that a client opens, each from its first byte to its last: each ticket's info, and the secret."""
    place = 4 + 8 + 4 + 2 + 4 + 1
    count = struct.unpack("<I", segment[place : place + 4])[0]
    place += 4
    for _ in range(count):
        start, place = blob_at(segment, place + 4 + 1)
        yield "a ticket's info", start, place
        _, place = blob_at(segment, place + 1 + 8)
    start, end = blob_at(segment, place)
    assert end == len(segment)
    yield "the secret", start, end


def wrong_plain(unit):
    """Frames that are well formed, and wrong in what they hold; of those that are denied the code."""
    head, segment = unit.preamble()[:28], unit.segment()
    if head[0] == 2:
        yield "another method", plain(head, flipped(segment, 0)), "method", 95
        yield "modes without the secure one", plain(head, changed(segment, 8, bytes(4) * segment[4])), "mode", 95
        yield "another name", plain(head, changed(segment, 29, b"b")), "unknown-entity", 13
    if head[0] == 5:
        yield "another proof", plain(head, flipped(segment, 4 + 2 + 1 + 8)), "wrong-proof", 13
    if head[0] == 6:
        yield "another mode", plain(head, changed(segment, 8, b"\x01")), "mode", None
        for what, start, end in sealed_parts_of(segment):
            for place in (start, end - 1):
                yield f"another byte of {what}", plain(head, flipped(segment, place)), "unopened", None


def denial(head, code):
    payload = struct.pack("<6I", 2, 2**32 - code, 1, 2, 1, 2)
    return plain(changed(changed(head, 0, b"\x03"), 2, struct.pack("<I", len(payload))), payload)


def broken_sealed(unit):
    first, *others = unit.parts
    head = first[:28]

    def anew(changed_head):
        return unit.anew([changed_head + crc(0, changed_head) + first[32:], *others])

    ends = [sum(len(part) + 16 for part in unit.parts[: i + 1]) for i in range(len(unit.parts))]
    for i, end in enumerate(ends):
        yield f"a wrong tag of part {i + 1}", flipped(unit.bytes, end - 1), "bad-tag"
    yield "another byte", flipped(unit.bytes, 0), "bad-tag"
    yield "a wrong sum of the preamble", unit.anew([flipped(first, 28), *others]), "bad-crc"
    yield "a length that is too large", anew(changed(head, 2, struct.pack("<I", 1048577))), "too-long"
    yield "a tag that there isn't", anew(changed(head, 0, b"\x15")), "bad-shape"
    yield "a tag that isn't due", anew(changed(head, 0, b"\x14")), "unexpected 20"
    if head[0] == 7:
        yield "another signature", unit.anew([flipped(first, 32), *others]), "signature-wrong"
    if head[1] > 1:
        yield from broken_segments(unit)


def broken_segments(unit):
    """Of a frame with more than one segment, of which the first and the last are filled with zeros."""
    first, last = unit.parts[0], unit.parts[-1]
    late = len(last) - 16
    yield "a fill of the first segment that isn't zero", unit.anew([flipped(first, 79), *unit.parts[1:]]), "bad-shape"
    for what, place, new, reason in (
        ("a fill of the last segment that isn't zero", late - 1, b"\x01", "bad-shape"),
        ("a late status that says aborted", late, b"\x01", "aborted"),
        ("a late status that there isn't", late, b"\x02", "bad-shape"),
        ("a byte behind the late status that isn't zero", len(last) - 1, b"\x01", "bad-shape"),
    ):
        yield what, unit.anew([*unit.parts[:-1], changed(last, place, new)]), reason


BROKEN = {"banner": broken_banner, "plain": broken_plain, "sealed": broken_sealed}


def title(unit, blocks):
    tag = "banner" if unit.kind == "banner" else f"frame {unit.tag()}"
    return f"{tag} at {blocks[unit.event][0][0]}"


def tried_login(run):
    """What is tried behind a recorded login: rows, each with what has to be printed for it."""
    blocks = run.blocks[: next(i for i, (words, _) in enumerate(run.blocks) if words[1] == "submit" and i > 0)]
    units = units_of(blocks)
    yield from byte_by_byte(run, blocks, units)
    for unit in units:
        yield from tried_unit(run, blocks, unit, is_open=False)


def tried_requests(run):
    """Behind a recorded run with requests: each message, and what comes behind the first, byte by byte; the first request of either kind and
    the first reply, cut and broken."""
    units = units_of(run.blocks)
    messages = [unit for unit in units if unit.kind == "sealed" and unit.tag() == 17]
    yield from byte_by_byte(run, run.blocks, [unit for unit in units if unit.came >= messages[0].came])
    for place in ("mon", "1"), ("mon", "2"), ("client.a", "2"):
        unit = next(unit for unit in messages if (run.blocks[unit.event][0][0], run.blocks[unit.event][0][2]) == place)
        yield from tried_unit(run, run.blocks, unit, is_open=True)


def tried_unit(run, blocks, unit, is_open, wrong=wrong_plain, connects=("client.a",)):
    words = blocks[unit.event][0]
    node, link = words[0], words[2]
    so_far = run.entered(unit.event)
    half = unit.bytes[: len(unit.bytes) // 2]
    lost = [f"refused {node} {link} lost"] if node in connects and not is_open else []
    yield from again(unit, blocks, run, "its first half, and then the link is gone", half)
    yield row_of(words), [f"{node} turn {link}"]
    yield f"at {node} 1000 0 gone {link}", [f"{node} gone {link}"] + ["  entries 1"] * len(lost)
    yield "journal", so_far + lost
    for what, new, reason in BROKEN[unit.kind](unit):
        yield from again(unit, blocks, run, what, new)
        yield row_of(words), [f"{node} turn {link}", "  entries 1", f"  shut {link}"]
        yield "journal", so_far + [f"refused {node} {link} {reason}"]
    for what, new, reason, code in wrong(unit) if unit.kind == "plain" and wrong else ():
        yield from again(unit, blocks, run, what, new)
        sent = [f"  send {link} {denial(unit.preamble()[:28], code).hex()}"] if code else []
        yield row_of(words), [f"{node} turn {link}", "  entries 1", *sent, f"  shut {link}"]
        yield "journal", so_far + [f"refused {node} {link} {reason}"]


def again(unit, blocks, run, what, new):
    """The run once more, up to the piece that has this unit, of which another one comes in its place."""
    words = blocks[unit.came][0]
    piece = bytes.fromhex(words[3])[: unit.start] + new
    yield (row := f"again {len(run.heads) + unit.came} {title(unit, blocks)}: {what}"), [row]
    yield row_of(words, piece.hex()), [f"{words[0]} bytes {words[2]}"]
    for words, told in blocks[unit.came + 1 : unit.event]:
        yield row_of(words), event_told(words, told)


def byte_by_byte(run, blocks, units):
    """Each unit comes byte by byte, with a turn behind each: at each length but its own nothing is handled."""
    first = min(unit.came for unit in units)
    yield (row := f"again {len(run.heads) + first} each byte comes alone"), [row]
    for event, (words, told) in enumerate(blocks[first:], first):
        if words[1] == "bytes":
            continue
        mine = [unit for unit in units if unit.event == event]
        if not mine:
            yield row_of(words), event_told(words, told)
        for unit in mine:
            node, link, _, reading, draw = words[0], words[2], *place_of(words)
            shown = event_told(words, told)[1:]
            at = [f"  at {len(unit.bytes)}"] if shown else []
            yield f"drip {node} {reading} {draw} bytes {link} {unit.bytes.hex()}", [f"{node} bytes {link}", *at, *shown]
    yield "journal", run.entered(len(blocks))
