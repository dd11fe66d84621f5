"""A plain receiver, worked out from document 01 and not from the program: what the questions of
receiving.py and the lines of relay.py must be answered.

It fills a chunk by elimination from the roots of the code (chunks.py, held against a peer's
parity), lays the block of the packet anew with the sender's parity (fragments.py, held against the
same peer) and compares every kept byte.
"""
import dataclasses
import itertools

import chunks
import fragments
import packets
import plans

TABLE, OUT = 49152, 8192  # the lengths of document 01
PLACE = 12288  # bytes of a place
PLACES = 4
MOST_FRAGMENTS = 256
PARITY, MOST_DATA = 48, 207  # parity bytes behind each chunk, data bytes of the longest

# ---- a fragment and its header (document 01, "PFT layer")


@dataclasses.dataclass(frozen=True)
class Fragment:
    sync: bytes
    pseq: int
    index: int
    count: int
    fec: bool
    size: int  # Plen
    k: int
    z: int
    address: bytes
    payload: bytes

    def datagram(self):
        head = self.sync + self.pseq.to_bytes(2, "big") + self.index.to_bytes(3, "big") + self.count.to_bytes(3, "big")
        head += (self.fec << 15 | (self.address != b"") << 14 | self.size).to_bytes(2, "big")
        head += (bytes([self.k, self.z]) if self.fec else b"") + self.address
        return head + packets.crc(head) + self.payload


def header_length(datagram):
    return plans.header(datagram[10] >> 7 == 1, datagram[10] >> 6 & 1 == 1)


def parsed(datagram):
    def number(start, end):
        return int.from_bytes(datagram[start:end], "big")

    flags, h = number(10, 12), header_length(datagram)
    fec, addressed = flags >> 15 == 1, flags >> 14 & 1 == 1
    k, z = datagram[12:14] if fec else (0, 0)
    return Fragment(datagram[:2], number(2, 4), number(4, 7), number(7, 10), fec, flags & 0x3FFF, k, z, datagram[h - 6:h - 2] if addressed else b"", datagram[h:])


# ---- the receiver

def header_fault(datagram, pair):
    """The first of 2 to 8 that is at fault, or 0. The pair is empty where none is configured."""
    if len(datagram) < 14 or len(datagram) < header_length(datagram):
        return 2
    it, h = parsed(datagram), header_length(datagram)
    total = it.count * it.size
    faults = ((3, it.sync != b"PF"), (4, datagram[h - 2:h] != packets.crc(datagram[:h - 2])), (5, it.size == 0 or it.size != len(it.payload)),
              (6, it.address != b"" and it.address != pair), (7, not 1 <= it.count <= MOST_FRAGMENTS or it.index >= it.count),
              (8, total > PLACE or it.fec and (not 1 <= it.k <= MOST_DATA or it.z >= it.k or total < it.k + PARITY)))
    return next((number for number, wrong in faults if wrong), 0)


def filled(k, chunk):
    """The data of the one chunk whose values at the first roots are zero, as many roots as bytes are missing (None) of it."""
    missing = [place for place, byte in enumerate(chunk) if byte is None]
    whole = bytearray(byte or 0 for byte in chunk)
    rows = list(itertools.islice(chunks.conditions(k, missing, bytes(whole)), len(missing)))
    for place, byte in zip(missing, chunks.eliminated(rows)):
        whole[place] = byte
    return bytes(whole[:k])


class Place:
    """A number with the fragments that were kept of it. The first of them tells Fcount, FEC bit, RSk and RSz."""

    def __init__(self, first, opened):
        self.number, self.condition, self.opened = first.pseq, "open", opened
        self.cut = (first.count, first.fec, first.k, first.z)
        self.kept = {}

    def s(self):
        """The size of all fragments but the last, of one that is kept: None where it is unknown. With FEC the last has it too."""
        count, fec, _, _ = self.cut
        return next((len(payload) for index, payload in self.kept.items() if fec or index < count - 1), None)

    def cannot_belong(self, it):
        s, last = self.s(), self.kept.get(it.count - 1)
        if it.fec:
            return it.size != s
        if it.index == it.count - 1:
            return s is not None and it.size > s
        return s is not None and it.size != s or last is not None and it.size < len(last)

    def fault(self, it):
        """The first of 9 to 12 that a fragment of this number is refused with, or 0."""
        faults = ((9, self.cut != (it.count, it.fec, it.k, it.z) or self.cannot_belong(it)), (10, self.condition == "spoiled"),
                  (11, self.condition == "delivered"), (12, it.index in self.kept))
        return next((number for number, wrong in faults if wrong), 0)

    def chunks(self):
        """The cells of each chunk: the bytes that are kept, and None for the others."""
        f, _, k, _ = self.cut
        n = k + PARITY
        cells = [self.kept[q % f][q // f] if q % f in self.kept else None for q in range(f * self.s() // n * n)]
        return [cells[start:start + n] for start in range(0, len(cells), n)]

    def suffices(self):
        count, fec, _, _ = self.cut
        if not fec:
            return len(self.kept) == count
        return all(chunk.count(None) <= PARITY for chunk in self.chunks())

    def formed(self):
        """The packet that agrees, or None."""
        count, fec, k, z = self.cut
        packet = self.decoded(k, z) if fec else b"".join(self.kept[index] for index in range(count))
        return packet if packet is not None and packets.af_answer(packet).startswith("af") else None

    def decoded(self, k, z):
        data = b""
        for chunk in self.chunks():
            part = filled(k, chunk)
            if any(byte is not None and byte != other for byte, other in zip(chunk, part + fragments.parity(part))):
                return None
            data += part
        end = len(data) - z
        return None if any(data[end:]) else data[:end]


class Receiver:
    def __init__(self):
        self.empty()

    def empty(self):
        self.places = [None] * PLACES
        self.openings = 0

    def opened(self, it):
        """The place of a number that is not held, and the number that it displaces."""
        at = self.places.index(None) if None in self.places else min(range(PLACES), key=lambda i: self.places[i].opened)
        before = self.places[at]
        self.places[at] = Place(it, self.openings)
        self.openings += 1
        return self.places[at], before.number if before and before.condition == "open" else "none"

    def receive(self, pair, table, out, datagram):
        if table != TABLE or out < OUT:
            return "refused 1"
        fault = header_fault(datagram, pair)
        if fault:
            return f"refused {fault}"
        it, displaced = parsed(datagram), "none"
        place = next((place for place in self.places if place and place.number == it.pseq), None)
        fault = place.fault(it) if place else 0
        if fault:
            return f"refused {fault}"
        if not place:
            place, displaced = self.opened(it)
        place.kept[it.index] = it.payload
        if not place.suffices():
            return f"kept {displaced}"
        packet = place.formed()
        place.condition = "spoiled" if packet is None else "delivered"
        if packet is None:
            return f"refused 13 {displaced}"
        return f"delivered {len(packet)} {it.count - len(place.kept)} {displaced} {packet.hex()}"

    def answer(self, question):
        """The answer to a well-formed question."""
        name, *words = question.split(" ")
        if name == "recv":
            return self.receive(fragments.raw(words[0]), int(words[1]), int(words[2]), fragments.raw(words[3]))
        if name != "fresh" and int(words[0]) != TABLE:
            return "refused 1"
        if name == "query":
            return "places " + " ".join(f"{place.condition}:{place.number}" if place else "free" for place in self.places)
        self.empty()
        return "ok"
