"""What the questions on the receiver are made of: a run of questions, each with the answer that is
written at it, and the fragments that they bring.

The fragments are those of the sender in fragments.py; what no sender makes is made of them by
changing a field, or by a cut that is written out.
"""
import dataclasses
import functools
import itertools

import chunks
import fragments
from receiver import OUT, PARITY, PLACES, TABLE, Place, Receiver, filled, parsed

MOST_TABLE, MOST_OUT = 65536, 32768  # the longest buffers that a question can name for the table and for the packet
MOST_DATAGRAM = 32768  # bytes of the longest datagram of a question
NONE, PAIR = "-", "00010002"


def recv(datagram, pair=NONE, table=TABLE, out=OUT):
    return f"recv {pair} {table} {out} {datagram.hex() or '-'}"


class Run:
    """The questions of one group, each with the answer that is written at it: its receiver has to give the same."""

    def __init__(self):
        self.receiver = Receiver()

    def asked(self, answer, *questions):
        for question in questions:
            computed = self.receiver.answer(question)
            assert computed == answer, (question, answer, computed)
            yield question, answer

    def kept(self, *datagrams, displaced="none", **lent):
        return self.asked(f"kept {displaced}", *(recv(datagram, **lent) for datagram in datagrams))

    def delivered(self, packet, missing, datagram, displaced="none", **lent):
        return self.asked(f"delivered {len(packet)} {missing} {displaced} {packet.hex()}", recv(datagram, **lent))

    def damaged(self, datagram, displaced="none", **lent):
        return self.asked(f"refused 13 {displaced}", recv(datagram, **lent))

    def refused(self, number, *datagrams, **lent):
        return self.asked(f"refused {number}", *(recv(datagram, **lent) for datagram in datagrams))

    def places(self, *conditions):
        return self.asked(" ".join(["places", *conditions] + ["free"] * (PLACES - len(conditions))), f"query {TABLE}")

    def fresh(self):
        return self.asked("ok", "fresh")

    def clear(self):
        return self.asked("ok", f"clear {TABLE}")


packet = functools.cache(fragments.packet)


def cut(data, number, fec=1, m=2, mtu=1400, address=NONE):
    """All fragments of a packet, by the sender of fragments.py."""
    whole = fragments.sent(fec == 1, m, mtu, fragments.raw(address), number, data)
    assert all(parsed(fragment).datagram() == fragment for fragment in whole)
    return whole


def cut_as(data, number, f, s, c=0, k=0, z=0, zeros=None):
    """The fragments of any bytes, cut as it is said; c 0 is without FEC. What stands in place of the z zeros can be said too."""
    figures = dict(c=c, k=k, z=z, f=f, s=s)
    payloads = fragments.payloads(figures, data) if zeros is None else fragments.payloads(dict(figures, z=0), data + zeros)
    return [fragments.header(figures, b"", number, index, len(payload)) + payload for index, payload in enumerate(payloads)]


def altered(datagram, **fields):
    """A fragment with other fields and a right HCRC; Plen goes with the payload, unless it is said too."""
    if "payload" in fields:
        fields.setdefault("size", len(fields["payload"]))
    return dataclasses.replace(parsed(datagram), **fields).datagram()


def flipped(datagram, *offsets):
    """A fragment with some bytes of its payload changed."""
    payload = bytearray(parsed(datagram).payload)
    for offset in offsets:
        payload[offset] ^= 1 + offset % 255
    return altered(datagram, payload=bytes(payload))


def sized(datagram, size):
    """A fragment with a payload of another size."""
    return altered(datagram, payload=(parsed(datagram).payload * size)[:size])


def some(whole, *indices):
    return [whole[index] for index in indices]


def opening(number):
    """The first of two fragments without FEC."""
    return cut(packet(20), number, fec=0, m=0, mtu=24)[0]


def single(number, fec=0, wrong=()):
    """The only fragment of a packet of 12 bytes, some of its bytes wrong."""
    return flipped(cut(packet(12), number, fec=fec, m=0)[0], *wrong)


def misses(whole, lost):
    """What each chunk misses of a packet's fragments."""
    place = Place(parsed(whole[0]), 0)
    place.kept = {index: parsed(fragment).payload for index, fragment in enumerate(whole) if index not in lost}
    return [chunk.count(None) for chunk in place.chunks()]


def held():
    """The decoder, held against the peer's parity, and what suffices against document 01: l 415, m 2, any three lost and no four."""
    for k in (1, 20, 100, 207):
        whole = chunks.chunk(k)
        for count in (0, 1, 24, 47, 48):
            missing = chunks.spread(k + PARITY, count, k)
            assert filled(k, [None if place in missing else byte for place, byte in enumerate(whole)]) == whole[:k], (k, count)
    whole = cut(packet(415), 1)
    assert all(max(misses(whole, lost)) <= 48 for lost in itertools.combinations(range(12), 3))
    assert all(max(misses(whole, lost)) > 48 for lost in itertools.combinations(range(12), 4))
