"""Questions on fragments of AF packets with the answers that they must get, each group under the
sentence of document 01 that gives it.

    python3 tests/fragments.py      prints each question and its answer

The fragments are worked out by a plain sender of its own below, from document 01. Its parity is
first held against every row of parity.txt (made by a peer, libfec), its cuts against the figures of
"On each side of the edge". The number of each refusal is written out by hand, and the sender has to
give the same.
"""
import functools
import itertools

import chunks
import fields
import packets
import plans
import usage

PARITY = 48  # parity bytes behind each chunk
MOST_DATA = 207  # data bytes of the longest chunk
MOST_ROOM = 32768  # the longest lent buffer that a question can name
NONE, PAIR = "-", "00010002"
SHAPES = [(fec, address, plans.header(fec == 1, address != NONE)) for fec in (0, 1) for address in (NONE, PAIR)]

# ---- a sender of its own

times = functools.cache(fields.times)


@functools.cache
def generator():
    """The coefficients, highest first, of the product of x + α^i for the roots α^1 to α^48."""
    product = [1]
    for root in map(fields.power, range(1, PARITY + 1)):
        product = [a ^ times(root, b) for a, b in zip(product + [0], [0] + product)]
    return product


@functools.cache
def parity(data):
    """The remainder of the data by the generator: data from x^254 downward, then zeros down to x^48, then those of the parity."""
    left = list(data) + [0] * (MOST_DATA - len(data) + PARITY)
    for at in range(MOST_DATA):
        factor = left[at]
        for offset, coefficient in enumerate(generator()):
            left[at + offset] ^= times(factor, coefficient)
    return bytes(left[MOST_DATA:])


def payloads(figures, packet):
    c, k, z, f, s = (figures[name] for name in "ckzfs")
    if not c:
        return [packet[i * s:(i + 1) * s] for i in range(f)]
    data = packet + bytes(z)
    block = b"".join(data[j * k:(j + 1) * k] + parity(data[j * k:(j + 1) * k]) for j in range(c))
    cells = [bytearray(s) for _ in range(f)]
    for q, byte in enumerate(block):
        cells[q % f][q // f] = byte
    return [bytes(fragment) for fragment in cells]


def header(figures, address, pseq, index, size):
    flags = (figures["c"] > 0) << 15 | (address != b"") << 14 | size
    head = b"PF" + pseq.to_bytes(2, "big") + index.to_bytes(3, "big") + figures["f"].to_bytes(3, "big") + flags.to_bytes(2, "big")
    head += bytes([figures["k"], figures["z"]]) if figures["c"] else b""
    head += address
    return head + packets.crc(head)


def sent(fec, m, mtu, address, pseq, packet, rule=None):
    """All fragments of a packet, or its refusal: 40, then the AF checks, then 41."""
    cut = plans.plan(fec, m, mtu, address != b"", len(packet), rule)
    checked = packets.af_answer(packet)
    for refusal in (cut if cut == "refused 40" else "", checked, cut):
        if refusal.startswith("refused"):
            return refusal
    figures = {name: int(figure) for name, figure in (word.split("=") for word in cut.split()[1:])}
    return [header(figures, address, pseq, i, len(payload)) + payload for i, payload in enumerate(payloads(figures, packet))]


def raw(word):
    return b"" if word == "-" else bytes.fromhex(word)


def computed(question):
    """The answer to a well-formed question: what `sent` refuses, then 42, then ROOM."""
    words = question.split(" ")
    rule = words.pop() if words[-1] in ("old", "new") else None
    name, fec, m, mtu, address, pseq, *index, room, packet = words
    whole = sent(int(fec) == 1, int(m), int(mtu), raw(address), int(pseq), raw(packet), rule)
    if isinstance(whole, str):
        return whole
    if name == "fragment":
        if int(index[0]) >= len(whole):
            return "refused 42"
        whole = [whole[int(index[0])]]
    written = b"".join(whole)
    return "refused 1" if int(room) < len(written) else f"{name} {written.hex()}"


# ---- questions

def packet(l, **wrong):
    """An AF packet of l bytes, of a payload that is the same in each run and differs with l; right but for what is asked to be wrong."""
    payload = bytes(number % 256 for number in itertools.islice(packets.draw(l), l - 12))
    return packets.af(payload, seq=l, **wrong)


def one(index, data, fec=1, m=2, mtu=1400, address=NONE, pseq=258, room=MOST_ROOM, rule=""):
    return f"fragment {fec} {m} {mtu} {address} {pseq} {index} {room} {data.hex() or '-'} {rule}".rstrip()


def every(data, fec=1, m=2, mtu=1400, address=NONE, pseq=258, room=MOST_ROOM, rule=""):
    return f"fragments {fec} {m} {mtu} {address} {pseq} {room} {data.hex() or '-'} {rule}".rstrip()


def answered(question):
    answer = computed(question)
    assert answer.split()[0] == question.split()[0], (question, answer)
    return question, answer


def refused(number, question):
    assert computed(question) == f"refused {number}", (number, question, computed(question))
    return question, f"refused {number}"


def cut_into(f, s, question):
    """A question on all fragments that has to be answered with f of them, all but the last with s bytes of payload."""
    _, fec, m, mtu, address, pseq, _, data, *rule = question.split(" ")
    whole = sent(fec == "1", int(m), int(mtu), raw(address), int(pseq), raw(data), *rule)
    head = plans.header(fec == "1", address != NONE)
    assert len(whole) == f and all(len(fragment) == head + s for fragment in whole[:-1]), question
    return answered(question)


def held():
    """The sender's parity, held against the peer's."""
    for data, known in chunks.ROWS:
        assert parity(data) == known, data.hex()


def coded_questions():
    held()
    for l, m, f, s in ((12, 2, 4, 15), (12, 5, 8, 8), (12, 0, 1, 60), (207, 2, 16, 16), (207, 5, 32, 8), (207, 0, 1, 255), (208, 2, 10, 31), (208, 5, 19, 16),
                       (208, 0, 1, 304), (414, 2, 16, 32), (414, 5, 32, 16), (414, 0, 1, 510), (415, 2, 12, 47), (415, 5, 24, 24), (415, 0, 1, 561)):
        data = packet(l)
        yield cut_into(f, s, every(data, m=m))
        for index in sorted({0, f // 2, f - 1}):
            yield answered(one(index, data, m=m))
    data = packet(8192)
    yield cut_into(16, 633, every(data))
    yield answered(one(15, data))
    yield cut_into(32, 317, every(data, m=5))
    yield answered(one(7, data, m=0))


def zeros_questions():
    # 3 zero cells, the last of fragments 9, 10 and 11 (which is asked above)
    for index in (8, 9, 10):
        yield answered(one(index, packet(415)))
    # z is 1, 0, 1 and 3: zeros behind the packet are coded and sent like its bytes
    for l in (416, 417, 1037, 1243):
        yield answered(every(packet(l), m=3))


def plain_questions():
    yield cut_into(1, 1386, every(packet(1386), fec=0, m=0))
    yield cut_into(2, 694, every(packet(1387), fec=0, m=0))
    for l, indices in ((1386, (0,)), (1387, (0, 1))):
        for index in indices:
            yield answered(one(index, packet(l), fec=0, m=0))
    for l, mtu, f, s in ((12, 15, 12, 1), (12, 25, 2, 6), (12, 26, 1, 12), (13, 26, 2, 7), (100, 47, 4, 25), (100, 48, 3, 34), (207, 74, 4, 52)):
        yield cut_into(f, s, every(packet(l), fec=0, m=0, mtu=mtu))
        for index in range(f)[-2:]:
            yield answered(one(index, packet(l), fec=0, m=0, mtu=mtu))


def count_questions():
    for address, h in ((NONE, 14), (PAIR, 18)):
        plain = dict(fec=0, m=0, address=address)
        yield cut_into(256, 1, every(packet(256), mtu=h + 1, **plain))
        for index in (0, 254, 255):
            yield answered(one(index, packet(256), mtu=h + 1, **plain))
        yield refused(41, every(packet(257), mtu=h + 1, **plain))
        yield refused(41, one(0, packet(257), mtu=h + 1, **plain))
        yield cut_into(256, 4, every(packet(1021), mtu=h + 4, **plain))
        yield refused(41, every(packet(1025), mtu=h + 4, **plain))
    # the longest packet in the most fragments, and one more than can be
    yield cut_into(256, 32, every(packet(8192), fec=0, m=0, mtu=46))
    yield refused(41, one(0, packet(8192), fec=0, m=0, mtu=45))
    # with FEC 256 does not occur: 255 are the most
    for address, h in ((NONE, 16), (PAIR, 20)):
        yield cut_into(255, 1, every(packet(207), m=0, mtu=h + 1, address=address))
        yield answered(one(254, packet(207), m=2, mtu=h + 1, address=address))
        yield refused(41, every(packet(208), m=2, mtu=h + 1, address=address))
        yield refused(41, one(0, packet(208), m=5, mtu=h + 1, address=address))


def mtu_questions():
    for fec, address, h in SHAPES:
        shape = dict(fec=fec, m=0, address=address)
        for mtu, data in ((h + 1, packet(12)), (h + 2, packet(40)), (16384, packet(300))):
            yield answered(every(data, mtu=mtu, **shape))
            yield answered(one(0, data, mtu=mtu, **shape))
        for mtu in (0, h - 1, h, 16385, 2**32, 2**64 - 1):
            yield refused(40, every(packet(12), mtu=mtu, **shape))
            yield refused(40, one(0, packet(12), mtu=mtu, **shape))
    # a payload of all the packet's bytes in one fragment, and all of its block
    yield cut_into(1, 8192, every(packet(8192), fec=0, m=0, mtu=16384, address=PAIR))
    yield cut_into(1, 10120, every(packet(8192), m=0, mtu=16384, address=PAIR))


def settings_questions():
    for m in (1, 2, 3, 4, 5):
        yield answered(every(packet(100), m=m))
        yield refused(40, every(packet(100), fec=0, m=m))
        yield refused(40, one(0, packet(100), fec=0, m=m))
    for m in (6, 7, 256, 2**64 - 1):
        yield refused(40, every(packet(100), m=m))
        yield refused(40, one(0, packet(100), fec=0, m=m))


def header_questions():
    for fec, address, _ in SHAPES:
        for pseq in (0, 1, 255, 256, 65535):
            yield answered(one(1, packet(60), fec=fec, m=0, mtu=60, address=address, pseq=pseq))
        yield answered(every(packet(60), fec=fec, m=0, mtu=60, address=address, pseq=65535))
        yield answered(every(packet(61, cf=0), fec=fec, m=0, mtu=60, address=address, pseq=0))
    for address in ("00000000", "ffffffff", "ffff0000", "0000ffff", "12345678"):
        for fec in (0, 1):
            yield answered(one(0, packet(20), fec=fec, m=0, address=address))


def index_questions():
    for index in (12, 13, 255, 256, 2**24, 2**32, 2**32 + 11, 2**64 - 1):
        yield refused(42, one(index, packet(415)))
    for index in (2, 3, 2**32, 2**32 + 1):
        yield refused(42, one(index, packet(1387), fec=0, m=0))
    yield refused(42, one(1, packet(12), fec=0, m=0))
    yield refused(42, one(1, packet(12), m=0))
    yield refused(42, one(256, packet(256), fec=0, m=0, mtu=15))
    yield refused(42, one(16, packet(8192)))


# 129 bytes at 20 a fragment, by hand: fragments, payload bytes of the first, of the last; without FEC, and with it (177 bytes, 3 zero cells)
ROOMY = ((7, 19, 15), (9, 20, 20))


def room_questions():
    data = packet(129)
    for fec, address, h in SHAPES:
        shape = dict(fec=fec, m=0, mtu=h + 20, address=address)
        f, first, last = ROOMY[fec]
        for index, size in ((0, first), (f - 1, last)):
            for room in (0, h, h + size - 1):
                yield refused(1, one(index, data, room=room, **shape))
            for room in (h + size, h + size + 1):
                yield answered(one(index, data, room=room, **shape))
        whole = f * h + (f - 1) * first + last
        for room in (0, h + first, whole - 1):
            yield refused(1, every(data, room=room, **shape))
        for room in (whole, whole + 1):
            yield answered(every(data, room=room, **shape))
    yield refused(1, every(packet(8192), room=16 * (16 + 633) - 1))
    yield answered(every(packet(415), room=12 * (16 + 47)))
    # the longest answer: 253 fragments of 20 + 40 bytes, for f(h + s) is at most 21f + 10,120
    yield cut_into(253, 40, every(packet(8192), m=0, mtu=60, address=PAIR, room=15180))


FAULTS = ((20, dict()), (21, dict(sync=b"PF")), (22, dict(length=5)), (23, dict(major=2)), (24, dict(pt=b"t")), (25, dict(field=b"\0\1")))


def faulty(number, l=30):
    """A packet that the AF checks refuse with the number."""
    wrong = dict(FAULTS)[number]
    return packet(l, **wrong) if wrong else packet(12)[:11]


def af_questions():
    for number, _ in FAULTS:
        for fec, m in ((1, 2), (0, 0)):
            yield refused(number, every(faulty(number), fec=fec, m=m))
            yield refused(number, one(0, faulty(number), fec=fec, m=m))
    for data in (b"", b"A", b"PF", bytes(11)):
        yield refused(20, every(data))
        yield refused(20, one(0, data))
    yield refused(21, every(bytes(12)))
    yield refused(22, one(0, packet(8193)))
    yield refused(22, every(packet(100)[:-1]))
    yield refused(22, one(0, packet(100) + b"\0"))
    right = packet(100)
    for changed in (right[:7] + bytes([right[7] ^ 1]) + right[8:], right[:50] + bytes([right[50] ^ 128]) + right[51:], right[:-1] + bytes([right[-1] ^ 1])):
        yield refused(25, every(changed))
    for field in (b"\0\1", b"\x80\0"):
        yield refused(25, every(packet(100, cf=0, field=field), fec=0, m=0))
    for minor in (1, 15):
        yield answered(one(0, packet(100, minor=minor)))
    # two faults in a packet
    for number, wrong in ((21, dict(sync=b"XX", length=5)), (22, dict(length=5, major=2)), (23, dict(major=2, pt=b"U")), (24, dict(pt=b"U", field=b"\0\1"))):
        yield refused(number, every(packet(40, **wrong)))


def order_questions():
    faults = [number for number, _ in FAULTS]
    for number in faults:
        # 40 before the AF checks
        yield refused(40, every(faulty(number), m=6))
        yield refused(40, one(0, faulty(number), fec=0, m=0, mtu=14))
        # the AF checks before 41: these would be more than 256 fragments, but for the 11 bytes of 20
        yield refused(number, every(faulty(number, 300), fec=0, m=0, mtu=15))
        yield refused(number, one(0, faulty(number, 300), mtu=17))
        # and before 42 and ROOM
        yield refused(number, one(2**32, faulty(number)))
        yield refused(number, one(0, faulty(number), room=0))
        yield refused(number, every(faulty(number), room=0))
    yield refused(22, every(packet(8193), fec=0, m=0, mtu=15))
    for question in (every(packet(300), fec=0, m=1, mtu=15), every(packet(300), m=6, mtu=17), one(300, packet(300), fec=0, m=1, mtu=15),
                     one(99, packet(30), m=6), one(0, packet(30), mtu=16385, room=0), every(packet(30), m=6, room=0), one(99, packet(30), mtu=16, room=0)):
        yield refused(40, question)
    for question in (one(300, packet(300), fec=0, m=0, mtu=15), one(2**32, packet(300), mtu=17), one(0, packet(300), mtu=17, room=0),
                     every(packet(300), fec=0, m=0, mtu=15, room=0), one(300, packet(300), fec=0, m=0, mtu=15, room=0)):
        yield refused(41, question)
    for question in (one(12, packet(415), room=0), one(2**32, packet(415), room=62), one(2, packet(1387), fec=0, m=0, room=0)):
        yield refused(42, question)
    for question in (one(11, packet(415), room=0), every(packet(415), room=0), one(1, packet(1387), fec=0, m=0, room=0)):
        yield refused(1, question)


def spread_questions():
    numbers = packets.draw(2)
    for _ in range(40):
        fec = next(numbers) % 3 > 0
        m = next(numbers) % 6 if fec else 0
        address = (NONE, f"{next(numbers) % 2**32:08x}")[next(numbers) % 2]
        mtu = plans.header(fec, address != NONE) + 8 + next(numbers) % 400
        settings = dict(fec=int(fec), m=m, mtu=mtu, address=address, pseq=next(numbers) % 65536)
        data = packet(12 + next(numbers) % 900, cf=next(numbers) % 2)
        yield answered(every(data, **settings))
        question = one(next(numbers) % 24, data, room=next(numbers) % 600, **settings)
        yield question, computed(question)


def malformed_questions():
    data = packet(12).hex()
    words = f"1 2 1400 - 7 0 100 {data}".split()
    for place, wrong in ((0, "2"), (0, "-"), (0, "x"), (0, "10"), (1, "-"), (1, "a"), (1, "-2"), (1, str(2**64)), (2, "-"), (2, "1,400"), (2, str(2**64)), (3, "--"),
                         (3, "0"), (3, "0001000"), (3, "000100020"), (3, "0001000A"), (3, "0001000g"), (4, "65536"), (4, "-"), (4, "-1"), (4, "0x7"), (4, str(2**32)),
                         (4, str(2**64)), (5, "-"), (5, "-1"), (5, "a"), (5, str(2**64)), (5, str(2**64 + 1)), (6, "32769"), (6, "-"), (6, "1e3"), (6, str(2**32)),
                         (6, str(2**64)), (7, "0"), (7, data[1:]), (7, data.upper()), (7, data[:-1] + "g"), (7, "--"), (7, "")):
        changed = words[:place] + [wrong] + words[place + 1:]
        yield "fragment " + " ".join(changed), "unknown"
        if place != 5:
            del changed[5]
            yield "fragments " + " ".join(changed), "unknown"
    for line in ("fragment", "fragments", "fragment " + " ".join(words[:-1]), "fragment " + " ".join(words + ["-"]), "fragment  " + " ".join(words),
                 "fragment " + " ".join(words) + " ", "Fragment " + " ".join(words), "fragmen " + " ".join(words), "fragments " + " ".join(words),
                 "fragments " + " ".join(words[:5] + words[7:]), "fragment " + " ".join(words[:5] + words[6:])):
        yield line, "unknown"
    # a malformed word comes before each refusal
    yield every(packet(12), m=6, room=MOST_ROOM + 1), "unknown"
    yield one(2**64, b"", m=6), "unknown"
    yield every(b"", pseq=65536), "unknown"
    # zeros in front change no number, and the largest that are none too large
    yield answered("fragment 01 002 0001400 - 00007 0000000000000000000000001 000100 " + data)
    yield answered(one(0, packet(12), pseq=65535, room=MOST_ROOM))
    yield refused(42, one(2**64 - 1, packet(12), pseq=65535, room=MOST_ROOM))


PARTS = (("fragments with FEC: \"With FEC, the l bytes and z zeros form c chunks of k, each followed by its 48 parity bytes; byte q of that block goes to "
          "fragment q mod f, offset floor(q / f)\"", coded_questions),
         ("fragments with zeros in them: \"cells left over are zero, and every fragment has s bytes\"", zeros_questions),
         ("fragments without FEC: \"Without FEC, m is 0, fragment i holds bytes from i*s, and the last holds 1 to s bytes\"", plain_questions),
         ("the count of fragments: \"41 TOOMANY: f over 256\"", count_questions),
         ("the MTU: \"MTU above h and at most 16,384\", else \"40 SETTINGS\"", mtu_questions),
         ("m: \"40 SETTINGS: m over 5, m above 0 without FEC\"", settings_questions),
         ("headers: \"'PF'; Pseq 2; Findex 3; Fcount 3; 2 bytes of FEC bit, Addr bit, Plen 14 bits; with FEC: RSk 1, RSz 1; with Addr: Source 2, Dest 2; "
          "HCRC 2 over all header bytes before it\"", header_questions),
         ("the index: \"42 INDEX: fragment asked not below f\"", index_questions),
         ("the room: \"1 ROOM: lent buffer too small\"", room_questions),
         ("packets that are none: \"20 to 25, AF: under 12 bytes; not 'AF'; length not LEN + 12 or over 8,192; major not 1; PT not 'T'; CRC\"", af_questions),
         ("the order of the refusals: \"Senders: 40, AF checks, 41, 42, ROOM\"", order_questions),
         ("a spread of fragments, by the sender of its own", spread_questions),
         ("malformed questions on fragments: a malformed word, a number or a length that is too large", malformed_questions))


if __name__ == "__main__":
    usage.show(__doc__, PARTS)
