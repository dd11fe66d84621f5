"""Questions on AF packets and TAG items with the answers that they must get, each with the sentence
of document 01 that gives it.

    python3 tests/packets.py      prints each question and its answer

The answers at the edges are written out here by hand. Those of the spread at the end are worked out
by a reader of its own below, which is first held against all that is written out.
"""
import usage

CONTAINER = b"fio_"


def crc(data):
    """Annex A, bit by bit."""
    register = 0xFFFF
    for byte in data:
        for bit in range(7, -1, -1):
            out = register >> 15 ^ byte >> bit & 1
            register = register << 1 & 0xFFFF ^ (0x1021 if out else 0)
    return (register ^ 0xFFFF).to_bytes(2, "big")


def af(payload, seq=7, cf=1, major=1, minor=0, pt=b"T", sync=b"AF", length=None, field=None):
    """An AF packet, right but for what is asked to be wrong."""
    head = sync + (len(payload) if length is None else length).to_bytes(4, "big") + seq.to_bytes(2, "big")
    head += bytes([cf << 7 | major << 4 | minor]) + pt
    return head + payload + (field if field is not None else crc(head + payload) if cf else bytes(2))


def item(name, bits, value):
    return name + bits.to_bytes(4, "big") + value


def whole(name, value):
    """An item whose value has all its bits."""
    return item(name, 8 * len(value), value)


def nested(depth, name=CONTAINER, inside=b""):
    """Containers in each other: the innermost has that depth."""
    for _ in range(depth + 1):
        inside = whole(name, inside)
    return inside


# ---- a reader of its own, for the spread

class Refused(Exception):
    pass


def af_answer(packet):
    if len(packet) < 12:
        return "refused 20"
    if packet[:2] != b"AF":
        return "refused 21"
    length, seq, ar = int.from_bytes(packet[2:6], "big"), int.from_bytes(packet[6:8], "big"), packet[8]
    if len(packet) != length + 12 or len(packet) > 8192:
        return "refused 22"
    if ar >> 4 & 7 != 1:
        return "refused 23"
    if packet[9:10] != b"T":
        return "refused 24"
    if packet[-2:] != (crc(packet[:-2]) if ar >> 7 else bytes(2)):
        return "refused 25"
    return f"af seq={seq} cf={ar >> 7} rev=1.{ar & 15} len={length}"


def run(packet, names=(), depth=0):
    """The items in the order of the nested walk, as depth, name, bits, value; then the padding of the outer packet."""
    seen, handed, left = set(), [], packet
    while len(left) >= 8:
        name, bits = left[:4], int.from_bytes(left[4:8], "big")
        size = -(-bits // 8)
        if size > len(left) - 8:
            raise Refused(30)
        if name in seen and name != b"*dmy":
            raise Refused(31)
        if name == b"*ptr" and bits != 64:
            raise Refused(33)
        if name in names and bits % 8:
            raise Refused(35)
        if depth == 5:
            raise Refused(32)
        seen.add(name)
        handed.append((depth, name, bits, left[8:8 + size]))
        if name in names:
            handed += run(left[8:8 + size], names, depth + 1)[0]
        left = left[8 + size:]
    return handed, len(left)


def hexed(data):
    return data.hex() or "-"


def items_answer(packet):
    try:
        handed, padding = run(packet)
    except Refused as r:
        return f"refused {r}"
    return " ".join(["items"] + [f"{n.hex()}:{b}:{hexed(v)}" for _, n, b, v in handed] + [f"end {padding}"])


def walk_answer(names, packet):
    if len(names) % 4 or len(names) > 32:
        return "refused 43"
    try:
        handed, padding = run(packet, [names[i:i + 4] for i in range(0, len(names), 4)])
    except Refused as r:
        return f"refused {r}"
    return " ".join(["walk"] + [f"{d}:{n.hex()}:{b}" for d, n, b, _ in handed] + [f"end {padding}"])


def find_answer(name, packet, standing):
    try:
        for handed, _ in [run(packet), run(standing)]:
            for _, n, bits, value in handed:
                if n == name:
                    return f"found {bits} {hexed(value)}"
    except Refused as r:
        return f"refused {r}"
    return "refused 34"


def item_answer(name, bits, room, value):
    size = -(-bits // 8)
    if len(value) != size:
        return "refused 43"
    if name == b"*ptr" and bits != 64:
        return "refused 33"
    if room < 8 + size:
        return "refused 1"
    kept = bytearray(value)
    if bits % 8:
        kept[-1] &= 0xFF << 8 - bits % 8 & 0xFF
    return f"item {item(name, bits, bytes(kept)).hex()}"


def wrap_answer(seq, cf, room, payload):
    if len(payload) > 8180:
        return "refused 22"
    if room < len(payload) + 12:
        return "refused 1"
    return f"packet {af(payload, seq, cf).hex()}"


def list_answer(packet):
    first = af_answer(packet)
    if first.startswith("refused"):
        return "list " + first.replace(" ", "_") + "|"
    try:
        handed, padding = run(packet[10:-2], [CONTAINER])
    except Refused as r:
        return f"list refused_{r}|"
    lines = [f"af {int.from_bytes(packet[6:8], 'big')} 1.{packet[8] & 15} {len(packet) - 12}"]
    lines += [f"{d} {n.hex()} {b}" for d, n, b, _ in handed] + [f"pad {padding}"]
    return "list " + "".join(line.replace(" ", "_") + "|" for line in lines)


def computed(question):
    """The answer by the reader above."""
    name, *words = question.split(" ")
    raw = [b"" if w == "-" else bytes.fromhex(w) if len(w) % 2 == 0 else b"" for w in words]
    if name == "afcheck":
        return af_answer(raw[0])
    if name == "afwrap":
        return wrap_answer(int(words[0]), int(words[1]), int(words[2]), raw[3])
    if name == "item":
        return item_answer(raw[0], int(words[1]), int(words[2]), raw[3])
    if name == "items":
        return items_answer(raw[0])
    if name == "find":
        return find_answer(*raw)
    if name == "walk":
        return walk_answer(*raw)
    return list_answer(raw[0])


# ---- the edges: a sentence of document 01, a question, its answer

ABC = item(b"abc_", 12, bytes.fromhex("abc0"))
PTR = whole(b"*ptr", b"abcd\0\1\0\0")
LISTED = af(PTR + ABC + bytes(2), cf=0)


def af_edges():
    says = "AF layer: \"AF\"; LEN 4 bytes (payload); SEQ 2; AR: top bit CF, 3 bits major, 4 bits minor; PT 1; payload; CRC 2"
    yield says, f"afcheck {LISTED.hex()}", "af seq=7 cf=0 rev=1.0 len=28"
    yield says, f"afcheck {af(b'').hex()}", "af seq=7 cf=1 rev=1.0 len=0"
    yield says, f"afcheck {af(b'x', seq=65535).hex()}", "af seq=65535 cf=1 rev=1.0 len=1"
    says = "we read major 1 with any minor"
    for minor in (1, 9, 10, 15):
        yield says, f"afcheck {af(b'x', minor=minor).hex()}", f"af seq=7 cf=1 rev=1.{minor} len=1"
    says = "20: under 12 bytes"
    for n in (0, 1, 11):
        yield says, f"afcheck {hexed(af(b'')[:n])}", "refused 20"
    yield "21: not \"AF\"", f"afcheck {af(b'', sync=b'AG').hex()}", "refused 21"
    yield "21: not \"AF\"", f"afcheck {af(b'', sync=b'BF').hex()}", "refused 21"
    says = "22: length not LEN + 12 or over 8,192"
    for length in (0, 2, 2**32 - 1, 2**32 - 12, 2**32 - 11):
        yield says, f"afcheck {af(b'x', length=length).hex()}", "refused 22"
    yield says, f"afcheck {af(bytes(8180)).hex()}", "af seq=7 cf=1 rev=1.0 len=8180"
    yield says, f"afcheck {af(bytes(8181)).hex()}", "refused 22"
    for major in (0, 2, 3, 5, 7):
        yield "23: major not 1", f"afcheck {af(b'x', major=major).hex()}", "refused 23"
    yield "24: PT not \"T\"", f"afcheck {af(b'x', pt=b't').hex()}", "refused 24"
    says = "25: CRC; CF 0: the field is 0000, anything else there is refused as 25"
    yield says, f"afcheck {af(b'x', cf=0).hex()}", "af seq=7 cf=0 rev=1.0 len=1"
    for field in (b"\0\1", b"\1\0", b"\x80\0", b"\xff\xff"):
        yield says, f"afcheck {af(b'x', cf=0, field=field).hex()}", "refused 25"
    right = af(b"x")
    yield says, f"afcheck {af(b'x', field=bytes(2)).hex()}", "refused 25"
    yield says, f"afcheck {(right[:-1] + bytes([right[-1] ^ 1])).hex()}", "refused 25"
    yield "CF 1: CRC over header and payload", f"afcheck {af(b'x', field=crc(b'x')).hex()}", "refused 25"
    says = "a packet is checked in the order 20 to 25"
    for number, wrong in ((21, dict(sync=b"XX", length=5)), (22, dict(length=5, major=2)), (23, dict(major=2, pt=b"U")), (24, dict(pt=b"U", field=b"\0\1"))):
        yield says, f"afcheck {af(b'x', **wrong).hex()}", f"refused {number}"


def wrap_edges():
    says = "Whoever wraps a payload chooses CF. We write revision 1.0"
    for seq, cf, payload in ((0, 1, b""), (7, 0, b""), (65535, 1, b"abc"), (258, 0, b"\0" * 5)):
        yield says, f"afwrap {seq} {cf} 8192 {hexed(payload)}", f"packet {af(payload, seq, cf).hex()}"
    says = "wrapping a payload over 8,180 bytes gives 22, then ROOM"
    yield says, f"afwrap 1 1 8192 {'5a' * 8180}", f"packet {af(b'Z' * 8180, 1).hex()}"
    yield says, f"afwrap 1 1 8191 {'5a' * 8180}", "refused 1"
    yield says, f"afwrap 1 1 8193 {'5a' * 8181}", "refused 22"
    yield says, f"afwrap 1 1 0 {'5a' * 8181}", "refused 22"
    for room, answer in ((14, "refused 1"), (15, f"packet {af(b'abc', 1).hex()}"), (16, f"packet {af(b'abc', 1).hex()}"), (0, "refused 1")):
        yield "1 ROOM: lent buffer too small", f"afwrap 1 1 {room} 616263", answer


def item_edges():
    says = "a 4-byte name, a 4-byte length in bits, then the value in ceil(bits / 8) bytes"
    yield says, "item 61626364 16 10 0102", "item 61626364000000100102"
    yield says, "item 61626364 0 8 -", "item 6162636400000000"
    says = "Unused low bits of the last byte: the sender writes zeros"
    for bits, last in ((9, "80"), (10, "c0"), (11, "e0"), (12, "f0"), (13, "f8"), (14, "fc"), (15, "fe"), (16, "ff"), ):
        yield says, f"item 00000000 {bits} 10 ffff", f"item 00000000000000{bits:02x}ff{last}"
    yield says, "item ffffffff 1 9 ff", "item ffffffff0000000180"
    says = "43 BITS: value written not ceil(bits / 8) bytes"
    for bits, value in ((8, "-"), (0, "00"), (9, "00"), (8, "0000"), (4294967295, "00"), (16, "00")):
        yield says, f"item 61626364 {bits} 100 {value}", "refused 43"
    says = "Writing an item: 43, 33, ROOM"
    yield says, "item 2a707472 64 16 6162636400010000", "item 2a707472000000406162636400010000"
    yield says, "item 2a707472 63 16 6162636400010000", "refused 33"
    yield says, "item 2a707472 56 0 61626364000100", "refused 33"
    yield says, "item 2a707472 56 0 6162636400010000", "refused 43"
    yield says, "item 2a707472 64 15 6162636400010000", "refused 1"
    for room in (0, 7, 8, 9):
        yield "1 ROOM: lent buffer too small", f"item 61626364 16 {room} 0102", "refused 1"


def reading_edges():
    yield "An empty packet is valid", "items -", "items end 0"
    for n in range(1, 8):
        yield "When 7 or fewer bytes remain, after an item or at the start, they are padding", f"items {'ff' * n}", f"items end {n}"
        yield "When 7 or fewer bytes remain, after an item or at the start, they are padding", f"items {(ABC + bytes(n)).hex()}", f"items 6162635f:12:abc0 end {n}"
    says = "with 8 or more an item must follow"
    yield says, f"items {bytes(8).hex()}", "items 00000000:0:- end 0"
    yield says, f"items {'ff' * 8}", "refused 30"
    yield says, f"items {(ABC + b'ffff' + bytes(3) + bytes([1])).hex()}", "refused 30"
    says = "30 OVERRUN: item passes the end"
    yield says, f"items {(item(b'abcd', 2**32 - 1, bytes(20))).hex()}", "refused 30"
    yield says, f"items {(item(b'abcd', 2**31, bytes(20))).hex()}", "refused 30"
    yield says, f"items {(item(b'abcd', 17, bytes(2))).hex()}", "refused 30"
    yield says, f"items {(item(b'abcd', 16, bytes(2))).hex()}", "items 61626364:16:0000 end 0"
    yield "Names may be any four bytes", f"items {(whole(bytes(4), b'a') + whole(b'    ', b'b') + whole(bytes([255] * 4), b'c')).hex()}", \
        "items 00000000:8:61 20202020:8:62 ffffffff:8:63 end 0"
    yield "Unused low bits of the last byte: the receiver passes them by", f"items {item(b'abcd', 4, bytes([255])).hex()}", "items 61626364:4:ff end 0"
    says = "\"*ptr\" has exactly 64 bits; 33 PTR"
    yield says, f"items {PTR.hex()}", "items 2a707472:64:6162636400010000 end 0"
    for bits, size in ((63, 8), (65, 9), (0, 0), (56, 7), (72, 9)):
        yield says, f"items {item(b'*ptr', bits, bytes(size)).hex()}", "refused 33"
    says = "In one packet, on one level, a name other than \"*dmy\" occurs once"
    yield says, f"items {(ABC + whole(b'abcd', b'') + ABC).hex()}", "refused 31"
    yield says, f"items {(PTR + PTR).hex()}", "refused 31"
    yield says, f"items {(whole(b'*dmy', b'a') + whole(b'*dmy', b'b')).hex()}", "items 2a646d79:8:61 2a646d79:8:62 end 0"
    says = "At one item: 30, 31, 33, 35, 32; the leftmost item at fault decides"
    yield says, f"items {(PTR + item(b'*ptr', 63, bytes(8))).hex()}", "refused 31"
    yield says, f"items {(PTR + item(b'*ptr', 63, bytes(7))).hex()}", "refused 30"
    yield says, f"items {(item(b'*ptr', 63, bytes(8)) + ABC + ABC).hex()}", "refused 33"
    yield says, f"items {(ABC + ABC + item(b'*ptr', 63, bytes(8))).hex()}", "refused 31"


def finding_edges():
    one, two, bad = whole(b"name", b"one"), whole(b"name", b"two"), ABC + ABC
    overrun = item(b"abcd", 999, b"")
    says = "Finding by name looks in the packet, then in a standing packet lent beside it"
    yield says, f"find 6e616d65 {one.hex()} {two.hex()}", "found 24 6f6e65"
    yield says, f"find 6e616d65 {ABC.hex()} {two.hex()}", "found 24 74776f"
    yield says, f"find 6e616d65 - {two.hex()}", "found 24 74776f"
    yield says, f"find 6e616d65 {one.hex()} -", "found 24 6f6e65"
    yield says, f"find 6162635f {(one + ABC + bytes(3)).hex()} -", "found 12 abc0"
    yield says, f"find 61626364 {(whole(b'abcd', b'')).hex()} {two.hex()}", "found 0 -"
    says = "34 ABSENT: name in neither packet; a refused search shows an empty part"
    yield says, "find 6e616d65 - -", "refused 34"
    yield says, f"find 6e616d66 {one.hex()} {two.hex()}", "refused 34"
    yield says, f"find 6e616d65 {whole(CONTAINER, one).hex()} -", "refused 34"
    says = "Both are checked whole before either is searched, the packet first"
    yield says, f"find 6e616d65 {(one + bad).hex()} {two.hex()}", "refused 31"
    yield says, f"find 6e616d65 {one.hex()} {bad.hex()}", "refused 31"
    yield says, f"find 6e616d65 {overrun.hex()} {bad.hex()}", "refused 30"
    yield says, f"find 6e616d65 {bad.hex()} {overrun.hex()}", "refused 31"
    yield says, f"find 6e616d65 {one.hex()} {item(b'*ptr', 63, bytes(8)).hex()}", "refused 33"
    yield "ABSENT comes after all of them", f"find 6e616d66 {one.hex()} {overrun.hex()}", "refused 30"
    yield "finding \"*dmy\" shows the first", f"find 2a646d79 {(ABC + whole(b'*dmy', b'a') + whole(b'*dmy', b'b')).hex()} {whole(b'*dmy', b'c').hex()}", "found 8 61"
    yield "the part shown belongs to the first that holds the name", f"find 2a646d79 {ABC.hex()} {(whole(b'*dmy', b'c') + whole(b'*dmy', b'd')).hex()}", "found 8 63"


def walking_edges():
    fio, names = CONTAINER.hex(), CONTAINER.hex()
    yield "An empty packet is valid", f"walk {names} -", "walk end 0"
    says = "a container's value is again a packet; outer items come before their contents, which follow at once"
    yield says, f"walk {names} {(ABC + whole(CONTAINER, ABC + PTR) + PTR + bytes(3)).hex()}", \
        f"walk 0:6162635f:12 0:{fio}:208 1:6162635f:12 1:2a707472:64 0:2a707472:64 end 3"
    yield says, f"walk - {whole(CONTAINER, ABC).hex()}", f"walk 0:{fio}:80 end 0"
    yield "END with the count of padding bytes (of the outer packet)", f"walk {names} {whole(CONTAINER, ABC + bytes(7)).hex()}", f"walk 0:{fio}:136 1:6162635f:12 end 0"
    says = "Items of the outer packet have depth 0; an item at depth 5 is refused"
    yield says, f"walk {names} {nested(4).hex()}", f"walk 0:{fio}:256 1:{fio}:192 2:{fio}:128 3:{fio}:64 4:{fio}:0 end 0"
    yield says, f"walk {names} {nested(4, inside=bytes(7)).hex()}", f"walk 0:{fio}:312 1:{fio}:248 2:{fio}:184 3:{fio}:120 4:{fio}:56 end 0"
    yield says, f"walk {names} {nested(5).hex()}", "refused 32"
    yield says, f"walk {names} {nested(4, inside=ABC).hex()}", "refused 32"
    yield says, f"walk {names} {nested(3, inside=ABC).hex()}", f"walk 0:{fio}:272 1:{fio}:208 2:{fio}:144 3:{fio}:80 4:6162635f:12 end 0"
    says = "35 WHOLE: container not whole bytes"
    yield says, f"walk {names} {item(CONTAINER, 12, bytes(2)).hex()}", "refused 35"
    yield says, f"walk - {item(CONTAINER, 12, bytes(2)).hex()}", f"walk 0:{fio}:12 end 0"
    says = "At one item: 30, 31, 33, 35, 32"
    yield says, f"walk {names} {(whole(CONTAINER, b'') + item(CONTAINER, 12, bytes(2))).hex()}", "refused 31"
    yield says, f"walk {names} {nested(4, inside=item(CONTAINER, 12, bytes(2))).hex()}", "refused 35"
    yield says, f"walk {names} {nested(4, inside=item(b'*ptr', 12, bytes(2))).hex()}", "refused 33"
    yield says, f"walk {names} {nested(4, inside=item(CONTAINER, 12, bytes(1))).hex()}", "refused 30"
    yield says, f"walk 2a707472 {item(b'*ptr', 12, bytes(2)).hex()}", "refused 33"
    says = "the leftmost item at fault decides"
    yield says, f"walk {names} {(whole(CONTAINER, ABC + ABC) + item(b'abcd', 999, b'')).hex()}", "refused 31"
    yield says, f"walk {names} {(item(b'*ptr', 1, bytes(1)) + whole(CONTAINER, ABC + ABC)).hex()}", "refused 33"
    yield "on one level, a name occurs once", f"walk {names} {(ABC + whole(CONTAINER, ABC)).hex()}", f"walk 0:6162635f:12 0:{fio}:80 1:6162635f:12 end 0"
    says = "43: over 8 container names; walks check the container list first"
    eight = "".join(f"{i:08x}" for i in range(8))
    yield says, f"walk {eight} {ABC.hex()}", "walk 0:6162635f:12 end 0"
    yield says, f"walk {eight}{fio} {ABC.hex()}", "refused 43"
    yield says, f"walk {eight}{fio} {(ABC + ABC).hex()}", "refused 43"
    yield says, f"walk {fio * 9} {ABC.hex()}", "refused 43"
    yield says, f"walk {fio}66 {ABC.hex()}", "refused 43"
    yield "two container names", f"walk {fio}61626364 {whole(b'abcd', whole(CONTAINER, ABC)).hex()}", f"walk 0:61626364:144 1:{fio}:80 2:6162635f:12 end 0"


def listing_edges():
    says = "The listing program reads one AF packet on standard input, with \"fio_\" its only container"
    yield says, f"list {LISTED.hex()}", "list af_7_1.0_28|0_2a707472_64|0_6162635f_12|pad_2|"
    yield says, f"list {af(b'').hex()}", "list af_7_1.0_0|pad_0|"
    yield says, f"list {af(whole(CONTAINER, ABC), minor=12).hex()}", "list af_7_1.12_18|0_66696f5f_80|1_6162635f_12|pad_0|"
    says = "A refusal prints \"refused\", a space and its number, alone"
    yield says, "list -", "list refused_20|"
    yield says, f"list {af(b'', major=2).hex()}", "list refused_23|"
    yield says, f"list {af(ABC + ABC).hex()}", "list refused_31|"
    yield says, f"list {af(nested(5)).hex()}", "list refused_32|"
    yield says, f"list {af(bytes(8181)).hex()}", "list refused_22|"


EDGES = (("AF packets", af_edges), ("wrapping", wrap_edges), ("items written", item_edges), ("packets read", reading_edges),
         ("finding", finding_edges), ("the nested walk", walking_edges), ("the listing", listing_edges))


# ---- a spread, by the reader of its own

def draw(state):
    """The next number of a plain generator: the same in each run."""
    while True:
        state = (state * 6364136223846793005 + 1442695040888963407) % 2**64
        yield state >> 33


def some_packet(numbers, depth=0):
    """A packet of a few items, most of it right."""
    packet = b""
    for _ in range(next(numbers) % 5):
        kind = next(numbers) % 12
        name = (CONTAINER, b"*ptr", b"*dmy")[kind] if kind < 3 else bytes([97 + next(numbers) % 9] * 4)
        value = some_packet(numbers, depth + 1) if kind == 0 and depth < 5 else bytes(next(numbers) % 256 for _ in range(8 if kind == 1 else next(numbers) % 7))
        bits = 8 * len(value) - (next(numbers) % 8 if value and kind > 2 else 0)
        packet += item(name, bits, value)
    return packet + bytes(next(numbers) % 8)


def spread_questions():
    numbers = draw(1)
    for _ in range(40):
        one, two = some_packet(numbers), some_packet(numbers)
        name = bytes([97 + next(numbers) % 9] * 4)
        for question in (f"items {hexed(one)}", f"walk {CONTAINER.hex()} {hexed(one)}", f"find {name.hex()} {hexed(one)} {hexed(two)}", f"list {af(one).hex()}"):
            yield question, computed(question)


MALFORMED = """\
afcheck
afcheck 0
afcheck AF
afcheck 4146 00
afwrap 0 1 8192
afwrap 65536 1 8192 -
afwrap 0 2 8192 -
afwrap - 1 8192 -
afwrap 0 1 - -
afwrap 0 1 18446744073709551616 -
afwrap 0 1 32769 -
afwrap 0 1 8192 - -
item 616263 8 9 00
item 6162636465 8 9 00
item - 8 9 00
item 61626364 4294967296 9 00
item 61626364 - 9 00
item 61626364 8 32769 00
item 61626364 8 9
item 61626364 8 9 00 00
items
items 0
items - -
find 61626364 -
find 616263 - -
find - - -
find 61626364 - - -
find 61626364 0 -
walk -
walk 6 -
walk - - -
walk - 0
list
list 0
list - -
lists -
Items -""".split("\n")


def malformed_questions():
    for line in MALFORMED:
        yield line, "unknown"


if __name__ == "__main__":
    usage.help_or_use(__doc__)
    for title, edges in EDGES:
        print("#", title)
        for says, question, answer in edges():
            print("#", says)
            print(question, "=>", answer)
            assert computed(question) == answer, (question, answer, computed(question))
    print("# a spread")
    counts = {}
    for question, answer in spread_questions():
        print(question, "=>", answer)
        key = question.split()[0] + " " + (answer if "refused" in answer else "answered")
        counts[key] = counts.get(key, 0) + 1
    import sys
    print(counts, file=sys.stderr)
