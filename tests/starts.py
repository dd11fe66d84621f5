"""Questions on where an item starts, with the answers that they must get, each group under the
sentence of document 02, Item 11, that gives it.

    python3 tests/starts.py       prints each question and its answer

Every answer is worked out by the reader of reader.py. Those that are written out, by hand or as
sums of lengths, have to be the same. Without what it tells of starts, each has to be what the plain
question is answered; and at each start the packet has to hold the item.
"""
import packets
import repeats
import usage
from packets import ABC, CONTAINER, hexed, item, nested, whole
from reader import FILLER, MOST_BYTES, asked, both, same
from repeats import G, X, name_of, row

PLAIN = "items", "walk", "find", "nth"
UNUSED = 0, 7, 6, 5, 4, 3, 2, 1, 0, 7, 6, 5, 4, 3, 2, 1, 0, 7  # of 0 to 17 bits
MORE = (63, 1), (64, 0), (65, 7), (255, 1), (256, 0), (257, 7), (2044, 4), (65535, 1), (65536, 0), (65537, 7)  # bits, and unused ones
FIO, OTHER = CONTAINER.hex(), name_of("g").hex()
HEAD = len(item(FILLER, 0, b""))

# the packet of document 01's listing
L = "2a7074720000004061626364000100006162635f0000000cabc00000"
LETTERS = {"L": L, "G": G, "X": X, "S": "7a7a7a5f0000000180", "A": "6162635f0000000861", "E": "6162635f0000000861656e645f00000000"}
HAND = (("itemsat L", "items 0:0:2a707472:64:6162636400010000 16:4:6162635f:12:abc0 end 2"),
        ("itemsat L once", "items 0:0:2a707472:64:6162636400010000 16:4:6162635f:12:abc0 end 2"),
        ("itemsat L repeat", "items 0:0:2a707472:64:6162636400010000 16:4:6162635f:12:abc0 end 2"),
        ("walkat 66696f5f L", "walk 0:0:0:2a707472:64 0:16:4:6162635f:12 end 2"), ("walkat - L", "walk 0:0:0:2a707472:64 0:16:4:6162635f:12 end 2"),
        ("findat 6162635f L -", "found packet 16 4 12 abc0"), ("findat 2a707472 L -", "found packet 0 0 64 6162636400010000"),
        ("nthat 6162635f 0 L", "found packet 16 4 12 abc0"), ("nthat 6162635f 1 L", "refused 34"),
        # a name that is only in the standing packet, and one that is in both
        ("findat 6162635f S L", "found standing 16 4 12 abc0"), ("findat 7a7a7a5f S L", "found packet 0 7 1 80"),
        ("findat 6162635f - L", "found standing 16 4 12 abc0"), ("findat 6162635f A L", "found packet 0 0 8 61"),
        ("findat 6162635f L A", "found packet 16 4 12 abc0"), ("findat 6162635f L L", "found packet 16 4 12 abc0"),
        # names that repeat on both levels
        ("walkat 66696f5f G once", "refused 31"), ("walkat 66696f5f G", "refused 31"),
        ("walkat 66696f5f G repeat", "walk 0:0:0:2a707472:64 0:16:0:66696f5f:152 1:24:0:6162635f:8 1:33:4:6162635f:12 0:43:0:66696f5f:120 "
                                     "1:51:4:6162635f:12 0:66:7:7a7a7a5f:1 end 7"),
        ("walkat - G repeat", "walk 0:0:0:2a707472:64 0:16:0:66696f5f:152 0:43:0:66696f5f:120 0:66:7:7a7a7a5f:1 end 7"),
        ("itemsat G repeat", "items 0:0:2a707472:64:6162636400010000 16:0:66696f5f:152:6162635f00000008616162635f0000000cabcf "
                             "43:0:66696f5f:120:6162635f0000000cabcf0000000000 66:7:7a7a7a5f:1:80 end 7"),
        ("nthat 66696f5f 1 G repeat", "found packet 43 0 120 6162635f0000000cabcf0000000000"), ("nthat 7a7a7a5f 0 G repeat", "found packet 66 7 1 80"),
        ("nthat 6162635f 0 G repeat", "refused 34"),
        # occurrences, and filler
        ("itemsat X repeat", "items 0:0:6162635f:8:61 9:0:2a646d79:0:- 17:4:6162635f:12:abcf 27:0:2a646d79:0:- 35:0:6162635f:0:- end 3"),
        ("nthat 6162635f 0 X repeat", "found packet 0 0 8 61"), ("nthat 6162635f 1 X repeat", "found packet 17 4 12 abcf"),
        ("nthat 6162635f 2 X repeat", "found packet 35 0 0 -"), ("nthat 6162635f 3 X repeat", "refused 34"), ("nthat 6162635f 0 X", "refused 31"),
        ("nthat 2a646d79 0 X repeat", "found packet 9 0 0 -"), ("nthat 2a646d79 1 X repeat", "found packet 27 0 0 -"),
        ("findat 2a646d79 X - repeat", "found packet 9 0 0 -"), ("findat 2a646d79 A X repeat", "found standing 9 0 0 -"), ("itemsat X", "refused 31"),
        # an item of no bits at the end; nothing
        ("itemsat E", "items 0:0:6162635f:8:61 9:0:656e645f:0:- end 0"), ("findat 656e645f S E", "found standing 9 0 0 -"),
        ("itemsat -", "items end 0"), ("itemsat 00000000000000", "items end 7"), ("itemsat 0000000000000000", "items 0:0:00000000:0:- end 0"),
        ("walkat - -", "walk end 0"), ("findat 6162635f - -", "refused 34"), ("nthat 6162635f 0 -", "refused 34"))

# a name; the packet and the standing packet, as `row` of repeats.py writes them; the answer, or those with `once` and with `repeat`
FOUND = (("a", "a1", "", "packet 0 0 8 31"), ("a", "", "a1", "standing 0 0 8 31"), ("a", "b1 a2", "c3", "packet 9 0 8 32"),
         ("a", "b1 c2", "d3 a4", "standing 9 0 8 34"), ("a", "b1", "c22 d333 a4", "standing 21 0 8 34"), ("a", "b1 c2 d3", "a4", "standing 0 0 8 34"),
         ("a", "b1 a", "a2", "packet 9 0 0 -"), ("a", "b1", "b22 a", "standing 10 0 0 -"), ("p", "a1", "b2 p12345678", "standing 9 0 64 3132333435363738"),
         ("a", "", "", 34), ("c", "a1", "b2", 34),
         # in both
         ("a", "b1 a2", "a3", "packet 9 0 8 32"), ("a", "a1", "b2 a3", "packet 0 0 8 31"), ("a", "b1 a2", "c3 a4", "packet 9 0 8 32"),
         ("a", "b1 c2 a3", "a3", "packet 18 0 8 33"),
         # filler
         ("*", "a1 *2 *3", "*4", "packet 9 0 8 32"), ("*", "a1", "b2 c3 *4 *5", "standing 18 0 8 34"),
         # repeats in the packet, in the standing packet, in both
         ("a", "b1 a2 a3", "", 31, "packet 9 0 8 32"), ("a", "b1 b2 a3", "a4", 31, "packet 18 0 8 33"), ("a", "b1 b2", "c3 a4", 31, "standing 9 0 8 34"),
         ("a", "b1", "b2 a3 a4", 31, "standing 9 0 8 33"), ("b", "b1", "a3 a4", 31, "packet 0 0 8 31"), ("c", "a1 a2", "b3 b4 c5 c6", 31, "standing 18 0 8 35"),
         ("d", "a1 a2", "b3 b4", 31, 34))


def inside(name, packet, padding=0):
    return whole(name_of(name), packet + bytes(padding))


# packets with the containers f and g, in which no name repeats on a level; the answer
NESTS = ((inside("f", row("a1 b2")) + inside("g", row("a3")),
          "walk 0:0:0:66696f5f:144 1:8:0:61616161:8 1:17:0:62626262:8 0:26:0:67676767:72 1:34:0:61616161:8 end 0"),
         # empty ones, and items behind them
         (row("f a1"), "walk 0:0:0:66696f5f:0 0:8:0:61616161:8 end 0"), (row("a1 f"), "walk 0:0:0:61616161:8 0:9:0:66696f5f:0 end 0"),
         (row("f g a1"), "walk 0:0:0:66696f5f:0 0:8:0:67676767:0 0:16:0:61616161:8 end 0"),
         (inside("f", row("g a1")) + row("a2"), "walk 0:0:0:66696f5f:136 1:8:0:67676767:0 1:16:0:61616161:8 0:25:0:61616161:8 end 0"),
         # padding behind the items of a container, or alone in it
         (inside("f", row("a1"), 3) + row("b2"), "walk 0:0:0:66696f5f:96 1:8:0:61616161:8 0:20:0:62626262:8 end 0"),
         (inside("f", b"", 7) + row("b2") + bytes(5), "walk 0:0:0:66696f5f:56 0:15:0:62626262:8 end 5"),
         (inside("f", row("a1") + inside("g", row("a2"), 2) + row("b3"), 4) + row("c4") + bytes(6),
          "walk 0:0:0:66696f5f:328 1:8:0:61616161:8 1:17:0:67676767:88 2:25:0:61616161:8 1:36:0:62626262:8 0:49:0:63636363:8 end 6"),
         # an item behind two containers that end at once; unused bits inside and behind
         (row("a1") + inside("f", inside("g", row("a2"))) + row("b3"),
          "walk 0:0:0:61616161:8 0:9:0:66696f5f:136 1:17:0:67676767:72 2:25:0:61616161:8 0:34:0:62626262:8 end 0"),
         (inside("f", ABC + item(b"zzzz", 1, b"\x80")) + ABC, "walk 0:0:0:66696f5f:152 1:8:4:6162635f:12 1:18:7:7a7a7a7a:1 0:27:4:6162635f:12 end 0"),
         # a container in one of its name; depth 4
         (inside("f", inside("f", row("f"))), "walk 0:0:0:66696f5f:128 1:8:0:66696f5f:64 2:16:0:66696f5f:0 end 0"),
         (nested(3, inside=ABC), "walk 0:0:0:66696f5f:272 1:8:0:66696f5f:208 2:16:0:66696f5f:144 3:24:0:66696f5f:80 4:32:4:6162635f:12 end 0"))
# an item before and one behind on each level, and 4, 3, 2 and 1 bytes of padding behind those in a container
DEEP = ("walk 0:0:0:61616161:8 0:9:0:66696f5f:848 1:17:0:61616161:8 1:26:0:66696f5f:608 2:34:0:61616161:8 2:43:0:66696f5f:376 3:51:0:61616161:8 "
        "3:60:0:66696f5f:152 4:68:0:61616161:8 4:77:0:62626262:8 3:87:0:62626262:8 2:98:0:62626262:8 1:110:0:62626262:8 0:123:0:62626262:8 end 0")


def at(question):
    """The question that asks for starts too."""
    first, blank, rest = question.partition(" ")
    return f"{first}at{blank}{rest}"


def hand_questions():
    for question, answer in HAND:
        yield asked(" ".join(LETTERS.get(word, word) for word in question.split()), answer)


def row_questions():
    for text in ("a1 b22 c333 d4444 e55555 f", "a b c d e f", "*1 *2 *33 *", "p12345678 a1 * b22 *333", "f1 g22 a", "a b1 c d1 e f1"):
        packet, starts = row(text), [len(row(" ".join(text.split()[:k]))) for k in range(len(text.split()))]
        written = [f"{start}:0:{name_of(word[0]).hex()}:{8 * len(word[1:])}" for start, word in zip(starts, text.split())]
        for n in (0, 1, 7):
            yield from same(f"walkat - {(packet + bytes(n)).hex()}", " ".join(["walk", *("0:" + one for one in written), f"end {n}"]))
        shown = [f"{one}:{hexed(word[1:].encode())}" for one, word in zip(written, text.split())]
        yield from same(f"itemsat {packet.hex()}", " ".join(["items", *shown, "end 0"]))


def digit_questions():
    for start in (8, 9, 10, 11, 99, 100, 101, 255, 256, 257, 999, 1000, 1001, 9999, 10000, 10001):
        packet = whole(b"bbbb", bytes(start - HEAD)) + ABC
        yield asked(f"walkat - {packet.hex()}", f"walk 0:0:0:62626262:{8 * (start - HEAD)} 0:{start}:4:6162635f:12 end 0")
        if start in (100, 1000, 10000):
            yield asked(f"findat 6162635f {packet.hex()} -", f"found packet {start} 4 12 abc0")
            yield asked(f"findat 6162635f {row('a1').hex()} {packet.hex()}", f"found standing {start} 4 12 abc0")
            yield asked(f"nthat 6162635f 0 {packet.hex()}", f"found packet {start} 4 12 abc0")
            # in a container, whose head is before the first item's
            size, inner = start - 2 * HEAD, inside("f", whole(b"bbbb", bytes(start - 2 * HEAD)) + ABC)
            yield asked(f"walkat {FIO} {inner.hex()}", f"walk 0:0:0:66696f5f:{8 * (size + 18)} 1:8:0:62626262:{8 * size} 1:{start}:4:6162635f:12 end 0")


def found_questions():
    for letter, packet, standing, *answers in FOUND:
        written = [answer if isinstance(answer, int) else f"found {answer}" for answer in answers]
        yield from both(f"findat {name_of(letter).hex()} {hexed(row(packet))} {hexed(row(standing))}", written[0], written[-1])
    # padding of the packet is not before the standing packet
    for n in range(8):
        yield asked(f"findat 61616161 {(row('b1') + bytes(n)).hex()} {(row('c2 a3') + bytes(7 - n)).hex()}", "found standing 9 0 8 33")
    # bytes of a value that are those of the item
    as_item = whole(b"bbbb", row("a1"))
    for packet, standing, answer in ((as_item, row("a1"), "standing 0 0 8 31"), (row("b1"), as_item + row("a1"), "standing 17 0 8 31"),
                                     (as_item + row("a1"), row("a1"), "packet 17 0 8 31"), (as_item, as_item + row("c2 a1"), "standing 26 0 8 31")):
        yield from same(f"findat 61616161 {packet.hex()} {standing.hex()}", f"found {answer}")
    yield asked(f"findat 61616161 {as_item.hex()} {as_item.hex()}", 34)


def unused_questions():
    for bits, unused in (*enumerate(UNUSED), *MORE):
        value = b"\xff" * ((bits + unused) // 8)
        one, shown, behind = item(b"abc_", bits, value), f"{unused} {bits} {hexed(value)}", 17 + len(value)
        yield asked(f"walkat - {(row('a1') + one + row('b')).hex()}", f"walk 0:0:0:61616161:8 0:9:{unused}:6162635f:{bits} 0:{behind}:0:62626262:0 end 0")
        if bits < 100:
            yield asked(f"itemsat {one.hex()}", f"items 0:{unused}:6162635f:{bits}:{hexed(value)} end 0")
            yield asked(f"findat 6162635f {(row('a1') + one).hex()} {one.hex()}", f"found packet 9 {shown}")
            yield asked(f"findat 6162635f {row('a1').hex()} {(row('a1 b') + one).hex()}", f"found standing 17 {shown}")
            yield asked(f"nthat 6162635f 1 {(2 * one).hex()} repeat", f"found packet {len(one)} {shown}")
    values = [b"\xff" * ((bits + unused) // 8) for bits, unused in enumerate(UNUSED)]
    packet = b"".join(item(b"abc_", bits, value) for bits, value in enumerate(values))
    yield from both(f"itemsat {packet.hex()}", 31)
    for bits, value in enumerate(values):
        start = HEAD * bits + len(b"".join(values[:bits]))
        yield asked(f"nthat 6162635f {bits} {packet.hex()} repeat", f"found packet {start} {UNUSED[bits]} {bits} {hexed(value)}")
    for bits in (9, 2**16, 2**31, 2**32 - 8, 2**32 - 7, 2**32 - 1):
        past = (row("a1") + item(b"past", bits, b"\xff")).hex()
        for question in (f"itemsat {past}", f"walkat {FIO} {past}", f"findat 61616161 {past} -", f"findat 61616161 - {past}", f"nthat 61616161 0 {past}"):
            yield from both(question, 30, 30)


def nest_questions():
    deep = row("a1 b2")
    for padding in range(1, 5):
        deep = row("a1") + inside("f", deep, padding) + row("b2")
    for packet, answer in (*NESTS, (deep, DEEP)):
        yield from same(f"walkat {FIO}{OTHER} {packet.hex()}", answer)
        # with fewer containers
        for names in (FIO, OTHER, "-"):
            yield asked(f"walkat {names} {packet.hex()}")
    for depth in range(1, 5):
        for padding in range(8):
            size = len(ABC + row("a1")) + padding
            heads = [f"{k}:{8 * k}:0:{FIO}:{8 * (8 * (depth - 1 - k) + size)}" for k in range(depth)]
            behind = f"{depth}:{8 * depth}:4:6162635f:12 {depth}:{8 * depth + 10}:0:61616161:8 0:{8 * depth + size}:0:7a7a7a7a:8 end 0"
            packet = nested(depth - 1, inside=ABC + row("a1") + bytes(padding)) + row("z1")
            yield asked(f"walkat {FIO} {packet.hex()}", " ".join(["walk", *heads, behind]))
    # the same container again
    yield from both(f"walkat {FIO} {(3 * inside('f', ABC)).hex()}", 31, "walk 0:0:0:66696f5f:80 1:8:4:6162635f:12 0:18:0:66696f5f:80 1:26:4:6162635f:12 "
                                                                        "0:36:0:66696f5f:80 1:44:4:6162635f:12 end 0")
    # filler and "*ptr" as containers
    yield from same(f"walkat {FILLER.hex()} {(2 * whole(FILLER, ABC)).hex()}",
                    "walk 0:0:0:2a646d79:80 1:8:4:6162635f:12 0:18:0:2a646d79:80 1:26:4:6162635f:12 end 0")
    yield asked(f"walkat 2a707472 {(row('a1') + whole(b'*ptr', row('a'))).hex()}", "walk 0:0:0:61616161:8 0:9:0:2a707472:64 1:17:0:61616161:0 end 0")


def nth_questions():
    for count in range(1, 10):
        # so many of one name, with 0 to 3 bytes, and one of three others behind every second of them
        words = [word for k in range(count) for word in ([f"a{'x' * (k % 4)}"] if k % 2 else [f"a{'x' * (k % 4)}", f"{'bc*'[k // 2 % 3]}{k}"])]
        packet, met = row(" ".join(words)).hex(), {}
        for k, word in enumerate(words):
            number, start, value = met.get(word[0], 0), len(row(" ".join(words[:k]))), word[1:].encode()
            met[word[0]] = number + 1
            yield asked(f"nthat {name_of(word[0]).hex()} {number} {packet} repeat", f"found packet {start} 0 {8 * len(value)} {hexed(value)}")
        for letter, number in met.items():
            yield asked(f"nthat {name_of(letter).hex()} {number} {packet} repeat", 34)
    # items that are the same to the letter, and a value that is
    alike, as_item = row("a1 a1 a1 a1").hex(), (whole(b"bbbb", row("a1")) + row("a1 a1")).hex()
    for number, start in enumerate((0, 9, 18, 27)):
        yield from both(f"nthat 61616161 {number} {alike}", 31, f"found packet {start} 0 8 31")
    yield from both(f"nthat 61616161 4 {alike}", 31, 34)
    for number, answer in ((0, "found packet 17 0 8 31"), (1, "found packet 26 0 8 31"), (2, 34)):
        yield from both(f"nthat 61616161 {number} {as_item}", 31, answer)
    yield from same(f"nthat 2a646d79 2 {row('*1 *1 *1').hex()}", "found packet 18 0 8 31")


def plain_questions():
    # the questions of document 01, with either word, and those of Item 1: what is refused there is refused here, what is shown there is shown here
    for part in (packets.reading_edges, packets.finding_edges, packets.walking_edges):
        for _, question, answer in part():
            yield from both(at(question), answer if answer.startswith("refused") else None)
    for part in (repeats.order_questions, repeats.alone_questions, repeats.container_questions, repeats.beyond_questions, repeats.zeros_questions):
        for question, answer in part():
            yield asked(at(question), answer if answer.startswith(("refused", "unknown")) else None)


def longest_questions():
    heads = MOST_BYTES // HEAD
    many, filler = b"".join(item(k.to_bytes(4, "big"), 0, b"") for k in range(heads)), item(FILLER, 0, b"")
    # four containers in each other and one item in the last; at the end two in the last. Of heads alone, no packet has more digits of bits
    chains = 818 * nested(4, FILLER) + nested(3, FILLER, 2 * filler)
    digits = 818 * len("256 192 128 64 0".replace(" ", "")) + len("320 256 192 128 0 0".replace(" ", ""))
    assert len(many) == len(chains) == MOST_BYTES
    # starts have five digits but for those below 10,000: 2 have one, 11 two, 112 three, 1,125 four
    fewer = 4 * 2 + 3 * 11 + 2 * 112 + 1125
    for question, letters in ((f"itemsat {many.hex()}", len("items end 0") + heads * len(" 10000:0:00000000:0:-")),
                              (f"walkat - {(heads * filler).hex()}", len("walk end 0") + heads * len(" 0:10000:0:2a646d79:0")),
                              (f"walkat {FILLER.hex()} {chains.hex()}", len("walk end 0") + heads * len(" 0:10000:0:2a646d79:") + digits)):
        one = asked(question)
        assert len(one[1]) == letters - fewer, (len(one[1]), letters, fewer)
        yield one
    # the last start that there is
    yield asked(f"findat {heads - 1:08x} {many.hex()} -", "found packet 32760 0 0 -")
    yield asked(f"findat {heads - 1:08x} - {many.hex()}", "found standing 32760 0 0 -")
    yield asked(f"nthat 2a646d79 {heads - 1} {(heads * filler).hex()}", "found packet 32760 0 0 -")
    yield asked(f"itemsat {many.hex()}00", "unknown")


def spread_questions():
    numbers = packets.draw(11)
    for _ in range(20):
        one, two = hexed(repeats.some_packet(numbers)), hexed(repeats.some_packet(numbers))
        yield from both(f"walkat {FIO} {one}")
        yield asked(f"itemsat {two} repeat")
        for name in ("61616161", "62626262", "2a646d79"):
            yield asked(f"findat {name} {one} {two} repeat")
            yield asked(f"nthat {name} {next(numbers) % 3} {two} repeat")


def malformed_questions():
    # what makes a plain question malformed makes these so
    for question, _ in repeats.malformed_questions():
        if question.split(" ")[0] in PLAIN:
            yield asked(at(question), "unknown")
    for line in ("itemat -", "itemsats -", "itemsAt -", "Itemsat -", "ITEMSAT -", "items at -", "items_at -", "items - at", "items at", "itemsat: -",
                 " itemsat -", "itemsat - -", "itemsat 0", "itemsat 616", "itemsat 6G", "itemsat AB", "itemsat --", "walkat -", "walkat - - -", "walkat 6 -",
                 "walkat - 0", "walkat FF -", "walksat - -", "walk at - -", "Walkat - -", "findat 6162635f -", "findat 616263 - -", "findat - - -",
                 "findat 6162635f - - -", "findat 6162635f 0 -", "findat 6162635f - 0", "findat 6162635F - -", "findat 6162635f00 - -",
                 "findat packet 6162635f - -", "findsat 6162635f - -", "foundat 6162635f - -", "find at 6162635f - -", "nthat 6162635f 0 - -",
                 "nthat 6162635f -", "nthat 6162635f - 0", "nthsat 6162635f 0 -", "nth at 6162635f 0 -", "nthat 0 6162635f -", "listat -",
                 "itemat 61626364 0 8 -", "at -", "found packet 16 4 12 abc0", "packet", "standing", f"itemsat {L} twice", f"itemsat {X} 0",
                 f"nthat 6162635f {2**64} {X} repeat", f"walkat {FIO * 9} {X} onces"):
        yield asked(line, "unknown")


PARTS = (("document 02, Item 11: \"Stepping to the next item shall also give the byte at which it starts\"; the rows that are worked by hand", hand_questions),
         ("\"the byte at which it starts\": items in a row", row_questions),
         ("starts of one to five digits", digit_questions),
         ("\"in the lent packet that holds it (finding also says which)\"", found_questions),
         ("\"and how many unused bits its last byte has\"", unused_questions),
         ("\"Nested walks give the start within the outermost packet\"", nest_questions),
         ("\"Finding, walking [..] and Items 1 and 2 take it from there\": occurrences", nth_questions),
         ("\"No new refusals\"; document 01: \"At one item: 30, 31, 33, 35, 32; the leftmost item at fault decides\"", plain_questions),
         ("the longest packets: as many starts as there can be, and the last of them", longest_questions),
         ("a spread of starts", spread_questions),
         ("malformed questions on starts", malformed_questions))


if __name__ == "__main__":
    usage.show(__doc__, PARTS)
