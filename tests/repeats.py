"""Questions on repeated names, with the answers that they must get, each group under the sentence
of document 02, Item 1, that gives it.

    python3 tests/repeats.py      prints each question and its answer

Every answer is worked out by the reader of reader.py. Those that are written out by hand have to be
the same; and where names may not repeat, what the reader of packets.py says.
"""
import packets
import usage
from packets import ABC, CONTAINER, PTR, hexed, item, nested, whole
from reader import FILLER, MOST_BYTES, asked, both, computed, same

MARKS = 4093  # the code has so many marks for names: those that leave one remainder share a mark, and are different names all the same
SHORT = item(b"*ptr", 63, bytes(8))  # 33
PAST = item(b"past", 17, bytes(2))  # 30

X = "6162635f00000008612a646d79000000006162635f0000000cabcf2a646d79000000006162635f00000000000000"
# the packet of Item 11, where a container stands twice as well
G = ("2a70747200000040616263640001000066696f5f000000986162635f00000008616162635f0000000cabcf66696f5f000000786162635f0000000cabcf00000000007a7a7a5f0000"
     "00018000000000000000")
LETTERS = {"X": X, "G": G, "D": 2 * item(FILLER, 0, b"").hex(), "P": (PTR + SHORT).hex(), "Q": 2 * PTR.hex()}
HAND = (("items X", "refused 31"), ("items X once", "refused 31"),
        ("items X repeat", "items 6162635f:8:61 2a646d79:0:- 6162635f:12:abcf 2a646d79:0:- 6162635f:0:- end 3"),
        ("find 6162635f X - repeat", "found 8 61"), ("find 6162635f X - once", "refused 31"), ("find 6162635f X -", "refused 31"),
        ("nth 6162635f 0 X repeat", "found 8 61"), ("nth 6162635f 1 X repeat", "found 12 abcf"), ("nth 6162635f 2 X repeat", "found 0 -"),
        ("nth 6162635f 3 X repeat", "refused 34"), ("nth 2a646d79 1 X repeat", "found 0 -"), ("nth 2a646d79 2 X repeat", "refused 34"),
        ("nth 6162635f 0 X once", "refused 31"), ("nth 6162635f 0 X", "refused 31"), ("nth 6162635f 18446744073709551615 X repeat", "refused 34"),
        ("find 6162635f - X repeat", "found 8 61"), ("find 6162635f - X once", "refused 31"), ("nth 6162635f 0 - repeat", "refused 34"),
        ("walk - X once", "refused 31"), ("walk - X repeat", "walk 0:6162635f:8 0:2a646d79:0 0:6162635f:12 0:2a646d79:0 0:6162635f:0 end 3"),
        # "*ptr" of 64 bits and then of 63, and twice of 64
        ("items P repeat", "refused 33"), ("items P once", "refused 31"), ("nth 2a707472 0 P repeat", "refused 33"), ("nth 2a707472 0 P once", "refused 31"),
        ("items Q repeat", "items 2a707472:64:6162636400010000 2a707472:64:6162636400010000 end 0"), ("items Q once", "refused 31"),
        ("nth 2a707472 1 Q repeat", "found 64 6162636400010000"), ("nth 2a707472 2 Q repeat", "refused 34"),
        # filler may always repeat
        ("nth 2a646d79 1 D once", "found 0 -"), ("nth 2a646d79 1 D", "found 0 -"), ("nth 2a646d79 2 D once", "refused 34"),
        ("items D", "items 2a646d79:0:- 2a646d79:0:- end 0"), ("walk 66696f5f G once", "refused 31"),
        ("walk 66696f5f G repeat", "walk 0:2a707472:64 0:66696f5f:152 1:6162635f:8 1:6162635f:12 0:66696f5f:120 1:6162635f:12 0:7a7a7a5f:1 end 7"))

# a name; the packet and the standing packet, as `row` writes them; the answers with `once` and with `repeat`. First, repeats in the packet only
FIRST = (("a", "a1 b2 a3", "", 31, "found 8 31"), ("a", "b1 b2 a3", "a4", 31, "found 8 33"), ("b", "a1 b2 b3 b4", "b5 c6", 31, "found 8 32"),
         ("c", "a1 b2 a3", "b5 c6", 31, "found 8 36"), ("a", "b1 a a2", "a3", 31, "found 0 -"),
         # in the standing packet only
         ("a", "b1", "a4 a5", 31, "found 8 34"), ("b", "b1", "a4 a5", 31, "found 8 31"), ("c", "", "b1 c2 b3 c4", 31, "found 8 32"),
         # in both
         ("a", "a1 a2", "a4 a5", 31, "found 8 31"), ("c", "a1 a2", "b3 b4 c5 c6", 31, "found 8 35"), ("d", "a1 a2", "b3 b4", 31, 34),
         # one in each is no repeat
         ("a", "a1 b2", "b3 a4", "found 8 31", "found 8 31"), ("c", "a1 b2", "b3 a4", 34, 34), ("a", "", "", 34, 34),
         # filler
         ("*", "a1 *2 *3", "*4", "found 8 32", "found 8 32"), ("*", "a1", "*4 *5", "found 8 34", "found 8 34"), ("*", "a1 a2", "*4 *5", 31, "found 8 34"))


def name_of(letter):
    return {"*": FILLER, "f": CONTAINER, "p": b"*ptr"}.get(letter) or 4 * letter.encode()


def row(text):
    """A packet of items with a letter for the name and the rest for the value: "a1 b2 a"."""
    return b"".join(whole(name_of(word[0]), word[1:].encode()) for word in text.split())


def hand_questions():
    for question, answer in HAND:
        yield asked(" ".join(LETTERS.get(word, word) for word in question.split()), answer)


def first_questions():
    for letter, packet, standing, once, repeat in FIRST:
        yield from both(f"find {name_of(letter).hex()} {hexed(row(packet))} {hexed(row(standing))}", once, repeat)
    # both are checked whole before either is searched, the packet first
    one, two = row("a1"), row("a1 a2")
    for packet, standing, once, repeat in ((one, PAST, 30, 30), (one, SHORT, 33, 33), (two, PAST, 31, 30), (PAST, two, 30, 30), (two, SHORT, 31, 33),
                                           (SHORT, two, 33, 33), (SHORT, PAST, 33, 33), (PAST, SHORT, 30, 30), (one, two + PAST, 31, 30),
                                           (one, PTR + SHORT, 31, 33), (two + PAST, SHORT, 31, 30), (one, PTR + PTR, 31, "found 8 31")):
        yield from both(f"find 61616161 {packet.hex()} {standing.hex()}", once, repeat)


def nth_questions():
    for count in range(1, 13):
        # so many of one name, and behind every second of them one of three others
        words = []
        for k in range(count):
            words += [f"a{k}"] if k % 2 else [f"a{k}", f"{'bc*'[k // 2 % 3]}{k}"]
        packet = row(" ".join(words)).hex()
        for k in range(count):
            value = str(k).encode()
            yield asked(f"nth 61616161 {k} {packet} repeat", f"found {8 * len(value)} {value.hex()}")
        yield asked(f"nth 61616161 {count} {packet} repeat", "refused 34")
        letter = "bc*"[count % 3]
        values = [word[1:].encode() for word in words if word[0] == letter]
        for k, value in enumerate(values):
            yield asked(f"nth {name_of(letter).hex()} {k} {packet} repeat", f"found {8 * len(value)} {value.hex()}")
        yield asked(f"nth {name_of(letter).hex()} {len(values)} {packet} repeat", "refused 34")
    for number, once, repeat in ((0, "found 8 31", "found 8 31"), (1, 34, 34)):
        yield from both(f"nth 61616161 {number} {row('b0 a1 c2').hex()}", once, repeat)
        yield from both(f"nth 61616161 {number} {row('b0 a1 c2 b3').hex()}", 31, repeat)


def bits_questions():
    for least in range(0, 65, 5):
        values = [bytes((37 * bits + 91 * i + 171) % 256 for i in range(-(-bits // 8))) for bits in range(least, least + 5)]
        packet = b"".join(item(b"abc_", bits, value) for bits, value in enumerate(values, least))
        yield asked(f"items {packet.hex()} repeat")
        for number, value in enumerate(values):
            yield asked(f"nth 6162635f {number} {packet.hex()} repeat", f"found {least + number} {hexed(value)}")


def alone_questions():
    packet, standing = row("b1 a2").hex(), row("a3 a4").hex()
    for wrong, number in ((PAST, 30), (SHORT, 33)):
        yield asked(f"find 61616161 {packet} {wrong.hex()} repeat", f"refused {number}")
    yield asked(f"find 61616161 - {standing} repeat", "found 8 33")
    yield from both("nth 61616161 0 -", 34, 34)
    yield from both(f"nth 61616161 0 {packet}", "found 8 32", "found 8 32")
    yield from both(f"nth 61616161 1 {packet}", 34, 34)
    # there is no word for a standing packet
    for words in (f"{packet} {standing}", f"{packet} -", f"{packet} {standing} repeat", f"{packet} - repeat", f"- {standing} once", "- -"):
        yield asked(f"nth 61616161 0 {words}", "unknown")


def stay_questions():
    # the questions of document 01 and the answers that are written there
    for part in (packets.reading_edges, packets.finding_edges, packets.walking_edges):
        for _, question, answer in part():
            yield from both(question, answer, None if answer == "refused 31" else answer)


def depth_questions():
    for depth in range(5):
        for inside, names in ((ABC + ABC, "6162635f:12 6162635f:12"), (ABC + PTR + ABC, "6162635f:12 2a707472:64 6162635f:12"),
                              (row("f f"), "66696f5f:0 66696f5f:0"), (row("a1 *2 a"), "61616161:8 2a646d79:8 61616161:0")):
            question = f"walk 66696f5f {nested(depth - 1, inside=inside).hex()}"
            yield from both(question, 31)
            assert computed(question + " repeat").endswith("".join(f" {depth}:{name}" for name in names.split()) + " end 0"), question
        yield from same(f"walk 66696f5f {nested(depth - 1, inside=row('*1 a2 *3')).hex()}")
    yield from both(f"walk 66696f5f {nested(4, inside=ABC + ABC).hex()}", 32, 32)


def container_questions():
    one, two, g = whole(CONTAINER, ABC), whole(CONTAINER, ABC + ABC), name_of("g")
    names, pointer = (CONTAINER + g).hex(), whole(b"*ptr", row("a"))
    # no repeat: in two containers, outside and inside, in itself, in containers that are filler; what is in no container is not looked at
    for question in (f"walk {names} {(one + whole(g, ABC)).hex()}", f"walk 66696f5f {(one + ABC).hex()}", f"walk 66696f5f {whole(CONTAINER, one).hex()}",
                     f"walk 2a646d79 {(2 * whole(FILLER, ABC)).hex()}", f"walk - {two.hex()}", f"walk {g.hex()} {two.hex()}", f"items {two.hex()}"):
        yield from same(question)
    # repeats: behind a container, in one or the second of two, and containers themselves, "*ptr" too
    for question in (f"walk 66696f5f {(ABC + whole(CONTAINER, PTR) + ABC).hex()}", f"walk {names} {(one + whole(g, ABC + ABC)).hex()}",
                     f"walk 66696f5f {(one + one).hex()}", f"walk 66696f5f {(one + two).hex()}", f"walk {names} {(whole(g, one + one) + one).hex()}",
                     f"walk 2a646d79 {whole(FILLER, ABC + ABC).hex()}", f"walk 2a707472 {(pointer + pointer).hex()}", f"walk 66696f5f {(one * 9).hex()}",
                     f"walk {'66696f5f' * 8} {(one + one).hex()}"):
        yield from both(question, 31)
        assert computed(question + " repeat").startswith("walk 0:"), question


def order_questions():
    one, two = row("a1"), row("a1 a2")
    for packet, once, repeat in ((two + PAST, 31, 30), (one + PAST, 30, 30), (one + item(b"aaaa", 17, bytes(2)), 30, 30), (two + SHORT, 31, 33),
                                 (SHORT + two, 33, 33), (PTR + one + SHORT, 31, 33), (one + SHORT + PTR, 33, 33), (SHORT + PAST, 33, 33),
                                 (PTR + PTR + PAST, 31, 30), (PTR + PTR + SHORT, 31, 33), (one + PTR + SHORT[:-1], 30, 30), (row("a1 *2 *3") + PAST, 30, 30),
                                 (one + b"\xff" * 8, 30, 30), (row("a1 b2 b3") + b"\xff" * 8, 31, 30)):
        for question in (f"items {packet.hex()}", f"find 61616161 {packet.hex()} -", f"walk 66696f5f {packet.hex()}", f"nth 61616161 0 {packet.hex()}"):
            yield from both(question, once, repeat)
    broken, inner, deep = item(CONTAINER, 12, bytes(2)), whole(CONTAINER, ABC), whole(b"gggg", nested(4))
    for packet, once, repeat in ((inner + broken, 31, 35), (broken + broken, 35, 35), (two + broken, 31, 35), (two + nested(5), 31, 32),
                                 (inner + nested(5), 31, 32), (nested(5) + nested(5), 32, 32), (whole(CONTAINER, PAST) + two, 30, 30),
                                 (whole(CONTAINER, two + PAST), 31, 30), (whole(CONTAINER, PTR + PTR + SHORT), 31, 33), (deep + deep, 32, 32),
                                 (nested(4, inside=SHORT), 33, 33)):
        yield from both(f"walk 66696f5f67676767 {packet.hex()}", once, repeat)
    # the container list comes first
    for names in ("66696f5f" * 9, "66696f5f67", "66"):
        for packet in (two, PAST, b""):
            yield from both(f"walk {names} {hexed(packet)}", 43, 43)


def beyond_questions():
    packet = row("a1 b2 a3")
    for n in range(8):
        # padding that begins as an item of the name would
        padded = (packet + item(b"aaaa", 0, b"")[:n]).hex()
        yield from both(f"items {padded}", 31, f"items 61616161:8:31 62626262:8:32 61616161:8:33 end {n}")
        yield from both(f"nth 61616161 1 {padded}", 31, "found 8 33")
        yield from both(f"nth 61616161 2 {padded}", 31, 34)
        yield asked(f"nth 61616161 0 {hexed(b'aaaaaaa'[:n])}", "refused 34")
    yield asked(f"nth 61616161 2 {(packet + item(b'aaaa', 0, b'')).hex()} repeat", "found 0 -")
    # names that are not there: a byte is another, in a container, in a value
    for name in ("61616162", "61616061", "61416161", "e1616161", "00000000", "ffffffff", "2a646d79"):
        yield asked(f"nth {name} 0 {packet.hex()} repeat", "refused 34")
    for other in (whole(CONTAINER, packet), row("baaaa")):
        yield from both(f"nth 61616161 0 {other.hex()}", 34, 34)
    for number in (3, 255, 256, 257, 65535, 65536, 65537, 2**31, 2**32 - 1, 2**32, 2**32 + 1, 2**63, 2**63 + 1, 2**64 - 2, 2**64 - 1):
        yield asked(f"nth 61616161 {number} {packet.hex()} repeat", "refused 34")
    yield asked(f"nth 62626262 {2**64 - 1} {row('b1').hex()}", "refused 34")


def mark_questions():
    for number in (0, *(int.from_bytes(name, "big") for name in (b"aaaa", FILLER, b"*ptr")), 2**32 - 1):
        names = [(number + MARKS * step).to_bytes(4, "big") for step in range(-2, 3) if 0 <= number + MARKS * step < 2**32]
        items = [PTR if name == b"*ptr" else whole(name, bytes([place])) for place, name in enumerate(names)]
        packet, last = b"".join(items), names[-1].hex()
        for question in (f"items {packet.hex()}", f"find {last} {packet.hex()} {packet.hex()}", f"nth {last} 0 {packet.hex()}",
                         f"walk {names[0].hex()} {(whole(names[0], packet) + b''.join(items[1:])).hex()}"):
            yield from same(question)
        for name, again in zip(names, items):
            yield from same(f"nth {name.hex()} 1 {(packet + again).hex()}") if name == FILLER else both(f"nth {name.hex()} 1 {(packet + again).hex()}", 31)
    many = [(97 + MARKS * step).to_bytes(4, "big") for step in range(60)]
    packet = b"".join(item(name, 0, b"") for name in many)
    yield asked(f"items {packet.hex()} once")
    for place in (0, 59):
        yield from both(f"nth {many[place].hex()} 1 {(packet + whole(many[place], b'1')).hex()}", 31, "found 8 31")


def longest_questions():
    values = [bytes([k * k % 251]) for k in range(3639)] + [b"the last."]
    packet = b"".join(whole(b"aaaa", value) for value in values)
    assert len(packet) == MOST_BYTES, len(packet)
    yield from both(f"items {packet.hex()}", 31)
    yield asked(f"nth 61616161 3639 {packet.hex()} repeat", f"found 72 {b'the last.'.hex()}")
    yield asked(f"nth 61616161 257 {packet[:9 * 257].hex()} repeat", "refused 34")


def some_packet(numbers, depth=0):
    """A packet of a few items, with few names."""
    packet = b""
    for _ in range(next(numbers) % 6):
        letter = "f*pabab"[next(numbers) % 7]
        size = 8 if letter == "p" else next(numbers) % 4
        value = some_packet(numbers, depth + 1) if letter == "f" and depth < 5 else bytes(next(numbers) % 256 for _ in range(size))
        unused = next(numbers) % 8 if value and letter in "ab" else int(letter == "p" and next(numbers) % 9 == 0)
        packet += item(name_of(letter), 8 * len(value) - unused, value)
    return packet + bytes(next(numbers) % 8)


def spread_questions():
    numbers = packets.draw(5)
    for _ in range(16):
        one, two = hexed(some_packet(numbers)), hexed(some_packet(numbers))
        yield from both(f"walk 66696f5f {one}")
        for name in ("61616161", "62626262"):
            yield asked(f"find {name} {one} {two} repeat")
            yield asked(f"nth {name} {next(numbers) % 3} {two} repeat")


def malformed_questions():
    wrong = ("", "twice", "Once", "ONCE", "onc", "onces", "Repeat", "REPEAT", "repea", "repeats", "repeated", "0", "1", "-", "00", "new", "once ", "repeat ",
             " once", " repeat", "once once", "once repeat", "repeat once", "repeat repeat", "repeat 0", "repeat -", "once\t", "repeat\r")
    for line in ("items -", "find 6162635f - -", "walk - -", "nth 6162635f 0 -"):
        first, rest = line.split(" ", 1)
        fewer = line.removesuffix(" -")
        for question in (*(f"{line} {word}" for word in wrong), f"{first} repeat {rest}", f"{first} repeat", f"{fewer} once", f"{fewer} repeat -",
                         f"{first}  {rest} repeat", f"{line}\trepeat", f"{first}"):
            yield asked(question, "unknown")
    for line in ("nth ", "nth 6162635f", "nth 6162635f 0 ", "nth 6162635f -", "nth 6162635f repeat 0 -", "nth 0 6162635f -", "Nth 6162635f 0 -",
                 "NTH 6162635f 0 -", "nt 6162635f 0 -", "nths 6162635f 0 -", " nth 6162635f 0 -", "find 6162635f 0 - - repeat", "list - once", "list - repeat",
                 "afcheck - once", "item 61626364 0 8 - repeat", "crc - once", "found 8 61"):
        yield asked(line, "unknown")
    # a malformed word comes before each refusal
    for line in (f"items {X} twice", f"find 6162635f {X} {X} twice", f"walk {'66696f5f' * 9} {X} twice", f"nth 6162635f 0 {X} twice"):
        yield asked(line, "unknown")
    for name in ("-", "61", "616263", "6162635", "6162635F", "6162635g", "6162635f0", "6162635f00"):
        yield asked(f"nth {name} 0 - repeat", "unknown")
    for number in ("-", "-1", "+1", "1.0", "1,000", "0x1", "1a", "a", "1e2", "", 2**64, 2**64 + 1, 10**20, 10**30, f"000{2**64}", 10 * 2**64):
        for word in ("", " once", " repeat"):
            yield asked(f"nth 6162635f {number} {X}{word}", "unknown")
    for packet in ("0", "616", "6g", "AB", "--", "-0", "0x00", "00,00"):
        yield asked(f"nth 6162635f 0 {packet} repeat", "unknown")


def zeros_questions():
    for number, answer in (("00", "found 8 61"), ("01", "found 12 abcf"), ("0" * 30 + "2", "found 0 -"), ("0" * 1000 + "1", "found 12 abcf"),
                           ("03", "refused 34"), ("0" * 100 + str(2**64 - 1), "refused 34")):
        yield asked(f"nth 6162635f {number} {X} repeat", answer)
    # a name and a number may have the same digits
    yield asked("nth 00000000 00000000 0000000000000000", "found 0 -")
    yield asked("nth 00000000 61626364 0000000000000000", "refused 34")


PARTS = (("document 02, Item 1: \"From now on the caller says whether names may repeat\"", hand_questions),
         ("\"Where they may, finding by name shows the first\"", first_questions),
         ("\"and a second call shows the occurrence of a given number, counted from 0\"", nth_questions),
         ("occurrences of 0 to 64 bits", bits_questions),
         ("\"over the packet alone, without the standing packet\"", alone_questions),
         ("\"Where they may not, all stays as it was\"", stay_questions),
         ("\"31 only when repeats are forbidden\"; document 01: \"In one packet, on one level, a name other than '*dmy' occurs once\"", depth_questions),
         ("\"a container's value is again a packet\": names in containers, and the names of containers", container_questions),
         ("without 31 the order is the same: \"At one item: 30, 31, 33, 35, 32; the leftmost item at fault decides\"", order_questions),
         ("\"34 also for an occurrence beyond the last\"", beyond_questions),
         ("different names that leave one remainder by 4,093", mark_questions),
         ("the longest packet of one name", longest_questions),
         ("a spread of repeated names", spread_questions),
         ("malformed questions on repeated names: a last word that is neither `once` nor `repeat`", malformed_questions),
         ("zeros in front change no number of an occurrence", zeros_questions))


if __name__ == "__main__":
    usage.show(__doc__, PARTS)
