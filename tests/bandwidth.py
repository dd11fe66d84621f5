"""Questions on the bandwidth readout, with the answers that they must get, each group under the
sentence of document 02, Item 10, that gives it.

    python3 tests/bandwidth.py    prints each question and its answer

Every answer is worked out by readout.py. Those that are written out have to be the same. Of each
width the item is written again, and has to be the one that was read; each item that is written has
to read as its figure; and a record has to hold what `rbw` answers to the same packets.
"""
from fractions import Fraction

import packets
import repeats
import usage
from packets import PTR, hexed, item, whole
from reader import FILLER, MOST_BYTES
from readout import FRESH, NAME, asked, both, computed, pattern_of, value_of
from repeats import PAST, SHORT

# the two bytes, and the pattern that they read as
PAPER = (("0000", "00000000"), ("0001", "3b800000"), ("00ff", "3f7f0000"), ("0100", "3f800000"), ("0101", "3f808000"), ("0480", "40900000"),
         ("0a00", "41200000"), ("7fff", "42fffe00"), ("8000", "43000000"), ("fffe", "437ffe00"), ("ffff", "437fff00"))
HAND = (("2a7074720000004061626364000100007262775f000000100480 -", "width 40900000"),
        ("2a7074720000004061626364000100007262775f00000000 -", "notavailable"), ("7262775f0000000804 -", "refused 60"),
        ("7262775f0000000f0480 -", "refused 60"), ("7262775f00000011048000 -", "refused 60"), ("2a707472000000406162636400010000 -", "refused 34"),
        ("- -", "refused 34"), ("7262775f0000001004 -", "refused 30"), ("7262775f0000001004807262775f000000100480 -", "refused 31"),
        ("7262775f0000001004807262775f000000100480 - once", "refused 31"), ("7262775f0000001004807262775f000000100480 - repeat", "width 40900000"),
        ("- 7262775f000000100480", "width 40900000"), ("- 7262775f00000000", "notavailable"), ("- 7262775f0000000804", "refused 60"),
        ("7262772d000000100480 -", "refused 34"), ("5262775f000000100480 -", "refused 34"), ("6162635f000000507262775f000000100480 -", "refused 34"))

# items "rbw_": 4.5, 10, 1/256, 0 and the most; no figure; 8 bits
ITEMS = {"r": whole(NAME, b"\4\x80"), "t": whole(NAME, b"\12\0"), "u": whole(NAME, b"\0\1"), "z": whole(NAME, b"\0\0"), "m": whole(NAME, b"\xff\xff"),
         "n": whole(NAME, b""), "w": whole(NAME, b"\4")}
# others: one of the same shape, one with unused bits, one that holds a figure's item, filler; "*ptr", and one that is due 33; one that is due 30
ITEMS |= {"a": whole(b"aaaa", b"\12\0"), "b": item(b"bbbb", 3, b"\xe0"), "c": whole(b"cccc", ITEMS["r"]), "*": whole(FILLER, b"\12\0"), "p": PTR, "q": SHORT,
          "x": PAST}
FIGURE, OTHER, NONE = "width 40900000", "width 41200000", "notavailable"
# the packet and the standing packet; the answer, or those with `once` and with `repeat`. First, in the packet or nowhere
FOUND = (("r", "", FIGURE), ("a r", "", FIGURE), ("r a", "", FIGURE), ("b r a", "", FIGURE), ("p b t", "", OTHER), ("* r *", "* *", FIGURE),
         ("a n b", "", NONE), ("a w", "", 60), ("a b p", "* a", 34), ("c", "", 34), ("c", "c", 34), ("c t", "r", OTHER), ("c", "t", OTHER),
         # only in the standing packet
         ("", "r", FIGURE), ("a", "r", FIGURE), ("a b", "b r", FIGURE), ("a p", "p b t", OTHER), ("a", "n", NONE), ("a", "b w", 60), ("*", "* r", FIGURE),
         # in both
         ("r", "t", FIGURE), ("t", "r", OTHER), ("a t", "r", OTHER), ("n", "t", NONE), ("w", "t", 60), ("t", "w", OTHER), ("t", "n", OTHER), ("n", "w", NONE),
         ("w", "n", 60),
         # a packet at fault, before or behind the item, and either packet beside a sound one
         ("x", "r", 30), ("r x", "", 30), ("r", "x", 30), ("n", "x", 30), ("w", "x", 30), ("w x", "", 30), ("", "x", 30), ("q", "r", 33), ("q r", "", 33),
         ("r q", "", 33), ("r", "q", 33), ("w", "q", 33), ("w q", "", 33), ("n", "a q", 33), ("x", "q", 30), ("q", "x", 33), ("q x", "r", 33),
         # repeats, in one packet and in the other
         ("r r", "", 31, FIGURE), ("r t", "", 31, FIGURE), ("t a r", "", 31, OTHER), ("r n", "", 31, FIGURE), ("n r", "", 31, NONE), ("w r", "t", 31, 60),
         ("r w", "", 31, FIGURE), ("a a r", "", 31, FIGURE), ("r", "a a", 31, FIGURE), ("a a", "r", 31, FIGURE), ("a", "r t", 31, FIGURE),
         ("a", "n t", 31, NONE), ("n", "r r", 31, NONE), ("a a", "b", 31, 34), ("r r x", "", 31, 30), ("r r q", "", 31, 33), ("r r", "x", 31, 30),
         ("x", "r r", 30, 30), ("r", "t t x", 31, 30), ("p p", "r", 31, FIGURE))

# no figures: -0, 1/512, 256, 255 + 511/512, -1, -1/256, 0.1, the least float, 10^30, both infinities, NaNs
NO_FIGURES = "80000000 3b000000 43800000 437fff80 bf800000 bb800000 3dcccccd 00000001 7149f2ca 7f800000 ff800000 7fc00000 ffc00000 7f800001 ffffffff"
# floats at the ends of their ranges and beside those of the figures, and some of which 256 times is past a word of 16, 32 or 64 bits, or past all floats
EXTREMES = "007fffff 00800000 80000001 807fffff 03800000 33800000 3affffff 437fffff 43800001 477fff00 4f800000 53800000 5b800000 5f800000 7b800000 7f7fffff"
NANS = "7f800001 7fc00000 7fffffff ff800001 ffc00000 ffffffff"

# readings one after another, first from the record that none has come to; the packet, or a stroke and the standing packet, and the record that is left
CHAINS = ((("r", "40900000 40900000 40900000 01"), ("n", "40900000 40900000 40900000 01"), ("w", "40900000 40900000 40900000 01"),
           ("t", "41200000 41200000 40900000 01"), ("u", "3b800000 41200000 3b800000 01")),
          (("z", "00000000 00000000 00000000 01"), ("t", "41200000 41200000 00000000 01"), ("r", "40900000 41200000 00000000 01"),
           ("|m", "437fff00 437fff00 00000000 01"), ("z|r", "00000000 437fff00 00000000 01"), ("", "00000000 437fff00 00000000 01")),
          (("n", "00000000 00000000 00000000 00"), ("w", "00000000 00000000 00000000 00"), ("", "00000000 00000000 00000000 00"),
           ("m", "437fff00 437fff00 437fff00 01"), ("p a t", "41200000 437fff00 41200000 01"), ("x", "41200000 437fff00 41200000 01"),
           ("m m", "41200000 437fff00 41200000 01"), ("u|x", "41200000 437fff00 41200000 01"), ("q u", "41200000 437fff00 41200000 01"),
           ("n|u", "41200000 437fff00 41200000 01"), ("c|n", "41200000 437fff00 41200000 01"), ("a|u", "3b800000 437fff00 3b800000 01")))
# a record that is handed in, a packet, the record that is left. First, the flag says that none has come, whatever the figures
LEFT = (("41200000 437fff00 3b800000 00", "r", "40900000 40900000 40900000 01"), ("00000000 7f800000 ff800000 00", "r", "40900000 40900000 40900000 01"),
        ("80000000 80000000 80000000 00", "z", "00000000 00000000 00000000 01"), ("3b800000 3b800000 437fff00 00", "z", "00000000 00000000 00000000 01"),
        # one has come, of 0
        ("00000000 00000000 00000000 01", "r", "40900000 40900000 00000000 01"), ("00000000 00000000 00000000 01", "z", "00000000 00000000 00000000 01"),
        # minus zero equals zero
        ("80000000 80000000 80000000 01", "z", "00000000 80000000 80000000 01"), ("80000000 80000000 80000000 01", "u", "3b800000 3b800000 80000000 01"),
        # infinities, and figures below zero
        ("7f800000 7f800000 ff800000 01", "m", "437fff00 7f800000 ff800000 01"), ("ff800000 ff800000 7f800000 01", "m", "437fff00 437fff00 437fff00 01"),
        ("bf800000 bf800000 bf800000 01", "u", "3b800000 3b800000 bf800000 01"), ("c1200000 c1200000 c1200000 01", "r", "40900000 40900000 c1200000 01"),
        # the least floats on either side of zero, and those on either side of 4.5
        ("00000001 00000001 00000001 01", "z", "00000000 00000001 00000000 01"), ("80000001 80000001 80000001 01", "z", "00000000 00000000 80000001 01"),
        ("40900001 40900001 40900001 01", "r", "40900000 40900001 40900000 01"), ("408fffff 408fffff 408fffff 01", "r", "40900000 40900000 408fffff 01"),
        # the widest is the narrower one; and the last is neither
        ("00000000 3f800000 41200000 01", "r", "40900000 40900000 40900000 01"), ("437fff00 41200000 3f800000 01", "r", "40900000 41200000 3f800000 01"),
        ("00000000 41200000 3f800000 01", "m", "437fff00 437fff00 3f800000 01"), ("437fff00 41200000 3f800000 01", "z", "00000000 41200000 00000000 01"))


def made(text):
    return b"".join(ITEMS[letter] for letter in text.split())


def paper_questions():
    for two, pattern in PAPER:
        yield asked(f"rbw {NAME.hex()}00000010{two} -", f"width {pattern}")
    for words, answer in HAND:
        yield asked(f"rbw {words}", answer)


def figure_questions():
    numbers = packets.draw(10)
    for n in sorted({2**k - more for k in range(1, 17) for more in (0, 1)} - {65536} | {next(numbers) % 65536 for _ in range(12)}):
        one = whole(NAME, n.to_bytes(2, "big")).hex()
        yield asked(f"rbw {one} -" if n % 3 else f"rbw {ITEMS['a'].hex()} {one}", f"width {pattern_of(Fraction(n, 256)).hex()}")


def found_questions():
    for packet, standing, *answers in FOUND:
        question = f"rbw {hexed(made(packet))} {hexed(made(standing))}"
        # an answer that is the same with either word is asked for once, now without a word and now where names may repeat
        if len(answers) == 1:
            yield asked(question + ("" if len(packet) % 2 else " repeat"), answers[0])
        else:
            yield from both(question, *answers)


def bits_questions():
    # the last bytes of 256 and 65,536 bits are those of 0 bits, and with 16 more those of 16 bits
    for bits in (*range(1, 16), *range(17, 34), 64, 240, 255, 256, 257, 272, 65536, 65552):
        one = item(NAME, bits, b"\4\x80" * -(-bits // 16))[:8 + -(-bits // 8)]
        yield asked(f"rbw {(made('a') + one).hex()} -" if bits % 2 else f"rbw {one.hex()} {made('r').hex()}", 60)
    for bits in (17, 24, 2**16, 2**31 + 16, 2**32 - 16, 2**32 - 1):
        past = item(NAME, bits, bytes(2)).hex()
        yield asked(f"rbw {past} {made('r').hex()}" if bits % 2 else f"rbw {made('r').hex()} {past}", 30)


def edge_questions():
    # cut off anywhere: under 8 bytes are padding, and more are an item past the end
    packet = made("p r")
    for n in range(len(packet) + 1):
        yield asked(f"rbw {hexed(packet[:n])} -", FIGURE if n == len(packet) else 34 if n % 16 < 8 else 30)
    # padding that begins as the item would
    for n in range(1, 8):
        yield asked(f"rbw {(made('r') + made('t')[:n]).hex()} -", FIGURE)
        yield asked(f"rbw {(made('a') + made('r')[:n]).hex()} {(made('n') + made('t')[:n]).hex()}", NONE)
    # other names: a letter is another, or a bit of one, or their order; and names that share a mark with it
    for other in (b"rbw-", b"Rbw_", b"rBw_", b"rbW_", b"rbw\0", b"_rbw", b"wbr_", b"_wbr", b"rbv_", b"\xf2bw_", b"rfw_"):
        yield asked(f"rbw {(whole(other, bytes(2)) + made('a')).hex()} {whole(other, bytes(2)).hex()}", 34)
    for step in (-2, -1, 1, 2):
        other = whole((int.from_bytes(NAME, "big") + repeats.MARKS * step).to_bytes(4, "big"), bytes(2))
        yield asked(f"rbw {(other + made('r')).hex()} {other.hex()}", FIGURE)
        yield asked(f"rbw {(made('a') + other).hex()} {other.hex()}", 34)


def filled(size):
    """A packet of that many bytes, with the figure at its end."""
    return whole(b"bbbb", bytes(size - len(made("n r")))) + made("r")


def longest_questions():
    most = (MOST_BYTES - len(made("r"))) // len(made("n"))
    many = b"".join(item(k.to_bytes(4, "big"), 0, b"") for k in range(most)) + made("r")
    half = whole(b"bbbb", bytes(MOST_BYTES // 2 - len(made("n"))))
    yield asked(f"rbw {filled(MOST_BYTES).hex()} -", FIGURE)
    yield asked(f"rbw {many.hex()} -", FIGURE)
    yield asked(f"rbw {half.hex()} {filled(MOST_BYTES // 2).hex()}", FIGURE)
    yield asked(f"rbwseen {FRESH} - {filled(MOST_BYTES).hex()}", f"seen {3 * '40900000'}01")
    yield asked(f"rbw {filled(MOST_BYTES + 1).hex()} -", "unknown")
    yield asked(f"rbwseen {FRESH} - {filled(MOST_BYTES + 1).hex()}", "unknown")


def written_questions():
    for two, pattern in PAPER:
        yield asked(f"rbwitem {pattern} 10", f"item 7262775f00000010{two}")
    yield asked("rbwitem - 8", "item 7262775f00000000")
    for pattern in dict.fromkeys(f"{NO_FIGURES} {EXTREMES} {NANS}".split()):
        yield asked(f"rbwitem {pattern} 10", 61)
    # 4.5 and so much more, or less
    for more in (256, 2**16, 2**20):
        yield asked(f"rbwitem {pattern_of(Fraction(9, 2) + more).hex()} 10", 61)
        yield asked(f"rbwitem {pattern_of(Fraction(9, 2) - more).hex()} 10", 61)


def room_questions():
    for pattern, needs in (("40900000", 10), ("-", 8)):
        for room in (0, 1, *range(needs - 2, needs + 3), 256, MOST_BYTES):
            yield asked(f"rbwitem {pattern} {room}", 1 if room < needs else None)
        for room in (MOST_BYTES + 1, 2**16 + needs, 2**32 + needs, 2**64 + needs):
            yield asked(f"rbwitem {pattern} {room}", "unknown")
    yield asked("rbwitem 437fff00 0010", "item 7262775f00000010ffff")
    yield asked("rbwitem 437fff00 0009", 1)
    # 61 comes first, and a malformed word before it
    for pattern in ("3b000000", "80000000", "7fc00000", "43800000"):
        for room in (0, 9, MOST_BYTES):
            yield asked(f"rbwitem {pattern} {room}", 61)
    yield asked(f"rbwitem 3b000000 {MOST_BYTES + 1}", "unknown")


def beside_questions():
    # the patterns on either side, and the same number below zero
    for n in (0, 1, 2, 3, 255, 256, 257, 0x480, 0xA00, 0x7FFF, 0x8000, 0xFFFE, 0xFFFF):
        pattern = int.from_bytes(pattern_of(Fraction(n, 256)), "big")
        for other in (pattern - 1, pattern + 1, pattern ^ 2**31):
            yield asked(f"rbwitem {other % 2**32:08x} 10", 61)
    # each bit of 4.5 another: bit 13 counts 1/256, those below it less; bits 23 to 25, the exponent's last, make it 2.25, 18 and 72
    for k in range(32):
        yield asked(f"rbwitem {0x40900000 ^ 2**k:08x} 10", None if 13 <= k <= 25 else 61)


def pattern_questions():
    numbers = packets.draw(256)
    for _ in range(200):
        n, kind = next(numbers) % 65536, next(numbers) % 8
        figure = int.from_bytes(pattern_of(Fraction(n, 256)), "big")
        other = (figure, figure, figure ^ 1 << next(numbers) % 32, figure + 1 + next(numbers) % 255, figure ^ 1 << 31, next(numbers) * 2 + n % 2,
                 int.from_bytes(pattern_of(Fraction(2 * n + 1, 512)), "big"), int.from_bytes(pattern_of(Fraction(65536 + n, 256)), "big"))[kind]
        yield asked(f"rbwitem {other % 2**32:08x} {8 + next(numbers) % 5}")


def seen(record, text, written=None):
    """A reading of what stands before the stroke, or else behind it, and the record that it leaves, which has to be the written one."""
    packet, _, standing = text.partition("|")
    left = written and "seen " + written.replace(" ", "")
    return asked(f"rbwseen {record.replace(' ', '')} {hexed(made(packet))} {hexed(made(standing))}", left)


def chain_questions():
    for steps in CHAINS:
        record = FRESH
        for text, written in steps:
            yield seen(record, text, written)
            record = written


def record_questions():
    for record, text, written in LEFT:
        yield seen(record, text, written)
    # not available and each refusal, of either packet
    stay = "n", "|n", "w", "|w", "", "p", "c", "r x", "r|x", "q r", "r|q", "r r", "r|t t", "a a|r", "r|a a", "n|r", "w|r", "x|r", "q|r", "r r|t"
    for (record, *_), text in zip(LEFT, stay, strict=True):
        yield seen(record, text, record)


def some_packet(numbers):
    """A packet of a few items, one of them mostly "rbw_", with padding; now and then at fault."""
    letters = list(("abcp*" * 2)[next(numbers) % 5:][:next(numbers) % 4])
    for _ in range((0, 1, 1, 1, 1, 2)[next(numbers) % 6]):
        letters.insert(next(numbers) % (len(letters) + 1), "rrrrnw"[next(numbers) % 6])
    parts = [whole(NAME, (next(numbers) % 65536).to_bytes(2, "big")) if letter == "r" else made(letter) for letter in letters]
    return b"".join(parts) + (PAST, SHORT, *(bytes(n % 8) for n in range(16)))[next(numbers) % 18]


def spread_questions():
    numbers, record, came = packets.draw(2026), FRESH, []
    for _ in range(36):
        one, two = hexed(some_packet(numbers)), hexed(some_packet(numbers))
        yield asked(f"rbw {one} {two}{('', ' once', ' repeat', ' repeat')[next(numbers) % 4]}")
        question, answer = asked(f"rbwseen {record} {one} {two}")
        yield question, answer
        # the record has the last, the greatest and the least of all that have come
        kind, _, pattern = computed(f"rbw {one} {two}").partition(" ")
        came += [Fraction(value_of(bytes.fromhex(pattern)))] if kind == "width" else []
        record = "".join(pattern_of(x).hex() for x in (came[-1], max(came), min(came))) + "01" if came else FRESH
        assert answer == f"seen {record}", (question, answer)


def malformed_questions():
    # what makes `find` malformed behind its name
    for question, _ in repeats.malformed_questions():
        if question.startswith("find 6162635f "):
            yield asked(question.replace("find 6162635f", "rbw", 1), "unknown")
    for line in ("rbw", f"rbw {made('r').hex()}", "rbw 0 -", "rbw - 0", "rbw 7G -", "rbw - AB", "rbw -- -", "rbws - -", "rbw_ - -", "Rbw - -", "rb - -",
                 " rbw - -", "rbw 7262775f - -", f"rbw {made('x').hex()} - twice", "width 40900000", "notavailable", "rbwitem", "rbwitem 40900000",
                 "rbwitem 40900000 ", "rbwitem 10 40900000", "rbwitem 40900000 -", "rbwitem - -", "rbwitem 40900000 10 -", "rbwitem 40900000 10 once",
                 "rbwitem  40900000 10", "rbwitem 40 10", "rbwitem 409000 10", "rbwitem 4090000 10", "rbwitem 409000000 10", "rbwitem 4090000000 10",
                 "rbwitem 4090000040900000 10", "rbwitem 4.5 10", "rbwitem 4090000g 10", "rbwitem 3B800000 10", "rbwitem -- 10", "rbwitem 40900000 -10",
                 "rbwitem 40900000 a", "rbwitem 40900000 0x0a", "rbwitems 40900000 10", "Rbwitem 40900000 10", "rbw item 40900000 10", "rbwseen",
                 f"rbwseen {FRESH}", f"rbwseen {FRESH} -", "rbwseen - -", "rbwseen - - -", f"rbwseen {FRESH} - - -", f"rbwseen {FRESH} - - once",
                 f"rbwseen {FRESH} - - repeat", f"rbwseen {FRESH} - 0", f"rbwseen {FRESH} 0 -", f"rbwseen - {FRESH} -", "rbwseen 01 - -",
                 f"rbwseen {FRESH[2:]} - -", f"rbwseen {FRESH[1:]} - -", f"rbwseen {FRESH}0 - -", f"rbwseen {FRESH}00 - -", f"rbwseen {2 * FRESH} - -",
                 f"rbwseens {FRESH} - -", f"rbwsee {FRESH} - -", f"Rbwseen {FRESH} - -", f"seen {FRESH}"):
        yield asked(line, "unknown")
    # another last byte; a NaN in each of the three, whether one has come or not, and whatever is read
    for last in ("02", "03", "10", "80", "81", "ff"):
        yield asked(f"rbwseen {FRESH[2:]}{last} {made('r').hex()} -", "unknown")
    for number, nan in enumerate(NANS.split()):
        for at in range(3):
            record = "".join(nan if k == at else "3f800000" for k in range(3)) + ("00", "01")[(number + at) % 2]
            yield asked(f"rbwseen {record} {hexed(made(('r', 'n', 'x', '')[(number + 2 * at) % 4]))} -", "unknown")


PARTS = (("document 02, Item 10: \"Item 'rbw_' has 16 bits, Byte1 + Byte2 / 256, or 0 bits when no figure is available\"", paper_questions),
         ("\"exactly equal to the sent figure for all 65,536 values\": some of them, and tests/figures asks for all", figure_questions),
         ("\"or 'not available', or a refusal\"; \"Refusals, after the TAG codes\"", found_questions),
         ("\"60 WIDTH for another bit length\"", bits_questions),
         ("packets that are cut off, padding, other names", edge_questions),
         ("the longest packets", longest_questions),
         ("\"61 FIGURE when the value to be written is no multiple of 1/256 from 0 to 255 + 255/256, or is minus zero\"", written_questions),
         ("document 01: \"1 ROOM\"; 61 comes before it", room_questions),
         ("patterns beside those of figures", beside_questions),
         ("\"It writes the item back, and a written figure reads as itself\": a spread of patterns", pattern_questions),
         ("\"It also keeps the last figure and shows the widest and narrowest so far\"", chain_questions),
         ("\"'not available' or a refusal leaves all three as they stood\"; records that are made by hand", record_questions),
         ("a spread of readings", spread_questions),
         ("malformed questions on the bandwidth", malformed_questions))


if __name__ == "__main__":
    usage.show(__doc__, PARTS)
