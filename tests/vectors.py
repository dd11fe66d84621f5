"""Writes the questions and the answers that the gate compares: crates/ask/stdin and
crates/ask/stdout.

    python3 tests/vectors.py

The answers come from crc.txt (made by a peer), from plans.py and fields.py (computed from documents
01 and 02), from chunks.py (of parity.txt, made by a peer), from packets.py (written out beside the
sentence of document 01 that gives it, or by its own reader), from fragments.py (by its own sender),
from receiving.py (by hand and by its own receiver), from editions.py (both rules of sizes, by hand
and by all of these), from endurance.py (losses, counted), from repeats.py and starts.py (repeated
names, and where items start, by hand and by their own reader), from bandwidth.py (figures, by hand
and by exact division) and from the lists below. None is taken from the program. Running this again
gives the same bytes.
"""
import pathlib
import sys

sys.dont_write_bytecode = True
import bandwidth
import chunks
import editions
import endurance
import fields
import fragments
import packets
import plans
import receiver
import receiving
import repeats
import starts
import usage

HERE = pathlib.Path(__file__).resolve().parent
ASK = HERE.parent / "crates" / "ask"
MOST_BYTES = 32768  # bytes of the longest BYTES
LINE = 66048  # a line of this many characters, or more, is no question

questions = []
answers = []


def ask(question, answer):
    questions.append(question if isinstance(question, bytes) else question.encode())
    if answer is not None:
        answers.append(answer)


def silent(line):
    ask(line, None)


def ask_plan(fec, m, mtu, address, l):
    words = (str(fec), str(m), str(mtu), address, str(l))
    ask("plan " + " ".join(words), plans.answer(words))


def crc(data):
    # for the one length that crc.txt lacks; the same sum is first held against every line of crc.txt
    register = 0xFFFF
    for byte in data:
        register ^= byte << 8
        for _ in range(8):
            register = ((register << 1) ^ (0x1021 if register & 0x8000 else 0)) & 0xFFFF
    return f"{register ^ 0xFFFF:04x}"


def sums():
    for line in (HERE / "crc.txt").read_text().splitlines():
        if line.startswith("#"):
            silent("# crc.txt:" + line[1:])
            continue
        data, word = line.split()
        assert crc(bytes.fromhex(data.replace("-", ""))) == word, line
        ask("crc " + data, "crc " + word)
    silent("# the longest BYTES, and one byte more")
    longest = bytes(i * i % 251 for i in range(MOST_BYTES))
    ask("crc " + longest.hex(), "crc " + crc(longest))
    ask("crc " + longest.hex() + "00", "unknown")


NONE, PAIR = "-", "00010002"
SHAPES = [(fec, address, plans.header(fec == 1, address != "-")) for fec in (0, 1) for address in (NONE, PAIR)]


def sizes():
    silent("# plans: the sizes of document 01, on each side of the edge")
    for l in (12, 207, 208):
        ask_plan(1, 2, 1400, NONE, l)
    ask_plan(1, 5, 1400, NONE, 414)
    ask_plan(1, 2, 1400, NONE, 415)
    ask_plan(1, 2, 1400, NONE, 8192)
    for l in (1386, 1387):
        ask_plan(0, 0, 1400, NONE, l)
    silent("# plans: lengths")
    for l in (0, 11, 12, 206, 207, 208, 413, 414, 415, 621, 622, 8073, 8074, 8191, 8192, 8193, 65536, 2**63, 2**64 - 2, 2**64 - 1):
        ask_plan(1, 2, 1400, NONE, l)
        ask_plan(0, 0, 1400, PAIR, l)


def settings():
    silent("# plans: the bounds of m")
    for m in (0, 1, 2, 3, 4, 5, 6, 7, 256, 2**64 - 1):
        ask_plan(1, m, 1400, NONE, 415)
    for m in (0, 1, 5, 6):
        ask_plan(0, m, 1400, NONE, 415)
    silent("# plans: the bounds of MTU, for each of the four header lengths")
    for fec, address, h in SHAPES:
        for mtu in (0, h - 1, h, h + 1, h + 2, 16384, 16385, 2**64 - 1):
            ask_plan(fec, 0, mtu, address, 207)


def counts():
    silent("# plans: 256 fragments and 257 without FEC")
    for address, h in ((NONE, 14), (PAIR, 18)):
        for room, l in ((1, 255), (1, 256), (1, 257), (31, 7936), (31, 7937), (32, 8191), (32, 8192)):
            ask_plan(0, 0, h + room, address, l)
    silent("# plans: 255 and 257 with FEC; 256 does not occur: with S at least c there are at most 255, with a smaller S more than 256")
    for address, h in ((NONE, 16), (PAIR, 20)):
        for room, l in ((1, 207), (1, 208), (2, 414), (2, 415), (28, 5796), (28, 5797), (32, 6624), (32, 6625), (39, 8073), (39, 8080), (40, 8192)):
            ask_plan(1, 0, h + room, address, l)
    silent("# plans: where two refusals apply, the first of 40, 20 or 22, 41 is given")
    for fec, m, mtu, l in ((1, 6, 1400, 11), (1, 6, 1400, 8193), (0, 1, 1400, 0), (0, 1, 15, 8192), (1, 2, 16, 11), (1, 2, 16385, 8193),
                           (1, 6, 17, 8192), (0, 0, 14, 8193), (0, 0, 15, 11), (0, 0, 15, 8193), (1, 0, 17, 8193), (1, 0, 17, 0)):
        ask_plan(fec, m, mtu, NONE, l)


def ordinary():
    silent("# plans: a spread of ordinary ones")
    for l in (13, 100, 300, 1000, 1024, 2000, 4096, 5000, 8000):
        for m, mtu in ((0, 1400), (1, 576), (3, 280), (5, 9000)):
            ask_plan(1, m, mtu, PAIR if l % 200 else NONE, l)
        ask_plan(0, 0, 128 + l // 7, "ffff0000", l)
    silent("# leading zeros change no number")
    ask("plan 01 002 0001400 - 00000000000000000000000415", plans.answer(("1", "2", "1400", "-", "415")))
    ask("plan 0 0 1400 - " + "0" * 1000 + "18446744073709551615", "refused 22")


def named_settings():
    silent("# document 02, Item 5: \"The house default becomes m = 1\"; what it was, document 01's, is the setting for two losses")
    ask("house", "settings " + " ".join(map(str, plans.HOUSE)))
    ask("twolosses", "settings " + " ".join(map(str, plans.TWO_LOSSES)))
    silent("# \"the default case at 8,192 bytes is worked again beside the old one\": S 48 x 40 / 2, f 10,120 / 960 rounded up, s 10,120 / 11")
    worked = {plans.HOUSE: "plan c=40 k=205 z=8 n=253 S=960 L=10120 f=11 s=920 h=16",
              plans.TWO_LOSSES: "plan c=40 k=205 z=8 n=253 S=640 L=10120 f=16 s=633 h=16"}
    for settings, answer in worked.items():
        ask_plan(*settings, 8192)
        assert answers[-1] == answer, settings
    silent("# the house default at other lengths")
    for l in (11, 12, 13, 206, 207, 208, 413, 414, 415, 621, 622, 1000, 4096, 8073, 8074, 8191, 8193):
        ask_plan(*plans.HOUSE, l)
    silent("# what has no such name")
    for line in ("house 1", "house -", "house 8192", "House", "HOUSE", "hous", "houses", "house:", "twolosses 2", "twolosses -", "TwoLosses",
                 "twoloss", "twolossess", "two_losses", "two losses", "onelosses", "settings", "settings 1 1 1400 -", "default", "house ", " house", "twolosses "):
        ask(line, "unknown")


def ask_field(question):
    ask(question, fields.answer(question))


def elements():
    silent("# products, at the edges and a spread")
    for a in (0, 1, 2, 3, 128, 142, 254, 255):
        for b in (0, 1, 2, 29, 128, 255):
            ask_field(f"mul {a} {b}")
    for i in range(40):
        ask_field(f"mul {(i * 37 + 11) % 256} {(i * 91 + 5) % 256}")
    silent("# quotients; by zero is 44, and zero by zero too")
    for a in (0, 1, 2, 29, 128, 255):
        for b in (0, 1, 2, 3, 142, 255):
            ask_field(f"div {a} {b}")
    silent("# logarithms; that of zero is 44")
    for a in (0, 1, 2, 3, 4, 29, 58, 127, 128, 142, 143, 254, 255):
        ask_field(f"log {a}")
    silent("# powers of alpha: document 01 has 8 and 9; the exponent counts modulo 255")
    for e in (0, 1, 2, 7, 8, 9, 10, 127, 253, 254, 255, 256, 509, 510, 511, 65535, 2**32, 2**64 - 1):
        ask_field(f"pow {e}")


def ask_parts(parts):
    for title, part in parts:
        silent("# " + title)
        for question, answer in part():
            ask(question, answer)


def whole_chunks():
    ask_parts(chunks.PARTS)


def packets_and_items():
    for title, part in packets.EDGES:
        silent("# " + title)
        before = None
        for sentence, question, answer in part():
            if sentence != before:
                silent("# " + sentence)
            before = sentence
            assert packets.computed(question) == answer, question
            ask(question, answer)
    silent("# a spread of packets")
    for question, answer in packets.spread_questions():
        ask(question, answer)


def ask_packet(*words):
    question = " ".join(packets.hexed(word) if isinstance(word, bytes) else str(word) for word in words)
    ask(question, packets.computed(question))


def longest_packets():
    none, name, filler = bytes(4), b"abcd", b"*dmy"
    head = len(packets.item(name, 0, b""))
    most = MOST_BYTES - head
    silent("# the longest packets: one value, two values, which have the longest answer, and as many items as fit, each with another name")
    values = [bytes(i * i % (251 - k) for i in range(n)) for k, n in enumerate((most, most // 2 - head // 2, most // 2 - head // 2))]
    ask_packet("items", packets.whole(name, values[0]))
    ask_packet("items", packets.whole(name, values[1]) + packets.whole(none, values[2]))
    heads = b"".join(packets.item(i.to_bytes(4, "big"), 0, b"") for i in range(MOST_BYTES // head))
    ask_packet("items", heads)
    ask_packet("walk", none, heads)
    ask_packet("walk", filler, packets.nested(4, filler) * (MOST_BYTES // (5 * head)) + packets.item(name, 0, b""))
    ask_packet("walk", filler, packets.nested(3, filler, packets.item(filler, 0, b"") * (MOST_BYTES // head - 4)))
    ask_packet("items", heads[:-head] + heads[:head])
    silent("# one byte more")
    more = "00" * (MOST_BYTES + 1)
    for question in (f"items {more}", f"walk {more} -", f"find 61626364 - {more}", f"afwrap 0 1 32768 {more}"):
        ask(question, "unknown")
    silent("# the other questions with the most bytes, and the most room")
    ask_packet("item", name, 8 * most, MOST_BYTES, values[0])
    ask_packet("item", name, 8 * most, MOST_BYTES - 1, values[0])
    ask_packet("item", name, 8 * MOST_BYTES, MOST_BYTES, bytes(MOST_BYTES))
    ask_packet("find", name, packets.whole(name, values[0]), b"")
    ask_packet("find", name, b"", packets.whole(name, values[0]))
    ask_packet("find", none, packets.whole(name, values[1]), packets.whole(none, values[2]))
    ask_packet("walk", heads, b"")
    ask_packet("afwrap", 65535, 1, MOST_BYTES, bytes(MOST_BYTES))
    ask_packet("afwrap", 65535, 1, MOST_BYTES, values[0][:8180])
    ask_packet("list", packets.af(bytes(MOST_BYTES - 12)))
    silent("# the longest listing")
    ask_packet("list", packets.af(heads[:8176], seq=65535, minor=15))


def sent_packets():
    ask_parts(fragments.PARTS)


def received_fragments():
    silent("# before any other question on the receiver its table is fresh")
    ask(f"query {receiver.TABLE}", "places free free free free")
    ask_parts(receiving.PARTS)


def change_requests():
    ask_parts(editions.PARTS)
    silent("")
    ask_parts(endurance.PARTS)
    silent("")
    ask_parts(repeats.PARTS)
    silent("")
    ask_parts(starts.PARTS)
    silent("")
    ask_parts(bandwidth.PARTS)


MALFORMED = """\
mul
mul 1
mul 1 2 3
mul 1 256
mul 256 1
mul 1 -
mul 01 0x2
muls 1 2
div 1
div 1 256
div 999 1
div a 1
log
log 256
log -
log 1 1
log -1
pow
pow -1
pow 1 1
pow 18446744073709551616
pow 2.5
hello
crc
plan
CRC 00
Crc 00
crcs 00
cr 00
crc:00
c
-
0
unknown
refused 40
crc 0
crc 000
crc 0g
crc g0
crc FF
crc fF
crc --
crc -0
crc 0-
crc 00-
crc 0x00
crc 00 00
crc 00 -
crc - -
crc 00,00
plan 1 2 1400 -
plan 1 2 1400 12
plan 1 2 1400 - 12 0
plan 1 2 1400 - 12 -
plans 1 2 1400 - 12
pla 1 2 1400 - 12
Plan 1 2 1400 - 12
plan 2 2 1400 - 12
plan 10 2 1400 - 12
plan - 2 1400 - 12
plan x 2 1400 - 12
plan 18446744073709551617 2 1400 - 12
plan 1 - 1400 - 12
plan 1 -2 1400 - 12
plan 1 +2 1400 - 12
plan 1 2.0 1400 - 12
plan 1 0x2 1400 - 12
plan 1 a 1400 - 12
plan 1 / 1400 - 12
plan 1 : 1400 - 12
plan 1 2 1,400 - 12
plan 1 2 18446744073709551616 - 12
plan 1 2 1400 - 18446744073709551616
plan 1 2 1400 - 18446744073709551620
plan 1 2 1400 - 99999999999999999999
plan 1 2 1400 - 100000000000000000000000000000
plan 1 2 1400 - 00018446744073709551616
plan 1 2 1400 - -
plan 1 2 1400 - 12c
plan 1 2 1400 -- 12
plan 1 2 1400 0 12
plan 1 2 1400 0000 12
plan 1 2 1400 000000 12
plan 1 2 1400 0000000 12
plan 1 2 1400 000000000 12
plan 1 2 1400 0000000000 12
plan 1 2 1400 0000000g 12
plan 1 2 1400 0000000A 12
plan 1 2 1400 0000000` 12
plan 1 2 1400 0000:000 12
plan 1 2 1400 0000/000 12"""


def malformed():
    silent("# malformed lines")
    for number, line in enumerate(MALFORMED.split("\n")):
        if number % 20 == 7:
            silent("")
        ask(line, "unknown")
    for question, answer in packets.malformed_questions():
        ask(question, answer)
    silent("# blanks too many, carriage returns, tabs, bytes that are no letters")
    for line in (b" ", b"  ", b" crc 00", b"crc ", b"crc  00", b"crc 00 ", b"crc  ", b"crc\t00", b"crc 00\r", b"\r", b" # no comment",
                 b"crc 00\x00", b"\x00", b"\xff\xfe", b"crc \xb0\xb0", b" plan 1 2 1400 - 12", b"plan  1 2 1400 - 12", b"plan 1 2  1400 - 12",
                 b"plan 1 2 1400  12", b"plan 1 2 1400 -  12", b"plan 1 2 1400 - 12 ", b"plan 1 2 1400 - 12\r", b"plan 1 2 1400 - "):
        ask(line, "unknown")
    silent("")
    silent("#")


def long_lines():
    silent("# a line one character short of too long, then lines that are too long: one answer each, and the next line is read as ever")
    zeros = "plan 1 2 1400 - "
    ask(zeros + "12".rjust(LINE - 1 - len(zeros), "0"), plans.answer(("1", "2", "1400", "-", "12")))
    ask(zeros + "12".rjust(LINE - len(zeros), "0"), "unknown")
    ask("crc " + "00" * (LINE // 2), "unknown")
    ask("crc 00", "crc 1e0f")
    silent("#" + "-" * LINE)
    ask("crc -", "crc 0000")
    silent("# the last question has no newline behind it")
    ask_plan(1, 2, 1400, NONE, 8192)


def main():
    for part in (sums, sizes, settings, counts, ordinary, named_settings, elements, whole_chunks, packets_and_items, longest_packets,
                 sent_packets, received_fragments, change_requests, malformed, long_lines):
        part()
        silent("")
    questions.pop()
    (ASK / "stdin").write_bytes(b"\n".join(questions))
    (ASK / "stdout").write_text("".join(answer + "\n" for answer in answers))
    plain = sum(a == "unknown" for a in answers)
    print(f"{len(questions)} lines, {len(answers)} answers, {plain} of them unknown")


if __name__ == "__main__":
    usage.help_or_use(__doc__)
    main()
