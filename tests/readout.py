"""A plain readout of the bandwidth, which reads "rbw_", writes it and keeps a record of what came:
what the questions of bandwidth.py must be answered.

It is written from document 02, Item 10. A figure is divided exactly, and its pattern is struct's,
which has to be that of just this number. What the TAG layer says of a packet is what the reader of
reader.py answers to `find`, and the one of packets.py has to say the same.
"""
import math
import struct
from fractions import Fraction

import reader
from packets import Refused, whole
from reader import MOST_BYTES, WORDS

NAME = b"rbw_"
MOST = 65535  # 256 times the largest figure
MINUS_ZERO = bytes.fromhex("80000000")
FRESH = 13 * "00"  # the record of a readout to which none has come


def value_of(pattern):
    """The float of a pattern, which Python's own holds exactly."""
    return struct.unpack(">f", pattern)[0]


def pattern_of(number):
    """The pattern of the float that is this number: there has to be one."""
    pattern = struct.pack(">f", number)
    assert Fraction(value_of(pattern)) == number, number
    return pattern


def read(packet, standing, word):
    """The pattern of the figure that is read, or nothing where none is available."""
    found, first, *value = reader.find_answer(NAME, packet, standing, word).split(" ")
    if found == "refused":
        raise Refused(first)
    if first == "0":
        return None
    if first != "16":
        raise Refused(60)
    one, two = bytes.fromhex(value[0])
    return pattern_of(one + Fraction(two, 256))


def read_answer(packet, standing, word):
    pattern = read(packet, standing, word)
    return f"width {pattern.hex()}" if pattern else "notavailable"


def steps_of(pattern):
    """How many times 1/256 the float is, if it is one that may be written."""
    value = value_of(pattern)
    if pattern == MINUS_ZERO or not math.isfinite(value):
        return None
    steps = 256 * Fraction(value)
    return int(steps) if steps.denominator == 1 and 0 <= steps <= MOST else None


def item_answer(pattern, room):
    steps = steps_of(pattern) if pattern else 0
    if steps is None:
        raise Refused(61)
    written = whole(NAME, steps.to_bytes(2, "big") if pattern else b"")
    if room < len(written):
        raise Refused(1)
    return f"item {written.hex()}"


def patterns_in(record):
    """The patterns of the last, the widest and the narrowest figure."""
    return [record[at:at + 4] for at in (0, 4, 8)]


def seen_answer(record, packet, standing):
    try:
        new = read(packet, standing, "once")
    except Refused:
        new = None
    if new is None:
        return f"seen {record.hex()}"
    _, widest, narrowest = patterns_in(record)
    first = record[12] == 0
    widest = new if first or value_of(widest) < value_of(new) else widest
    narrowest = new if first or value_of(new) < value_of(narrowest) else narrowest
    return f"seen {(new + widest + narrowest).hex()}01"


def is_record(given):
    return len(given) == 13 and given[12] < 2 and not any(math.isnan(value_of(pattern)) for pattern in patterns_in(given))


# what the words of each question are, and what bytes or a number have to be beside that
QUESTIONS = {"rbw": (read_answer, ["BYTES", "BYTES", "WORD"]), "rbwitem": (item_answer, ["PATTERN", "ROOM"]),
             "rbwseen": (seen_answer, ["RECORD", "BYTES", "BYTES"])}
IS_ONE = {"BYTES": lambda given: True, "PATTERN": lambda given: len(given) in (0, 4), "RECORD": is_record, "ROOM": lambda given: given <= MOST_BYTES}


def meant(kind, word):
    """What a word of that kind means; nothing where it is malformed or too large."""
    if kind == "WORD":
        return word if word in WORDS else None
    given = reader.meant("NUMBER" if kind == "ROOM" else "BYTES", word)
    return given if given is not None and IS_ONE[kind](given) else None


def computed(question):
    """The answer to a line; `unknown` where it is none of these questions."""
    first, *words = question.split(" ")
    answer, kinds = QUESTIONS.get(first, (None, []))
    words += ["once"] if first == "rbw" and len(words) == 2 else []
    given = [meant(kind, word) for kind, word in zip(kinds, words)]
    if answer is None or len(words) != len(kinds) or None in given:
        return "unknown"
    try:
        return answer(*given)
    except Refused as number:
        return f"refused {number}"


# ---- questions with their answers

def held(question, answer):
    """Holds an answer against those to other questions on the same."""
    first, *words = question.split(" ")
    kind, *told = answer.split(" ")
    if first == "rbw":
        _, found = reader.asked(" ".join(["find", NAME.hex(), *words]))
        due = {"width": f"found 16 {computed(f'rbwitem {told[0]} 10')[-4:]}" if told else "", "notavailable": "found 0 -"}.get(kind, answer)
        assert found == due or answer == "refused 60" and found.startswith("found "), (question, found, answer)
    if kind == "item":
        assert computed(f"rbw {told[0]} -") == ("notavailable" if words[0] == "-" else f"width {words[0]}"), (question, answer)
    if kind == "seen":
        now = computed(" ".join(["rbw", *words[1:]])).split(" ")
        assert told[0].startswith(now[1]) and told[0].endswith("01") if now[0] == "width" else told[0] == words[0], (question, now, answer)


def asked(question, written=None):
    """A question with its answer, which has to be the written one where there is one; of a refusal the number is written."""
    answer = computed(question)
    assert written in (None, answer) or answer == f"refused {written}", (question, written, answer)
    if answer != "unknown":
        held(question, answer)
    return question, answer


def both(question, once=None, repeat=None):
    """The question with either word, and the answers as far as they are written."""
    for word, written in zip(WORDS, (once, repeat)):
        yield asked(f"{question} {word}", written)
