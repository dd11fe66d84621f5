"""A plain reader of TAG packets, whose names may repeat or not, as the question says, which tells
where an item starts: what the questions of repeats.py and starts.py must be answered.

It is written from document 01, "TAG layer", and document 02, Items 1 and 11. Where names may not
repeat, the reader of packets.py has to say the same; where they may, what that one says other than
31 stays.
"""
import collections
import re

import packets
from packets import Refused, hexed

WORDS = "once", "repeat"
FILLER = b"*dmy"
MOST_BYTES = 32768  # bytes of the longest PACKET

Item = collections.namedtuple("Item", "depth start name bits value")


def level(packet):
    """The items of one level, as start, name, bits and the value as far as there is one; the padding."""
    found, start = [], 0
    while len(packet) - start > 7:
        bits = int.from_bytes(packet[start + 4:start + 8], "big")
        end = start + 8 + -(-bits // 8)
        found.append((start, packet[start:start + 4], bits, packet[start + 8:end]))
        start = end
    return found, len(packet) - start


def walked(packet, word, names=(), depth=0, first=0):
    """The items in the order of the nested walk; the packet's first byte is that byte of the outermost packet."""
    handed, before = [], set()
    for start, name, bits, value in level(packet)[0]:
        faults = {30: 8 * len(value) < bits, 31: word == "once" and name in before, 33: name == b"*ptr" and bits != 64,
                  35: name in names and bits % 8, 32: depth > 4}
        for number in faults:
            if faults[number]:
                raise Refused(number)
        before |= {name} - {FILLER}
        handed.append(Item(depth, first + start, name, bits, value))
        if name in names:
            handed += walked(value, word, names, depth + 1, first + start + 8)
    return handed


def nothing(_):
    return ""


def items_answer(packet, word, before=nothing):
    handed = [f"{before(i)}{i.name.hex()}:{i.bits}:{hexed(i.value)}" for i in walked(packet, word)]
    return " ".join(["items", *handed, f"end {level(packet)[1]}"])


def walk_answer(names, packet, word, before=nothing):
    if len(names) % 4 or len(names) > 32:
        raise Refused(43)
    handed = walked(packet, word, [names[at:at + 4] for at in range(0, len(names), 4)])
    return " ".join(["walk", *(f"{i.depth}:{before(i)}{i.name.hex()}:{i.bits}" for i in handed), f"end {level(packet)[1]}"])


def shown(number, found):
    return f"found {found[number]}" if number < len(found) else "refused 34"


def named(name, packet, word, before=nothing):
    """What is told of each item of that name, in order."""
    return [f"{before(i)}{i.bits} {hexed(i.value)}" for i in walked(packet, word) if i.name == name]


def find_answer(name, packet, standing, word):
    return shown(0, named(name, packet, word) + named(name, standing, word))


def nth_answer(name, number, packet, word):
    return shown(number, named(name, packet, word))


# ---- the same, with the start and the unused bits before the name, or before the bits

def unused(bits):
    """How many bits of a value's last byte are none of its bits: 0 where there is no last byte."""
    return 8 * -(-bits // 8) - bits


def begun(i):
    return f"{i.start}:{unused(i.bits)}:"


def in_packet(i):
    return f"packet {i.start} {unused(i.bits)} "


def in_standing(i):
    return f"standing {i.start} {unused(i.bits)} "


def items_at_answer(packet, word):
    return items_answer(packet, word, begun)


def walk_at_answer(names, packet, word):
    return walk_answer(names, packet, word, begun)


def find_at_answer(name, packet, standing, word):
    return shown(0, named(name, packet, word, in_packet) + named(name, standing, word, in_standing))


def nth_at_answer(name, number, packet, word):
    return shown(number, named(name, packet, word, in_packet))


# what the words of each question are, before the last one, and what they are made of
QUESTIONS = {"items": (items_answer, ["BYTES"]), "walk": (walk_answer, ["BYTES", "BYTES"]), "find": (find_answer, ["NAME", "BYTES", "BYTES"]),
             "nth": (nth_answer, ["NAME", "NUMBER", "BYTES"]), "itemsat": (items_at_answer, ["BYTES"]), "walkat": (walk_at_answer, ["BYTES", "BYTES"]),
             "findat": (find_at_answer, ["NAME", "BYTES", "BYTES"]), "nthat": (nth_at_answer, ["NAME", "NUMBER", "BYTES"])}
MADE_OF = {"NAME": "[0-9a-f]{8}", "NUMBER": "[0-9]+", "BYTES": "-|([0-9a-f]{2})+"}


def meant(kind, word):
    """What a word of that kind means; nothing where it is malformed or too large."""
    if not re.fullmatch(MADE_OF[kind], word):
        return None
    if kind == "NUMBER":
        return int(word) if int(word) < 2**64 else None
    given = bytes.fromhex(word.replace("-", ""))
    return given if len(given) <= MOST_BYTES else None


def computed(question):
    """The answer to a line; `unknown` where it is none of these questions."""
    first, *words = question.split(" ")
    answer, kinds = QUESTIONS.get(first, (None, []))
    last = words.pop() if len(words) == len(kinds) + 1 else "once"
    if answer is None or last not in WORDS or len(words) != len(kinds):
        return "unknown"
    given = [meant(kind, word) for kind, word in zip(kinds, words)]
    if None in given:
        return "unknown"
    try:
        return answer(*given, last)
    except Refused as number:
        return f"refused {number}"


# ---- questions with their answers

def told(question, answer):
    """What an answer with starts tells of each item: the packet that holds it, start, unused bits, name, bits, and the value if it is shown."""
    first, *words = question.split(" ")
    kind, *rest = answer.split(" ")
    if kind == "found":
        return [(words[1] if (first, rest[0]) == ("findat", "packet") else words[2], *rest[1:3], words[0], *rest[3:])]
    if kind == "items":
        return [(words[0], *one.split(":")) for one in rest[:-2]]
    return [(words[1], *one.split(":")[1:], "") for one in rest[:-2]] if kind == "walk" else []


def plainly(question, answer):
    """The question that does not ask for starts, and the answer without starts, unused bits and which packet it is."""
    without = re.sub(r"^found (packet|standing) \d+ \d ", "found ", answer)
    return re.sub(r"^(\w+)at\b", r"\1", question), re.sub(r" (\d:)?\d+:\d:(?=[0-9a-f]{8}:)", r" \1", without)


def asked_at(question, answer):
    """Holds an answer that tells starts against the packet, which has the item there, and against that of the plain question."""
    for packet, start, unused_bits, name, bits, value in told(question, answer):
        assert packet.startswith(f"{name}{int(bits):08x}{value.strip('-')}", 2 * int(start)), (question, answer)
        assert int(unused_bits) == -int(bits) % 8, (question, answer)
    plain, without = plainly(question, answer)
    assert asked(plain) == (plain, without), (question, answer)


def asked(question, written=None):
    """A question with its answer, which has to be the written one where there is one; of a refusal the number is written."""
    answer = computed(question)
    assert written in (None, answer) or answer == f"refused {written}", (question, written, answer)
    allowed = question.endswith(" repeat")
    assert not (allowed and answer == "refused 31"), question
    if re.match(r"\w+at\b", question):
        asked_at(question, answer)
    elif answer != "unknown" and not question.startswith("nth "):
        older = packets.computed(question.removesuffix(" once").removesuffix(" repeat"))
        assert answer == older or allowed and older == "refused 31", (question, older, answer)
    return question, answer


def both(question, once=None, repeat=None):
    """The question with either word, and the answers as far as they are written."""
    for word, written in zip(WORDS, (once, repeat)):
        yield asked(f"{question} {word}", written)


def same(question, written=None):
    """The question with either word, where neither is refused, and the answers are the same, the written one where there is one."""
    answer = computed(question)
    assert not answer.startswith("refused"), (question, answer)
    return both(question, written or answer, answer)
