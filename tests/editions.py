"""Questions on cuts by the rule of either edition, with the answers that they must get, each group
under the sentence of document 02, Item 6, that gives it.

    python3 tests/editions.py      prints each question and its answer

The figures of the newer rule are written out by hand; plans.py, the sender of fragments.py and the
receiver of receiver.py work them out as well and have to say the same.
"""
import itertools

import fragments
import plans
import usage
from runs import NONE, PAIR, Run, packet

RULES = "old", "new"

# l, and for m 1 to 5 at MTU 1,400 without address: f x s, and the losses assured
NEWER = ((12, "2x30 3x20 4x15 5x12 7x9", "1 2 3 4 5"), (207, "6x43 11x24 16x16 22x12 29x9", "1 2 3 4 5"),
         (208, "4x76 7x44 10x31 13x24 16x19", "1 2 3 4 4"), (414, "6x85 11x47 16x32 22x24 27x19", "1 2 3 4 4"),
         (415, "4x141 8x71 12x47 16x36 21x27", "1 2 3 4 4"), (8192, "8x1265 11x920 16x633 22x460 27x375", "1 2 3 4 4"))


def planned(fec, m, mtu, address, l, rule, **figures):
    """A question on a plan, whose answer has to have these figures."""
    words = str(fec), str(m), str(mtu), address, str(l), rule
    answer = plans.answer(words)
    said = dict(word.split("=") for word in answer.split()[1:] if "=" in word)
    assert all(said[name] == str(figure) for name, figure in figures.items()), (words, answer, figures)
    return "plan " + " ".join(words), answer


def refused(number, *words):
    question, answer = planned(*words)
    assert answer == f"refused {number}", (question, answer)
    return question, answer


def size_questions():
    for l, cuts, sure in NEWER:
        for m, cut, assured in zip(itertools.count(1), cuts.split(), sure.split()):
            f, s = cut.split("x")
            yield planned(1, m, 1400, NONE, l, "new", f=f, s=s, assured=assured)
            yield planned(1, m, 1400, NONE, l, "old", assured=m)
    # MTU - h is the smaller, and 4 are told all the same
    yield planned(1, 5, 30, NONE, 414, "new", S=14, f=37, s=14, assured=4)
    yield planned(1, 5, 56, NONE, 8192, "new", f=253, s=40, assured=4)
    yield planned(1, 5, 60, PAIR, 8192, "new", f=253, s=40, assured=4)
    # five where there is one chunk
    for l in (13, 100, 206, 209, 413, 416, 621, 622, 1000, 8191):
        yield planned(1, 5, 1400, PAIR, l, "new", assured=5 if l < 208 else 4)


def same_questions():
    for fec, mtu, l, figures in ((1, 1400, 12, {}), (1, 1400, 207, {}), (1, 1400, 208, {}), (1, 1400, 415, {}), (1, 1400, 8192, {}), (0, 1400, 1386, dict(f=1)),
                                 (0, 1400, 1387, dict(f=2, s=694)), (0, 46, 8192, dict(f=256, s=32))):
        pair = [planned(fec, 0, mtu, NONE, l, rule, assured=0, **figures) for rule in RULES]
        assert pair[0][1] == pair[1][1] == plans.answer((str(fec), "0", str(mtu), NONE, str(l))) + " assured=0", pair
        yield from pair


def refusal_questions():
    for rule in RULES:
        for number, words in ((41, (1, 5, 55, NONE, 8192)), (41, (1, 1, 17, NONE, 208)), (40, (1, 6, 1400, NONE, 414)), (40, (0, 1, 1400, NONE, 414)),
                              (40, (0, 5, 1400, NONE, 12)), (40, (1, 5, 16, NONE, 414)), (40, (1, 5, 16385, NONE, 414)), (20, (1, 5, 1400, NONE, 11)),
                              (22, (1, 5, 1400, NONE, 8193)), (40, (1, 6, 16, NONE, 11)), (20, (0, 0, 15, NONE, 0)), (22, (1, 1, 17, NONE, 8193))):
            yield refused(number, *words, rule)


def one_up_questions():
    # the two answers differ in what is assured alone
    for mtu, address, l in ((1400, NONE, 415), (300, PAIR, 8192), (100, NONE, 1000), (17, NONE, 207)):
        for m in (1, 2, 3, 4):
            pair = planned(1, m, mtu, address, l, "old", assured=m), planned(1, m + 1, mtu, address, l, "new")
            assert len({answer.split(" assured=")[0] for _, answer in pair}) == 1, pair
            yield from pair


def fragment_questions():
    for l, cuts, _ in NEWER:
        for m, cut in zip(itertools.count(1), cuts.split()):
            if l < 8192 or m == 5:
                yield fragments.cut_into(*map(int, cut.split("x")), fragments.every(packet(l), m=m, rule="new"))
    for rule in RULES:
        for index in (0, 13, 26):
            yield fragments.answered(fragments.one(index, packet(414), m=5, rule=rule))
        yield fragments.cut_into(2, 694, fragments.every(packet(1387), fec=0, m=0, rule=rule))
        yield fragments.answered(fragments.every(packet(60), m=3, mtu=60, address=PAIR, rule=rule))
        for index in (0, 8):
            yield fragments.answered(fragments.one(index, packet(207), m=2, mtu=60, address=PAIR, rule=rule))
    # what a question said is forgotten with it: without the word the rule is the older one again
    for rule, f, s in (("new", 27, 19), ("", 32, 16), ("new", 27, 19), ("", 32, 16)):
        yield fragments.cut_into(f, s, fragments.every(packet(414), m=5, rule=rule))
        yield fragments.answered(fragments.one(1, packet(414), m=5, rule=rule))
    yield fragments.refused(42, fragments.one(27, packet(414), m=5, rule="new"))
    yield fragments.answered(fragments.one(27, packet(414), m=5, rule="old"))
    yield fragments.refused(42, fragments.one(32, packet(414), m=5, rule="old"))
    whole = 27 * (16 + 19)
    yield fragments.answered(fragments.every(packet(414), m=5, room=whole, rule="new"))
    for number, words in ((1, dict(m=5, room=whole - 1)), (40, dict(m=6)), (40, dict(fec=0, m=1)), (41, dict(m=5, mtu=17))):
        yield fragments.refused(number, fragments.every(packet(414), rule="new", **words))
        yield fragments.refused(number, fragments.one(0, packet(414), rule="new", **(words | dict(room=34))))
    yield fragments.answered(fragments.one(0, packet(414), m=5, room=35, rule="new"))
    yield fragments.refused(22, fragments.every(packet(414)[:-1], m=5, rule="new"))


def cut(l, m, number):
    return fragments.sent(True, m, 1400, b"", number, packet(l), "new")


def lost_questions():
    run = Run()
    yield from run.fresh()
    # l 414, m 5: five that are too many, until one of them comes late; "four are sure"
    whole = cut(414, 5, 1)
    yield from run.kept(*whole[5:])
    yield from run.places("open:1")
    yield from run.delivered(packet(414), 4, whole[4])
    # five others of such a cut are not too many: they take 45 bytes of one chunk and 47 of the other
    whole = cut(414, 5, 2)
    yield from run.kept(*whole[:21])
    yield from run.delivered(packet(414), 5, whole[21])
    # l 415, m 5: five lost are not too many, though four are told
    whole = cut(415, 5, 3)
    yield from run.kept(*whole[5:20])
    yield from run.delivered(packet(415), 5, whole[20])
    # l 207, m 5: one chunk, of which any five may be lost, and not any six: the first six take 54
    whole = cut(207, 5, 4)
    yield from run.kept(*whole[6:])
    yield from run.delivered(packet(207), 5, whole[2])
    # m 4: the first four take the 48 bytes that a chunk may miss; m 1: the first takes 32 of a chunk
    whole = cut(414, 4, 5)
    yield from run.kept(*whole[4:21])
    yield from run.delivered(packet(414), 4, whole[21])
    whole = cut(8192, 1, 6)
    yield from run.kept(*whole[1:7])
    yield from run.delivered(packet(8192), 1, whole[7])


def mixed_questions():
    # the receiver is told of no rule: the same packet by both, and a fragment of one cut does not belong to the other
    run = Run()
    yield from run.fresh()
    older, newer = fragments.sent(True, 5, 1400, b"", 7, packet(415), "old"), cut(415, 5, 8)
    yield from run.kept(*older[:10], *newer[:10], *older[10:17], *newer[10:15])
    yield from run.refused(9, fragments.sent(True, 5, 1400, b"", 8, packet(415), "old")[20])
    yield from run.places("open:7", "open:8")
    yield from run.delivered(packet(415), 5, newer[15])
    yield from run.delivered(packet(415), 6, older[17])


def malformed_questions():
    plan, data = "plan 1 5 1400 - 414", packet(12).hex()
    one, every = f"fragment 1 5 1400 - 7 0 100 {data}", f"fragments 1 5 1400 - 7 32768 {data}"
    for line in (plan, one, every):
        for word in ("", "newer", "older", "New", "NEW", "OLD", "ne", "ol", "news", "olds", "0", "1", "-", "m", "new ", "old ", " new", "new old", "old old",
                     "new new", "new 0", "new\t", "new\r"):
            yield f"{line} {word}", "unknown"
        yield line.rsplit(" ", 1)[0] + " new", "unknown"
        yield line.replace(" 1 5", " new 1 5"), "unknown"
    # a malformed word comes before each refusal
    yield "plan 1 6 1400 - 414 newest", "unknown"
    yield "plan 2 5 1400 - 414 new", "unknown"
    for line in (one, every):
        yield line.replace(" 1 5", " 1 6") + " newest", "unknown"
        yield line.replace(" 1 5", " 2 5") + " new", "unknown"
    for line in ("house new", "house old", "twolosses new", "twolosses old", "recv - 49152 8192 - new", "query 49152 new"):
        yield line, "unknown"


PARTS = (("document 02, Item 6: \"with m above 0, S is the smaller of floor(48c / m) and MTU - h\"; \"the losses it assures: m, but 4 when m is 5 and c "
          "above 1 under the new rule\"", size_questions),
         ("with m 0, and without FEC, the rule changes nothing", same_questions),
         ("\"No new refusals\"", refusal_questions),
         ("document 001: what the old version did, the new one does with m one higher", one_up_questions),
         ("fragments by either rule", fragment_questions),
         ("\"The setting m survives any m losses for m from 1 to 4. For m = 5 it does when c is 1; otherwise four are sure and five not always: at l = 414 and "
          "MTU 1,400 it gives f 27, s 19, and five lost fragments can take 50 bytes of a chunk\"", lost_questions),
         ("\"the receiver takes either without being told\"", mixed_questions),
         ("malformed questions by a rule: a last word that is neither `old` nor `new`", malformed_questions))


if __name__ == "__main__":
    usage.show(__doc__, PARTS)
