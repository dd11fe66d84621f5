"""Questions on how many losses a cut stands, with the answers that they must get, each group under
the sentence of document 02, Item 12, that gives it.

    python3 tests/endurance.py      prints each question and its answer

Every answer is counted, of the figures that plans.py gives: the cells that each fragment has of
each chunk, the largest shares first. Where there are few fragments, all sets of losses are tried.
The figures that are written out by hand, and the receiver of receiver.py, have to say the same.
"""
import functools
import itertools

import editions
import fragments
import plans
import usage
from editions import RULES
from runs import NONE, PAIR, Run, packet

PARITY = 48  # bytes that a chunk may miss
FEW = 12  # of so many fragments all sets are tried

# l, and the losses that are stood at MTU 1,400 without address: by the older rule for m 0 to 5, by the newer for m 1 to 5
OLDER = ((12, "0 2 3 4 5 6"), (207, "0 2 3 4 5 6"), (208, "0 2 3 4 4 6"), (414, "0 2 3 4 4 6"), (415, "0 2 3 4 5 6"), (8192, "1 2 3 4 4 6"))
NEWER = ((208, "1 2 3 4 4"), (415, "1 2 3 4 5"), (8192, "1 2 3 4 4"))

# with m 0: MTU and l; f, the cells that a fragment has of a chunk at the least, how many fragments have one more; w, what w take at the most, and w + 1
# first where w is below the count of those with one more
SHARES = ((40, 208, 13, 11, 9, 4, 48, 60), (29, 208, 24, 6, 8, 6, 42, 49), (18, 207, 128, 1, 127, 24, 48, 50), (64, 8192, 211, 1, 42, 24, 48, 50),
          # where it is that count
          (66, 47, 2, 47, 1, 1, 48, 95), (42, 1000, 48, 5, 8, 8, 48, 53), (43, 25, 3, 24, 1, 1, 25, 49), (99, 4096, 61, 4, 9, 9, 45, 49),
          # where it is one above it
          (23, 12, 9, 6, 6, 7, 48, 54), (41, 622, 33, 6, 6, 7, 48, 54), (33, 17, 4, 16, 1, 2, 33, 49), (78, 6000, 120, 2, 15, 16, 47, 49),
          # where it is further above it
          (26, 18, 7, 9, 3, 5, 48, 57), (25, 17, 8, 8, 1, 5, 41, 49), (100, 8192, 121, 2, 11, 18, 47, 49), (95, 8000, 126, 2, 2, 23, 48, 50),
          (500, 8191, 21, 12, 1, 3, 37, 49), (59, 8192, 236, 1, 17, 31, 48, 49), (57, 8074, 244, 1, 6, 42, 48, 49),
          # f divides n: none has one more
          (64, 48, 2, 48, 0, 1, 48, 96), (65, 50, 2, 49, 0, 0, 0, 49), (143, 207, 3, 85, 0, 0, 0, 85), (23, 15, 9, 7, 0, 6, 42, 49),
          (22, 414, 85, 3, 0, 16, 48, 51), (1000, 8191, 11, 23, 0, 2, 46, 69),
          # f is n; with FEC it is never more, so 48 losses are the most that any cut stands
          (17, 12, 60, 1, 0, 48, 48, 49), (17, 206, 254, 1, 0, 48, 48, 49), (17, 207, 255, 1, 0, 48, 48, 49), (18, 208, 152, 1, 0, 48, 48, 49),
          (55, 8073, 255, 1, 0, 48, 48, 49), (56, 8192, 253, 1, 0, 48, 48, 49))


# ---- the counting

@functools.cache
def shares(f, s, n):
    """How many cells each fragment has of each chunk: byte q of the block is in fragment q mod f, and the receiver's c is floor(fs / n)."""
    counts = [[0] * f for _ in range(f * s // n)]
    for j, chunk in enumerate(counts):
        for q in range(j * n, (j + 1) * n):
            chunk[q % f] += 1
    return counts


def most(counts, w):
    """What any w lost fragments take of a chunk at the most."""
    return max(sum(sorted(chunk, reverse=True)[:w]) for chunk in counts)


def taken(counts, lost):
    """What these lost fragments take of the chunk that is worst off."""
    return max(sum(chunk[index] for index in lost) for chunk in counts)


@functools.cache
def stood(f, s, n):
    """The greatest number of losses of which no chunk misses more than 48 bytes."""
    counts = shares(f, s, n)
    w = max(w for w in range(f + 1) if most(counts, w) <= PARITY)
    assert w < f and taken(counts, range(w + 1)) > PARITY, (f, s, n, w)
    assert f > FEW or all(taken(counts, lost) <= PARITY for lost in itertools.combinations(range(f), w)), (f, s, n, w)
    return w


def figures_of(words):
    """The figures of a plan, c, n, f and s, or its refusal."""
    cut = plans.answer(words)
    if cut.startswith("refused"):
        return cut
    figures = dict(word.split("=") for word in cut.split()[1:])
    return [int(figures[name]) for name in "cnfs"]


def computed(words):
    """The answer to a well-formed question: what the sender refuses, then what is counted. Without FEC any lost fragment is too many."""
    figures = figures_of(words)
    if isinstance(figures, str):
        return figures
    c, n, f, s = figures
    w = stood(f, s, n) if c else 0
    assert plans.assured(c, int(words[1]), *words[5:] or [None]) <= w, (words, w)
    return f"endures {w} of {f} losing " + ",".join(map(str, range(w + 1)))


# ---- questions

def asked(*words, **figures):
    """A question on a cut, whose answer has to have these figures, w and f."""
    words = [str(word) for word in words]
    answer = computed(words)
    _, w, _, f, _, _ = answer.split()
    said = dict(w=w, f=f)
    assert all(said[name] == str(figure) for name, figure in figures.items()), (words, answer, figures)
    return "endure " + " ".join(words), answer


def refused(number, *words):
    words = [str(word) for word in words]
    assert computed(words) == f"refused {number}", (words, computed(words))
    return "endure " + " ".join(words), f"refused {number}"


def held():
    """The counting, held against answers that are written out."""
    for question, answer in (("1 2 1400 - 415", "endures 3 of 12 losing 0,1,2,3"), ("1 0 1400 - 12", "endures 0 of 1 losing 0"),
                             ("0 0 1400 - 1387", "endures 0 of 2 losing 0")):
        assert computed(question.split()) == answer, question


def figure_questions():
    held()
    for l, figures in OLDER:
        for m, w in enumerate(figures.split()):
            yield asked(1, m, 1400, NONE, l, w=w)
            if l == 8192:
                yield asked(1, m, 1400, NONE, l, "old", w=w)
    for l, figures in NEWER:
        for m, w in zip(itertools.count(1), figures.split()):
            yield asked(1, m, 1400, NONE, l, "new", w=w)
    # MTU - h is the smaller, and far more are stood than the 4 that are assured
    for mtu, l, f, w in ((30, 414, 37, 6), (100, 8192, 121, 18), (56, 8192, 253, 48)):
        yield asked(1, 5, mtu, NONE, l, "new", w=w, f=f)


def share_questions():
    for mtu, l, f, least, more, w, before, behind in SHARES:
        question, answer = asked(1, 0, mtu, NONE, l, w=w, f=f)
        c, n, f, s = figures_of(question.split()[1:])
        counts = shares(f, s, n)
        assert len(counts) == c and all(sorted(chunk) == [least] * (f - more) + [least + 1] * more for chunk in counts), question
        assert (most(counts, w), most(counts, w + 1)) == (before, behind), question
        yield question, answer


def below_questions():
    # one fragment; two with 96 bytes of a chunk or 97, and with as many as there can be
    for mtu, l, f, w in ((76, 12, 1, 0), (271, 207, 1, 0), (16384, 8192, 1, 0), (65, 48, 2, 1), (65, 49, 2, 0), (5076, 8192, 2, 0)):
        yield asked(1, 0, mtu, NONE, l, w=w, f=f)
    # w is f - 1 where any one fragment is enough: of 60 bytes up to five fragments, of 61 four, of 72 three
    for mtu, l, f, w in ((46, 12, 2, 1), (31, 12, 4, 3), (28, 12, 5, 4), (26, 12, 6, 4), (32, 13, 4, 3), (29, 13, 5, 3), (40, 24, 3, 2), (41, 25, 3, 1)):
        yield asked(1, 0, mtu, NONE, l, w=w, f=f)


def plain_questions():
    for mtu, l, f in ((1400, 1386, 1), (1400, 1387, 2), (15, 12, 12), (15, 256, 256), (46, 8192, 256)):
        yield asked(0, 0, mtu, NONE, l, w=0, f=f)
    for mtu, l, f, rule in ((16384, 8192, 1, "new"), (1404, 1387, 2, "old"), (50, 8192, 256, "new")):
        yield asked(0, 0, mtu, PAIR, l, rule, w=0, f=f)


def rule_questions():
    # l, and for m 1 to 5 what the older rule's cut stands and what the newer one's does
    for l, figures in ((207, "2-1 3-2 4-3 5-4 6-5"), (1000, "2-1 3-2 4-3 4-4 6-4")):
        for m, pair in zip(itertools.count(1), figures.split()):
            for rule, w in zip(RULES, pair.split("-")):
                yield asked(1, m, 1400, NONE, l, rule, w=w)
    # with m 0, and where MTU - h is the smaller by both, the cut is the same
    for m, mtu, l, w in ((0, 1400, 1000, 0), (0, 200, 1000, 1), (3, 56, 8192, 48)):
        for rule in RULES:
            yield asked(1, m, mtu, NONE, l, rule, w=w)


def address_questions():
    # the header has four bytes more: the same as with an MTU of four bytes less
    for m, mtu, l, w in ((0, 60, 8192, 48), (0, 21, 207, 48), (0, 104, 8192, 18), (0, 69, 49, 0), (2, 1400, 415, 3), (5, 1400, 8192, 6)):
        question, answer = asked(1, m, mtu, PAIR, l, w=w)
        assert asked(1, m, mtu - 4, NONE, l)[1] == answer, question
        yield question, answer
    # and with the same MTU not
    yield asked(1, 0, 60, NONE, 8192, w=25)
    yield asked(1, 2, 1400, "ffff0000", 415, "new", w=2)


def lost(run, settings, w, late, others, last):
    """Packet 1 without the set that is told, until one of it comes late; then packet 2 without w others, and one last."""
    fec, m, mtu, l, rule = settings
    yield asked(fec, m, mtu, NONE, l, rule, w=w)
    told, other = (fragments.sent(fec == 1, m, mtu, b"", number, packet(l), rule) for number in (1, 2))
    yield from run.fresh()
    yield from run.kept(*told[w + 1:])
    yield from run.places("open:1")
    yield from run.delivered(packet(l), w, told[late])
    assert len(others) == w and last not in others, others
    yield from run.kept(*(fragment for index, fragment in enumerate(other) if index != last and index not in others))
    yield from run.delivered(packet(l), w, other[last])


def lost_questions():
    run = Run()
    # an m of 1, and two that may be lost
    yield from lost(run, (1, 1, 1400, 100, "old"), 2, 1, (3, 5), 4)
    # three have 10 bytes of the chunk and four have 9
    yield from lost(run, (1, 0, 26, 18, "old"), 5, 5, (2, 3, 4, 5, 6), 0)
    # two chunks of 161 bytes, f 10: fragment 0 has 17 of the first, fragment 1 of the second, else it is 16
    yield from lost(run, (1, 0, 49, 226, "new"), 2, 2, (2, 3), 1)
    # 30 fragments of two bytes: six are enough
    yield from lost(run, (1, 5, 18, 12, "new"), 24, 20, range(6, 30), 0)
    # without FEC
    yield from lost(run, (0, 0, 24, 20, "new"), 0, 0, (), 1)
    # two fragments with 49 bytes of the chunk and 48: the first may not be lost, the other may
    yield asked(1, 0, 66, NONE, 49, w=0, f=2)
    whole = fragments.sent(True, 0, 66, b"", 3, packet(49))
    yield from run.kept(whole[1])
    yield from run.delivered(packet(49), 0, whole[0])
    yield from run.delivered(packet(49), 1, fragments.sent(True, 0, 66, b"", 4, packet(49))[0])
    # any one of five is enough, and the set that is told is all of them
    yield asked(1, 4, 1400, NONE, 12, "new", w=4, f=5)
    yield from run.fresh()
    for number in range(5):
        yield from run.delivered(packet(12), 4, fragments.sent(True, 4, 1400, b"", number, packet(12), "new")[number])


def refusal_questions():
    for number, words in ((40, (1, 6, 1400, NONE, 100)), (20, (1, 2, 1400, NONE, 11)), (22, (1, 2, 1400, NONE, 8193)), (41, (1, 0, 55, NONE, 8192))):
        for rule in ((), ("new",)):
            yield refused(number, *words, *rule)
    for number, words in ((40, (0, 1, 1400, NONE, 100)), (40, (1, 0, 16, NONE, 100)), (40, (1, 0, 20, PAIR, 100)), (40, (1, 5, 16385, NONE, 100)),
                          (40, (1, 2**64 - 1, 1400, NONE, 100)), (20, (0, 0, 1400, NONE, 0)), (22, (0, 0, 1400, NONE, 2**64 - 1)),
                          (41, (1, 1, 17, NONE, 208)), (41, (0, 0, 15, NONE, 257)), (41, (1, 5, 59, PAIR, 8192))):
        yield refused(number, *words, "old")
    # where two apply
    for number, words in ((40, (1, 6, 1400, NONE, 11)), (40, (0, 1, 1400, NONE, 8193)), (40, (1, 6, 17, NONE, 8192)), (40, (1, 2, 16, NONE, 0)),
                          (22, (1, 0, 17, NONE, 8193)), (20, (0, 0, 15, NONE, 11))):
        yield refused(number, *words)


def malformed_questions():
    # what a question on a plan is malformed by
    for question, answer in editions.malformed_questions():
        if question.startswith("plan "):
            yield "endure" + question.removeprefix("plan"), answer
    words = "1 2 1400 - 415".split()
    for place, wrong in ((0, "2"), (0, "-"), (0, str(2**64 + 1)), (1, "-"), (1, "0x2"), (1, str(2**64)), (2, "1,400"), (2, str(2**64)), (3, "--"),
                         (3, "0001000"), (3, "000100020"), (3, "0001000A"), (4, "-"), (4, "12c"), (4, ""), (4, str(2**64))):
        yield "endure " + " ".join(words[:place] + [wrong] + words[place + 1:]), "unknown"
    line = " ".join(words)
    for question in ("endure", "endure 1", "endure 1 2 1400 -", "endure 1 2 1400 415", f"endures {line}", f"endur {line}", f"Endure {line}",
                     f" endure {line}", f"endure  {line}", f"endure\t{line}", f"endure {line}\r", f"plan endure {line}", "endures 3 of 12 losing 0,1,2,3"):
        yield question, "unknown"


def zeros_questions():
    for rule in ([], ["old"], ["new"]):
        _, answer = asked(1, 2, 1400, NONE, 415, *rule)
        yield " ".join(["endure 01 002 0001400 - 00000000000000000000000415", *rule]), answer
    yield "endure 0 0 01400 - " + "0" * 100 + "18446744073709551615", "refused 22"


PARTS = (("document 02, Item 12: \"For each FEC plan give the greatest number w such that any w lost fragments still leave every chunk, counted by the "
          "receiver's c, at most 48 bytes short\"", figure_questions),
         ("\"byte q of that block goes to fragment q mod f\": of a chunk a fragment has n div f cells or one more, and the losses that take the most are those "
          "with one more", share_questions),
         ("\"Since a chunk has at least 49 bytes, w is below f\"", below_questions),
         ("\"Without FEC w is 0\"", plain_questions),
         ("\"Both rules of Item 6 are served by one proof\"", rule_questions),
         ("with an address, which makes h four bytes more: \"with Addr: Source 2, Dest 2\"", address_questions),
         ("\"any w lost fragments still leave every chunk [..] at most 48 bytes short, and one set of w + 1 fragments whose loss does not\"", lost_questions),
         ("\"No new refusals beyond the sender's\"", refusal_questions),
         ("malformed questions on what a cut stands", malformed_questions),
         ("zeros in front change no number", zeros_questions))


if __name__ == "__main__":
    usage.show(__doc__, PARTS)
