"""Plans of the PFT layer, computed by themselves from documents 01 and 02 with whole numbers, and the settings that these name.

    plans.py FEC M MTU ADDR L [old|new]      prints the answer to one question
    plans.py                                 reads such questions from standard input, one a line

It is the measure for the program's answers, so it shares nothing with it.
"""
import sys

import usage

PARITY = 48  # parity bytes behind each chunk
MOST_DATA = 207  # data bytes of the longest chunk
MOST_M = 5
MOST_MTU = 16384
SHORTEST, LONGEST = 12, 8192  # bytes of an AF packet
MOST_FRAGMENTS = 256

# the settings that have a name: FEC, M, MTU and ADDR as a question has them
HOUSE = 1, 1, 1400, "-"  # document 02, Item 5: "The house default becomes m = 1"
TWO_LOSSES = 1, 2, 1400, "-"  # document 01: "House default: FEC on, m = 2, MTU 1,400, no address"


def rounded_up(a, b):
    return -(-a // b)


def header(fec, address):
    # "PF", Pseq, Findex, Fcount, the two bytes with Plen, HCRC; then RSk and RSz; then Source and Dest
    fixed = 2 + 2 + 3 + 3 + 2 + 2
    return fixed + (1 + 1 if fec else 0) + (2 + 2 if address else 0)


def shared(c, m, rule):
    """48 c over m + 1, or by the newer rule over m; document 001 prints its floor as a ceiling, as it does every floor."""
    return PARITY * c // (m if rule == "new" else m + 1)


def assured(c, m, rule):
    """Document 02, Item 6: "m, but 4 when m is 5 and c above 1 under the new rule"."""
    return 4 if rule == "new" and m == 5 and c > 1 else m


def plan(fec, m, mtu, address, l, rule=None):
    """The answer to a plan asked with a bare length: checked 40, then 20 or 22, then 41. The rule is said as a question says it, or not at all."""
    h = header(fec, address)
    if m > MOST_M or (m > 0 and not fec) or mtu <= h or mtu > MOST_MTU:
        return "refused 40"
    if l < SHORTEST:
        return "refused 20"
    if l > LONGEST:
        return "refused 22"
    c = k = z = n = 0
    total = l
    if fec:
        c = rounded_up(l, MOST_DATA)
        k = rounded_up(l, c)
        z = c * k - l
        n = k + PARITY
        total = c * n
    room = mtu - h
    if m > 0:
        room = min(shared(c, m, rule), room)
    f = rounded_up(total, room)
    if f > MOST_FRAGMENTS:
        return "refused 41"
    s = rounded_up(total, f)
    figures = (("c", c), ("k", k), ("z", z), ("n", n), ("S", room), ("L", total), ("f", f), ("s", s), ("h", h))
    if rule:
        figures += (("assured", assured(c, m, rule)),)
    return "plan " + " ".join(f"{name}={figure}" for name, figure in figures)


def answer(words):
    fec, m, mtu, address, l, *rule = words
    assert rule in ([], ["old"], ["new"]), words
    return plan(fec == "1", int(m), int(mtu), address != "-", int(l), *rule)


def main():
    usage.help_or_use(__doc__, (0, 5, 6))
    if len(sys.argv) > 1:
        print(answer(sys.argv[1:]))
        return
    for line in sys.stdin:
        print(answer(line.split()))


if __name__ == "__main__":
    main()
