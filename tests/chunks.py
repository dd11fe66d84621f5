"""Questions on chunks with the answers that they must get, from parity.txt (made by a peer, libfec)
and not from the program.

    python3 tests/chunks.py      prints each question and its answer

A chunk of the code is a row's data and parity. Whatever stands in the places of up to 48 missing
bytes, the chunk itself has to come back, for any two chunks of the code of one length differ in at
least 49 places. For the same reason no chunk of the code has the bytes that are there where one of
them is wrong and up to 47 are missing: it would differ from the row's chunk in at most 48 places.
With 48 missing and one wrong another chunk fits, which `solved` works out by elimination from the
roots of the code.
"""
import functools
import pathlib

import fields
import usage

HERE = pathlib.Path(__file__).resolve().parent
PARITY = 48  # parity bytes behind each chunk
MOST_DATA = 207  # data bytes of the longest chunk


def rows():
    """The rows of parity.txt, each once, as data and parity."""
    seen = {}
    for line in (HERE / "parity.txt").read_text().splitlines():
        if line and not line.startswith("#"):
            k, data, parity = line.split()
            assert int(k) * 2 == len(data) and len(parity) == 2 * PARITY, line
            seen[data] = parity
    return [(bytes.fromhex(data), bytes.fromhex(parity)) for data, parity in seen.items()]


ROWS = rows()


def chunk(k):
    """A chunk with k data bytes: of the last row that has k, which is the least regular one. Where no row has k, of a shorter one: the parity
    is computed with zeros between data and parity (clause 7.3.1), so zeros behind the data leave it as it is."""
    data, parity = [row for row in ROWS if len(row[0]) <= k][-1]
    return data + bytes(k - len(data)) + parity


def fill(k, missing, given):
    return f"fill {k} {','.join(map(str, missing)) or '-'} {given.hex()}"


def damaged(whole, missing, wrong=()):
    """A chunk with other bytes in the missing places, 00 and ff in turn, and with the bytes at the wrong places changed."""
    given = bytearray(whole)
    for number, place in enumerate(missing):
        given[place] = 255 * (number % 2)
    for place in wrong:
        given[place] ^= 1 + place
    return bytes(given)


times = functools.cache(fields.times)
power = functools.cache(fields.power)


@functools.cache
def inverse(a):
    return next(b for b in range(256) if times(a, b) == 1)


def conditions(k, missing, given):
    """One row for each root: the coefficients of the missing bytes, and behind them the value at the root of the bytes that are there.
    The data are the coefficients of x^254 downward, the parity those of x^47 downward (document 01, "The code")."""
    n = k + PARITY
    degree = [254 - place if place < k else n - 1 - place for place in range(n)]
    for root in range(1, PARITY + 1):
        at = [power(root * d % 255) for d in degree]  # α^255 is 1
        there = 0
        for place in set(range(n)) - set(missing):
            there ^= times(given[place], at[place])
        yield [at[place] for place in missing] + [there]


def eliminated(rows):
    """The solution of as many linear equations as there are unknowns; a row ends in its constant."""
    for i in range(len(rows)):
        pivot = next(r for r in range(i, len(rows)) if rows[r][i])
        rows[i], rows[pivot] = rows[pivot], rows[i]
        scale = inverse(rows[i][i])
        rows[i] = [times(scale, x) for x in rows[i]]
        for r in range(len(rows)):
            if r != i and rows[r][i]:
                rows[r] = [x ^ times(rows[r][i], y) for x, y in zip(rows[r], rows[i])]
    return [row[-1] for row in rows]


def solved(k, missing, given):
    """The one chunk of the code that has the bytes of `given`, where 48 are missing."""
    whole = bytearray(given)
    for place, byte in zip(missing, eliminated(list(conditions(k, missing, given)))):
        whole[place] = byte
    return bytes(whole)


def spread(n, count, first=0):
    """Some places of n, spread over all of it and not in order; no two are the same, for the step is a prime that does not divide n."""
    step = next(s for s in (7, 17) if n % s)
    return [(first + i * step) % n for i in range(count)]


def parity_questions():
    for data, parity in ROWS:
        yield f"parity {data.hex()}", f"parity {parity.hex()}"
    for k in (20, 100):
        whole = chunk(k)
        yield f"parity {whole[:k].hex()}", f"parity {whole[k:].hex()}"


def filled_questions():
    for k in (1, 2, 20, 100, 205, 206, 207):
        whole, n = chunk(k), k + PARITY
        for missing in ([], [k - 1], spread(n, 47, k), list(range(k, n))):
            yield fill(k, missing, damaged(whole, missing)), "filled " + whole.hex()
    for k in (100, 207):
        whole, n = chunk(k), k + PARITY
        for missing in (spread(k, 48), list(range(k - 48, k))[::-1], list(range(k - 24, k + 24))):
            yield fill(k, missing, damaged(whole, missing)), "filled " + whole.hex()


def refused_questions():
    for k in (1, 20, 207):
        whole, n = chunk(k), k + PARITY
        for missing in (list(range(n - 49, n)), spread(n, 49), list(range(n))):
            yield fill(k, missing, damaged(whole, missing)), "notenough"
    for k in (1, 2, 100, 206, 207):
        whole, n = chunk(k), k + PARITY
        for number, missing in enumerate(([], [n - 1], spread(n, 47))):
            present = [place for place in range(n) if place not in missing]
            wrong = present[-number]  # the first byte that is there, the last, and the last but one
            yield fill(k, missing, damaged(whole, missing, [wrong])), "none"


def other_questions():
    for k, missing in ((1, list(range(48))), (100, spread(148, 48)), (205, list(range(181, 229))), (207, list(range(207, 255)))):
        whole = chunk(k)
        assert solved(k, missing, damaged(whole, missing)) == whole, k  # the elimination, held against the peer's parity
        wrong = next(place for place in range(k + PARITY)[::-1] if place not in missing)
        given = damaged(whole, missing, [wrong])
        yield fill(k, missing, given), "filled " + solved(k, missing, given).hex()


def malformed_questions():
    one = chunk(1).hex()
    two = chunk(2).hex()
    longest = chunk(MOST_DATA).hex()
    for line in ("parity", "parity -", "parity 0", "parity 0g", "parity 00 00", "parity  00", "parity 00 ", "Parity 00", "parity " + "00" * (MOST_DATA + 1),
                 "fill", "fill 1", "fill 1 -", f"fill 1 {one}", f"fill 1 - {one} -", f"fill 1 -  {one}", f"fill 1  {one}", f"fills 1 - {one}",
                 f"fill 1 - {two}", f"fill 2 - {one}", f"fill 1 - {one[2:]}", f"fill 1 - {one[1:]}", f"fill 1 - {one.upper()}", "fill 1 - -",
                 f"fill 0 - {one[2:]}", f"fill 0 - {one}", "fill 0 - -", f"fill - - {one}", f"fill a - {one}",
                 f"fill 208 - {longest}", f"fill 208 - {longest}00", f"fill 207 - {longest}00", f"fill 18446744073709551615 - {one}",
                 f"fill 18446744073709551569 - {one}", f"fill 1 49 {one}", f"fill 1 0,49 {one}", f"fill 207 255 {longest}",
                 f"fill 1 18446744073709551616 {one}", f"fill 1 0, {one}", f"fill 1 ,0 {one}", f"fill 1 0,,1 {one}", f"fill 1 , {one}",
                 f"fill 1 0;1 {one}", f"fill 1 -,0 {one}", f"fill 1 0,- {one}", f"fill 1 -1 {one}", f"fill 1 0x1 {one}"):
        yield line, "unknown"
    # zeros in front change no number, and a wrong byte is one only where it is not missing
    yield f"fill 001 00,0048 ff{one[2:-2]}00", "filled " + one


PARTS = (("parities, of parity.txt", parity_questions), ("chunks that are filled in", filled_questions),
         ("too many bytes missing, and a wrong byte", refused_questions),
         ("48 bytes missing and a wrong one: another chunk fits", other_questions), ("malformed questions on chunks", malformed_questions))


if __name__ == "__main__":
    usage.show(__doc__, PARTS)
