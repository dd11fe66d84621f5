"""Questions on the receiver with the answers that they must get, each group under the sentence of
document 01 that gives it.

    python3 tests/receiving.py      prints each question and its answer

Every answer is written out by hand at its question (runs_taken.py, runs_refused.py): kept,
delivered with the count of fragments not held, the number of a refusal, the displaced number, the
four places. The plain receiver of receiver.py works it out as well and has to say the same; the
spread at the end is by that receiver alone. The places live from line to line, so each group begins
with `fresh`. 14 is not asked: no question can put a field of the record out of range.
"""
import itertools

import packets
import plans
import runs_refused
import runs_taken
import usage
from receiver import OUT, TABLE, parsed
from runs import MOST_DATAGRAM, MOST_OUT, MOST_TABLE, NONE, Run, altered, cut, flipped, opening, packet, recv, single, sized


def clear_questions():
    run, data = Run(), packet(60)
    whole, plain = cut(data, 1, m=0, mtu=45), cut(packet(30), 2, fec=0, m=0, mtu=26)
    yield from run.fresh()
    yield from run.places()
    yield from run.kept(whole[0], whole[1], plain[2], opening(3), opening(4))
    yield from run.kept(opening(5), displaced=1)
    yield from run.clear()
    yield from run.places()
    # nothing is held: nothing repeats, no cut is known, bytes that were kept do not count, and place 0 is the first again
    yield from run.kept(plain[1], whole[0], altered(sized(whole[2], 40), pseq=3), whole[2], plain[0])
    yield from run.places("open:2", "open:1", "open:3")
    yield from run.delivered(packet(30), 0, plain[2])
    yield from run.delivered(data, 1, whole[1])
    yield from run.damaged(single(0, 1, wrong=[1]))
    yield from run.kept(opening(6))
    yield from run.places("open:6", "delivered:1", "open:3", "spoiled:0")
    # twice, and a fresh table in the middle
    for emptied in (run.clear, run.clear, run.fresh):
        yield from emptied()
        yield from run.delivered(packet(12), 0, single(0, 1))
        yield from run.kept(whole[3], whole[0])
        yield from run.places("delivered:0", "open:1")


def some_run(numbers):
    """Fragments of packets under six numbers, in any order, some twice and some changed."""
    left = {}
    while True:
        number = next(numbers) % 6
        if not left.get(number):
            fec = next(numbers) % 3 > 0
            data = packet(12 + next(numbers) % 80, cf=next(numbers) % 2)
            left[number] = cut(data, number, fec=int(fec), m=0, mtu=plans.header(fec, False) + 20 + next(numbers) % 40)
        fragment = left[number][next(numbers) % len(left[number])]
        kind = next(numbers) % 16
        if kind > 4:
            left[number].remove(fragment)
        it = parsed(fragment)
        fields = {0: dict(count=it.count + 1), 1: dict(payload=it.payload[:-1] or b"A"), 2: dict(size=it.size - 1)}
        yield flipped(fragment, next(numbers) % it.size) if kind == 3 else altered(fragment, **fields.get(kind, {}))


def spread_questions():
    run = Run()
    yield from run.fresh()
    for turn, fragment in enumerate(itertools.islice(some_run(packets.draw(3)), 40)):
        for question in (recv(fragment), *[f"query {TABLE}"] * (turn % 10 == 9)):
            yield question, run.receiver.answer(question)


# a word of `recv PAIR TABLELEN OUTLEN DATAGRAM`, by its place, and what is no such word
NO_WORDS = ((0, "--"), (0, "0001000"), (0, "000100020"), (0, "0001000A"), (0, ""), (1, "-"), (1, "0xc000"), (1, str(MOST_TABLE + 1)), (1, str(2**64 + TABLE)),
            (2, "-"), (2, "8,192"), (2, str(MOST_OUT + 1)), (2, str(2**64 + OUT)), (3, "0"), (3, "5046A0"), (3, "50460g"), (3, ""))


def malformed_questions():
    run, fragment = Run(), opening(1)
    words = ["recv", NONE, str(TABLE), str(OUT), fragment.hex()]
    lines = [" ".join(words[:place + 1] + [wrong] + words[place + 2:]) for place, wrong in NO_WORDS]
    lines += ["recv", " ".join(words[:-1]), " ".join(words[:1] + words[2:]), " ".join(words + [NONE]), " ".join(words + [""])]
    for name in ("query", "clear"):
        lines += [f"{name}{rest}" for rest in ("", " -", f"  {TABLE}", f" {TABLE} {TABLE}", f" {MOST_TABLE + 1}", f" {2**64 + TABLE}")]
    lines += ["fresh ", "fresh -", " fresh"]
    # a malformed word comes before each refusal
    lines += [recv(b"", table=0, out=MOST_OUT + 1), recv(b"", table=MOST_TABLE + 1, out=0)]
    yield from run.fresh()
    yield from run.kept(fragment)
    for line in lines:
        yield line, "unknown"
    # no such line has changed the table; zeros in front change no number
    yield from run.asked("places open:1 free free free", f"query 000{TABLE}")
    yield from run.asked(f"delivered 20 0 none {packet(20).hex()}", f"recv - 0{TABLE} 00{OUT} {cut(packet(20), 1, fec=0, m=0, mtu=24)[1].hex()}")
    # the longest datagram of a question, and one byte more
    longest = fragment + bytes(MOST_DATAGRAM - len(fragment))
    yield from run.refused(5, longest)
    yield recv(longest + b"\0"), "unknown"
    yield from run.asked("ok", f"clear 0{TABLE}")
    yield from run.places()


PARTS = (("lost fragments: \"l 415, m 2: [..] Any three lost still rebuild, no four do\"", runs_taken.lost_questions),
         ("the longest packets: \"AF packet 12 to 8,192 bytes\"; \"Four places for packets in assembly, 12,288 bytes each\"",
          runs_taken.longest_questions),
         ("what suffices: \"no chunk misses more than 48 bytes\"; \"Counting lost fragments where missing bytes per chunk decide\"",
          runs_taken.enough_questions),
         ("other cuts than our sender's: \"The receiver takes c = floor(fs / n), n = RSk + 48\"", runs_taken.odd_cut_questions),
         ("repeated fragments: \"12 REPEAT: index already kept, equal bytes or not\"", runs_taken.repeated_questions),
         ("reordered fragments: \"Without FEC the last fragment may come first, when s is still unknown; it's kept\"; \"Taking s from the last fragment\"",
          runs_taken.reordered_questions),
         ("five numbers among each other: \"A fragment whose number is held goes to that place. Otherwise it opens the first free place, or displaces the place "
          "opened longest ago\"", runs_taken.interleaved_questions),
         ("displaced numbers: \"The answer, a delivering or DAMAGED one too, names the displaced number whenever its place was open, and otherwise none\"",
          runs_taken.displaced_questions),
         ("closed places: \"A place is open, delivered or spoiled; it keeps that until displaced or cleared\"; \"10 SPOILED, 11 LATE\"",
          runs_taken.closed_questions),
         ("what cannot belong, with FEC: \"9 MISMATCH: held with other Fcount, FEC bit, RSk, RSz, or a size that cannot belong\"",
          runs_refused.coded_mismatch_questions),
         ("and without: \"a fragment before the last differs from a known s or is shorter than the kept last, or the last is longer than a known s\"",
          runs_refused.plain_mismatch_questions),
         ("only fragments: \"Fragments per packet 1 to 256\"", runs_refused.only_questions),
         ("the count: \"7 COUNT: Fcount 0 or over 256, or Findex not below it\"; \"fragment 255 of 256\"", runs_refused.count_questions),
         ("headers: \"2 SHORT: under 14 bytes or under the header its flags call for\"; \"3 SYNC, 4 HCRC: not 'PF'; header CRC wrong\"",
          runs_refused.header_questions),
         ("the length: \"5 LENGTH: Plen 0, or total not h + Plen\"", runs_refused.length_questions),
         ("addresses: \"6 ADDRESS: address present, and not the configured pair, or none is configured\"; \"Fragments without address are never refused for "
          "address\"", runs_refused.address_questions),
         ("sizes: \"8 SIZE: Fcount x Plen over 12,288\"", runs_refused.size_questions),
         ("figures of the code: \"FEC: k 0 or over 207, z not below k, Fcount x Plen below k + 48\"", runs_refused.code_questions),
         ("wrong bytes: \"it must agree with every kept byte of the chunks [..] If no such packet exists: DAMAGED, place spoiled\"",
          runs_taken.wrong_questions),
         ("wrong bytes with which a packet agrees: \"13 DAMAGED: no packet agrees\"", runs_taken.unnoticed_questions),
         ("zeros: \"its last z bytes zero\"; \"Cells past cn are not looked at\"", runs_taken.zeros_questions),
         ("what is no AF packet: \"its ck - z bytes (without FEC, all bytes) must pass the AF checks\"", runs_taken.af_questions),
         ("clearing: \"clearing empties all four places and leaves the lent bytes; freed places are used again\"", clear_questions),
         ("room: \"1 ROOM: lent buffer too small (table not 49,152; packet out under 8,192)\"; \"query and clearing check 14, then 1\"",
          runs_refused.room_questions),
         ("the order of the refusals: \"A fragment is checked in the order 14, then 1 to 12\"; \"Every refusal but 13 leaves state and lent bytes untouched\"",
          runs_refused.order_questions),
         ("a spread of fragments, by the receiver of its own", spread_questions),
         ("malformed questions on the receiver: a malformed word, a number or a length that is too large", malformed_questions))


if __name__ == "__main__":
    usage.show(__doc__, PARTS)

