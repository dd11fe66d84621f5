"""Questions on what the receiver refuses: fragments that cannot belong, headers, sizes, rooms, and
the order of the refusals. receiving.py has them in order, each group under its sentence of document
01.
"""
import fragments
from receiver import OUT, PLACE, TABLE, header_length, parsed
from runs import MOST_OUT, MOST_TABLE, NONE, PAIR, Run, altered, cut, cut_as, flipped, opening, packet, recv, single, sized, some


def others(fragment):
    """Fragments of the same number that cannot be of the same packet, each for one reason: another Fcount, FEC bit, RSk, RSz, size."""
    it = parsed(fragment)
    yield altered(fragment, count=it.count + 1)
    yield altered(fragment, fec=not it.fec, k=1, z=0)
    if it.fec:
        yield altered(fragment, k=it.k + 1)
        yield altered(fragment, z=it.z + 1)
    yield sized(fragment, it.size - 1)
    yield sized(fragment, it.size + 1)


def coded_mismatch_questions():
    run, data = Run(), packet(208)
    # c 2, f 4, s 76
    whole = cut(data, 1, m=0, mtu=92)
    yield from run.fresh()
    yield from run.kept(whole[0])
    yield from run.refused(9, *others(whole[1]), sized(whole[3], 75))
    yield from run.places("open:1")
    # 9 before 12
    yield from run.refused(9, altered(whole[0], count=5), sized(whole[0], 75))
    yield from run.kept(whole[3])
    yield from run.delivered(data, 1, whole[1])
    # 9 before 11
    yield from run.refused(9, *others(whole[2]), sized(whole[3], 75))
    yield from run.refused(11, whole[2])
    # 9 before 10; two cells are left over, without which a smaller size would be 8
    spoiled = flipped(cut_as(packet(12), 2, 1, 62, c=1, k=12)[0], 20)
    yield from run.damaged(spoiled)
    yield from run.refused(9, *others(spoiled))
    yield from run.refused(10, spoiled)
    yield from run.places("delivered:1", "spoiled:2")


def plain_mismatch_questions():
    run, data = Run(), packet(58)
    # f 3, s 20, the last 18
    whole = cut(data, 1, fec=0, m=0, mtu=34)
    yield from run.fresh()
    yield from run.kept(whole[0])
    yield from run.refused(9, *others(whole[1]), sized(whole[2], 21), sized(whole[0], 19))
    yield from run.kept(whole[2])
    yield from run.refused(9, sized(whole[2], 21))
    yield from run.refused(12, sized(whole[2], 20))
    # the last first: s is unknown, and only what is shorter than the last cannot belong
    for number, size in ((2, 18), (3, 19)):
        first, second, last = (altered(fragment, pseq=number) for fragment in whole)
        yield from run.kept(last)
        yield from run.refused(9, sized(first, 17), sized(second, 17))
        yield from run.kept(sized(second, size))
        yield from run.refused(9, sized(first, size - 1), sized(first, size + 1), sized(last, size + 1))
    yield from run.places("open:1", "open:2", "open:3")
    # 9 before 11, for the cut outlives the delivery
    yield from run.delivered(data, 0, whole[1])
    yield from run.refused(9, *others(whole[1]), sized(whole[2], 21))
    yield from run.refused(11, whole[0], sized(whole[2], 1), sized(whole[2], 20))
    # 9 before 10, and 13 keeps its fragment: with it s is known
    first, last = altered(whole[0], pseq=4, count=2), altered(sized(whole[1], 18), pseq=4, count=2)
    yield from run.kept(last)
    yield from run.damaged(first)
    yield from run.refused(9, sized(first, 19), sized(first, 21), sized(last, 21))
    yield from run.refused(10, first, sized(last, 20))
    yield from run.places("delivered:1", "open:2", "open:3", "spoiled:4")


def only_questions():
    run = Run()
    yield from run.fresh()
    for number, l in ((1, 12), (2, 414)):
        only = cut(packet(l), number, m=0)[0]
        yield from run.delivered(packet(l), 0, only)
        yield from run.refused(11, only)
        yield from run.refused(9, sized(only, parsed(only).size + 1))
    # without FEC an only fragment is the last, and s stays unknown
    for number, l in ((3, 12), (4, 1386)):
        only = cut(packet(l), number, fec=0, m=0)[0]
        yield from run.delivered(packet(l), 0, only)
        yield from run.refused(11, sized(only, 1), sized(only, 13))
        yield from run.refused(9, altered(sized(only, 12), count=2))
    yield from run.places("delivered:1", "delivered:2", "delivered:3", "delivered:4")
    yield from run.damaged(single(5, wrong=[2]))
    yield from run.refused(10, single(5), sized(single(5), 1), sized(single(5), 30))


NO_COUNTS = ((0, 0), (256, 257), (256, 256), (1, 1), (0, 2**16 + 256), (2**16 + 255, 256), (2**24 - 1, 2**24 - 1))  # Findex and Fcount


def count_questions():
    run, data = Run(), packet(15)
    # k 1, f 256, s 3, c 15: fragment 255 has a byte of chunks 5 and 10, and those before it have none of these
    whole = cut_as(data, 1, 256, 3, c=15, k=1)
    yield from run.fresh()
    yield from run.kept(*some(whole, 40, 60, 98, 147, 196))
    yield from run.delivered(data, 250, whole[255])
    yield from run.refused(11, whole[254], whole[255])
    plain = cut(packet(256), 2, fec=0, m=0, mtu=15)
    yield from run.kept(*some(plain, 255, 0, 254))
    yield from run.refused(12, plain[255])
    for fragment, wrong in ((whole[255], NO_COUNTS), (plain[255], NO_COUNTS[:4])):
        yield from run.refused(7, *(altered(fragment, pseq=3, index=index, count=count) for index, count in wrong))
    yield from run.places("delivered:1", "open:2")


def changed(datagram, at):
    """A datagram with one byte changed and its HCRC left."""
    return datagram[:at] + bytes([datagram[at] ^ 1]) + datagram[at + 1:]


def header_questions():
    run = Run()
    yield from run.fresh()
    for fec, address, h in fragments.SHAPES:
        whole = cut(packet(12), 1, fec=fec, m=0, address=address)[0]
        yield from run.refused(2, whole[:h - 1], pair=address)
        # a header with nothing behind it is not short
        yield from run.refused(5, whole[:h], pair=address)
    yield from run.refused(2, b"", b"P" + bytes(12))
    # flags that call for 16, 18 and 20 bytes, of a header that is wrong besides
    for flags, h in ((0x8000, 16), (0x4000, 18), (0xC000, 20)):
        wrong = b"PG" + bytes(8) + flags.to_bytes(2, "big") + bytes(h - 12)
        yield from run.refused(2, wrong[:-1])
        yield from run.refused(3, wrong)
    yield from run.refused(3, *(altered(opening(1), sync=sync) for sync in (b"PG", b"QF", b"AF")))
    # every byte of the header counts for the HCRC
    yield from run.refused(4, *(changed(opening(1), at) for at in (2, 6, 9, 11, 13)))
    coded = cut(packet(12), 1, m=0, address=PAIR)[0]
    yield from run.refused(4, *(changed(coded, at) for at in (12, 13, 17, 18)), pair=PAIR)
    yield from run.places()


def length_questions():
    run = Run()
    yield from run.fresh()
    for number, (fec, address, _) in enumerate(fragments.SHAPES):
        whole = cut(packet(40), number, fec=fec, m=0, address=address)[0]
        one = altered(whole, payload=b"A")
        yield from run.refused(5, altered(whole, payload=b""), altered(whole, size=0), whole + b"\0", whole[:-1], pair=address)
        # one byte, as its header says: it goes on to the checks behind
        yield from run.refused(8, one, pair=address) if fec else run.damaged(one, pair=address)
    yield from run.places("spoiled:0", "spoiled:1")


def address_questions():
    run, data = Run(), packet(30)
    whole, plain = cut(data, 1, fec=0, m=0, mtu=30, address=PAIR), cut(data, 2, fec=0, m=0, mtu=26)
    yield from run.fresh()
    for pair in (NONE, "00010003", "00020002", "00020001", "0001ffff", "ffff0002", "00000000"):
        yield from run.refused(6, whole[0], pair=pair)
    yield from run.places()
    yield from run.kept(whole[0], pair=PAIR)
    yield from run.refused(6, whole[0], pair=NONE)
    # FFFF and 0000 are values like any other
    for address in ("ffffffff", "0001ffff", "00000000"):
        other = altered(whole[1], address=bytes.fromhex(address))
        yield from run.refused(6, other, pair=NONE)
        yield from run.refused(6, other, pair=PAIR)
    # the pair of each call counts, and addresses are not compared within one number
    yield from run.kept(altered(whole[1], address=bytes(4)), pair="00000000")
    yield from run.delivered(data, 0, altered(whole[2], address=b"\xff" * 4), pair="ffffffff")
    # without address under any pair
    yield from run.kept(plain[0], pair=PAIR)
    yield from run.kept(plain[1], pair="ffffffff")
    yield from run.refused(12, altered(whole[0], pseq=2), pair=PAIR)
    yield from run.delivered(data, 0, plain[2])
    # with FEC the address stands behind RSk and RSz
    coded = cut(packet(12), 3, m=0, address=PAIR)[0]
    for pair in (NONE, "00010003", "00020002"):
        yield from run.refused(6, coded, pair=pair)
    yield from run.delivered(packet(12), 0, coded, pair=PAIR)
    yield from run.delivered(packet(12), 0, single(4, 1), pair=PAIR)
    yield from run.places("delivered:1", "delivered:2", "delivered:3", "delivered:4")


def size_questions():
    run, data = Run(), packet(8155)
    yield from run.fresh()
    for number, fec in ((1, 0), (2, 1)):
        most = cut_as(bytes(PLACE), number, 256, 48, c=48 * fec, k=207 * fec)[255]
        yield from run.refused(8, sized(most, 49))
        yield from run.kept(most)
    half = cut_as(data, 3, 2, 6144, c=85, k=96, z=5)[1]
    yield from run.refused(8, sized(half, 6145))
    yield from run.kept(half)
    full = cut_as(data, 4, 1, PLACE, c=85, k=96, z=5)[0]
    yield from run.refused(8, sized(full, PLACE + 1))
    yield from run.delivered(data, 0, full)
    # the last without FEC has its own Plen counted, and 14 bits of it are read
    yield from run.refused(8, altered(opening(5), index=255, count=256, payload=bytes(49)))
    yield from run.refused(8, altered(opening(5), count=1, payload=bytes(2**14 - 1)))
    yield from run.places("open:1", "open:2", "open:3", "delivered:4")


NO_CODES = ((0, 0), (208, 0), (255, 0), (207, 207), (207, 255), (12, 12), (1, 1), (1, 2))  # k and z
TOO_LITTLE = ((12, 1, 59), (12, 2, 29), (12, 59, 1), (207, 1, 254), (207, 254, 1), (1, 48, 1), (20, 4, 16))  # k, Fcount, Plen
JUST_ENOUGH = ((100, 2, 74), (12, 60, 1), (207, 255, 1), (20, 4, 17))


def code_questions():
    run = Run()
    first = cut_as(bytes(207), 1, 2, 200, c=1, k=207)[0]
    yield from run.fresh()
    yield from run.refused(8, *(altered(first, k=k, z=z) for k, z in NO_CODES))
    yield from run.kept(first, altered(first, pseq=2, z=206), altered(sized(first, 1), pseq=3, k=1, count=98))
    yield from run.refused(8, *(altered(sized(first, size), pseq=4, k=k, count=count) for k, count, size in TOO_LITTLE))
    yield from run.places("open:1", "open:2", "open:3")
    yield from run.clear()
    yield from run.kept(*(altered(sized(first, size), pseq=number, k=k, count=count) for number, (k, count, size) in enumerate(JUST_ENOUGH)))
    # ck - z is no length of a packet, which is found when it is formed
    yield from run.damaged(cut_as(b"A", 9, 1, 49, c=1, k=1)[0], displaced=0)
    yield from run.damaged(cut_as(b"A", 10, 1, 60, c=1, k=12, z=11)[0], displaced=1)
    yield from run.places("spoiled:9", "spoiled:10", "open:2", "open:3")


def room_questions():
    run, data = Run(), packet(30)
    whole = cut(data, 1, fec=0, m=0, mtu=26)
    yield from run.fresh()
    yield from run.kept(whole[0])
    for table in (0, 49151, 49153, MOST_TABLE):
        yield from run.refused(1, whole[1], table=table)
        yield from run.asked("refused 1", f"query {table}", f"clear {table}")
    for out in (0, 8191):
        yield from run.refused(1, whole[1], single(2), out=out)
    yield from run.places("open:1")
    yield from run.kept(whole[1], out=8193)
    yield from run.delivered(data, 0, whole[2], out=MOST_OUT)
    yield from run.places("delivered:1")


# a way to be refused with each number that does not stand in the way of the others
WAYS = {3: dict(sync=b"PG"), 5: dict(size=31), 6: dict(address=b"\0\1\0\3"), 7: dict(index=3), 8: dict(k=208), 9: dict(z=1)}


def at_fault(fragment, *numbers):
    fields = {}
    for number in numbers:
        fields.update(WAYS.get(number, {}))
    wrong = altered(fragment, **fields)
    return changed(wrong, header_length(wrong) - 1) if 4 in numbers else wrong


def order_questions():
    run, data, ours = Run(), packet(40), dict(pair=PAIR)
    # f 3, s 30: two fragments are enough
    unheld, open_, late, spoiled = ([altered(fragment, pseq=number) for fragment in cut(data, 0, m=0, mtu=60, address=PAIR)] for number in (4, 1, 2, 3))
    yield from run.fresh()
    yield from run.kept(open_[0], late[0], flipped(spoiled[0], 0), **ours)
    yield from run.delivered(data, 1, late[1], **ours)
    yield from run.damaged(spoiled[1], **ours)
    # 1 before each other
    short = unheld[0][:19]
    alone = {number: at_fault(unheld[0], number) for number in range(3, 9)} | {2: short, 9: at_fault(open_[1], 9), 10: spoiled[2], 11: late[2], 12: open_[0]}
    for number, wrong in alone.items():
        assert run.receiver.answer(recv(wrong, **ours)) == f"refused {number}"
        yield from run.refused(1, wrong, table=TABLE - number % 2, out=OUT - 1 + number % 2, **ours)
    # 2 before 3 and 6
    yield from run.refused(2, b"PG" + short[2:], pair=NONE)
    # two of 3 to 8, of a number that is not held
    for first, second in ((3, 4), (4, 5), (5, 6), (6, 7), (7, 8), (3, 5), (4, 7), (5, 8), (6, 8)):
        yield from run.refused(first, at_fault(unheld[0], first, second), **ours)
    # these before 9, and with 9 before 10, 11 and 12
    for first in (4, 6, 7, 8):
        yield from run.refused(first, at_fault(open_[1], first, 9), **ours)
    for first in (5, 7, 8, 9):
        yield from run.refused(first, *(at_fault(fragment, first) for fragment in (spoiled[2], late[2], open_[0])), **ours)
    # 10 and 11 before 12
    yield from run.refused(10, spoiled[1], **ours)
    yield from run.refused(11, late[1], **ours)
    # nothing of all this was kept or has opened a place
    yield from run.places("open:1", "delivered:2", "spoiled:3")
    yield from run.delivered(data, 1, open_[2], **ours)
