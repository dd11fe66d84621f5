"""Questions on packets that come: what suffices, what is handed out, what a place then is, and what
no packet agrees with. receiving.py has them in order, each group under its sentence of document 01.
"""
import fragments
from receiver import PARITY, parsed
from runs import PAIR, Run, altered, cut, cut_as, flipped, held, misses, opening, packet, single, sized, some


def lost_questions():
    held()
    run, data = Run(), packet(415)
    whole = cut(data, 415)
    for lost, step in (((0, 1, 2), 1), ((0, 5, 8), 7)):
        come = some(whole, *(index * step % 12 for index in range(12) if index * step % 12 not in lost))
        yield from run.fresh()
        yield from run.kept(*come[:8])
        yield from run.places("open:415")
        yield from run.delivered(data, 3, come[8])
        yield from run.places("delivered:415")
        yield from run.refused(11, whole[lost[1]], come[8])


def longest_questions():
    run = Run()
    whole = cut(packet(8192), 1)
    yield from run.fresh()
    yield from run.kept(*whole[:3:-1])
    yield from run.delivered(packet(8192), 3, whole[3])
    yield from run.refused(11, whole[2])
    whole = cut(packet(8191), 2, fec=0, m=0, address=PAIR)
    yield from run.kept(*some(whole, 5, 3, 0, 1, 4), pair=PAIR)
    yield from run.places("delivered:1", "open:2")
    yield from run.delivered(packet(8191), 0, whole[2], pair=PAIR)


def enough_questions():
    run = Run()
    # n 65, f 4: fragment 0 has 17 bytes of the chunk, the others 16, so one fragment is enough or not
    data = packet(17)
    whole = cut(data, 1, m=0, mtu=36)
    assert [misses(whole, lost) for lost in ((1, 2, 3), (0, 2, 3))] == [[48], [49]]
    yield from run.fresh()
    yield from run.delivered(data, 3, whole[0])
    yield from run.refused(11, whole[1])
    yield from run.fresh()
    yield from run.kept(whole[1])
    yield from run.places("open:1")
    yield from run.delivered(data, 2, whole[3])
    # n 98, f 4: fragments 0 and 1 have 25 bytes of the chunk, 2 and 3 have 24, so two fragments are enough or not
    data = packet(50)
    whole = cut(data, 2, m=0, mtu=48)
    assert [misses(whole, lost) for lost in ((2, 3), (0, 2), (0, 1))] == [[48], [49], [50]]
    yield from run.kept(whole[1])
    yield from run.delivered(data, 2, whole[0])
    for first, second, third in ((1, 3, 0), (2, 3, 1)):
        yield from run.fresh()
        yield from run.kept(whole[first], whole[second])
        yield from run.delivered(data, 1, whole[third])
    # c 2, n 67, f 7: after any two fragments 96 bytes are missing, but it may be 49 of one chunk and 47 of the other
    data = packet(38)
    whole = cut_as(data, 3, 7, 20, c=2, k=19)
    yield from run.fresh()
    yield from run.kept(whole[1])
    yield from run.delivered(data, 5, whole[4])
    for first, second, missed in ((1, 2, [47, 49]), (4, 5, [49, 47])):
        assert misses(whole, set(range(7)) - {first, second}) == missed
        yield from run.fresh()
        yield from run.kept(whole[first], whole[second])
        yield from run.places("open:3")
        yield from run.delivered(data, 4, whole[6])


def odd_cut_questions():
    run = Run()
    # k 1: a byte of each chunk is enough, and each fragment has one of each
    data = packet(12)
    yield from run.fresh()
    for index in (0, 48):
        yield from run.delivered(data, 48, cut_as(data, index, 49, 12, c=12, k=1)[index])
    # fragment 60 of 61 has a cell that is left over and no byte of the chunk: it is kept and does not count
    whole = cut_as(data, 1, 61, 1, c=1, k=12)
    yield from run.kept(whole[60], *whole[1:12])
    yield from run.delivered(data, 48, whole[59])
    # two chunks of 12 where our sender makes one of 24, and z 11 where it makes none
    yield from run.delivered(packet(24), 0, cut_as(packet(24), 2, 1, 120, c=2, k=12)[0])
    yield from run.delivered(packet(13), 0, cut_as(packet(13), 3, 1, 120, c=2, k=12, z=11)[0])
    # a whole zero chunk behind the packet: the 24 bytes are no AF packet
    yield from run.damaged(cut_as(data, 4, 1, 120, c=1, k=12)[0])


def repeated_questions():
    run, data = Run(), packet(100)
    whole = cut(data, 1)
    yield from run.fresh()
    yield from run.kept(whole[0])
    yield from run.refused(12, whole[0], flipped(whole[0], 0, 14))
    yield from run.kept(*some(whole, 9, 4, 2, 7, 6))
    yield from run.refused(12, whole[9], flipped(whole[2], 3))
    yield from run.delivered(data, 3, whole[3])
    yield from run.refused(11, whole[3])
    # without FEC another last fragment is a repeat too, of any length while s is unknown, and up to s when it is known
    data = packet(30)
    whole = cut(data, 2, fec=0, m=0, mtu=26)
    yield from run.kept(whole[2])
    yield from run.refused(12, whole[2], flipped(whole[2], 1), sized(whole[2], 1), sized(whole[2], 11))
    yield from run.kept(whole[0])
    yield from run.refused(12, flipped(whole[0], 9), sized(whole[2], 9))
    yield from run.places("delivered:1", "open:2")
    yield from run.delivered(data, 0, whole[1])


def reordered_questions():
    run = Run()
    # f 4, s 52, the last 51
    data = packet(207)
    whole = cut(data, 1, fec=0, m=0, mtu=74)
    for order in ((3, 2, 1, 0), (1, 3, 0, 2)):
        yield from run.fresh()
        yield from run.kept(*some(whole, *order[:3]))
        yield from run.places("open:1")
        yield from run.delivered(data, 0, whole[order[3]])
        yield from run.refused(11, whole[3])
    # "l 1,387 gives f 2, s 694, last 693", and a last fragment of one byte
    for number, l, mtu in ((2, 1387, 1400), (3, 13, 18)):
        whole = cut(packet(l), number, fec=0, m=0, mtu=mtu)
        yield from run.kept(*whole[:0:-1])
        yield from run.delivered(packet(l), 0, whole[0])
    yield from run.places("delivered:1", "delivered:2", "delivered:3")


def interleaved_questions():
    run = Run()
    # two of the numbers differ in their first byte only
    data = {1: packet(31), 257: packet(32), 3: packet(33), 4: packet(34), 5: packet(35)}
    whole = {number: cut(data[number], number, fec=0, m=0, mtu=26) for number in (257, 4, 5)}
    whole.update({number: cut(data[number], number, m=0, mtu=48) for number in (1, 3)})
    assert all(len(whole[number]) == 3 for number in data)
    yield from run.fresh()
    yield from run.kept(*(whole[number][2] for number in (1, 257, 3, 4)))
    yield from run.places("open:1", "open:257", "open:3", "open:4")
    yield from run.kept(whole[4][0])
    yield from run.delivered(data[3], 1, whole[3][0])
    yield from run.kept(whole[257][1])
    yield from run.refused(12, whole[4][0])
    yield from run.delivered(data[4], 0, whole[4][1])
    yield from run.places("open:1", "open:257", "delivered:3", "delivered:4")
    yield from run.kept(whole[5][0], displaced=1)
    yield from run.places("open:5", "open:257", "delivered:3", "delivered:4")
    yield from run.refused(11, whole[3][1])
    # the first number comes again: what was kept of it is gone
    yield from run.kept(whole[1][0], displaced=257)
    yield from run.kept(whole[5][2], whole[257][0])
    yield from run.places("open:5", "open:1", "open:257", "delivered:4")
    yield from run.delivered(data[5], 0, whole[5][1])
    yield from run.delivered(data[1], 1, whole[1][2])
    yield from run.kept(whole[257][2], whole[3][1])
    yield from run.places("delivered:5", "delivered:1", "open:257", "open:3")
    yield from run.delivered(data[257], 0, whole[257][1])
    yield from run.delivered(data[3], 1, whole[3][0])


def displaced_questions():
    run = Run()
    yield from run.fresh()
    yield from run.kept(*map(opening, (0, 65535, 7, 8)))
    # a refused datagram displaces none, and a fragment more makes a place no younger
    yield from run.refused(12, opening(0))
    yield from run.refused(8, altered(opening(9), count=256, payload=bytes(49)))
    yield from run.places("open:0", "open:65535", "open:7", "open:8")
    yield from run.kept(opening(9), displaced=0)
    yield from run.delivered(packet(12), 0, single(10), displaced=65535)
    yield from run.damaged(single(11, wrong=[7]), displaced=7)
    yield from run.places("open:9", "delivered:10", "spoiled:11", "open:8")
    yield from run.damaged(single(0, 1, wrong=[59]), displaced=8)
    yield from run.delivered(packet(12), 0, single(12, 1), displaced=9)
    yield from run.places("delivered:12", "delivered:10", "spoiled:11", "spoiled:0")
    # places that were not open: none is named, and none is not the number 0
    yield from run.kept(opening(13))
    yield from run.delivered(packet(12), 0, single(14))
    yield from run.damaged(single(15, wrong=[3]))
    yield from run.kept(opening(0))
    yield from run.places("open:0", "open:13", "delivered:14", "spoiled:15")
    # a number that was displaced begins anew
    yield from run.kept(opening(10), displaced=13)
    yield from run.kept(opening(12), cut(packet(20), 13, fec=0, m=0, mtu=24)[1])
    yield from run.kept(opening(65535), displaced=0)
    yield from run.delivered(packet(20), 0, opening(13))
    yield from run.places("open:65535", "open:10", "open:12", "delivered:13")


def closed_questions():
    run, data = Run(), packet(60)
    # f 4, s 27: two lost are 54 bytes, one is 27
    whole = cut(data, 1, m=0, mtu=45)
    wrong = [altered(fragment, pseq=2) for fragment in whole]
    yield from run.fresh()
    yield from run.kept(whole[0], whole[1])
    yield from run.delivered(data, 1, whole[2])
    yield from run.refused(11, *some(whole, 3, 2, 3))
    yield from run.kept(wrong[0], flipped(wrong[3], 5))
    yield from run.damaged(wrong[2])
    yield from run.refused(10, *some(wrong, 1, 2, 1))
    yield from run.places("delivered:1", "spoiled:2")
    # until displaced
    yield from run.kept(*map(opening, (3, 4, 5)))
    yield from run.refused(10, wrong[1])
    yield from run.places("open:5", "spoiled:2", "open:3", "open:4")
    # what was kept of the number before does not come back
    yield from run.kept(whole[3], whole[0])
    yield from run.places("open:5", "open:1", "open:3", "open:4")
    yield from run.delivered(data, 1, whole[1])
    yield from run.kept(wrong[0], displaced=3)
    yield from run.kept(wrong[1])
    yield from run.delivered(data, 1, wrong[2])
    yield from run.places("open:5", "delivered:1", "delivered:2", "open:4")


def wrong_questions():
    run = Run()
    whole = cut(packet(415), 1)
    # of fragment 4 byte 3 is data, byte 13 parity: cells 40 and 160 of the first chunk, which has 139 and 48
    yield from run.fresh()
    yield from run.kept(*whole[:4], flipped(whole[4], 3, 13), *whole[5:8])
    yield from run.damaged(whole[8])
    yield from run.refused(10, *some(whole, 9, 8, 4))
    yield from run.places("spoiled:1")
    # nothing is missing: a wrong byte of the data, the first and the last of the parity, and all right
    yield from run.fresh()
    for number, wrong in enumerate(([0], [11], [12], [59], [5, 40])):
        yield from run.damaged(single(number, 1, wrong))
    yield from run.delivered(packet(12), 0, single(5, 1))
    yield from run.places("spoiled:4", "delivered:5", "spoiled:2", "spoiled:3")
    # c 2, k 6, f 108, s 1: the data come right, and of the parity one byte that is wrong
    whole = cut_as(packet(12), 6, 108, 1, c=2, k=6)
    yield from run.kept(*whole[:6], flipped(whole[6], 0), *whole[54:59])
    yield from run.damaged(whole[59])


def unnoticed_questions():
    run = Run()
    # f 60, s 1, CF 0: byte 7 is wrong (SEQ), and with all 48 parity bytes missing the packet with that byte agrees
    sent = packet(12, cf=0)
    whole = cut(sent, 1, m=0, mtu=17)
    yield from run.fresh()
    yield from run.kept(*whole[:7], flipped(whole[7], 0), *whole[8:11])
    yield from run.delivered(sent[:7] + bytes([sent[7] ^ 1]) + sent[8:], 48, whole[11])
    # without FEC: CF 1 notices, CF 0 does not
    for number, cf in ((2, 1), (3, 0)):
        sent = packet(20, cf=cf)
        first, last = cut(sent, number, fec=0, m=0, mtu=24)
        yield from run.kept(last)
        yield from run.damaged(flipped(first, 7)) if cf else run.delivered(sent[:7] + bytes([sent[7] ^ 8]) + sent[8:], 0, flipped(first, 7))
    yield from run.places("delivered:1", "spoiled:2", "delivered:3")


def zeros_questions():
    run, data = Run(), packet(415)
    whole = cut(data, 1)
    # the cells left over are the last of fragments 9, 10 and 11
    yield from run.fresh()
    yield from run.kept(*(flipped(fragment, 46) for fragment in whole[:8:-1]), *whole[4:9])
    yield from run.delivered(data, 3, whole[3])
    yield from run.delivered(packet(12), 0, altered(single(2, 1), payload=parsed(single(2, 1)).payload + b"\xff" * 59))
    # the last z bytes, with the parity that belongs to them
    for number, zeros in ((3, b"\0\0"), (4, b"\0\1"), (5, b"\x80\0")):
        only = cut_as(data, number, 1, 561, c=3, k=139, z=2, zeros=zeros)[0]
        yield from run.delivered(data, 0, only) if zeros == bytes(2) else run.damaged(only)
    yield from run.places("spoiled:5", "delivered:2", "delivered:3", "spoiled:4")


def af_questions():
    run = Run()
    yield from run.fresh()
    faulty = [fragments.faulty(number) for number, _ in fragments.FAULTS] + [packet(30)[:-1], packet(30) + b"\0", packet(30, cf=0, field=b"\0\1")]
    for number, data in enumerate(faulty):
        l = len(data)
        yield from run.damaged(cut_as(data, 2 * number, 1, l + PARITY, c=1, k=l)[0])
        yield from run.damaged(cut_as(data, 2 * number + 1, 1, l)[0])
    yield from run.places("spoiled:16", "spoiled:17", "spoiled:14", "spoiled:15")
    # over 8,192 bytes, and right but for that
    yield from run.damaged(cut_as(packet(8193), 18, 1, 40 * 253, c=40, k=205, z=7)[0])
    yield from run.damaged(cut_as(packet(8193), 19, 1, 8193)[0])
    # right ones: CF 0, and any minor
    for number, data in ((20, packet(30, cf=0)), (21, packet(30, minor=15))):
        yield from run.delivered(data, 0, cut(data, number, m=0)[0])
        yield from run.delivered(data, 0, cut(data, number + 10, fec=0, m=0)[0])
    data = packet(61, cf=0)
    whole = cut(data, 22, m=0, mtu=45)
    yield from run.kept(whole[3], whole[2])
    yield from run.delivered(data, 1, whole[0])
    yield from run.places("delivered:22", "delivered:30", "delivered:21", "delivered:31")
