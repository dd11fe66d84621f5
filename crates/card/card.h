/* The calls of libcard.a for C, a link card after ETSI TS 102 821: AF packets go out as PFT fragments, with parity where FEC is on, and come
 * together again at the far end. c/run and rust/run make the library, which is the crate card_c as `rt lib` there makes it; then
 *
 *     cc -I crates/card yours.c target/staticlib/libcard.a
 *
 * bailhammer.h beside this file has the same calls with structs in place of told bytes; c/first.c is the shortest program with it, c/rebuild.c
 * the one to copy. A packet from end to end; each call gives 0 where it is done, and where it refuses, told and out are as they were:
 *
 *     bailhammer_wrap(seq, 1, payload, l - BAILHAMMER_AF_FRAME, packet, sizeof packet);
 *     bailhammer_fragments(BAILHAMMER_HOUSE, BAILHAMMER_NO_ADDRESS, pseq, packet, l, told, sizeof told, sent, sizeof sent);
 *     // the line, on which fragments are lost, exchanged and repeated
 *     if (bailhammer_receive(BAILHAMMER_NO_ADDRESS, record, sizeof record, lent, sizeof lent, datagram, length, told, sizeof told,
 *                            out, sizeof out) == BAILHAMMER_DONE && told[0])
 *         use(out, (size_t)told[1] * 256 + told[2]);
 */
#ifndef BAILHAMMER_CARD_H
#define BAILHAMMER_CARD_H

#include <stddef.h>
#include <stdint.h>

#ifdef __cplusplus
extern "C" {
#endif

#define BAILHAMMER_VERSION 4       /* one more where a call, a number or a size is another than before */
#define BAILHAMMER_RECORD_LAYOUT 1 /* one more where a receiver's record or lent bytes that were kept mean something else than before */

/* Bytes that the calls ask for. */
#define BAILHAMMER_PACKET 8192 /* the most bytes of an AF packet, and the least of the buffer that one is handed out in */
#define BAILHAMMER_RECORD 1081 /* the receiver's record */
#define BAILHAMMER_LENT 49152  /* what the receiver keeps of the fragments in its four places */
#define BAILHAMMER_WALKER 56   /* a walk through a packet's items */
#define BAILHAMMER_SENT 17408  /* no packet's fragments take more: 12,288 bytes and 256 headers of 20 */

/* Bytes that each call tells, and the least of its `told`: with fewer it gives 1. Up to version 3 a finding told 17 and a step 22. */
#define BAILHAMMER_TOLD_CHECK 8
#define BAILHAMMER_TOLD_FIND 26 /* bailhammer_nth tells as many */
#define BAILHAMMER_TOLD_STEP 31 /* bailhammer_walk_step */
#define BAILHAMMER_TOLD_PLAN 20
#define BAILHAMMER_TOLD_ENDURE 260
#define BAILHAMMER_TOLD_FRAGMENT 2
#define BAILHAMMER_TOLD_FRAGMENTS 8
#define BAILHAMMER_TOLD_PARSE 17
#define BAILHAMMER_TOLD_RECEIVE 8
#define BAILHAMMER_TOLD_QUERY 12

/* Figures of the format. */
#define BAILHAMMER_AF_HEADER 10  /* where the payload of an AF packet begins */
#define BAILHAMMER_AF_FRAME 12   /* the bytes of an AF packet beside its payload */
#define BAILHAMMER_ITEM_HEAD 8   /* the bytes of a TAG item before its value */
#define BAILHAMMER_PARITY 48     /* the parity bytes of a chunk */
#define BAILHAMMER_BLOCK 12288   /* the most bytes of a packet's chunks with their parity, and of a place */
#define BAILHAMMER_FRAGMENTS 256 /* the most fragments of a packet */
#define BAILHAMMER_MTU 16384     /* the most that mtu may be */
#define BAILHAMMER_PLACES 4      /* the packets that the receiver holds at a time */

/* A TAG name from its four letters, as the calls take it: BAILHAMMER_NAME('d', 'e', 'm', 'o'). */
#define BAILHAMMER_NAME(a, b, c, d) ((uint32_t)(uint8_t)(a) << 24 | (uint32_t)(uint8_t)(b) << 16 | (uint32_t)(uint8_t)(c) << 8 | (uint8_t)(d))

/* As the calls take them: fec, m, newer and mtu of the house default, which is made to bear one loss, and of the setting for two losses, the
 * house default of old, both by the older rule; and an address that is none. */
#define BAILHAMMER_HOUSE 1, 1, 0, 1400
#define BAILHAMMER_TWO_LOSSES 1, 2, 0, 1400
#define BAILHAMMER_NO_ADDRESS 0, 0, 0

/* The numbers that the calls give, under document 01's names. */
enum bailhammer_number {
    BAILHAMMER_DONE = 0,         /* done */
    BAILHAMMER_ROOM = 1,         /* the bytes lent are too few, or not as many as they must be */
    BAILHAMMER_SHORT = 2,        /* the datagram has under 14 bytes, or under the header its flags call for */
    BAILHAMMER_SYNC = 3,         /* the datagram does not begin with "PF" */
    BAILHAMMER_HCRC = 4,         /* the CRC of the datagram's header is wrong */
    BAILHAMMER_LENGTH = 5,       /* the datagram has no payload, or not the one its header tells */
    BAILHAMMER_ADDRESS = 6,      /* the datagram has an address, and that is not the one given, or none is given */
    BAILHAMMER_COUNT = 7,        /* f is 0 or over 256, or the fragment's index is not below it */
    BAILHAMMER_SIZE = 8,         /* sizes that cannot be: too many bytes for a block or too few for a chunk, k not 1 to 207, or z not below k */
    BAILHAMMER_MISMATCH = 9,     /* the packet's number is held with another f, FEC, k or z, or with a size that cannot belong */
    BAILHAMMER_SPOILED = 10,     /* no packet agreed with the fragments of this packet */
    BAILHAMMER_LATE = 11,        /* the packet was handed out already */
    BAILHAMMER_REPEAT = 12,      /* the fragment is kept already */
    BAILHAMMER_DAMAGED = 13,     /* the fragment is kept, and no packet agrees with those kept */
    BAILHAMMER_STATE = 14,       /* the record is none: one of its fields is out of its range */
    BAILHAMMER_AF_SHORT = 20,    /* the AF packet has under 12 bytes */
    BAILHAMMER_AF_SYNC = 21,     /* the AF packet does not begin with "AF" */
    BAILHAMMER_AF_LENGTH = 22,   /* the AF packet's length is not LEN + 12, or is over 8,192 */
    BAILHAMMER_AF_MAJOR = 23,    /* the AF packet's major revision is not 1 */
    BAILHAMMER_AF_TYPE = 24,     /* the AF packet's type is not 'T' */
    BAILHAMMER_AF_CRC = 25,      /* the AF packet's CRC field is wrong */
    BAILHAMMER_OVERRUN = 30,     /* an item passes the end of its packet */
    BAILHAMMER_TWICE = 31,       /* a name other than "*dmy" stands twice on one level of a packet, and repeats are forbidden */
    BAILHAMMER_DEPTH = 32,       /* an item stands at depth 5 */
    BAILHAMMER_PTR = 33,         /* "*ptr" has not 64 bits */
    BAILHAMMER_ABSENT = 34,      /* the name is in neither packet, or the packet has no occurrence of that number */
    BAILHAMMER_WHOLE = 35,       /* a container has not whole bytes */
    BAILHAMMER_SETTINGS = 40,    /* settings that cannot be: m over 5, m above 0 without FEC, or mtu over 16,384 or not above h */
    BAILHAMMER_TOOMANY = 41,     /* the packet would take over 256 fragments */
    BAILHAMMER_INDEX = 42,       /* the fragment asked for is not below f */
    BAILHAMMER_BITS = 43,        /* the value has not as many bytes as its bits take; or the names are over 8, or not four bytes each */
    BAILHAMMER_ZERO = 44,        /* a division by zero or the logarithm of zero, which no call for C makes */
    BAILHAMMER_NOTHING = 256,    /* no word of the code agrees with the cells kept; 0 stands in each missing cell */
    BAILHAMMER_NOT_ENOUGH = 257  /* too few fragments are kept: a chunk misses more than 48 bytes */
};

/* What a place of the receiver is, as bailhammer_query tells it. */
enum bailhammer_condition {
    BAILHAMMER_PLACE_FREE = 0,      /* it holds no packet */
    BAILHAMMER_PLACE_OPEN = 1,      /* fragments of its packet are kept, and more are needed */
    BAILHAMMER_PLACE_DELIVERED = 2, /* its packet was handed out */
    BAILHAMMER_PLACE_SPOILED = 3    /* no packet agreed with its fragments */
};

/*
 * What holds of every call.
 *
 * Bytes. A slice is a pointer and then a length, and may stand at any address. No pointer may be null, also where the length is 0, and the
 * bytes that are written may not overlap the bytes that are read, nor those of another slice that is written. record_bytes_len, lent_len and
 * walker_len are exactly BAILHAMMER_RECORD, BAILHAMMER_LENT and BAILHAMMER_WALKER; told_len, out_len and block_len may be more than is needed.
 * Where the number is neither 0, 13 nor 256, no byte lent is changed: none of any slice, `told` too. What a call writes stands at the front of
 * `out`, and what it tells at the front of `told`, numbers big-endian; every byte behind that is as it was. Where told_len is below what it
 * takes, the call gives 1, or the number that is due before it, and nothing is done. What is 0 or not 0 counts as no or yes.
 *
 * Two lots of bytes are the receiver's and stand with the caller: its record, BAILHAMMER_RECORD bytes, says what the four places are; the
 * lent bytes, BAILHAMMER_LENT, are what they keep of the fragments.
 *
 * The calls keep no pointer and no state of their own: those on different buffers may run at once, and a record is for one call at a time.
 * Every call ends, and none waits. The bailhammer_receive that hands a packet out does all of its decoding: for 8,192 bytes with FEC it took
 * some hundreds of times as long as one that only keeps a fragment. docs/PERFORMANCE.md has times, and the stack of each call.
 *
 * Each call takes less than 64 KiB of stack, as c/run stack measures, memcpy and memset aside: where these are bound when they are first
 * called, that call can take some KiB more. The library is x86-64 code by the System V convention, with a size_t of 64 bits.
 *
 * Letters, as in document 01: a packet of l bytes is laid in c chunks of k bytes, with z zeros behind it in the last; each chunk is followed by
 * its 48 parity bytes, which makes n = k + 48. L is the bytes that are cut, c n with FEC (without it c, k, z and n are 0, and L is l), and S the
 * most of them that a fragment may take. They are cut into f fragments of s bytes (without FEC the last may have fewer), each behind a header of
 * h bytes. m is how many losses a sender is set for, and the plan tells how many the cut assures, whichever fragments are lost; mtu is the most
 * bytes of a fragment, header and all.
 */

/* The AF layer. */

/* Writes the AF packet of a payload at the front of out: payload_len + 12 bytes, with a CRC where cf is yes. seq is SEQ, which the caller
 * counts and the card does not look at. Gives 0; else the first of 22 (over 8,180 bytes) and 1 that is due.
 *
 *     size_t number = bailhammer_wrap(seq, 1, payload, payload_len, packet, sizeof packet);
 *     size_t l = payload_len + BAILHAMMER_AF_FRAME;
 */
size_t bailhammer_wrap(uint16_t seq, size_t cf, const uint8_t *payload, size_t payload_len, uint8_t *out, size_t out_len);

/* Checks an AF packet. Its payload begins at 10. Tells 8 bytes: SEQ (2), CF (1), the minor revision (1), LEN (4). Gives 0; else the
 * first of 20 to 25 and 1 that is due.
 *
 *     uint8_t told[BAILHAMMER_TOLD_CHECK];
 *     if (bailhammer_check(packet, l, told, sizeof told) == BAILHAMMER_DONE)
 *         use(packet + BAILHAMMER_AF_HEADER, l - BAILHAMMER_AF_FRAME);
 */
size_t bailhammer_check(const uint8_t *packet, size_t packet_len, uint8_t *told, size_t told_len);

/* The TAG layer. In its calls a packet is a TAG packet: items one behind the other, and at most 7 bytes of padding. The payload of an AF packet
 * is one, the AF packet itself is not: hand in packet + BAILHAMMER_AF_HEADER and l - BAILHAMMER_AF_FRAME. A container is an item whose value is
 * a TAG packet again; an item's depth is how many containers it stands in, 4 at most. A standing packet is a second TAG packet, for items that
 * are sent rarely. A name is four bytes as a number, the first one highest; names are four bytes each, one behind the other.
 *
 * repeats says whether a name may stand more than once on one level of a packet; filler, "*dmy", always may. Where it is no, repeats are
 * forbidden, and any other name that stands twice gives 31. Where it is yes, 31 is given at no depth of a walk and of neither packet of a
 * finding, and all else is checked the same. A second "*ptr" that has not 64 bits gives 31 where repeats is no, and 33 where it is yes.
 *
 * An item begins with its name, 8 bytes before its value, and its bytes are those 8 and the value's. Where it begins, and where its value does, is
 * counted in bytes from the front of the packet handed in; in the AF packet both are BAILHAMMER_AF_HEADER further on. The unused bits of its last
 * byte are the low ones, which are not part of the value: 0 to 7 of them, and none in an item of 0 bits, whose value has no byte. */

/* Writes an item at the front of out: 8 bytes and the value's, which are as many as its bits take; unused bits are written as zeros. Gives
 * 0; else the first of 43, 33 and 1 that is due.
 *
 *     const uint8_t value[2] = {0xab, 0xc0};   // twelve bits
 *     number = bailhammer_item(BAILHAMMER_NAME('d', 'e', 'm', 'o'), 12, value, sizeof value, payload, sizeof payload);
 *     // the next item goes to payload + BAILHAMMER_ITEM_HEAD + sizeof value
 */
size_t bailhammer_item(uint32_t name, uint32_t bits, const uint8_t *value, size_t value_len, uint8_t *out, size_t out_len);

/* Finds the first item of a name in a packet, else in the standing packet beside it, which may be empty. Tells 26 bytes: 0 where it is in the
 * packet, 1 where in the standing packet (1), its bits (4), where its value begins there (8), the value's bytes (4), where the item itself begins
 * there, with its name (8), and how many unused bits its last byte has (1). Gives 0; else 30, 31 or 33 of the packet, then of the standing packet;
 * 34; or 1.
 *
 *     uint8_t told[BAILHAMMER_TOLD_FIND];      // with no standing packet, and repeats forbidden:
 *     number = bailhammer_find(payload, payload_len, payload, 0, BAILHAMMER_NAME('d', 'e', 'm', 'o'), 0, told, sizeof told);
 */
size_t bailhammer_find(const uint8_t *packet, size_t packet_len, const uint8_t *standing, size_t standing_len, uint32_t name, size_t repeats,
                       uint8_t *told, size_t told_len);

/* Finds occurrence `number` of a name, counted from 0 on, in the packet alone: no standing packet is looked at. Tells the 26 bytes that
 * bailhammer_find tells, and the first of them is 0. Where repeats is no, "*dmy" alone can have occurrences beyond 0. Gives 0; else 30, 31 or 33
 * of the packet; 34 where it has no such occurrence; or 1. Each call checks the whole packet: who wants all items of a name takes a walk.
 *
 *     uint8_t told[BAILHAMMER_TOLD_FIND];      // the second item of the name:
 *     number = bailhammer_nth(payload, payload_len, BAILHAMMER_NAME('d', 'e', 'm', 'o'), 1, 1, told, sizeof told);
 */
size_t bailhammer_nth(const uint8_t *packet, size_t packet_len, uint32_t name, size_t number, size_t repeats, uint8_t *told, size_t told_len);

/* Opens a walk through a packet and the containers in it that have one of the names: all of it is checked. walker has 56 bytes, where the
 * walk stands. Gives 0; else the first of 43; 30, 31, 33, 35 and 32 of the leftmost item at fault; and 1 that is due.
 *
 *     const uint8_t names[4] = {'f', 'i', 'o', '_'};
 *     uint8_t walker[BAILHAMMER_WALKER], told[BAILHAMMER_TOLD_STEP];
 *     number = bailhammer_walk_open(payload, payload_len, names, sizeof names, 0, walker, sizeof walker);
 */
size_t bailhammer_walk_open(const uint8_t *packet, size_t packet_len, const uint8_t *names, size_t names_len, size_t repeats, uint8_t *walker,
                            size_t walker_len);

/* Hands out the next item of a walk over the same packet and names. Tells 31 bytes: 1 (1), the item's depth (1), its name (4), its bits
 * (4), where its value begins (8), the value's bytes (4), where the item itself begins, with its name (8), and how many unused bits its last byte
 * has (1); or, behind the last item, zeros and, in told[18] to told[21], the bytes of padding: so it does then at each step. At every depth, where
 * an item and its value begin is counted in packet, and not in the container. Gives 0; else the first that is due: 1 where walker has not 56 bytes
 * or told under 31; 43 for a list of names that opening refuses. Where walker is not as a call left it, a step may tell an item that is none or the
 * end, and gives 30 where what stands there would pass the end of its packet.
 *
 *     while (bailhammer_walk_step(payload, payload_len, names, sizeof names, walker, sizeof walker, told, sizeof told) == 0 && told[0])
 *         show(told);
 */
size_t bailhammer_walk_step(const uint8_t *packet, size_t packet_len, const uint8_t *names, size_t names_len, uint8_t *walker,
                            size_t walker_len, uint8_t *told, size_t told_len);

/* The sender. FEC is on where fec is yes, and the header has the address source and dest where addressed is yes. m is the losses that it is
 * set for, 5 at most, and 0 without FEC; mtu is the most bytes of a fragment, above h and 16,384 at most, where h is 14, two more with FEC,
 * four more with an address. The house default is BAILHAMMER_HOUSE and no address; whoever has to survive two losses writes
 * BAILHAMMER_TWO_LOSSES in its place.
 *
 * newer says by which edition's rule S is worked out. Where it is no, by the older one (V1.2.1, document 000): the smaller of mtu - h and
 * floor(48 c / (m + 1)). Where it is yes, by the newer one (V1.3.1, document 001): the smaller of mtu - h and floor(48 c / m). Where m is 0, S
 * is mtu - h, and the rule changes nothing. The receiver takes either without being told.
 *
 * pseq is the packet's number, Pseq in the header; it is not the number that a call gives. The caller counts it: one more for each packet, and 0
 * behind 65,535. The receiver tells packets apart by it alone: while it holds a number, a second packet under it is refused with 9 to 12, or its
 * fragments are taken for the first one's. */

/* Plans the cut of an AF packet of l bytes. Tells 20 bytes, two each: c, k, z and n (0 without FEC), h, S, L, f, s, and the losses that
 * the cut assures, whichever they are: m, but 4 where m is 5 and c above 1 by the newer rule. Gives 0; else the first of 40, 20, 22, 41
 * and 1 that is due.
 *
 *     uint8_t told[BAILHAMMER_TOLD_PLAN];
 *     number = bailhammer_plan(BAILHAMMER_HOUSE, 0, l, told, sizeof told);
 *     size_t f = number == BAILHAMMER_DONE ? (size_t)told[14] * 256 + told[15] : 0;
 */
size_t bailhammer_plan(size_t fec, size_t m, size_t newer, size_t mtu, size_t addressed, size_t l, uint8_t *told, size_t told_len);

/* Works out how many losses the cut of an AF packet of l bytes stands, exactly. Tells 260 bytes: w (2), f (2), and 256 bytes, one for each index
 * of a fragment from 0 on, 1 where it is in the set told and else 0. w is the greatest number such that any w lost fragments, whichever they
 * are, leave every chunk, counted by the receiver's c, at most 48 bytes short: those that come are enough. The set told is w + 1 fragments
 * without which the others are not enough: the first ones, 0 to w, which is below f. Of other sets as large some may be lost. Without FEC w is
 * 0, and the set is fragment 0 alone. The last figure of bailhammer_plan is what the cut is made to bear; w is what it stands, and never less.
 * Gives 0; else the first of 40, 20, 22, 41 and 1 that is due.
 *
 *     uint8_t told[BAILHAMMER_TOLD_ENDURE];
 *     number = bailhammer_endure(BAILHAMMER_HOUSE, 0, l, told, sizeof told);
 *     size_t w = number == BAILHAMMER_DONE ? (size_t)told[0] * 256 + told[1] : 0;
 */
size_t bailhammer_endure(size_t fec, size_t m, size_t newer, size_t mtu, size_t addressed, size_t l, uint8_t *told, size_t told_len);

/* Writes fragment `index` of an AF packet at the front of out, under the packet's number. Tells its length, 2 bytes. Gives 0; else the
 * first of 40, 20 to 25, 41, 42 and 1 that is due. Each call lays the whole packet's chunks: for all fragments, bailhammer_fragments.
 *
 *     uint8_t told[BAILHAMMER_TOLD_FRAGMENT], out[1400];
 *     number = bailhammer_fragment(BAILHAMMER_HOUSE, BAILHAMMER_NO_ADDRESS, 7, packet, l, 0, told, sizeof told, out, sizeof out);
 */
size_t bailhammer_fragment(size_t fec, size_t m, size_t newer, size_t mtu, size_t addressed, uint16_t source, uint16_t dest, uint16_t pseq,
                           const uint8_t *packet, size_t packet_len, size_t index, uint8_t *told, size_t told_len, uint8_t *out,
                           size_t out_len);

/* Writes all fragments of an AF packet at the front of out, one behind the other, under the packet's number: f fragments of h + s bytes
 * each, the last one of h + last. Tells 8 bytes, two each: f, h, s and last. Gives 0; else the first of 40, 20 to 25, 41 and 1 that is
 * due. Fragment i begins at i * (h + s).
 *
 *     uint8_t told[BAILHAMMER_TOLD_FRAGMENTS], sent[BAILHAMMER_SENT];
 *     number = bailhammer_fragments(BAILHAMMER_HOUSE, BAILHAMMER_NO_ADDRESS, 7, packet, l, told, sizeof told, sent, sizeof sent);
 */
size_t bailhammer_fragments(size_t fec, size_t m, size_t newer, size_t mtu, size_t addressed, uint16_t source, uint16_t dest, uint16_t pseq,
                            const uint8_t *packet, size_t packet_len, uint8_t *told, size_t told_len, uint8_t *out, size_t out_len);

/* Reads the header of a datagram, so that its packet's number is known before the datagram is handed on to bailhammer_receive. An address
 * is taken as there. Tells 17 bytes: Pseq, which is the packet's number (2), Findex (2), Fcount (2), 1 with FEC (1), RSk (1), RSz (1), 1
 * with an address (1), Source (2), Dest (2), Plen (2), and h, where the payload begins (1); RSk and RSz are 0 without FEC, Source and Dest
 * without an address. Gives 0; else the first of 2 to 8 and 1 that is due.
 *
 *     uint8_t told[BAILHAMMER_TOLD_PARSE];
 *     number = bailhammer_parse(BAILHAMMER_NO_ADDRESS, datagram, datagram_len, told, sizeof told);
 *     if (number == BAILHAMMER_DONE)
 *         expect(told[0] * 256 + told[1]);     // the packet's number
 */
size_t bailhammer_parse(size_t addressed, uint16_t source, uint16_t dest, const uint8_t *datagram, size_t datagram_len, uint8_t *told,
                        size_t told_len);

/* The receiver. What its four places hold is the caller's between the calls: record_bytes is their record, of 1,081 bytes, all zeros for a
 * fresh one, and lent their bytes, 49,152, which may be any at first. Both are as the last call left them: nothing else writes to them. A place
 * keeps the fragments of one packet. */

/* Receives a datagram: a fragment, of up to four packets at a time, that is kept until those of its packet suffice; then the packet is
 * handed out, at the front of out. out has at least 8,192 bytes; a call that hands no packet out leaves them. Tells 8 bytes: 1 where a packet
 * was handed out (1), its length (2), how many of its fragments are not held (2); then 1 and the number of the packet that lost its place
 * before it was formed (1 and 2), zeros where there is none.
 *
 * Gives 0; else the first that is due: 1 where record_bytes_len is not 1,081; 14; 1 where lent_len is not 49,152, out_len below 8,192 or
 * told_len below 8; 2 to 12; or 13, which changes the record and lent, and tells the number displaced too. So a packet that is handed out is
 * always told. 2 to 13 are ordinary on a line: go on with the next datagram; 1 and 14 are the caller's own fault. After 14 write zeros over the
 * record, since bailhammer_clear gives 14 too. Not every record that something else wrote to gives 14.
 *
 * Places. A fragment goes to the place that holds its packet's number. Where none does, it opens a free place, or else takes the place that was
 * opened longest ago, whatever that holds. There is no clock: a place stays open, delivered or spoiled until it is so taken, or until
 * bailhammer_clear is called.
 *
 * Addresses. A datagram without an address is never refused for it. One with an address is taken where addressed is yes and its Source and Dest
 * are source and dest, the same pair as the sender's; FFFF hex is a value like others. An address does not tell packets apart.
 *
 * Wrong bytes. A packet that is handed out has passed the checks of bailhammer_check, and with FEC it agrees with every byte kept of its chunks.
 * A fragment's payload has no CRC of its own: wrong bytes are not always noticed, least of all where the AF packet has no CRC either. With 13
 * the packet is given up, and its further fragments give 10. Where a good line gives 13 for every packet, the sender's AF packets fail
 * bailhammer_check, or it lays out its chunks in another way.
 *
 *     static uint8_t record[BAILHAMMER_RECORD], lent[BAILHAMMER_LENT], out[BAILHAMMER_PACKET];
 *     uint8_t told[BAILHAMMER_TOLD_RECEIVE];
 *     number = bailhammer_receive(BAILHAMMER_NO_ADDRESS, record, sizeof record, lent, sizeof lent, datagram, datagram_len, told, sizeof told,
 *                                 out, sizeof out);
 *     if (number == BAILHAMMER_DONE && told[0])
 *         use(out, (size_t)told[1] * 256 + told[2]);
 */
size_t bailhammer_receive(size_t addressed, uint16_t source, uint16_t dest, uint8_t *record_bytes, size_t record_bytes_len, uint8_t *lent,
                          size_t lent_len, const uint8_t *datagram, size_t datagram_len, uint8_t *told, size_t told_len, uint8_t *out,
                          size_t out_len);

/* Shows the four places. Tells 12 bytes, three for each place: 0 where it is free, 1 open, 2 delivered, 3 spoiled (1), and its packet's
 * number, 0 where it is free (2). Of lent only the length is looked at. Gives 0; else the first that is due: 1 where record_bytes_len is not
 * 1,081; 14; 1 where lent_len is not 49,152 or told_len below 12.
 *
 *     uint8_t told[BAILHAMMER_TOLD_QUERY];
 *     number = bailhammer_query(record, sizeof record, lent, sizeof lent, told, sizeof told);
 *     if (number == BAILHAMMER_DONE && told[3] == BAILHAMMER_PLACE_OPEN)
 *         wait_for(told[4] * 256 + told[5]);   // the second place waits for fragments of that packet
 */
size_t bailhammer_query(const uint8_t *record_bytes, size_t record_bytes_len, const uint8_t *lent, size_t lent_len, uint8_t *told,
                        size_t told_len);

/* Empties the four places: the record is a fresh one, and the lent bytes stay. Gives 0; else as bailhammer_query. So after
 * bailhammer_clear(record, sizeof record, lent, sizeof lent) the packets that were waited for begin anew. */
size_t bailhammer_clear(uint8_t *record_bytes, size_t record_bytes_len, const uint8_t *lent, size_t lent_len);

/* The code's block calls, for those who cut and join themselves. A cell is one byte of the block: cell q, from 0 on, is byte floor(q / f) of the
 * payload of fragment q mod f. Payload bytes past the last cell are sent as zeros. */

/* Writes the block of a packet at the front of out: c chunks of k bytes (1 to 207), the packet and zeros behind it, each followed by
 * its 48 parity bytes. c is at least 1, so nothing in no chunk is refused too; c * (k + 48) is 12,288 at most, and the packet ends in the
 * last chunk. Gives 0; else the first of 8 and 1 that is due.
 *
 *     uint8_t block[BAILHAMMER_BLOCK];         // a packet of 415 bytes: 3 chunks of 139
 *     number = bailhammer_encode(packet, 415, 139, 3, block, sizeof block);
 */
size_t bailhammer_encode(const uint8_t *packet, size_t packet_len, size_t k, size_t c, uint8_t *out, size_t out_len);

/* Fills in the missing cells of a block: f fragments of s bytes were sent, and fragment i is kept where i is below kept_len and kept[i] is not
 * 0. The caller lays the kept cells at their places; what stands in the missing ones does not matter. The block is floor(f * s / (k + 48))
 * chunks of k data and 48 parity bytes; f * s is 12,288 at most and at least k + 48, k is 1 to 207, and block has at least the chunks' bytes;
 * those behind them stay. Gives 0; else the first of 7, 8 and 1 that is due; else 257, which leaves the block, or 256, which leaves 0 in each
 * missing cell.
 *
 *     uint8_t kept[12];                        // that packet's 12 fragments of 47 bytes, of which the second was lost
 *     memset(kept, 1, sizeof kept), kept[1] = 0;
 *     number = bailhammer_fill(kept, sizeof kept, 12, 47, 139, block, sizeof block);
 */
size_t bailhammer_fill(const uint8_t *kept, size_t kept_len, size_t f, size_t s, size_t k, uint8_t *block, size_t block_len);

#ifdef __cplusplus
}
#endif

#endif
