/* The calls of card.h with structs in place of told bytes, so that nobody reads big-endian numbers by hand. Each is a `static inline` function
 * over one call of card.h, which says what the call does, and gives the call's number:
 *
 *     bailhammer_af_check             bailhammer_check
 *     bailhammer_tag_find             bailhammer_find
 *     bailhammer_tag_nth              bailhammer_nth
 *     bailhammer_tag_walk_open        bailhammer_walk_open
 *     bailhammer_tag_walk_step        bailhammer_walk_step
 *     bailhammer_sender_plan          bailhammer_plan
 *     bailhammer_sender_endure        bailhammer_endure
 *     bailhammer_sender_fragment      bailhammer_fragment
 *     bailhammer_sender_fragments     bailhammer_fragments
 *     bailhammer_receiver_parse       bailhammer_parse
 *     bailhammer_receiver_receive     bailhammer_receive
 *     bailhammer_receiver_query       bailhammer_query
 *     bailhammer_receiver_clear       bailhammer_clear
 *
 * bailhammer_wrap, bailhammer_item, bailhammer_encode and bailhammer_fill tell nothing, and are used as they stand in card.h. Where a call
 * refuses, its struct is written too: numbers are 0, what is yes or no is no, and a part of a packet is empty. So a struct never shows what an
 * earlier call told. All pointers must be valid, unless it is said that one may be null. C99 and C++11 read this file.
 */
#ifndef BAILHAMMER_H
#define BAILHAMMER_H

#include "bailhammer_packet.h"

/* ---- the sender */

/* An address, or none. */
struct bailhammer_address {
    bool given;      /* there is one; else the other two are not looked at */
    uint16_t source; /* Source */
    uint16_t dest;   /* Dest */
};

/* An address with these two: settings.address = bailhammer_address_of(1, 2). */
static inline struct bailhammer_address bailhammer_address_of(uint16_t source, uint16_t dest)
{
    struct bailhammer_address address;
    address.given = true;
    address.source = source;
    address.dest = dest;
    return address;
}

/* How a sender cuts. */
struct bailhammer_settings {
    bool fec;                          /* with parity */
    size_t m;                          /* the losses that it is set for, 5 at most, and 0 without FEC; the cut tells how many it assures */
    bool newer;                        /* S by the newer rule, that of V1.3.1; else by the older one, that of V1.2.1 */
    size_t mtu;                        /* the most bytes of a fragment with its header */
    struct bailhammer_address address; /* what each header has, or none */
};

/* The house default and the setting for two losses: const struct bailhammer_settings settings = BAILHAMMER_HOUSE_SETTINGS; */
#define BAILHAMMER_HOUSE_SETTINGS {BAILHAMMER_HOUSE, {BAILHAMMER_NO_ADDRESS}}
#define BAILHAMMER_TWO_LOSSES_SETTINGS {BAILHAMMER_TWO_LOSSES, {BAILHAMMER_NO_ADDRESS}}

/* The sizes of a cut; card.h explains the letters. */
struct bailhammer_cut {
    size_t c;      /* chunks, 0 without FEC */
    size_t k;      /* bytes of the packet in a chunk, 0 without FEC */
    size_t z;      /* zeros behind the packet in the last chunk, 0 without FEC */
    size_t n;      /* bytes of a chunk with its parity, 0 without FEC */
    size_t h;      /* bytes of a fragment's header */
    size_t S;      /* the most payload bytes that a fragment may have */
    size_t L;      /* the bytes that are cut */
    size_t f;      /* fragments */
    size_t s;      /* payload bytes of each; without FEC the last may have fewer */
    size_t losses; /* the lost fragments that the cut assures, whichever they are: m, but 4 where m is 5 and c above 1 by the newer rule */
};

/* Plans the cut of an AF packet of l bytes.
 *
 *     struct bailhammer_cut cut;
 *     number = bailhammer_sender_plan(&settings, 8192, &cut);      // at the house default cut.f is 11, cut.h + cut.s 936
 */
static inline size_t bailhammer_sender_plan(const struct bailhammer_settings *settings, size_t l, struct bailhammer_cut *cut)
{
    uint8_t told[BAILHAMMER_TOLD_PLAN] = {0};
    size_t number = bailhammer_plan(settings->fec, settings->m, settings->newer, settings->mtu, settings->address.given, l, told, sizeof told);
    cut->c = bailhammer_told(told, 2);
    cut->k = bailhammer_told(told + 2, 2);
    cut->z = bailhammer_told(told + 4, 2);
    cut->n = bailhammer_told(told + 6, 2);
    cut->h = bailhammer_told(told + 8, 2);
    cut->S = bailhammer_told(told + 10, 2);
    cut->L = bailhammer_told(told + 12, 2);
    cut->f = bailhammer_told(told + 14, 2);
    cut->s = bailhammer_told(told + 16, 2);
    cut->losses = bailhammer_told(told + 18, 2);
    return number;
}

/* What a cut stands, exactly, where the losses of struct bailhammer_cut are what it is made to bear. */
struct bailhammer_endurance {
    size_t most;                     /* the most lost fragments, whichever they are, without which the others are enough */
    size_t f;                        /* fragments */
    bool lost[BAILHAMMER_FRAGMENTS]; /* yes for each fragment of one set of most + 1 without which they are not */
};

/* Works out how many losses the cut of an AF packet of l bytes stands, and a set that is one too many.
 *
 *     struct bailhammer_endurance endurance;
 *     number = bailhammer_sender_endure(&settings, 8192, &endurance); // at the house default endurance.most is 2 of 11, and lost 0, 1 and 2
 */
static inline size_t bailhammer_sender_endure(const struct bailhammer_settings *settings, size_t l, struct bailhammer_endurance *endurance)
{
    uint8_t told[BAILHAMMER_TOLD_ENDURE] = {0};
    size_t number = bailhammer_endure(settings->fec, settings->m, settings->newer, settings->mtu, settings->address.given, l, told, sizeof told);
    endurance->most = bailhammer_told(told, 2);
    endurance->f = bailhammer_told(told + 2, 2);
    for (size_t i = 0; i < BAILHAMMER_FRAGMENTS; i++)
        endurance->lost[i] = told[4 + i] != 0;
    return number;
}

/* Writes one fragment of an AF packet at the front of out; length is its bytes.
 *
 *     size_t length;
 *     number = bailhammer_sender_fragment(&settings, pseq, packet, packet_len, 0, out, sizeof out, &length);
 */
static inline size_t bailhammer_sender_fragment(const struct bailhammer_settings *settings, uint16_t pseq, const uint8_t *packet,
                                                size_t packet_len, size_t index, uint8_t *out, size_t out_len, size_t *length)
{
    uint8_t told[BAILHAMMER_TOLD_FRAGMENT] = {0};
    const struct bailhammer_address *address = &settings->address;
    size_t number = bailhammer_fragment(settings->fec, settings->m, settings->newer, settings->mtu, address->given, address->source,
                                        address->dest, pseq, packet, packet_len, index, told, sizeof told, out, out_len);
    *length = bailhammer_told(told, 2);
    return number;
}

/* All fragments of a packet, one behind the other in the caller's bytes. */
struct bailhammer_sent {
    const uint8_t *bytes; /* where the first one begins */
    size_t f;             /* how many there are */
    size_t h;             /* bytes of a header */
    size_t s;             /* payload bytes of each but the last */
    size_t last;          /* payload bytes of the last */
};

/* Writes all fragments of an AF packet at the front of out, which holds those of every packet where it has BAILHAMMER_SENT bytes.
 *
 *     static uint8_t out[BAILHAMMER_SENT];
 *     struct bailhammer_sent sent;
 *     number = bailhammer_sender_fragments(&settings, pseq, packet, packet_len, out, sizeof out, &sent);
 */
static inline size_t bailhammer_sender_fragments(const struct bailhammer_settings *settings, uint16_t pseq, const uint8_t *packet,
                                                 size_t packet_len, uint8_t *out, size_t out_len, struct bailhammer_sent *sent)
{
    uint8_t told[BAILHAMMER_TOLD_FRAGMENTS] = {0};
    const struct bailhammer_address *address = &settings->address;
    size_t number = bailhammer_fragments(settings->fec, settings->m, settings->newer, settings->mtu, address->given, address->source,
                                         address->dest, pseq, packet, packet_len, told, sizeof told, out, out_len);
    sent->bytes = out;
    sent->f = bailhammer_told(told, 2);
    sent->h = bailhammer_told(told + 2, 2);
    sent->s = bailhammer_told(told + 4, 2);
    sent->last = bailhammer_told(told + 6, 2);
    return number;
}

/* Fragment i of those that were sent, and its length; null and 0 where i is not below f.
 *
 *     for (size_t i = 0, length; i < sent.f; i++) {
 *         const uint8_t *fragment = bailhammer_sent_part(&sent, i, &length);
 *         send(socket, fragment, length, 0);
 *     }
 */
static inline const uint8_t *bailhammer_sent_part(const struct bailhammer_sent *sent, size_t i, size_t *length)
{
    if (i >= sent->f) {
        *length = 0;
        return NULL;
    }
    *length = sent->h + (i == sent->f - 1 ? sent->last : sent->s);
    return sent->bytes + i * (sent->h + sent->s);
}

/* ---- the receiver */

/* A receiver: all that is kept between its calls, 50,240 bytes. A static one is fresh and takes no address. In any other two things are set
 * before the first call: own (own.given = false for no address), and the record, by bailhammer_receiver_fresh, which leaves own. It may be moved
 * and copied. */
struct bailhammer_receiver {
    struct bailhammer_address own;     /* the address that is taken; fragments without one always are */
    uint8_t record[BAILHAMMER_RECORD]; /* the record of the four places */
    uint8_t lent[BAILHAMMER_LENT];     /* what they keep of the fragments */
};

/* Makes a receiver fresh, whatever its record was; its address stays.
 *
 *     struct bailhammer_receiver *receiver = malloc(sizeof *receiver);
 *     receiver->own = bailhammer_address_of(1, 2);
 *     bailhammer_receiver_fresh(receiver);
 */
static inline void bailhammer_receiver_fresh(struct bailhammer_receiver *receiver)
{
    for (size_t i = 0; i < sizeof receiver->record; i++)
        receiver->record[i] = 0;
}

/* The header of a fragment. */
struct bailhammer_header {
    uint16_t number;                   /* Pseq, the number of its packet */
    uint16_t index;                    /* Findex, which fragment it is */
    uint16_t f;                        /* Fcount, how many fragments the packet has */
    bool fec;                          /* with parity */
    uint8_t k;                         /* RSk, bytes of the packet in a chunk; 0 without FEC */
    uint8_t z;                         /* RSz, zeros behind the packet in the last chunk; 0 without FEC */
    struct bailhammer_address address; /* Source and Dest, or none */
    const uint8_t *payload;            /* the payload, a part of the datagram */
    size_t payload_len;                /* its bytes, Plen */
};

/* Reads the header of a datagram as the receiver would take it: 0, or 2 to 8. Nothing is kept.
 *
 *     struct bailhammer_header header;
 *     if (bailhammer_receiver_parse(&receiver, datagram, datagram_len, &header) == BAILHAMMER_DONE)
 *         count(header.number, header.index, header.f);
 */
static inline size_t bailhammer_receiver_parse(const struct bailhammer_receiver *receiver, const uint8_t *datagram, size_t datagram_len,
                                               struct bailhammer_header *header)
{
    uint8_t told[BAILHAMMER_TOLD_PARSE] = {0};
    const struct bailhammer_address *own = &receiver->own;
    size_t number = bailhammer_parse(own->given, own->source, own->dest, datagram, datagram_len, told, sizeof told);
    header->number = (uint16_t)bailhammer_told(told, 2);
    header->index = (uint16_t)bailhammer_told(told + 2, 2);
    header->f = (uint16_t)bailhammer_told(told + 4, 2);
    header->fec = told[6] != 0;
    header->k = told[7];
    header->z = told[8];
    header->address.given = told[9] != 0;
    header->address.source = (uint16_t)bailhammer_told(told + 10, 2);
    header->address.dest = (uint16_t)bailhammer_told(told + 12, 2);
    header->payload_len = bailhammer_told(told + 14, 2);
    header->payload = datagram + told[16];
    return number;
}

/* What became of a datagram that was taken (0 or 13). */
struct bailhammer_receipt {
    bool delivered;            /* a packet was handed out: it stands at the front of out */
    size_t length;             /* its bytes */
    size_t missing;            /* how many of its fragments are not held */
    bool displaced;            /* another packet lost its place before it was formed */
    uint16_t displaced_number; /* that packet's number */
};

/* Receives a datagram; out has at least BAILHAMMER_PACKET bytes. 2 to 13 are ordinary on a line: go on with the next datagram. 1 says that out
 * is too small, 14 that the receiver was not made fresh, or was written over: bailhammer_receiver_fresh begins anew.
 *
 *     static struct bailhammer_receiver receiver;
 *     struct bailhammer_receipt receipt;
 *     number = bailhammer_receiver_receive(&receiver, datagram, datagram_len, out, sizeof out, &receipt);
 *     if (receipt.delivered) use(out, receipt.length);
 */
static inline size_t bailhammer_receiver_receive(struct bailhammer_receiver *receiver, const uint8_t *datagram, size_t datagram_len,
                                                 uint8_t *out, size_t out_len, struct bailhammer_receipt *receipt)
{
    uint8_t told[BAILHAMMER_TOLD_RECEIVE] = {0};
    const struct bailhammer_address *own = &receiver->own;
    size_t number = bailhammer_receive(own->given, own->source, own->dest, receiver->record, sizeof receiver->record, receiver->lent,
                                       sizeof receiver->lent, datagram, datagram_len, told, sizeof told, out, out_len);
    receipt->delivered = told[0] != 0;
    receipt->length = bailhammer_told(told + 1, 2);
    receipt->missing = bailhammer_told(told + 3, 2);
    receipt->displaced = told[5] != 0;
    receipt->displaced_number = (uint16_t)bailhammer_told(told + 6, 2);
    return number;
}

/* A place, and the four of them. */
struct bailhammer_place {
    enum bailhammer_condition condition; /* free, open, delivered or spoiled */
    uint16_t number;                     /* its packet's number, 0 where it is free */
};

struct bailhammer_places {
    struct bailhammer_place place[BAILHAMMER_PLACES]; /* in the order of the record */
};

/* Shows the four places.
 *
 *     struct bailhammer_places places;
 *     number = bailhammer_receiver_query(&receiver, &places);
 *     if (places.place[0].condition == BAILHAMMER_PLACE_OPEN)
 *         wait_for(places.place[0].number);
 */
static inline size_t bailhammer_receiver_query(const struct bailhammer_receiver *receiver, struct bailhammer_places *places)
{
    uint8_t told[BAILHAMMER_TOLD_QUERY] = {0};
    size_t number = bailhammer_query(receiver->record, sizeof receiver->record, receiver->lent, sizeof receiver->lent, told, sizeof told);
    for (size_t i = 0; i < BAILHAMMER_PLACES; i++) {
        places->place[i].condition = (enum bailhammer_condition)told[3 * i];
        places->place[i].number = (uint16_t)bailhammer_told(told + 3 * i + 1, 2);
    }
    return number;
}

/* Empties the four places: bailhammer_receiver_clear(&receiver). A record that is none is refused with 14, where
 * bailhammer_receiver_fresh asks nothing. */
static inline size_t bailhammer_receiver_clear(struct bailhammer_receiver *receiver)
{
    return bailhammer_clear(receiver->record, sizeof receiver->record, receiver->lent, sizeof receiver->lent);
}

#endif
