/* Holds every call of bailhammer.h against the call of card.h that it stands for: the number, every lent byte, and what is told, which is
 * written again from the struct's fields. Each struct is filled before its call, so that a field left out shows. c/run faces makes and runs it;
 * exit 1 at the first difference. It is C99 and C++11. */
#include "faces_packet.h"

enum { ROUNDS = 200 };

static uint8_t out[2][BAILHAMMER_SENT];
static struct bailhammer_receiver receiver; /* behind the structs */
static uint8_t record[BAILHAMMER_RECORD], lent[BAILHAMMER_LENT]; /* behind the bytes */

/* ---- the sender */

static void faces_of_settings(void)
{
    const struct bailhammer_settings house = BAILHAMMER_HOUSE_SETTINGS, two_losses = BAILHAMMER_TWO_LOSSES_SETTINGS;
    same_settings(house, BAILHAMMER_HOUSE, BAILHAMMER_NO_ADDRESS);
    same_settings(two_losses, BAILHAMMER_TWO_LOSSES, BAILHAMMER_NO_ADDRESS);
}

static void faces_of_plan(const struct bailhammer_settings *settings, size_t l)
{
    uint8_t told[BAILHAMMER_TOLD_PLAN] = {0}, again[BAILHAMMER_TOLD_PLAN], *at = again;
    struct bailhammer_cut cut;
    memset(&cut, 1, sizeof cut);
    size_t number = bailhammer_plan(settings->fec, settings->m, settings->newer, settings->mtu, settings->address.given, l, told, sizeof told);
    same_number("plan", number, bailhammer_sender_plan(settings, l, &cut));
    at = put(put(put(put(put(at, 2, cut.c), 2, cut.k), 2, cut.z), 2, cut.n), 2, cut.h);
    put(put(put(put(put(at, 2, cut.S), 2, cut.L), 2, cut.f), 2, cut.s), 2, cut.losses);
    same("plan", told, again, sizeof told);
}

/* A refusal leaves told as it was, filled, and zeros in the struct. */
static void faces_of_endure(const struct bailhammer_settings *settings, size_t l)
{
    uint8_t told[BAILHAMMER_TOLD_ENDURE], again[BAILHAMMER_TOLD_ENDURE], *at = again;
    struct bailhammer_endurance endurance;
    memset(&endurance, 1, sizeof endurance);
    memcpy(again, memset(told, 0x5a, sizeof told), sizeof again);
    size_t number = bailhammer_endure(settings->fec, settings->m, settings->newer, settings->mtu, settings->address.given, l, told, sizeof told);
    same_number("endure", number, bailhammer_sender_endure(settings, l, &endurance));
    if (number != BAILHAMMER_DONE) {
        same("told of a refusal", told, again, sizeof told);
        memset(told, 0, sizeof told);
    }
    at = put(put(at, 2, endurance.most), 2, endurance.f);
    for (size_t i = 0; i < BAILHAMMER_FRAGMENTS; i++)
        at = put(at, 1, endurance.lost[i]);
    same("endure", told, again, sizeof told);
}

/* One fragment, as far as room goes; gives its length. */
static size_t faces_of_fragment(const struct bailhammer_settings *settings, uint16_t pseq, size_t length, size_t i, size_t room)
{
    uint8_t told[BAILHAMMER_TOLD_FRAGMENT] = {0}, again[BAILHAMMER_TOLD_FRAGMENT];
    size_t written;
    memset(out, 0xa5, sizeof out);
    const struct bailhammer_address *address = &settings->address;
    size_t number = bailhammer_fragment(settings->fec, settings->m, settings->newer, settings->mtu, address->given, address->source,
                                        address->dest, pseq, packet, length, i, told, sizeof told, out[0], room);
    same_number("fragment", number, bailhammer_sender_fragment(settings, pseq, packet, length, i, out[1], room, &written));
    put(again, 2, written);
    same("fragment", told, again, sizeof told);
    same("the fragment", out[0], out[1], sizeof out[0]);
    return written;
}

/* A part of what was sent is the fragment that is written alone; behind the last there is none. */
static void faces_of_part(const struct bailhammer_settings *settings, uint16_t pseq, size_t length, const struct bailhammer_sent *sent, size_t i)
{
    size_t part, due = i < sent->f ? faces_of_fragment(settings, pseq, length, i, sizeof out[0]) : 0;
    const uint8_t *fragment = bailhammer_sent_part(sent, i, &part);
    same("a part's length", &part, &due, sizeof part);
    if (fragment)
        same("a part", fragment, out[1], part);
    else
        same("no part", &i, &sent->f, sizeof i);
}

/* All fragments: the bytes, and each part. Gives them in bytes. */
static struct bailhammer_sent faces_of_fragments(const struct bailhammer_settings *settings, uint16_t pseq, size_t length, uint8_t *bytes)
{
    static uint8_t plain[BAILHAMMER_SENT];
    uint8_t told[BAILHAMMER_TOLD_FRAGMENTS] = {0}, again[BAILHAMMER_TOLD_FRAGMENTS];
    struct bailhammer_sent sent;
    memset(&sent, 1, sizeof sent);
    memset(plain, 0x5a, sizeof plain);
    memset(bytes, 0x5a, sizeof plain);
    const struct bailhammer_address *address = &settings->address;
    size_t number = bailhammer_fragments(settings->fec, settings->m, settings->newer, settings->mtu, address->given, address->source,
                                         address->dest, pseq, packet, length, told, sizeof told, plain, sizeof plain);
    same_number("fragments", number, bailhammer_sender_fragments(settings, pseq, packet, length, bytes, sizeof plain, &sent));
    put(put(put(put(again, 2, sent.f), 2, sent.h), 2, sent.s), 2, sent.last);
    same("fragments", told, again, sizeof told);
    same("the fragments", plain, bytes, sizeof plain);
    for (size_t i = 0; i <= sent.f; i++)
        faces_of_part(settings, pseq, length, &sent, i);
    return sent;
}

/* A packet sent by the other rule first, then by that of the settings: gives the fragments of this one. */
static struct bailhammer_sent faces_of_rules(struct bailhammer_settings settings, size_t length, uint8_t *bytes)
{
    struct bailhammer_sent sent[2];
    for (size_t i = 0; i < 2; i++) {
        settings.newer = !settings.newer;
        faces_of_plan(&settings, length);
        faces_of_endure(&settings, length);
        faces_of_fragment(&settings, 1, length, drawn(20), drawn(1500));
        sent[i] = faces_of_fragments(&settings, (uint16_t)drawn(6), length, bytes);
    }
    cut_otherwise += sent[0].f != sent[1].f;
    return sent[1];
}

/* ---- the receiver */

static void faces_of_places(void)
{
    uint8_t told[BAILHAMMER_TOLD_QUERY] = {0}, again[BAILHAMMER_TOLD_QUERY], *at = again;
    struct bailhammer_places places;
    memset(&places, 1, sizeof places);
    size_t number = bailhammer_query(record, sizeof record, lent, sizeof lent, told, sizeof told);
    same_number("query", number, bailhammer_receiver_query(&receiver, &places));
    for (size_t i = 0; i < BAILHAMMER_PLACES; i++)
        at = put(put(at, 1, places.place[i].condition), 2, places.place[i].number);
    same("query", told, again, sizeof told);
}

static void same_receiver(void)
{
    same("the record", record, receiver.record, sizeof record);
    same("the lent bytes", lent, receiver.lent, sizeof lent);
    same("out", out[0], out[1], sizeof out[0]);
    faces_of_places();
}

static void faces_of_parse(const uint8_t *datagram, size_t length)
{
    uint8_t told[BAILHAMMER_TOLD_PARSE] = {0}, again[BAILHAMMER_TOLD_PARSE], *at = again;
    struct bailhammer_header head;
    memset(&head, 1, sizeof head);
    size_t number = bailhammer_parse(receiver.own.given, receiver.own.source, receiver.own.dest, datagram, length, told, sizeof told);
    same_number("parse", number, bailhammer_receiver_parse(&receiver, datagram, length, &head));
    at = put(put(put(at, 2, head.number), 2, head.index), 2, head.f);
    at = put(put(put(put(at, 1, head.fec), 1, head.k), 1, head.z), 1, head.address.given);
    at = put(put(at, 2, head.address.source), 2, head.address.dest);
    put(put(at, 2, head.payload_len), 1, (size_t)(head.payload - datagram));
    same("parse", told, again, sizeof told);
}

static void faces_of_receive(const uint8_t *datagram, size_t length, size_t room)
{
    faces_of_parse(datagram, length);
    uint8_t told[BAILHAMMER_TOLD_RECEIVE] = {0}, again[BAILHAMMER_TOLD_RECEIVE], *at = again;
    struct bailhammer_receipt receipt;
    memset(&receipt, 1, sizeof receipt);
    size_t number = bailhammer_receive(receiver.own.given, receiver.own.source, receiver.own.dest, record, sizeof record, lent, sizeof lent,
                                       datagram, length, told, sizeof told, out[0], room);
    same_number("receive", number, bailhammer_receiver_receive(&receiver, datagram, length, out[1], room, &receipt));
    at = put(put(put(at, 1, receipt.delivered), 2, receipt.length), 2, receipt.missing);
    put(put(at, 1, receipt.displaced), 2, receipt.displaced_number);
    same("receive", told, again, sizeof told);
    same_receiver();
    delivered += receipt.delivered;
    displaced += receipt.displaced;
}

/* A packet's fragments, some lost, some repeated, some changed; one packet of five breaks off, and its place stays open until it is displaced; the
 * places hold those of earlier packets. */
static void faces_of_line(size_t length)
{
    static uint8_t bytes[BAILHAMMER_SENT];
    struct bailhammer_settings settings = draw_settings();
    struct bailhammer_sent sent = faces_of_rules(settings, length, bytes);
    receiver.own = settings.address;
    receiver.own.source ^= (uint16_t)(drawn(10) == 0);
    for (size_t i = 0, part, come = drawn(5) == 0 ? sent.f / 2 : sent.f; i < come; i++) {
        const uint8_t *fragment = bailhammer_sent_part(&sent, i, &part);
        if (drawn(60) == 0)
            bytes[i * (sent.h + sent.s) + drawn(part)] ^= (uint8_t)(1 + drawn(255));
        for (size_t times = drawn(12) == 0 ? 0 : 1 + (drawn(8) == 0); times > 0; times--)
            faces_of_receive(fragment, part, drawn(30) == 0 ? 8191 : sizeof out[0]);
    }
}

/* A record that is none, a clearing, and a fresh receiver. */
static void faces_of_clearing(size_t round)
{
    if (round % 7 == 0)
        record[0] = receiver.record[0] = 9;
    faces_of_places();
    same_number("clear", bailhammer_clear(record, sizeof record, lent, sizeof lent), bailhammer_receiver_clear(&receiver));
    same_receiver();
    memset(record, 0, sizeof record);
    bailhammer_receiver_fresh(&receiver);
    same_receiver();
}

static void faces_of_names(void)
{
    char letters[5];
    bailhammer_letters(0x64656dff, letters);
    same("letters", letters, "dem\xff", 5);
    uint32_t name = bailhammer_name(letters), constant = BAILHAMMER_NAME('d', 'e', 'm', '\xff'), due = 0x64656dff;
    same("a name", &name, &due, sizeof name);
    same("a constant name", &constant, &due, sizeof name);
}

int main(void)
{
    const struct bailhammer_settings least = {false, 0, false, 15, {BAILHAMMER_NO_ADDRESS}}; /* a byte of the packet in each fragment */
    faces_of_names();
    faces_of_settings();
    faces_of_plan(&least, BAILHAMMER_FRAGMENTS);
    faces_of_endure(&least, BAILHAMMER_FRAGMENTS);
    for (size_t round = 0; round < ROUNDS; round++) {
        faces_of_line(faces_of_packets());
        if (round % 20 == 19)
            faces_of_clearing(round);
    }
    return told_all();
}
