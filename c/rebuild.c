/* An example to copy: two packets are cut, a line mixes their fragments, loses one of each and brings one twice, and a receiver rebuilds both.
 * c/run makes and runs it. */
#include <stdio.h>
#include <stdlib.h>
#include <string.h>

#include "bailhammer.h"

/* A packet and its fragments. */
struct traffic {
    uint16_t number; /* the packet's, in the header of each fragment */
    uint8_t packet[BAILHAMMER_PACKET];
    size_t length;
    struct bailhammer_cut cut;
    uint8_t bytes[BAILHAMMER_SENT];
    struct bailhammer_sent sent; /* the fragments, in these bytes */
    bool rebuilt;
};

static const struct bailhammer_settings settings = BAILHAMMER_HOUSE_SETTINGS;
static struct traffic first = {.number = 7}, second = {.number = 8};
static struct bailhammer_receiver receiver; /* a static one is fresh */
static uint8_t out[BAILHAMMER_PACKET];

/* Ends the program where a call refuses what it must not. */
static void must(const char *what, size_t number)
{
    if (number == BAILHAMMER_DONE)
        return;
    printf("%s: %zu %s\n", what, number, bailhammer_meaning(number));
    exit(1);
}

/* Makes an AF packet with one TAG item, "demo", of so many bytes, and cuts it. */
static void prepare(struct traffic *t, size_t bytes)
{
    static uint8_t value[BAILHAMMER_PACKET], payload[BAILHAMMER_PACKET];
    for (size_t i = 0; i < bytes; i++)
        value[i] = (uint8_t)(i * i + i / 7 + t->number);
    size_t payload_len = BAILHAMMER_ITEM_HEAD + bytes;
    must("item", bailhammer_item(bailhammer_name("demo"), (uint32_t)(8 * bytes), value, bytes, payload, sizeof payload));
    must("wrap", bailhammer_wrap(t->number, 1, payload, payload_len, t->packet, sizeof t->packet));
    t->length = payload_len + BAILHAMMER_AF_FRAME;
    must("plan", bailhammer_sender_plan(&settings, t->length, &t->cut));
    must("fragments", bailhammer_sender_fragments(&settings, t->number, t->packet, t->length, t->bytes, sizeof t->bytes, &t->sent));
    printf("packet %d: %zu bytes in %zu fragments, any %zu may be lost\n", t->number, t->length, t->sent.f, t->cut.losses);
}

/* Looks at a packet that was handed out: it must be the one that was sent, and "demo" must be in it. */
static void deliver(struct traffic *t, size_t length)
{
    struct bailhammer_af af;
    struct bailhammer_found demo;
    must("check", bailhammer_af_check(out, length, &af));
    must("find", bailhammer_tag_find(af.payload, af.payload_len, NULL, 0, bailhammer_name("demo"), false, &demo));
    printf("    AF packet %d, demo has %zu bytes\n", af.seq, demo.value_len);
    t->rebuilt = length == t->length && memcmp(out, t->packet, length) == 0;
}

/* Hands the receiver one datagram. What a line brings is no reason to stop: late, repeated and damaged fragments are ordinary. */
static void receive(struct traffic *t, size_t i)
{
    size_t length;
    const uint8_t *datagram = bailhammer_sent_part(&t->sent, i, &length);
    struct bailhammer_receipt receipt;
    size_t number = bailhammer_receiver_receive(&receiver, datagram, length, out, sizeof out, &receipt);
    if (number == BAILHAMMER_ROOM || number == BAILHAMMER_STATE)
        must("receive", number); /* our own fault: a buffer, or the receiver's record */
    printf("packet %d fragment %zu: ", t->number, i);
    if (number != BAILHAMMER_DONE)
        printf("%zu %s\n", number, bailhammer_meaning(number));
    else if (receipt.delivered)
        printf("completes it, %zu bytes, %zu fragments not held\n", receipt.length, receipt.missing);
    else
        printf("kept\n");
    if (receipt.displaced)
        printf("    packet %d lost its place\n", receipt.displaced_number);
    if (receipt.delivered)
        deliver(t, receipt.length);
}

/* The line: it loses the fragments 3, 7, .., as many as the plan says may be lost, which is one at the house default, and brings fragment 5 of
 * the first packet twice. */
static void carry(struct traffic *t, size_t i)
{
    if (i >= t->sent.f)
        return;
    if (i % 4 == 3 && i / 4 < t->cut.losses) {
        printf("packet %d fragment %zu: lost\n", t->number, i);
        return;
    }
    receive(t, i);
    if (t == &first && i == 5)
        receive(t, i);
}

int main(void)
{
    prepare(&first, 7992);
    prepare(&second, 3000);
    for (size_t i = 0; i < BAILHAMMER_FRAGMENTS; i++) {
        carry(&first, i);
        carry(&second, i);
    }
    if (!first.rebuilt || !second.rebuilt) {
        printf("a packet was not rebuilt\n");
        return 1;
    }
    printf("packet %d: the packet is the one that went in\n", first.number);
    printf("packet %d: the packet is the one that went in\n", second.number);
    return 0;
}
