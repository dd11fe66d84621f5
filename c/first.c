/* The shortest way there and back, which README shows; c/run first makes and runs it. */
#include <stdio.h>
#include <string.h>

#include "bailhammer.h"

static const struct bailhammer_settings settings = BAILHAMMER_HOUSE_SETTINGS;
static struct bailhammer_receiver receiver; /* zeros: a fresh one, without an address */
static uint8_t payload[3000], packet[BAILHAMMER_PACKET];
static uint8_t line[BAILHAMMER_SENT], out[BAILHAMMER_PACKET];

int main(void)
{
    size_t length = sizeof payload + BAILHAMMER_AF_FRAME;
    struct bailhammer_sent sent;
    if (bailhammer_wrap(7, 1, payload, sizeof payload, packet, sizeof packet) != BAILHAMMER_DONE)
        return 1;
    if (bailhammer_sender_fragments(&settings, 1, packet, length, line, sizeof line, &sent)
        != BAILHAMMER_DONE)
        return 1;
    for (size_t i = 1; i < sent.f; i++) { /* fragment 0 is lost */
        struct bailhammer_receipt receipt;
        size_t bytes;
        const uint8_t *datagram = bailhammer_sent_part(&sent, i, &bytes);
        bailhammer_receiver_receive(&receiver, datagram, bytes, out, sizeof out, &receipt);
        if (receipt.delivered) {
            printf("%zu bytes of %zu fragments without %zu\n", receipt.length, sent.f,
                   receipt.missing);
            return receipt.length != length || memcmp(out, packet, length) != 0;
        }
    }
    return 1;
}
