/* Measures the stack that each call of libcard.a takes: each runs on a stack of its own, filled with one value before, and what is no longer
 * that value behind it was used. Prints a line for each call, and exits with 1 where one takes more than card.h says. Each is given the work that
 * takes it deepest, as we read the code; nothing proves that no work takes more. */
#include <stdio.h>
#include <stdlib.h>
#include <string.h>
#include <ucontext.h>

#include "bailhammer.h"

/* fec, m, newer and mtu written out: C, F, S and K below are theirs. */
#define TWO_LOSSES 1, 2, 0, 1400

enum {
    STACK = 1 << 20,
    MOST = 64 * 1024, /* what card.h says */
    FILLER = 0xA5,
    NUMBER = 7,
    NEST = BAILHAMMER_NAME('n', 'e', 's', 't'),
    DEPTHS = 5,
    PAYLOAD = BAILHAMMER_PACKET - 12,
    K = 205, C = 40, F = 16, S = 633,
};

static uint8_t stack[STACK];
static ucontext_t outside, inside;

static uint8_t payload[PAYLOAD], packet[BAILHAMMER_PACKET], out[BAILHAMMER_PACKET];
static uint8_t sent[BAILHAMMER_SENT], block[C * (K + 48)], kept[F];
static uint8_t record[BAILHAMMER_RECORD], lent[BAILHAMMER_LENT], walker[BAILHAMMER_WALKER];
static uint8_t nested[8 * DEPTHS + 1], told[BAILHAMMER_TOLD_ENDURE];
static const uint8_t names[4] = {'n', 'e', 's', 't'};
static size_t h, s, next, number;

/* ---- the calls, each with the work that takes it deepest */

static void wrap(void)
{
    number = bailhammer_wrap(1, 1, payload, PAYLOAD, packet, sizeof packet);
}

static void check(void)
{
    number = bailhammer_check(packet, sizeof packet, told, sizeof told);
}

static void item(void)
{
    number = bailhammer_item(NEST, 8 * (PAYLOAD - 8), out, PAYLOAD - 8, payload, sizeof payload);
}

static void find(void)
{
    number = bailhammer_find(payload, sizeof payload, payload, sizeof payload, NEST, 0, told, sizeof told);
}

static void nth(void)
{
    number = bailhammer_nth(payload, sizeof payload, NEST, 0, 0, told, sizeof told);
}

static void walk_open(void)
{
    number = bailhammer_walk_open(nested, sizeof nested, names, sizeof names, 0, walker, sizeof walker);
}

static void walk_step(void)
{
    number = bailhammer_walk_step(nested, sizeof nested, names, sizeof names, walker, sizeof walker, told, sizeof told);
}

static void plan(void)
{
    number = bailhammer_plan(TWO_LOSSES, 0, sizeof packet, told, sizeof told);
}

static void endure(void)
{
    number = bailhammer_endure(TWO_LOSSES, 0, sizeof packet, told, sizeof told);
}

static void fragment(void)
{
    number = bailhammer_fragment(TWO_LOSSES, BAILHAMMER_NO_ADDRESS, NUMBER, packet, sizeof packet, 1, told, sizeof told, sent, sizeof sent);
}

static void fragments(void)
{
    number = bailhammer_fragments(TWO_LOSSES, BAILHAMMER_NO_ADDRESS, NUMBER, packet, sizeof packet, told, sizeof told, sent, sizeof sent);
}

static void parse(void)
{
    number = bailhammer_parse(BAILHAMMER_NO_ADDRESS, sent, h + s, told, sizeof told);
}

static void receive(void)
{
    number = bailhammer_receive(BAILHAMMER_NO_ADDRESS, record, sizeof record, lent, sizeof lent, sent + next * (h + s), h + s, told, sizeof told,
                                out, sizeof out);
}

static void query(void)
{
    number = bailhammer_query(record, sizeof record, lent, sizeof lent, told, sizeof told);
}

static void clear(void)
{
    number = bailhammer_clear(record, sizeof record, lent, sizeof lent);
}

static void encode(void)
{
    number = bailhammer_encode(packet, sizeof packet, K, C, block, sizeof block);
}

static void fill(void)
{
    number = bailhammer_fill(kept, sizeof kept, F, S, K, block, sizeof block);
}

/* ---- measuring */

/* The bytes of its stack that a call uses. */
static size_t used(void (*call)(void))
{
    memset(stack, FILLER, sizeof stack);
    getcontext(&inside);
    inside.uc_stack.ss_sp = stack;
    inside.uc_stack.ss_size = sizeof stack;
    inside.uc_link = &outside;
    makecontext(&inside, call, 0);
    swapcontext(&outside, &inside);
    size_t free = 0;
    while (free < sizeof stack && stack[free] == FILLER)
        free++;
    return sizeof stack - free;
}

/* The same of a call that must be answered with 0, and within what is said. */
static size_t measured(const char *name, void (*call)(void))
{
    size_t bytes = used(call);
    if (number != BAILHAMMER_DONE) {
        printf("%s: %zu %s\n", name, number, bailhammer_meaning(number));
        exit(1);
    }
    if (bytes > MOST) {
        printf("%s: %zu bytes of stack, more than %d\n", name, bytes, MOST);
        exit(1);
    }
    return bytes;
}

static void tell(const char *name, void (*call)(void))
{
    printf("%-10s %6zu\n", name, measured(name, call));
}

/* Containers one in another, five items deep. */
static void nest(void)
{
    for (size_t i = 0; i < DEPTHS; i++) {
        uint8_t *head = nested + 8 * i;
        memcpy(head, names, 4);
        size_t bits = 8 * (sizeof nested - 8 * (i + 1));
        head[6] = (uint8_t)(bits >> 8);
        head[7] = (uint8_t)bits;
    }
    memcpy(nested + 8 * (DEPTHS - 1), "last", 4);
}

/* The most that a receipt of a packet's fragments takes, of which 4, 9 and 14 do not come; the last call hands the packet out. */
static size_t received(void)
{
    size_t most = 0;
    h = bailhammer_told(told + 2, 2);
    s = bailhammer_told(told + 4, 2);
    for (told[0] = 0, next = 0; !told[0] && next < F; next++) {
        if (next % 5 == 4)
            continue;
        size_t bytes = measured("receive", receive);
        if (bytes > most)
            most = bytes;
    }
    return most;
}

int main(void)
{
    nest();
    tell("item", item);
    tell("wrap", wrap);
    tell("check", check);
    tell("find", find);
    tell("nth", nth);
    tell("walk_open", walk_open);
    tell("walk_step", walk_step);
    tell("plan", plan);
    tell("endure", endure);
    tell("fragment", fragment);
    tell("encode", encode);
    tell("fragments", fragments);
    printf("%-10s %6zu\n", "receive", received());
    if (!told[0])
        return 1;
    tell("parse", parse);
    for (int i = 0; i < F; i++)
        kept[i] = i % 5 != 4;
    tell("fill", fill);
    tell("query", query);
    tell("clear", clear);
    return 0;
}
