/* The faces of bailhammer_packet.h, for c/faces.c, on payloads and AF packets that are drawn here. */
#ifndef BAILHAMMER_FACES_PACKET_H
#define BAILHAMMER_FACES_PACKET_H

#include "faces.h"

/* Writes an item at payload + at, its value and the unused bits of that drawn, and gives the place behind it. */
static size_t add_item(size_t at, const char *name, size_t bytes)
{
    static uint8_t value[BAILHAMMER_PACKET];
    for (size_t i = 0; i < bytes; i++)
        value[i] = (uint8_t)drawn(256);
    size_t bits = bytes ? 8 * bytes - drawn(8) : 0;
    bailhammer_item(bailhammer_name(name), (uint32_t)bits, value, bytes, payload + at, sizeof payload - at);
    return at + BAILHAMMER_ITEM_HEAD + bytes;
}

/* The same of up to three items, whose names may have stood before. */
static size_t add_more(size_t at)
{
    static const char *const names[] = {"time", "*dmy", "demo"};
    for (size_t more = drawn(4); more > 0; more--)
        at = add_item(at, names[drawn(3)], drawn(9));
    return at;
}

/* The same of a container with one item or two of one name, so many containers in it one in another, and padding. */
static size_t add_container(size_t at, size_t more)
{
    size_t behind = add_item(at + BAILHAMMER_ITEM_HEAD, "afpf", drawn(40));
    if (drawn(6) == 0)
        behind = add_item(behind, "afpf", drawn(40));
    if (more > 0)
        behind = add_container(behind, more - 1);
    behind += drawn(3);
    memcpy(payload + at, "fio_", 4);
    put(payload + at + 4, 4, 8 * (behind - at - BAILHAMMER_ITEM_HEAD));
    return behind;
}

/* At times an item, containers, at times a level too many, more items, and padding; at times a byte is changed. Gives the payload's length. */
static size_t make_payload(void)
{
    size_t at = add_container(drawn(2) ? add_item(0, "note", drawn(9)) : 0, drawn(5));
    at = add_more(add_item(at, "demo", drawn(3000))) + drawn(8);
    if (drawn(4) == 0)
        payload[drawn(at)] ^= (uint8_t)(1 + drawn(255));
    return at;
}

static void faces_of_check(size_t length)
{
    uint8_t told[BAILHAMMER_TOLD_CHECK] = {0}, again[BAILHAMMER_TOLD_CHECK], *at = again;
    struct bailhammer_af af;
    memset(&af, 1, sizeof af);
    size_t number = bailhammer_check(packet, length, told, sizeof told);
    same_number("check", number, bailhammer_af_check(packet, length, &af));
    at = put(put(at, 2, af.seq), 1, af.cf);
    put(put(at, 1, af.minor), 4, af.payload_len);
    same("check", told, again, sizeof told);
    const uint8_t *due = number == BAILHAMMER_DONE ? packet + 10 : packet;
    same("where the payload begins", &af.payload, &due, sizeof due);
}

/* What a call gives whose told is a byte too short: 1, or the number that is due before it. */
static void same_short(size_t given, size_t before)
{
    size_t due = before == BAILHAMMER_DONE ? (size_t)BAILHAMMER_ROOM : before;
    same("what a told that is too short gives", &given, &due, sizeof due);
}

/* The bytes of an item, read where it is said to begin: its name and bits, its value behind them, which the bits and the unused ones fill. */
static void same_item(const uint8_t *holder, uint32_t name, const struct bailhammer_found *item)
{
    uint8_t head[BAILHAMMER_ITEM_HEAD], low = item->unused % 8;
    size_t begins = (size_t)(item->value - holder), behind = item->start + sizeof head;
    size_t bits = 8 * item->value_len, filled = item->bits + (size_t)item->unused;
    same("where an item's value begins", &begins, &behind, sizeof begins);
    put(put(head, 4, name), 4, item->bits);
    same("where an item begins", holder + item->start, head, sizeof head);
    same("an item's unused bits", &bits, &filled, sizeof bits);
    same("a last byte's unused bits", &item->unused, &low, sizeof low);
    unfilled += low > 0;
}

/* What is told of an item. A refusal leaves told as it was, filled, and zeros in the struct. */
static void same_found(size_t number, uint32_t name, const struct bailhammer_found *found, const uint8_t *standing, uint8_t *told,
                       const uint8_t *filled)
{
    uint8_t again[BAILHAMMER_TOLD_FIND], *at = again;
    const uint8_t *holder = found->standing ? standing : payload;
    if (number != BAILHAMMER_DONE) {
        same("told of a refusal", told, filled, sizeof again);
        memset(told, 0, sizeof again);
    }
    at = put(put(at, 1, found->standing), 4, found->bits);
    at = put(put(at, 8, (size_t)(found->value - holder)), 4, found->value_len);
    put(put(at, 8, found->start), 1, found->unused);
    same("an item found", told, again, sizeof again);
    if (number == BAILHAMMER_DONE)
        same_item(holder, name, found);
}

/* One name, first with a told that is a byte too short. */
static void faces_of_find(size_t length, const uint8_t *standing, size_t standing_len, uint32_t name, bool repeats)
{
    uint8_t told[BAILHAMMER_TOLD_FIND], filled[BAILHAMMER_TOLD_FIND];
    const uint8_t *beside = standing ? standing : payload;
    struct bailhammer_found found;
    memset(&found, 1, sizeof found);
    memcpy(told, memset(filled, 0x5a, sizeof filled), sizeof told);
    size_t without = bailhammer_find(payload, length, beside, standing_len, name, word(repeats), told, sizeof told - 1);
    same("a told that is too short", told, filled, sizeof told);
    size_t number = bailhammer_find(payload, length, beside, standing_len, name, word(repeats), told, sizeof told);
    same_short(without, number);
    same_by("find", repeats, number, bailhammer_tag_find(payload, length, standing, standing_len, name, repeats, &found));
    same_found(number, name, &found, standing, told, filled);
}

/* One occurrence, in the same way; gives the number. */
static size_t faces_of_nth(size_t length, uint32_t name, size_t occurrence, bool repeats)
{
    uint8_t told[BAILHAMMER_TOLD_FIND], filled[BAILHAMMER_TOLD_FIND];
    struct bailhammer_found found;
    memset(&found, 1, sizeof found);
    memcpy(told, memset(filled, 0x5a, sizeof filled), sizeof told);
    size_t without = bailhammer_nth(payload, length, name, occurrence, word(repeats), told, sizeof told - 1);
    same("a told that is too short", told, filled, sizeof told);
    size_t number = bailhammer_nth(payload, length, name, occurrence, word(repeats), told, sizeof told);
    same_short(without, number);
    same_by("nth", repeats, number, bailhammer_tag_nth(payload, length, name, occurrence, repeats, &found));
    same_found(number, name, &found, payload, told, filled);
    later[repeats] += number == BAILHAMMER_DONE && occurrence > 0;
    return number;
}

/* All occurrences of a name, and numbers beyond the last; the low half of one of them is 0. */
static void faces_of_all(size_t length, uint32_t name, bool repeats)
{
    size_t occurrence = 0;
    while (faces_of_nth(length, name, occurrence, repeats) == BAILHAMMER_DONE)
        occurrence++;
    faces_of_nth(length, name, occurrence + 1, repeats);
    faces_of_nth(length, name, (size_t)1 << 32, repeats);
    faces_of_nth(length, name, SIZE_MAX, repeats);
}

/* What is told of a step, by the same rules; behind the last item that is zeros and the padding. */
static void same_step(size_t number, const struct bailhammer_step *step, uint8_t *told, const uint8_t *filled)
{
    uint8_t again[BAILHAMMER_TOLD_STEP], end[BAILHAMMER_TOLD_STEP] = {0}, *at = again;
    if (number != BAILHAMMER_DONE) {
        same("told of a refusal", told, filled, sizeof again);
        memset(told, 0, sizeof again);
    }
    at = put(put(put(put(at, 1, step->item), 1, step->depth), 4, step->name), 4, step->bits);
    at = put(put(at, 8, (size_t)(step->value - payload)), 4, step->value_len + step->padding);
    put(put(at, 8, step->start), 1, step->unused);
    size_t beside = step->item ? step->padding : step->value_len, none = 0;
    same("what an end or an item has not", &beside, &none, sizeof none);
    same("walk_step", told, again, sizeof again);
    put(end + 18, 4, step->padding);
    if (!step->item)
        same("the end of a walk", told, end, sizeof end);
}

/* An item of a walk begins at next, for its depth: the first one at the front of the packet or container, another where the one before it ends. */
static void same_next(const struct bailhammer_step *step, size_t *next)
{
    const struct bailhammer_found item = {false, step->bits, step->value, step->value_len, step->start, step->unused};
    same_item(payload, step->name, &item);
    same("where the next item begins", &step->start, next + step->depth, sizeof step->start);
    next[step->depth + 1] = step->start + BAILHAMMER_ITEM_HEAD;
    next[step->depth] = next[step->depth + 1] + step->value_len;
    within += step->depth > 1;
}

/* Both walks step by step, and once past the end; each step first with a told that is a byte too short. */
static void faces_of_walk(size_t length, const char *names, size_t names_len, bool repeats)
{
    uint8_t walker[BAILHAMMER_WALKER] = {0}, told[BAILHAMMER_TOLD_STEP], filled[BAILHAMMER_TOLD_STEP];
    const uint8_t *list = (const uint8_t *)names;
    struct bailhammer_walk walk;
    struct bailhammer_step step;
    size_t number = bailhammer_walk_open(payload, length, list, names_len, word(repeats), walker, sizeof walker);
    same_by("walk_open", repeats, number, bailhammer_tag_walk_open(&walk, payload, length, names, names_len, repeats));
    same("walk_open", walker, walk.walker, sizeof walker);
    size_t walked = number == BAILHAMMER_DONE ? length : 0, next[6] = {0}; /* depths 0 to 5 */
    same("what is walked through", &walk.packet_len, &walked, sizeof walked);
    memset(filled, 0x5a, sizeof filled);
    for (size_t ends = 0; ends < 2; ends += !step.item) {
        memset(&step, 1, sizeof step);
        memcpy(told, filled, sizeof told);
        same_short(bailhammer_walk_step(payload, walked, list, names_len, walker, sizeof walker, told, sizeof told - 1), BAILHAMMER_DONE);
        same("a told that is too short", told, filled, sizeof told);
        number = bailhammer_walk_step(payload, walked, list, names_len, walker, sizeof walker, told, sizeof told);
        same_number("walk_step", number, bailhammer_tag_walk_step(&walk, &step));
        same_step(number, &step, told, filled);
        same("the walk", walker, walk.walker, sizeof walker);
        if (step.item)
            same_next(&step, next);
    }
}

/* The faces on the items of a payload; the standing packet has two items, or three, two of them of one name. */
static void faces_of_items(size_t length, bool repeats)
{
    static const uint8_t standing[] = {'e', 'l', 's', 'e', 0, 0, 0, 3, 0xa0, 'r', 'a', 'r', 'e', 0, 0, 0, 12, 0xab, 0xc0,
                                       'r', 'a', 'r', 'e', 0, 0, 0, 8, 0xde};
    size_t standing_len = drawn(4) ? 19 : sizeof standing;
    faces_of_find(length, standing, standing_len, bailhammer_name("demo"), repeats);
    faces_of_find(length, standing, standing_len, BAILHAMMER_NAME('r', 'a', 'r', 'e'), repeats);
    faces_of_find(length, NULL, 0, bailhammer_name("none"), repeats);
    faces_of_all(length, bailhammer_name("demo"), repeats);
    faces_of_all(length, bailhammer_name("*dmy"), repeats);
    faces_of_walk(length, "fio_", 4, repeats);
    faces_of_walk(length, "", 0, repeats);
    faces_of_walk(length, "fio_x", 5, repeats);
}

/* The faces on a payload and on its AF packet, whose length it gives. */
static size_t faces_of_packets(void)
{
    size_t length = make_payload();
    faces_of_items(length, false);
    faces_of_items(length, true);
    bailhammer_wrap((uint16_t)drawn(65536), drawn(2), payload, length, packet, sizeof packet);
    length += BAILHAMMER_AF_FRAME;
    faces_of_check(length);
    faces_of_check(length - 1);
    packet[8] ^= 5; /* another minor revision, and with CF a wrong CRC */
    faces_of_check(length);
    packet[8] ^= 5;
    packet[9] ^= 1;
    faces_of_check(length);
    packet[9] ^= 1;
    return length;
}

#endif
