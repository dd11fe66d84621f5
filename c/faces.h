/* What c/faces.c and c/faces_packet.h compare with, count and draw from. */
#ifndef BAILHAMMER_FACES_H
#define BAILHAMMER_FACES_H

#include <stdio.h>
#include <stdlib.h>
#include <string.h>

#include "bailhammer.h"

static uint32_t seed = 20261116;
static struct tally {
    const char *call;
    size_t done, refused;
} tallies[] = {{"check", 0, 0},    {"find", 0, 0},      {"nth", 0, 0},       {"walk_open", 0, 0}, {"walk_step", 0, 0},
               {"plan", 0, 0},     {"endure", 0, 0},    {"fragment", 0, 0},  {"fragments", 0, 0}, {"parse", 0, 0},
               {"receive", 0, 0},  {"query", 0, 0},     {"clear", 0, 0}};
static size_t compared, delivered, displaced, cut_otherwise;
static size_t twice[2], later[2]; /* 31, and items found that are not the first of their name: where names may not repeat, and where they may */
static size_t unfilled, within;   /* items whose last byte has unused bits, and items of a walk that stand in two containers or more */
static uint8_t payload[BAILHAMMER_PACKET], packet[BAILHAMMER_PACKET];

static void same(const char *what, const void *one, const void *other, size_t bytes)
{
    compared++;
    if (memcmp(one, other, bytes) == 0)
        return;
    printf("%s differs\n", what);
    exit(1);
}

/* Settings that have a name: what the macro for structs has is what the macro for calls has. */
static void same_settings(struct bailhammer_settings settings, size_t fec, size_t m, size_t newer, size_t mtu, size_t addressed,
                          uint16_t source, uint16_t dest)
{
    const struct bailhammer_address *address = &settings.address;
    size_t ours[] = {settings.fec, settings.m, settings.newer, settings.mtu, address->given, address->source, address->dest};
    size_t due[] = {fec, m, newer, mtu, addressed, source, dest};
    same("named settings", ours, due, sizeof due);
}

/* The number that both calls gave: the same, and one with a meaning. */
static void same_number(const char *call, size_t one, size_t other)
{
    if (one != other || strcmp(bailhammer_meaning(one), bailhammer_meaning(9999)) == 0) {
        printf("%s gives %zu by its bytes and %zu by its struct\n", call, one, other);
        exit(1);
    }
    struct tally *tally = tallies;
    while (strcmp(tally->call, call) != 0)
        tally++;
    if (one == BAILHAMMER_DONE)
        tally->done++;
    else
        tally->refused++;
}

/* The same of a call that is told whether names may repeat. */
static void same_by(const char *call, bool repeats, size_t one, size_t other)
{
    same_number(call, one, other);
    twice[repeats] += one == BAILHAMMER_TWICE;
}

/* Writes a number in so many bytes, the first one highest, and gives the place behind it. */
static uint8_t *put(uint8_t *at, size_t bytes, size_t value)
{
    for (size_t i = bytes; i > 0; i--, value /= 256)
        at[i - 1] = (uint8_t)(value % 256);
    return at + bytes;
}

/* A number below `below`, from the seed on (xorshift32). */
static size_t drawn(size_t below)
{
    seed ^= seed << 13;
    seed ^= seed >> 17;
    seed ^= seed << 5;
    return seed % below;
}

/* What the calls of card.h take for no and yes: 0, and any other number. */
static size_t word(bool yes)
{
    return yes ? 1 + drawn(65536) : 0;
}

static struct bailhammer_settings draw_settings(void)
{
    struct bailhammer_settings settings = BAILHAMMER_HOUSE_SETTINGS;
    settings.fec = drawn(3) != 0;
    settings.m = settings.fec ? drawn(7) : drawn(10) == 0;
    settings.newer = drawn(2) != 0;
    settings.mtu = 100 + drawn(1400);
    if (drawn(2))
        settings.address = bailhammer_address_of((uint16_t)drawn(3), (uint16_t)drawn(3));
    return settings;
}

/* Prints how often each call was done and refused. Each must have been both, the rules must not always have cut alike, and 31 must have been given
 * where names may not repeat, and there alone. Bytes that are not full and containers in containers must have come. */
static int told_all(void)
{
    int fault = delivered == 0 || displaced == 0 || cut_otherwise == 0 || twice[false] == 0 || twice[true] != 0;
    fault |= later[false] == 0 || later[true] == 0 || unfilled == 0 || within == 0;
    for (size_t i = 0; i < sizeof tallies / sizeof tallies[0]; i++) {
        printf("%-10s %6zu done %6zu refused\n", tallies[i].call, tallies[i].done, tallies[i].refused);
        fault |= tallies[i].done == 0 || tallies[i].refused == 0;
    }
    printf("31 given %zu times where names may not repeat, %zu where they may; %zu and %zu items found behind the first of their name\n",
           twice[false], twice[true], later[false], later[true]);
    printf("%zu items with unused bits, %zu in two containers or more\n", unfilled, within);
    printf("%zu packets cut otherwise by the other rule, %zu handed out, %zu displaced, %zu comparisons, no difference\n",
           cut_otherwise, delivered, displaced, compared);
    return fault;
}

#endif
