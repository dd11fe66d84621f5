/* What rs.c measures: a packet, its fragments of which some are lost, and the calls on it of libcard.a and of libfec. */
#ifndef BENCH_CALLS_H
#define BENCH_CALLS_H

#include <fec.h>
#include <stdint.h>
#include <stdio.h>
#include <stdlib.h>
#include <string.h>

#include "card.h"

enum {
    PACKET = BAILHAMMER_PACKET, /* bytes of the packet: as many as it may have */
    AF_HEADER = 10,     /* those before its payload */
    AF_CRC = 2,         /* and behind it */
    K = 205,            /* data bytes of a chunk */
    PARITY = 48,        /* parity bytes of a chunk */
    N = K + PARITY,
    C = 40,             /* chunks */
    BLOCK = C * N,      /* bytes of the block */
    F = 16,             /* fragments */
    S = 633,            /* bytes of a fragment: F * S is the least multiple of F from BLOCK on */
    M = 2,              /* losses, the older rule, and the most bytes of a fragment: the setting for two losses, at which all figures were taken */
    NEWER = 0,
    MTU = 1400,
    H = 16,             /* bytes of a fragment's header */
    SENT = F * (H + S), /* bytes of all fragments */
    SPLIT = BAILHAMMER_TOLD_FRAGMENTS, /* bytes that say how they are split */
    TOLD = BAILHAMMER_TOLD_RECEIVE, /* those that it tells */
    COME = F - M,       /* fragments that come where M are lost */
    ENOUGH = 13,        /* of which so many suffice: three of F are PARITY bytes of a chunk at most */
    LATE = 11,          /* what the receiver says of a fragment of a packet that was handed out */
    FULL = 255,         /* bytes of a word of the code before it is shortened */
    DATA = FULL - PARITY,
    JUNK = 0x55,        /* stands in a missing cell */
    OURS = 20,          /* packets that libcard.a does in a round */
    THEIRS = 4,         /* packets that libfec does in a round */
};

static void *rs;                        /* libfec's code */
static uint8_t packet[PACKET];
static uint8_t block[BLOCK];            /* the packet's block, by libcard.a */
static uint8_t words[C][FULL];          /* the same as full words, by libfec: data, DATA - K zeros, parity */

static uint8_t kept[F];                 /* 1 for each fragment kept */
static uint8_t holed_block[BLOCK];      /* the block with JUNK in its missing cells */
static uint8_t holed_words[C][FULL];
static int holes[C][PARITY];            /* the places of the missing bytes in each full word */
static int hole_count[C];

static uint8_t our_block[BLOCK];        /* what the calls measured work on */
static uint8_t their_words[C][FULL];
static int their_holes[C][PARITY];
static uint8_t our_sent[SENT];          /* the fragments, one behind the other */
static uint8_t our_split[SPLIT];
static size_t our_answer;

static int come[COME];                  /* the indices of the fragments that come, in their order */
static uint8_t our_record[BAILHAMMER_RECORD];      /* what the receiver is lent */
static uint8_t our_lent[BAILHAMMER_LENT];
static uint8_t our_told[TOLD];
static uint8_t our_packet[PACKET];
static uint8_t waiting_record[BAILHAMMER_RECORD];  /* the same when the fragment that completes the packet is still to come */
static uint8_t waiting_lent[BAILHAMMER_LENT];

static void fail(const char *what)
{
    printf("bench: %s\n", what);
    exit(1);
}

/* ---- the settings */

/* An AF packet without a CRC, so that the sender takes it; the bytes of its payload are the same in each run. */
static void make_packet(void)
{
    enum { LEN = PACKET - AF_HEADER - AF_CRC };
    static const uint8_t header[AF_HEADER] = {'A', 'F', 0, 0, LEN >> 8, LEN & 255, 0, 7, 0x10, 'T'};
    memcpy(packet, header, AF_HEADER);
    uint32_t x = 1;
    for (int i = 0; i < LEN; i++) {
        x = x * 1664525u + 1013904223u;
        packet[AF_HEADER + i] = x >> 24;
    }
}

/* The packet's data in full words, and zeros for all else. */
static void lay_words(void)
{
    memset(words, 0, sizeof words);
    for (int i = 0; i < PACKET; i++)
        words[i / K][i % K] = packet[i];
}

/* The place in a full word of byte q of a chunk: the parity stands behind the zeros that a shortened word leaves out. */
static int place_of(int q)
{
    return q < K ? q : q + DATA - K;
}

/* Loses up to three fragments, 5 apart: a chunk is 16 turns of the F fragments but for 3 cells in a row, so it has 16 cells of each
 * fragment lost, or one fewer of one of them. */
static void lose(int lost)
{
    memset(kept, 1, sizeof kept);
    for (int i = 0; i < lost; i++)
        kept[5 * i] = 0;
}

/* Loses M fragments, and the ones behind the ENOUGH that come first are not held either when the packet is handed out. */
static void lose_and_wait(void)
{
    int n = 0;
    lose(M);
    for (int i = 0; i < F; i++)
        if (kept[i])
            come[n++] = i;
    for (int i = ENOUGH; i < COME; i++)
        kept[come[i]] = 0;
}

/* Marks byte q of chunk j as missing. */
static void make_hole(int j, int q)
{
    holed_block[j * N + q] = JUNK;
    holed_words[j][place_of(q)] = 0;
    holes[j][hole_count[j]++] = place_of(q);
}

/* The block and the words without the cells of the fragments lost. */
static void make_holes(void)
{
    memcpy(holed_block, block, sizeof block);
    memcpy(holed_words, words, sizeof words);
    memset(hole_count, 0, sizeof hole_count);
    for (int q = 0; q < BLOCK; q++)
        if (!kept[q % F])
            make_hole(q / N, q % N);
}

static int most_holes(void)
{
    int most = 0;
    for (int j = 0; j < C; j++)
        if (most < hole_count[j])
            most = hole_count[j];
    return most;
}

/* ---- the calls measured, and what is laid out for each before its time starts */

static void before_our_encode(void)
{
    memset(our_block, JUNK, sizeof our_block);
}

static void our_encode(void)
{
    our_answer = bailhammer_encode(packet, PACKET, K, C, our_block, BLOCK);
}

static void before_their_encode(void)
{
    memcpy(their_words, words, sizeof words);
    for (int j = 0; j < C; j++)
        memset(their_words[j] + DATA, JUNK, PARITY);
}

static void their_encode(void)
{
    for (int j = 0; j < C; j++)
        encode_rs_char(rs, their_words[j], their_words[j] + DATA);
}

static void before_our_send(void)
{
    memset(our_sent, JUNK, sizeof our_sent);
    memset(our_split, JUNK, sizeof our_split);
}

static void our_send(void)
{
    our_answer = bailhammer_fragments(1, M, NEWER, MTU, 0, 0, 0, 1, packet, PACKET, our_split, SPLIT, our_sent, SENT);
}

static void before_our_fill(void)
{
    memcpy(our_block, holed_block, sizeof our_block);
}

static void our_fill(void)
{
    our_answer = bailhammer_fill(kept, F, F, S, K, our_block, BLOCK);
}

static void before_their_fill(void)
{
    memcpy(their_words, holed_words, sizeof their_words);
    memcpy(their_holes, holes, sizeof their_holes);
}

static void their_fill(void)
{
    for (int j = 0; j < C; j++)
        decode_rs_char(rs, their_words[j], their_holes[j], hole_count[j]);
}

/* Hands the receiver a datagram. */
static void receive(const uint8_t *datagram, size_t length)
{
    our_answer = bailhammer_receive(0, 0, 0, our_record, BAILHAMMER_RECORD, our_lent, BAILHAMMER_LENT, datagram, length, our_told, TOLD, our_packet, PACKET);
}

/* The fragment that comes as number i. */
static void receive_come(int i)
{
    receive(our_sent + come[i] * (H + S), H + S);
}

static void before_our_receiving(void)
{
    memset(our_record, 0, sizeof our_record);
    memset(our_lent, JUNK, sizeof our_lent);
    memset(our_told, JUNK, sizeof our_told);
    memset(our_packet, JUNK, sizeof our_packet);
}

static void our_receive_all(void)
{
    for (int i = 0; i < COME; i++)
        receive_come(i);
}

static void before_our_waiting(void)
{
    before_our_receiving();
    memcpy(our_record, waiting_record, sizeof our_record);
    memcpy(our_lent, waiting_lent, sizeof our_lent);
}

static void our_deliver(void)
{
    receive_come(ENOUGH - 1);
}

static void our_open(void)
{
    receive_come(0);
}

static void before_our_keep(void)
{
    before_our_receiving();
    receive_come(0);
}

static void our_keep(void)
{
    receive_come(1);
}

/* An empty datagram: the record is unpacked, checked and packed again, and nothing else is done. */
static void our_refuse(void)
{
    receive(our_sent, 0);
}

/* The copy of a fragment's payload to its place, alone. */
static void our_copy(void)
{
    memcpy(our_lent + S, our_sent + H, S);
}

/* A call, what is to be done before each of its turns, and its turns in a round. */
struct side {
    int times;
    void (*before)(void);
    void (*call)(void);
};

static const struct side our_encoding = {OURS, before_our_encode, our_encode};
static const struct side their_encoding = {THEIRS, before_their_encode, their_encode};
static const struct side our_sending = {OURS, before_our_send, our_send};
static const struct side our_filling = {OURS, before_our_fill, our_fill};
static const struct side their_filling = {THEIRS, before_their_fill, their_fill};
static const struct side our_delivering = {OURS, before_our_waiting, our_deliver};
static const struct side our_receiving = {OURS, before_our_receiving, our_receive_all};
static const struct side our_opening = {OURS, before_our_receiving, our_open};
static const struct side our_keeping = {OURS, before_our_keep, our_keep};
static const struct side our_refusing = {OURS, before_our_keep, our_refuse};
static const struct side our_copying = {OURS, before_our_keep, our_copy};

#endif
