/* The part of bailhammer.h on numbers, names, AF packets and TAG items; include bailhammer.h. */
#ifndef BAILHAMMER_PACKET_H
#define BAILHAMMER_PACKET_H

#include "card.h"

#ifndef __cplusplus
#include <stdbool.h>
#endif

/* ---- numbers and names */

/* What a number means, after its name in card.h: "REPEAT: the fragment is kept already".
 *
 *     printf("%zu %s\n", number, bailhammer_meaning(number));
 */
static inline const char *bailhammer_meaning(size_t number)
{
    switch (number) {
    case BAILHAMMER_DONE: return "DONE: done";
    case BAILHAMMER_ROOM: return "ROOM: the bytes lent are too few, or not as many as they must be";
    case BAILHAMMER_SHORT: return "SHORT: the datagram has under 14 bytes, or under the header its flags call for";
    case BAILHAMMER_SYNC: return "SYNC: the datagram does not begin with \"PF\"";
    case BAILHAMMER_HCRC: return "HCRC: the CRC of the datagram's header is wrong";
    case BAILHAMMER_LENGTH: return "LENGTH: the datagram has no payload, or not the one its header tells";
    case BAILHAMMER_ADDRESS: return "ADDRESS: the datagram has an address, and that is not the one given, or none is given";
    case BAILHAMMER_COUNT: return "COUNT: f is 0 or over 256, or the fragment's index is not below it";
    case BAILHAMMER_SIZE: return "SIZE: sizes that cannot be: too many bytes for a block or too few for a chunk, k not 1 to 207, or z not below k";
    case BAILHAMMER_MISMATCH: return "MISMATCH: the packet's number is held with another f, FEC, k or z, or with a size that cannot belong";
    case BAILHAMMER_SPOILED: return "SPOILED: no packet agreed with the fragments of this packet";
    case BAILHAMMER_LATE: return "LATE: the packet was handed out already";
    case BAILHAMMER_REPEAT: return "REPEAT: the fragment is kept already";
    case BAILHAMMER_DAMAGED: return "DAMAGED: the fragment is kept, and no packet agrees with those kept";
    case BAILHAMMER_STATE: return "STATE: the record is none: one of its fields is out of its range";
    case BAILHAMMER_AF_SHORT: return "AF_SHORT: the AF packet has under 12 bytes";
    case BAILHAMMER_AF_SYNC: return "AF_SYNC: the AF packet does not begin with \"AF\"";
    case BAILHAMMER_AF_LENGTH: return "AF_LENGTH: the AF packet's length is not LEN + 12, or is over 8,192";
    case BAILHAMMER_AF_MAJOR: return "AF_MAJOR: the AF packet's major revision is not 1";
    case BAILHAMMER_AF_TYPE: return "AF_TYPE: the AF packet's type is not 'T'";
    case BAILHAMMER_AF_CRC: return "AF_CRC: the AF packet's CRC field is wrong";
    case BAILHAMMER_OVERRUN: return "OVERRUN: an item passes the end of its packet";
    case BAILHAMMER_TWICE: return "TWICE: a name other than \"*dmy\" stands twice on one level of a packet, and repeats are forbidden";
    case BAILHAMMER_DEPTH: return "DEPTH: an item stands at depth 5";
    case BAILHAMMER_PTR: return "PTR: \"*ptr\" has not 64 bits";
    case BAILHAMMER_ABSENT: return "ABSENT: the name is in neither packet, or the packet has no occurrence of that number";
    case BAILHAMMER_WHOLE: return "WHOLE: a container has not whole bytes";
    case BAILHAMMER_SETTINGS: return "SETTINGS: settings that cannot be: m over 5, m above 0 without FEC, or mtu over 16,384 or not above h";
    case BAILHAMMER_TOOMANY: return "TOOMANY: the packet would take over 256 fragments";
    case BAILHAMMER_INDEX: return "INDEX: the fragment asked for is not below f";
    case BAILHAMMER_BITS: return "BITS: the value has not as many bytes as its bits take; or the names are over 8, or not four bytes each";
    case BAILHAMMER_ZERO: return "ZERO: a division by zero or the logarithm of zero, which no call for C makes";
    case BAILHAMMER_NOTHING: return "NOTHING: no word of the code agrees with the cells kept; 0 stands in each missing cell";
    case BAILHAMMER_NOT_ENOUGH: return "NOT_ENOUGH: too few fragments are kept: a chunk misses more than 48 bytes";
    default: return "no number of card.h";
    }
}

/* The number in so many bytes, at most 8, as the calls tell it, the first byte highest. */
static inline size_t bailhammer_told(const uint8_t *told, size_t bytes)
{
    size_t number = 0;
    for (size_t i = 0; i < bytes; i++)
        number = number << 8 | told[i];
    return number;
}

/* A TAG name from its four letters: bailhammer_name("demo"). In constants, BAILHAMMER_NAME('d', 'e', 'm', 'o'). */
static inline uint32_t bailhammer_name(const char *letters)
{
    return BAILHAMMER_NAME(letters[0], letters[1], letters[2], letters[3]);
}

/* The four letters of a TAG name and a zero behind them, to be printed. They may be any bytes. */
static inline void bailhammer_letters(uint32_t name, char letters[5])
{
    for (int i = 0; i < 4; i++)
        letters[i] = (char)(uint8_t)(name >> (24 - 8 * i));
    letters[4] = 0;
}

/* ---- AF packets */

/* What an AF packet that passes the checks has. */
struct bailhammer_af {
    uint16_t seq;           /* SEQ, the sender's count */
    bool cf;                /* CF: it has a CRC, and that is right */
    uint8_t minor;          /* the minor revision; the major one is 1 */
    const uint8_t *payload; /* the payload, a part of the packet */
    size_t payload_len;     /* its bytes, LEN */
};

/* Checks an AF packet and shows its parts.
 *
 *     struct bailhammer_af af;
 *     if (bailhammer_af_check(packet, packet_len, &af) == BAILHAMMER_DONE)
 *         use(af.payload, af.payload_len);
 */
static inline size_t bailhammer_af_check(const uint8_t *packet, size_t packet_len, struct bailhammer_af *af)
{
    uint8_t told[BAILHAMMER_TOLD_CHECK] = {0};
    size_t number = bailhammer_check(packet, packet_len, told, sizeof told);
    af->seq = (uint16_t)bailhammer_told(told, 2);
    af->cf = told[2] != 0;
    af->minor = told[3];
    af->payload_len = bailhammer_told(told + 4, 4);
    af->payload = number == BAILHAMMER_DONE ? packet + BAILHAMMER_AF_HEADER : packet;
    return number;
}

/* ---- TAG items */

/* An item that was found by its name. */
struct bailhammer_found {
    bool standing;        /* it is in the standing packet, else in the packet */
    uint32_t bits;        /* the bits of its value */
    const uint8_t *value; /* the value, a part of the packet that holds it */
    size_t value_len;     /* the bytes that hold the bits */
    size_t start;         /* the byte at which it begins, with its name, in the packet that holds it */
    uint8_t unused;       /* the low bits of its last byte that are not part of the value: 0 to 7 */
};

/* The item that the bytes of a finding tell, in a packet or in the standing packet beside it. */
static inline struct bailhammer_found bailhammer_found_in(const uint8_t *packet, const uint8_t *standing, const uint8_t *told)
{
    struct bailhammer_found found;
    found.standing = told[0] != 0;
    found.bits = (uint32_t)bailhammer_told(told + 1, 4);
    found.value = (found.standing ? standing : packet) + bailhammer_told(told + 5, 8);
    found.value_len = bailhammer_told(told + 13, 4);
    found.start = bailhammer_told(told + 17, 8);
    found.unused = told[25];
    return found;
}

/* Finds the first item of a name in a packet, else in the standing packet, which may be null with no bytes. Where repeats is yes, a name may
 * stand more than once in either.
 *
 *     struct bailhammer_found found;
 *     if (bailhammer_tag_find(af.payload, af.payload_len, NULL, 0, bailhammer_name("demo"), false, &found) == BAILHAMMER_DONE)
 *         use(found.value, found.value_len);
 */
static inline size_t bailhammer_tag_find(const uint8_t *packet, size_t packet_len, const uint8_t *standing, size_t standing_len, uint32_t name,
                                         bool repeats, struct bailhammer_found *found)
{
    uint8_t told[BAILHAMMER_TOLD_FIND] = {0};
    const uint8_t *beside = standing ? standing : packet;
    size_t number = bailhammer_find(packet, packet_len, beside, standing ? standing_len : 0, name, repeats, told, sizeof told);
    *found = bailhammer_found_in(packet, beside, told);
    return number;
}

/* Finds an item by its name and its occurrence, counted from 0 on, in the packet alone. Each call checks the whole packet: who wants all items of a
 * name takes a walk.
 *
 *     struct bailhammer_found found;           // the second item of the name:
 *     if (bailhammer_tag_nth(af.payload, af.payload_len, bailhammer_name("demo"), 1, true, &found) == BAILHAMMER_DONE)
 *         use(found.value, found.value_len);
 */
static inline size_t bailhammer_tag_nth(const uint8_t *packet, size_t packet_len, uint32_t name, size_t occurrence, bool repeats,
                                        struct bailhammer_found *found)
{
    uint8_t told[BAILHAMMER_TOLD_FIND] = {0};
    size_t number = bailhammer_nth(packet, packet_len, name, occurrence, repeats, told, sizeof told);
    *found = bailhammer_found_in(packet, packet, told);
    return number;
}

/* A walk through a packet and its containers. It points at the packet and at the names: both must live, and stay as they were, until its last
 * step. */
struct bailhammer_walk {
    const uint8_t *packet;             /* what is walked through */
    size_t packet_len;                 /* its bytes */
    const uint8_t *names;              /* the containers' names, four bytes each */
    size_t names_len;                  /* their bytes */
    uint8_t walker[BAILHAMMER_WALKER]; /* where the walk stands */
};

/* What a step of a walk hands out: an item, or the end. */
struct bailhammer_step {
    bool item;            /* an item; else there is no further one */
    uint8_t depth;        /* how many containers it stands in */
    uint32_t name;        /* its name */
    uint32_t bits;        /* the bits of its value */
    const uint8_t *value; /* the value, a part of the packet */
    size_t value_len;     /* the bytes that hold the bits */
    size_t start;         /* the byte at which it begins, with its name, in the packet walked through, at every depth */
    uint8_t unused;       /* the low bits of its last byte that are not part of the value: 0 to 7 */
    size_t padding;       /* at the end, the bytes of padding behind the last item */
};

/* Opens a walk. names is "fio_" with 4, say, or "" with 0; two items of a level may have one name where repeats is yes. Where it refuses, the walk
 * is one through no bytes.
 *
 *     struct bailhammer_walk walk;
 *     number = bailhammer_tag_walk_open(&walk, af.payload, af.payload_len, "fio_", 4, false);
 */
static inline size_t bailhammer_tag_walk_open(struct bailhammer_walk *walk, const uint8_t *packet, size_t packet_len, const void *names,
                                              size_t names_len, bool repeats)
{
    for (size_t i = 0; i < sizeof walk->walker; i++)
        walk->walker[i] = 0;
    walk->packet = packet;
    walk->names = (const uint8_t *)names;
    walk->names_len = names_len;
    size_t number = bailhammer_walk_open(packet, packet_len, walk->names, names_len, repeats, walk->walker, sizeof walk->walker);
    walk->packet_len = number == BAILHAMMER_DONE ? packet_len : 0;
    return number;
}

/* Hands out the next item of a walk, or the end. What a display marks is the whole item: from start on, BAILHAMMER_ITEM_HEAD + value_len bytes.
 *
 *     struct bailhammer_step step;
 *     while (bailhammer_tag_walk_step(&walk, &step) == BAILHAMMER_DONE && step.item) {
 *         use(step.depth, step.name, step.value, step.value_len);
 *         mark(step.start, BAILHAMMER_ITEM_HEAD + step.value_len);
 *     }
 */
static inline size_t bailhammer_tag_walk_step(struct bailhammer_walk *walk, struct bailhammer_step *step)
{
    uint8_t told[BAILHAMMER_TOLD_STEP] = {0};
    size_t number = bailhammer_walk_step(walk->packet, walk->packet_len, walk->names, walk->names_len, walk->walker, sizeof walk->walker, told,
                                         sizeof told);
    size_t last = bailhammer_told(told + 18, 4);
    step->item = told[0] != 0;
    step->depth = told[1];
    step->name = (uint32_t)bailhammer_told(told + 2, 4);
    step->bits = (uint32_t)bailhammer_told(told + 6, 4);
    step->value = walk->packet + bailhammer_told(told + 10, 8);
    step->value_len = step->item ? last : 0;
    step->start = bailhammer_told(told + 22, 8);
    step->unused = told[30];
    step->padding = step->item ? 0 : last;
    return number;
}

#endif
