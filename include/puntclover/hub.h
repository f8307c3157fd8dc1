/*
 * Puntclover: one hub's routing, for firmware. What every call asks of its caller, and what an answer means, stands in
 * answers.h; what a hub owes to the others, in docs/FIRMWARE.md and docs/PORTING.md.
 *
 * A hub is called a unit where the rules speak of it. Its table is PUNTCLOVER_HUB_TABLE_BYTES bytes: puntclover_hub_fresh
 * writes it once, and from then on only calls change it. Every call tests the whole table first.
 *
 * Four events tell what has happened. Their messages are laid into `out` from its start, neighbours rising, each after one
 * byte with the neighbour's number; the bytes after them stay. An accepted event answers 100 plus the bytes used. Send every
 * message, each over the link to its neighbour and after all that was sent there before:
 *
 *     uint32_t answer = puntclover_hub_cost(table, sizeof table, to, cost, out, sizeof out);
 *
 *     if (puntclover_refused(answer))
 *         report(answer);
 *     PUNTCLOVER_FOR_EACH_OUTGOING(it, out, answer)
 *         send_frame(it.to, it.message, it.bytes);
 */
#ifndef PUNTCLOVER_HUB_H
#define PUNTCLOVER_HUB_H

#include <stddef.h>
#include <stdint.h>

#include "answers.h"
#include "message.h"

#ifdef __cplusplus
extern "C" {
#endif

/* The bytes of a hub's table. */
#define PUNTCLOVER_HUB_TABLE_BYTES 1352u

/* The bytes that `out` has at least: a message for each neighbour, each after one byte. */
#define PUNTCLOVER_HUB_ROOM 975u

/* A fresh table for hub `me` of `count`, all links down: 100. Refused with 1, 2 (the length alone), 3. */
uint32_t puntclover_hub_fresh(uint32_t count, uint32_t me, uint8_t *table, size_t table_len);

/* The link to hub `to` came up, at this cost from here: 100 plus the bytes used. Refused with 2, 3, 4, 5, 7. */
uint32_t puntclover_hub_up(uint8_t *table, size_t table_len, uint32_t to, uint32_t cost, uint8_t *out, size_t out_len);

/* The cost from here to hub `to` changed; the same again is legal: 100 plus the bytes used. Refused with 2, 3, 4, 6, 7. */
uint32_t puntclover_hub_cost(uint8_t *table, size_t table_len, uint32_t to, uint32_t cost, uint8_t *out, size_t out_len);

/* The link to hub `to` went down: 100 plus the bytes used. Refused with 2, 3, 6, 7. */
uint32_t puntclover_hub_down(uint8_t *table, size_t table_len, uint32_t to, uint8_t *out, size_t out_len);

/*
 * Exactly one message came by the link from hub `from`: 100 plus the bytes used. Refused with 2, 3, 6, 7, and for the bytes
 * with 9, 10, 11, 12.
 */
uint32_t puntclover_hub_message(uint8_t *table, size_t table_len, uint32_t from, const uint8_t *bytes, size_t bytes_len,
                                uint8_t *out, size_t out_len);

/*
 * Questions, which change nothing. All are refused with 2, and those about a hub `to` with 3; a hub may ask for itself.
 */

/* 100 PASSIVE, 101 ACTIVE: the hub awaits an acknowledgment. */
uint32_t puntclover_hub_state(const uint8_t *table, size_t table_len);

/* 100 plus the distance, or PUNTCLOVER_UNREACHABLE; 100 to itself. */
uint32_t puntclover_hub_distance(const uint8_t *table, size_t table_len, uint32_t to);

/* 100 plus the feasible distance, or PUNTCLOVER_UNREACHABLE; 100 to itself. */
uint32_t puntclover_hub_feasible(const uint8_t *table, size_t table_len, uint32_t to);

/* 100 plus the sum of 2^k over the successors k; 100 if there are none, and to itself. */
uint32_t puntclover_hub_successors(const uint8_t *table, size_t table_len, uint32_t to);

/* 100 plus the cost of the link to hub `to`; 100 if it is down, and to itself. */
uint32_t puntclover_hub_link(const uint8_t *table, size_t table_len, uint32_t to);

/* 101 if an acknowledgment of hub `to` is awaited, else 100. */
uint32_t puntclover_hub_awaits(const uint8_t *table, size_t table_len, uint32_t to);

/* A message of an event. */
struct puntclover_outgoing {
    const uint8_t *message; /* its first byte, within `out` */
    size_t bytes;           /* its length; 0 when there is no further message */
    uint32_t to;            /* the neighbour that it goes to */
    size_t left;            /* the bytes used after it */
};

/* The message that `used` bytes begin with; of no length where they hold none. */
static inline struct puntclover_outgoing puntclover_outgoing_from(const uint8_t *used, size_t left)
{
    struct puntclover_outgoing it = {used, 0, 0, 0};

    /* A neighbour's number and the shortest message are 5 bytes. */
    if (left >= 5 && puntclover_message_bytes(used + 1) <= left - 1) {
        it.message = used + 1;
        it.bytes = puntclover_message_bytes(used + 1);
        it.to = used[0];
        it.left = left - 1 - it.bytes;
    }
    return it;
}

/* The first message of the event that answered so. A refused event has none, for it has a value of 0. */
static inline struct puntclover_outgoing puntclover_first_outgoing(const uint8_t *out, uint32_t answer)
{
    return puntclover_outgoing_from(out, puntclover_value(answer));
}

/* The message after this one. */
static inline struct puntclover_outgoing puntclover_next_outgoing(struct puntclover_outgoing it)
{
    return puntclover_outgoing_from(it.message + it.bytes, it.left);
}

/* The statement that follows is done for each message of an event, `it` being the message: none after a refusal. */
#define PUNTCLOVER_FOR_EACH_OUTGOING(it, out, answer)                                              \
    for (struct puntclover_outgoing it = puntclover_first_outgoing((out), (answer)); it.bytes > 0; \
         it = puntclover_next_outgoing(it))

#ifdef __cplusplus
}
#endif

#endif
