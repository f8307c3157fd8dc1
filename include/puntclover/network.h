/*
 * Puntclover: a whole network of units with its queues, and the tracer, for planning tools and tests. What every call asks of
 * its caller, and what an answer means, stands in answers.h.
 *
 * A network is two tables: PUNTCLOVER_NETWORK_UNITS_BYTES bytes for the units, one hub's table after the other, and
 * PUNTCLOVER_NETWORK_QUEUES_BYTES bytes for the messages under way. puntclover_network_fresh writes both, and from then on
 * only calls change them. Every call tests them whole first, and is refused with 2 if they are unfit. A call takes at most
 * some 46,000 bytes of stack, far more than a hub's; docs/FIRMWARE.md has the figures.
 *
 * A call with two units is refused with 3 if one of them is none; an event also if they are equal.
 */
#ifndef PUNTCLOVER_NETWORK_H
#define PUNTCLOVER_NETWORK_H

#include <stddef.h>
#include <stdint.h>

#include "answers.h"

#ifdef __cplusplus
extern "C" {
#endif

/* The bytes of the units' tables. */
#define PUNTCLOVER_NETWORK_UNITS_BYTES 21632u

/* The bytes of the queues. */
#define PUNTCLOVER_NETWORK_QUEUES_BYTES 65536u

/* A fresh network of `count` units, all links down: 100. Refused with 1, 2 (the lengths alone). */
uint32_t puntclover_network_fresh(uint32_t count, uint8_t *units, size_t units_len, uint8_t *queues, size_t queues_len);

/* Events: 100. They are refused with 13 as well, but never on tables that calls have made from fresh ones. */

/* The link between a and b came up, at these costs from a to b and from b to a. Refused with 2, 3, 4, 5. */
uint32_t puntclover_network_up(uint8_t *units, size_t units_len, uint8_t *queues, size_t queues_len, uint32_t a, uint32_t b,
                               uint32_t cost_of_a, uint32_t cost_of_b);

/* The cost from a to b changed, an event at a only; the same cost again is legal. Refused with 2, 3, 4, 6. */
uint32_t puntclover_network_cost(uint8_t *units, size_t units_len, uint8_t *queues, size_t queues_len, uint32_t a, uint32_t b,
                                 uint32_t cost);

/* The link between a and b went down; what was under way on it is gone. Refused with 2, 3, 6. */
uint32_t puntclover_network_down(uint8_t *units, size_t units_len, uint8_t *queues, size_t queues_len, uint32_t a,
                                 uint32_t b);

/*
 * The first message from a to b arrives. Refused with 2, 3, 6, 8 (there is none), and with 10, 11, 12 on tables that no calls
 * have made from fresh ones.
 */
uint32_t puntclover_network_deliver(uint8_t *units, size_t units_len, uint8_t *queues, size_t queues_len, uint32_t a,
                                    uint32_t b);

/* Questions about unit i, which change nothing. Refused with 2, 3; a unit may ask for itself. */

/* 100 PASSIVE, 101 ACTIVE: unit i awaits an acknowledgment. */
uint32_t puntclover_network_state(const uint8_t *units, size_t units_len, const uint8_t *queues, size_t queues_len,
                                  uint32_t i);

/* 100 plus the distance from i to j, or PUNTCLOVER_UNREACHABLE; 100 to itself. */
uint32_t puntclover_network_distance(const uint8_t *units, size_t units_len, const uint8_t *queues, size_t queues_len,
                                     uint32_t i, uint32_t j);

/* 100 plus the feasible distance from i to j, or PUNTCLOVER_UNREACHABLE; 100 to itself. */
uint32_t puntclover_network_feasible(const uint8_t *units, size_t units_len, const uint8_t *queues, size_t queues_len,
                                     uint32_t i, uint32_t j);

/* 100 plus the sum of 2^k over the successors k of i for j; 100 if there are none, and to itself. */
uint32_t puntclover_network_successors(const uint8_t *units, size_t units_len, const uint8_t *queues, size_t queues_len,
                                       uint32_t i, uint32_t j);

/* 100 plus the cost of the link from i to j; 100 if it is down, and to itself. */
uint32_t puntclover_network_link(const uint8_t *units, size_t units_len, const uint8_t *queues, size_t queues_len,
                                 uint32_t i, uint32_t j);

/* 101 if i awaits an acknowledgment of j, else 100. */
uint32_t puntclover_network_awaits(const uint8_t *units, size_t units_len, const uint8_t *queues, size_t queues_len,
                                   uint32_t i, uint32_t j);

/* How a trace ends, and what it answers before the hops are added. */
enum puntclover_ending {
    PUNTCLOVER_ARRIVED = 100,  /* at the destination */
    PUNTCLOVER_STRANDED = 200, /* at a unit without successors */
    PUNTCLOVER_CIRCLING = 300  /* in a circle, which tables that calls have made from fresh ones never hold */
};

/*
 * Follows successors from `start` to `destination`. At each unit the next byte of `choices`, modulo the number of successors,
 * says which of them is taken, in rising order. The units met stand in `path`, start first; the bytes after them stay. `path`
 * has at least as many bytes as there are units, `choices` one less. Answers an ending plus the hops. Refused with 2, 3, 7.
 */
uint32_t puntclover_network_trace(const uint8_t *units, size_t units_len, const uint8_t *queues, size_t queues_len,
                                  uint32_t start, uint32_t destination, const uint8_t *choices, size_t choices_len,
                                  uint8_t *path, size_t path_len);

/* The ending of a trace, an enum puntclover_ending; 0 for a refused one, which has none. */
static inline uint32_t puntclover_trace_ending(uint32_t answer)
{
    return answer / 100u * 100u;
}

/* The hops of a trace that was not refused. The units met are one more. */
static inline uint32_t puntclover_trace_hops(uint32_t answer)
{
    return puntclover_accepted(answer) ? answer % 100u : 0;
}

#ifdef __cplusplus
}
#endif

#endif
