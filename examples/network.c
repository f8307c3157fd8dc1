/*
 * Three units in a triangle: the links come up, all messages are delivered, and paths are traced from unit 0 to unit 2 with
 * every first choice. Then the cost from 1 to 2 rises, and they are traced again while messages are under way.
 *
 * Build and run, in the repository's folder:
 *
 *     make
 *     gcc -std=c99 -Wall -Wextra -Iinclude examples/network.c target/libpuntclover.a -o network
 *     ./network
 */
#include <stdio.h>
#include <stdlib.h>
#include <string.h>

#include "puntclover.h"

#define COUNT 3u

static uint8_t units[PUNTCLOVER_NETWORK_UNITS_BYTES];
static uint8_t queues[PUNTCLOVER_NETWORK_QUEUES_BYTES];

/* Ends the program where a call is refused. */
static void need(const char *what, uint32_t answer)
{
    if (puntclover_accepted(answer))
        return;
    fprintf(stderr, "%s is refused with %u: %s\n", what, (unsigned)answer, puntclover_refusal_words(answer));
    exit(1);
}

static void up(uint32_t a, uint32_t b, uint32_t cost_of_a, uint32_t cost_of_b)
{
    need("link up", puntclover_network_up(units, sizeof units, queues, sizeof queues, a, b, cost_of_a, cost_of_b));
}

/* Whether there was a message from a to b, which has been delivered. */
static int deliver(uint32_t a, uint32_t b)
{
    uint32_t answer = puntclover_network_deliver(units, sizeof units, queues, sizeof queues, a, b);

    if (answer == PUNTCLOVER_REFUSED_EMPTY_QUEUE)
        return 0;
    need("delivery", answer);
    return 1;
}

/* Delivers until every queue is empty. */
static void deliver_all(void)
{
    int moved = 1;

    while (moved) {
        moved = 0;
        for (uint32_t a = 0; a < COUNT; a++)
            for (uint32_t b = 0; b < COUNT; b++)
                if (a != b && deliver(a, b))
                    moved = 1;
    }
}

static const char *words_for(uint32_t ending)
{
    switch (ending) {
    case PUNTCLOVER_ARRIVED:
        return "arrived";
    case PUNTCLOVER_STRANDED:
        return "stranded";
    default:
        return "circling";
    }
}

/* Traces from 0 to a destination, with the same choice byte at each unit. */
static void trace(uint32_t destination, uint8_t choice)
{
    uint8_t choices[COUNT - 1];
    uint8_t path[COUNT];
    uint32_t answer;

    memset(choices, choice, sizeof choices);
    answer = puntclover_network_trace(units, sizeof units, queues, sizeof queues, 0, destination, choices, sizeof choices,
                                      path, sizeof path);
    if (puntclover_refused(answer)) {
        printf("to %u: refused with %u: %s\n", (unsigned)destination, (unsigned)answer, puntclover_refusal_words(answer));
        return;
    }
    printf("to %u, choice %u: %s, path", (unsigned)destination, choice, words_for(puntclover_trace_ending(answer)));
    for (uint32_t hop = 0; hop <= puntclover_trace_hops(answer); hop++)
        printf(" %u", path[hop]);
    printf("\n");
}

int main(void)
{
    need("fresh", puntclover_network_fresh(COUNT, units, sizeof units, queues, sizeof queues));
    trace(2, 0);
    up(0, 1, 1, 1);
    up(1, 2, 1, 1);
    up(0, 2, 5, 5);
    deliver_all();
    printf("all delivered\n");
    trace(2, 0);
    trace(2, 1);
    trace(COUNT, 0);
    need("cost", puntclover_network_cost(units, sizeof units, queues, sizeof queues, 1, 2, 10));
    if (!deliver(1, 0))
        return 1;
    printf("1 to 2 costs 10, and unit 0 has heard of it\n");
    trace(2, 0);
    trace(2, 1);
    return 0;
}
