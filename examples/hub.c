/*
 * A small firmware loop over Puntclover: three hubs in one process, their radio replaced by a list of frames under way. In a
 * hub, `send_frame` hands a frame to the radio, `receive` is called when the radio has received one, and `look_after` by the
 * clock. docs/PORTING.md tells what else a hub owes.
 *
 * Build and run, in the repository's folder:
 *
 *     make
 *     gcc -std=c99 -Wall -Wextra -Iinclude examples/hub.c target/libpuntclover.a -o hub
 *     ./hub
 */
#include <stdio.h>
#include <stdlib.h>
#include <string.h>

#include "puntclover.h"

enum { HUBS = 3, UNDER_WAY = 64 };

struct frame {
    uint32_t from, to;
    size_t length;
    uint8_t bytes[PUNTCLOVER_MESSAGE_MOST];
};

static uint8_t tables[HUBS][PUNTCLOVER_HUB_TABLE_BYTES];
static uint8_t out[PUNTCLOVER_HUB_ROOM];
static struct frame air[UNDER_WAY];
static size_t under_way;

static void send_frame(uint32_t from, uint32_t to, const uint8_t *bytes, size_t length)
{
    struct frame *frame = &air[under_way];

    if (under_way == UNDER_WAY || length > sizeof frame->bytes) {
        fprintf(stderr, "no room for a frame\n");
        exit(1);
    }
    frame->from = from;
    frame->to = to;
    frame->length = length;
    memcpy(frame->bytes, bytes, length);
    under_way++;
}

/* The answer to an event at hub `me`: a refusal is told and has changed nothing; else the messages are sent, in order. */
static void finish(uint32_t me, const char *what, uint32_t answer)
{
    if (puntclover_refused(answer))
        printf("hub %u, %s refused with %u: %s\n", (unsigned)me, what, (unsigned)answer, puntclover_refusal_words(answer));
    PUNTCLOVER_FOR_EACH_OUTGOING(it, out, answer)
        send_frame(me, it.to, it.message, it.bytes);
}

/* The answer to a question, which is refused only where the program is wrong or a table is damaged. */
static uint32_t asked(uint32_t answer)
{
    if (puntclover_refused(answer)) {
        fprintf(stderr, "a question is refused with %u: %s\n", (unsigned)answer, puntclover_refusal_words(answer));
        exit(1);
    }
    return puntclover_value(answer);
}

/* A link comes up at both ends before anything that they send arrives. */
static void link_up(uint32_t a, uint32_t b, uint32_t cost_of_a, uint32_t cost_of_b)
{
    finish(a, "link up", puntclover_hub_up(tables[a], sizeof tables[a], b, cost_of_a, out, sizeof out));
    finish(b, "link up", puntclover_hub_up(tables[b], sizeof tables[b], a, cost_of_b, out, sizeof out));
}

/* What is under way on a link that goes down never arrives, neither now nor when it is up again. */
static void link_down(uint32_t a, uint32_t b)
{
    size_t kept = 0;

    for (size_t at = 0; at < under_way; at++)
        if ((air[at].from != a || air[at].to != b) && (air[at].from != b || air[at].to != a))
            air[kept++] = air[at];
    under_way = kept;
    finish(a, "link down", puntclover_hub_down(tables[a], sizeof tables[a], b, out, sizeof out));
    finish(b, "link down", puntclover_hub_down(tables[b], sizeof tables[b], a, out, sizeof out));
}

static void receive(uint32_t me, uint32_t from, const uint8_t *bytes, size_t length)
{
    finish(me, "message", puntclover_hub_message(tables[me], sizeof tables[me], from, bytes, length, out, sizeof out));
}

/* The frame that was sent first leaves the air. */
static struct frame next_frame(void)
{
    struct frame frame = air[0];

    memmove(air, air + 1, --under_way * sizeof air[0]);
    return frame;
}

static void receive_all(void)
{
    while (under_way > 0) {
        struct frame frame = next_frame();

        receive(frame.to, frame.from, frame.bytes, frame.length);
    }
}

/* The link between two hubs goes down and comes up again, at the costs that it had. */
static void renew_link(uint32_t a, uint32_t b)
{
    uint32_t cost_of_a = asked(puntclover_hub_link(tables[a], sizeof tables[a], b));
    uint32_t cost_of_b = asked(puntclover_hub_link(tables[b], sizeof tables[b], a));

    link_down(a, b);
    link_up(a, b, cost_of_a, cost_of_b);
}

/*
 * A hub that has been ACTIVE for far too long: a frame to or from those that it awaits was lost, which no call can see. The
 * links to them are renewed. Whom it awaits is asked first, for a renewed link makes the hub await others anew.
 */
static void look_after(uint32_t me)
{
    int is_awaited[HUBS];

    for (uint32_t to = 0; to < HUBS; to++)
        is_awaited[to] = asked(puntclover_hub_awaits(tables[me], sizeof tables[me], to)) == 1;
    for (uint32_t to = 0; to < HUBS; to++)
        if (is_awaited[to]) {
            printf("hub %u has awaited hub %u for too long: link down and up\n", (unsigned)me, (unsigned)to);
            renew_link(me, to);
        }
}

/* Whether the hub is ACTIVE, and its ways to the others. */
static void show(uint32_t me)
{
    uint32_t state = asked(puntclover_hub_state(tables[me], sizeof tables[me]));

    printf("hub %u %s\n", (unsigned)me, state == 1 ? "ACTIVE" : "PASSIVE");
    for (uint32_t to = 0; to < HUBS; to++) {
        uint32_t distance = asked(puntclover_hub_distance(tables[me], sizeof tables[me], to));
        uint32_t successors = asked(puntclover_hub_successors(tables[me], sizeof tables[me], to));

        if (to == me)
            continue;
        printf("  to %u: ", (unsigned)to);
        if (distance == PUNTCLOVER_UNREACHABLE)
            printf("unreachable");
        else
            printf("distance %u, by", (unsigned)distance);
        for (uint32_t k = 0; k < HUBS; k++)
            if (successors >> k & 1)
                printf(" %u", (unsigned)k);
        printf("\n");
    }
}

int main(void)
{
    static const uint8_t damaged[] = {1, 1, 2, 9};
    uint32_t me;

    for (me = 0; me < HUBS; me++)
        asked(puntclover_hub_fresh(HUBS, me, tables[me], sizeof tables[me]));
    link_up(0, 1, 1, 1);
    link_up(1, 2, 1, 1);
    link_up(0, 2, 5, 5);
    receive_all();
    for (me = 0; me < HUBS; me++)
        show(me);

    printf("\nA damaged frame arrives at hub 0.\n");
    receive(0, 1, damaged, sizeof damaged);

    printf("\nThe cost from 1 to 2 becomes 10, and hub 1's frame to hub 0 is lost.\n");
    finish(1, "cost", puntclover_hub_cost(tables[1], sizeof tables[1], 2, 10, out, sizeof out));
    next_frame();
    receive_all();
    show(1);
    look_after(1);
    receive_all();
    for (me = 0; me < HUBS; me++)
        show(me);
    return 0;
}
