/*
 * A contractor's page that adds up. Nine hubs stand in a ring around the fields, hub 0 at the office. Frames enter, move along
 * successors and are delivered or dropped, while a link is lost and one frame has to turn round.
 * Build, in the repository's folder, after `make`: gcc -std=c99 -Iinclude examples/meter.c target/libpuntclover.a -o meter
 */
#include <inttypes.h>
#include <stdio.h>
#include <stdlib.h>

#include "puntclover.h"

/* The hubs; the slices that the network's calls are lent, and the meter's. */
#define HUBS 9u
#define NETWORK units, sizeof units, queues, sizeof queues
#define METERED NETWORK, meter, sizeof meter

static uint8_t units[PUNTCLOVER_NETWORK_UNITS_BYTES], queues[PUNTCLOVER_NETWORK_QUEUES_BYTES], meter[PUNTCLOVER_METER_BYTES];

/* Ends the program where a call is refused. */
static uint32_t checked(uint32_t answer)
{
    if (puntclover_accepted(answer))
        return answer;
    fprintf(stderr, "refused with %" PRIu32 ": %s\n", answer, puntclover_refusal_words(answer));
    exit(1);
}

/* Delivers the network's own messages until no queue has any. */
static void deliver_all(void)
{
    for (uint32_t pair = 0, last = 0; pair <= last + HUBS * HUBS; pair++)
        if (puntclover_accepted(puntclover_network_deliver(NETWORK, pair / HUBS % HUBS, pair % HUBS)))
            last = pair;
}

/* A frame enters; answers its place, if it is held. */
static uint32_t enter(uint32_t size, uint32_t unit, uint32_t destination)
{
    uint32_t answer = checked(puntclover_meter_enter(METERED, size, unit, destination));

    printf("%" PRIu32 " bytes enter at hub %" PRIu32 " for hub %" PRIu32 "%s\n", size, unit, destination,
           puntclover_meter_fate(answer) == PUNTCLOVER_METER_DELIVERED ? ", delivered at once" : "");
    return puntclover_meter_place(answer);
}

/* A frame moves to its lowest successor and on, so many hops at most. */
static void move(uint32_t frame, uint32_t hops)
{
    uint32_t destination = puntclover_value(checked(puntclover_meter_frame_destination(METERED, frame)));
    uint32_t unit = puntclover_value(checked(puntclover_meter_frame_unit(METERED, frame))), successors = 1;

    printf("frame %" PRIu32 " for hub %" PRIu32 " moves: %" PRIu32, frame, destination, unit);
    for (; hops > 0 && unit != destination; hops--) {
        successors = puntclover_value(checked(puntclover_network_successors(NETWORK, unit, destination)));
        if (successors == 0)
            break;
        for (unit = 0; !(successors >> unit & 1); unit++)
            ;
        checked(puntclover_meter_move(METERED, frame, unit));
        printf(" %" PRIu32, unit);
    }
    printf("%s\n", successors == 0 ? ", no successor" : unit == destination ? ", delivered" : "");
}

/* The page. */
static void page(void)
{
    printf("  entered %" PRIu64 " = delivered %" PRIu64 " + dropped %" PRIu64 " + held %" PRIu64 "\n",
           puntclover_figure(puntclover_meter_entered(METERED)), puntclover_figure(puntclover_meter_delivered(METERED)),
           puntclover_figure(puntclover_meter_dropped(METERED)), puntclover_figure(puntclover_meter_held(METERED)));
}

int main(void)
{
    checked(puntclover_network_fresh(HUBS, NETWORK));
    checked(puntclover_meter_fresh(meter, sizeof meter));
    for (uint32_t hub = 0; hub < HUBS; hub++)
        checked(puntclover_network_up(NETWORK, hub, (hub + 1) % HUBS, 10, 10));
    deliver_all();
    uint32_t weight = enter(40, 3, 0);
    uint32_t picture = enter(60000, 5, 0);
    enter(700, 0, 0);
    page();
    move(weight, HUBS);
    move(picture, 1);
    checked(puntclover_network_down(NETWORK, 6, 7));
    puts("the link between hubs 6 and 7 is lost");
    move(picture, HUBS);
    page();
    deliver_all();
    puts("all hubs have heard of it");
    move(picture, HUBS);
    uint32_t report = enter(1500, 7, 6);
    move(report, 3);
    checked(puntclover_meter_drop(METERED, report));
    puts("it is too old, and dropped");
    enter(250, 4, 8);
    page();
    return 0;
}
