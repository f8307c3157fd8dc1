/*
 * A program that links every function of the parts that HUB, MESSAGE, NETWORK and METER ask for, and nothing else of the archive.
 * `bench/run` looks at its size, and doesn't run it.
 */
#include "puntclover.h"

typedef void (*any_function)(void);

/* Volatile, so that no compiler leaves a function out. */
static const volatile any_function used[] = {
    0,
#ifdef HUB
    (any_function)puntclover_hub_fresh,
    (any_function)puntclover_hub_up,
    (any_function)puntclover_hub_cost,
    (any_function)puntclover_hub_down,
    (any_function)puntclover_hub_message,
    (any_function)puntclover_hub_state,
    (any_function)puntclover_hub_distance,
    (any_function)puntclover_hub_feasible,
    (any_function)puntclover_hub_successors,
    (any_function)puntclover_hub_link,
    (any_function)puntclover_hub_awaits,
#endif
#ifdef MESSAGE
    (any_function)puntclover_message_read,
    (any_function)puntclover_message_write,
#endif
#ifdef NETWORK
    (any_function)puntclover_network_fresh,
    (any_function)puntclover_network_up,
    (any_function)puntclover_network_cost,
    (any_function)puntclover_network_down,
    (any_function)puntclover_network_deliver,
    (any_function)puntclover_network_state,
    (any_function)puntclover_network_distance,
    (any_function)puntclover_network_feasible,
    (any_function)puntclover_network_successors,
    (any_function)puntclover_network_link,
    (any_function)puntclover_network_awaits,
    (any_function)puntclover_network_trace,
#endif
#ifdef METER
    (any_function)puntclover_meter_fresh,
    (any_function)puntclover_meter_enter,
    (any_function)puntclover_meter_move,
    (any_function)puntclover_meter_drop,
    (any_function)puntclover_meter_entered,
    (any_function)puntclover_meter_delivered,
    (any_function)puntclover_meter_dropped,
    (any_function)puntclover_meter_held,
    (any_function)puntclover_meter_frames,
    (any_function)puntclover_meter_frame_size,
    (any_function)puntclover_meter_frame_unit,
    (any_function)puntclover_meter_frame_destination,
    (any_function)puntclover_meter_frame_hops,
#endif
};

int main(int words, char **given)
{
    (void)given;
    return used[words % (sizeof used / sizeof used[0])] != 0;
}
