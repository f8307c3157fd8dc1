/*
 * The smallest program: hub 0 of two hubs, whose link to hub 1 comes up. It prints what is to be sent, and where frames go.
 *
 * Build, once the library is installed: gcc examples/smallest.c $(pkg-config --cflags --libs puntclover) -o smallest
 */
#include <puntclover.h>
#include <stdio.h>
#include <stdlib.h>

static uint8_t table[PUNTCLOVER_HUB_TABLE_BYTES];
static uint8_t out[PUNTCLOVER_HUB_ROOM];

/* Ends the program where a call is refused. */
static uint32_t checked(uint32_t answer)
{
    if (puntclover_refused(answer)) {
        fprintf(stderr, "refused with %u: %s\n", (unsigned)answer, puntclover_refusal_words(answer));
        exit(1);
    }
    return answer;
}

int main(void)
{
    uint32_t answer, successors;

    checked(puntclover_hub_fresh(2, 0, table, sizeof table));
    answer = checked(puntclover_hub_up(table, sizeof table, 1, 5, out, sizeof out));
    PUNTCLOVER_FOR_EACH_OUTGOING(it, out, answer) {
        printf("to hub %u:", (unsigned)it.to);
        for (size_t place = 0; place < it.bytes; place++)
            printf(" %02x", it.message[place]);
        printf("\n");
    }
    successors = puntclover_value(checked(puntclover_hub_successors(table, sizeof table, 1)));
    printf("frames for hub 1 go to hub 1: %s\n", successors >> 1 & 1 ? "yes" : "no");
    return 0;
}
