/*
 * Checks what stands in the headers themselves, as C and as C++: the tests of answers, the walk over outgoing messages, the
 * numbers in fields, what became of a frame; and calls every function that they declare, on the life of two hubs that
 * docs/FIRMWARE.md tells.
 *
 * Build: gcc -std=c99 -Iinclude compare/headers/check.c target/libpuntclover.a; with g++, -std=c++11 -x c++ before the source
 * and -x none after it. Ends with status 1 and the line of each check that fails.
 */
#include <stdio.h>
#include <string.h>

#include "puntclover.h"

#define CHECK(condition) check((condition), __LINE__, #condition)

/* The slices that most calls are lent, each with its length. */
#define TABLE table, sizeof table
#define OUT out, sizeof out
#define TABLES units, sizeof units, queues, sizeof queues
#define METERED TABLES, meter, sizeof meter

static int failed;

static void check(int condition, int line, const char *words)
{
    if (!condition) {
        printf("compare/headers/check.c:%d: %s\n", line, words);
        failed = 1;
    }
}

static void answers(void)
{
    uint32_t number;

    for (number = 0; number < 100; number++)
        CHECK(puntclover_refused(number) && !puntclover_accepted(number) && puntclover_value(number) == 0);
    CHECK(puntclover_accepted(100) && !puntclover_refused(100) && puntclover_value(100) == 0);
    CHECK(puntclover_value(101) == 1 && puntclover_value(1075) == 975 && puntclover_value(983125) == 983025);
    CHECK(puntclover_accepted(PUNTCLOVER_UNREACHABLE));
    CHECK(puntclover_value(PUNTCLOVER_UNREACHABLE) == PUNTCLOVER_UNREACHABLE);
    CHECK(strcmp(puntclover_refusal_words(PUNTCLOVER_REFUSED_COUNT), "unit count not 2 to 16") == 0);
    CHECK(strcmp(puntclover_refusal_words(PUNTCLOVER_REFUSED_QUEUE_FULL), "some queue would pass 4 messages") == 0);
    CHECK(strcmp(puntclover_refusal_words(0), "no such refusal") == 0);
    CHECK(strcmp(puntclover_refusal_words(PUNTCLOVER_REFUSED_ENTERED), "entered bytes would pass 10^15") == 0);
    CHECK(strcmp(puntclover_refusal_words(17), "no such refusal") == 0);
    CHECK(strcmp(puntclover_refusal_words(99), "no such refusal") == 0);
    CHECK(strcmp(puntclover_refusal_words(100), "not refused") == 0);
    CHECK(strcmp(puntclover_refusal_words(PUNTCLOVER_UNREACHABLE), "not refused") == 0);
}

/* The messages that a walk meets, and the sum of the neighbours and the bytes. */
static int walked(const uint8_t *out, uint32_t answer, uint32_t *to, size_t *bytes)
{
    int met = 0;

    *to = 0;
    *bytes = 0;
    PUNTCLOVER_FOR_EACH_OUTGOING(it, out, answer) {
        met++;
        *to += it.to;
        *bytes += it.bytes;
        CHECK(it.message[0] == 1 && it.left <= 14);
    }
    return met;
}

/* A message of 4 bytes to neighbour 1, one of 8 to neighbour 3. */
static void outgoing(void)
{
    static const uint8_t out[14] = {1, 1, 0, 1, 0, 3, 1, 0, 2, 1, 1, 0, 0, 5};
    uint32_t to, answer;
    size_t bytes;

    CHECK(walked(out, 114, &to, &bytes) == 2 && to == 4 && bytes == 12);
    CHECK(walked(out, 105, &to, &bytes) == 1 && to == 1 && bytes == 4);
    CHECK(walked(out, 100, &to, &bytes) == 0);
    for (answer = 0; answer < 100; answer++)
        CHECK(walked(out, answer, &to, &bytes) == 0);
    /* An answer of another event: a message that isn't there whole is none. */
    CHECK(walked(out, 113, &to, &bytes) == 1 && walked(out, 104, &to, &bytes) == 0);
}

static void messages(void)
{
    static const uint8_t message[8] = {1, 0, 2, 1, 1, 0, 0, 5}, numbers[8] = {9, 9, 9, 9, 0xf1, 2, 3, 4};
    uint8_t fields[PUNTCLOVER_FIELDS_BYTES + 1], frame[10];

    memset(fields, 170, sizeof fields);
    CHECK(puntclover_message_bytes(message) == sizeof message && puntclover_number_at(numbers, 1) == 0xf1020304);
    CHECK(puntclover_message_read(2, message, sizeof message, fields, PUNTCLOVER_FIELDS_BYTES - 1) == 7);
    CHECK(fields[0] == 170);
    CHECK(puntclover_message_read(2, message, sizeof message, fields, sizeof fields) == 101);
    CHECK(puntclover_number_at(fields, 0) == PUNTCLOVER_UPDATE && puntclover_number_at(fields, 1) == 0);
    CHECK(puntclover_number_at(fields, 2) == 1 && puntclover_number_at(fields, 3) == 0x01000005);
    CHECK(puntclover_number_at(fields, 17) == 0 && fields[PUNTCLOVER_FIELDS_BYTES] == 170);
    memset(frame, 170, sizeof frame);
    CHECK(puntclover_message_write(2, 2, 0, fields + 12, 4, frame, sizeof frame, 1) == 108);
    CHECK(memcmp(frame + 1, message, sizeof message) == 0 && frame[0] == 170 && frame[9] == 170);
    CHECK(puntclover_message_write(2, 2, 0, fields + 12, 7, frame, sizeof frame, 1) == PUNTCLOVER_REFUSED_LAYOUT);
    CHECK(puntclover_message_write(2, 2, 0, fields + 12, 8, frame, sizeof frame, 1) == PUNTCLOVER_REFUSED_ROOM);
}

static void hub(void)
{
    static const uint8_t from_1[8] = {1, 1, 2, 1, 0, 1, 0, 7}, seen_by_1[4] = {1, 1, 1, 0};
    static const uint8_t first[9] = {1, 1, 0, 2, 1, 1, 0, 0, 5}, seen[5] = {1, 1, 0, 1, 0};
    uint8_t table[PUNTCLOVER_HUB_TABLE_BYTES], fresh[PUNTCLOVER_HUB_TABLE_BYTES], out[PUNTCLOVER_HUB_ROOM];

    CHECK(puntclover_hub_fresh(2, 0, TABLE) == 100);
    memcpy(fresh, table, sizeof table);
    CHECK(puntclover_hub_link(TABLE, 1) == 100 && puntclover_hub_distance(TABLE, 1) == PUNTCLOVER_UNREACHABLE);
    CHECK(puntclover_hub_up(TABLE, 1, 5, OUT) == 109 && memcmp(out, first, 9) == 0);
    CHECK(puntclover_hub_state(TABLE) == 101 && puntclover_hub_awaits(TABLE, 1) == 101);
    CHECK(puntclover_hub_distance(TABLE, 1) == 105 && puntclover_hub_feasible(TABLE, 1) == 105);
    CHECK(puntclover_hub_successors(TABLE, 1) == 102 && puntclover_hub_link(TABLE, 1) == 105);
    CHECK(puntclover_hub_message(TABLE, 1, from_1, 8, OUT) == 105 && memcmp(out, seen, 5) == 0);
    CHECK(puntclover_hub_message(TABLE, 1, seen_by_1, 4, OUT) == 100);
    CHECK(puntclover_hub_state(TABLE) == 100 && puntclover_hub_awaits(TABLE, 1) == 100);
    CHECK(puntclover_hub_message(TABLE, 1, seen_by_1, 4, OUT) == PUNTCLOVER_REFUSED_NOT_AWAITED);
    CHECK(puntclover_hub_cost(TABLE, 1, 9, OUT) == 109);
    CHECK(puntclover_hub_distance(TABLE, 1) == 109 && puntclover_hub_feasible(TABLE, 1) == 105);
    CHECK(puntclover_hub_cost(TABLE, 1, 9, out, sizeof out - 1) == PUNTCLOVER_REFUSED_ROOM);
    CHECK(puntclover_hub_down(TABLE, 1, OUT) == 100 && memcmp(table, fresh, sizeof table) == 0);
}

static void network(void)
{
    static uint8_t units[PUNTCLOVER_NETWORK_UNITS_BYTES], queues[PUNTCLOVER_NETWORK_QUEUES_BYTES];
    static const uint8_t choices[1] = {0};
    uint8_t path[2] = {170, 170};

    CHECK(puntclover_network_fresh(2, units, sizeof units - 1, queues, sizeof queues) == PUNTCLOVER_REFUSED_TABLES);
    CHECK(puntclover_network_fresh(2, TABLES) == 100);
    CHECK(puntclover_network_up(TABLES, 0, 1, 5, 7) == 100);
    CHECK(puntclover_network_state(TABLES, 1) == 101);
    CHECK(puntclover_network_distance(TABLES, 1, 0) == 107);
    CHECK(puntclover_network_feasible(TABLES, 1, 0) == 107);
    CHECK(puntclover_network_successors(TABLES, 1, 0) == 101);
    CHECK(puntclover_network_link(TABLES, 1, 0) == 107);
    CHECK(puntclover_network_awaits(TABLES, 1, 0) == 101);
    CHECK(puntclover_network_awaits(TABLES, 1, 1) == 100);
    CHECK(puntclover_network_deliver(TABLES, 0, 1) == 100);
    CHECK(puntclover_network_deliver(TABLES, 0, 1) == PUNTCLOVER_REFUSED_EMPTY_QUEUE);
    CHECK(puntclover_network_cost(TABLES, 0, 1, 9) == 100);
    CHECK(puntclover_network_trace(TABLES, 0, 1, choices, 1, path, 2) == 101 && path[1] == 1);
    CHECK(puntclover_network_down(TABLES, 0, 1) == 100);
    CHECK(puntclover_network_trace(TABLES, 0, 1, choices, 1, path, 2) == PUNTCLOVER_STRANDED);
}

static void fates(void)
{
    CHECK(puntclover_meter_fate(100) == PUNTCLOVER_METER_HELD && puntclover_meter_place(100) == 0);
    CHECK(puntclover_meter_fate(163) == PUNTCLOVER_METER_HELD && puntclover_meter_place(163) == 63);
    CHECK(puntclover_meter_fate(200) == PUNTCLOVER_METER_DELIVERED);
    CHECK(puntclover_meter_place(200) == PUNTCLOVER_METER_FRAMES);
    CHECK(puntclover_meter_fate(300) == PUNTCLOVER_METER_DROPPED);
    CHECK(puntclover_meter_fate(16) == 0 && puntclover_meter_place(16) == PUNTCLOVER_METER_FRAMES);
    CHECK(puntclover_figure_refused(99) && puntclover_figure(99) == 0);
    /* A figure whose low 32 bits look like a refusal. */
    CHECK(!puntclover_figure_refused(UINT64_C(0x100000002)) && puntclover_figure(UINT64_C(0x100000002)) == 0xffffff9e);
    CHECK(puntclover_figure(100 + PUNTCLOVER_METER_MOST) == PUNTCLOVER_METER_MOST);
}

/* Two units: one frame is delivered at once, one is delivered, one is dropped, one stays. */
static void metered(void)
{
    static uint8_t units[PUNTCLOVER_NETWORK_UNITS_BYTES], queues[PUNTCLOVER_NETWORK_QUEUES_BYTES];
    uint8_t meter[PUNTCLOVER_METER_BYTES], full[PUNTCLOVER_METER_BYTES];
    uint32_t place;

    CHECK(puntclover_network_fresh(2, TABLES) == 100);
    CHECK(puntclover_network_up(TABLES, 0, 1, 5, 7) == 100);
    CHECK(puntclover_meter_fresh(meter, sizeof meter - 1) == PUNTCLOVER_REFUSED_TABLES);
    CHECK(puntclover_meter_fresh(meter, sizeof meter) == 100);
    CHECK(puntclover_meter_enter(METERED, 7, 1, 1) == PUNTCLOVER_METER_DELIVERED);
    CHECK(puntclover_meter_enter(METERED, PUNTCLOVER_METER_LARGEST, 0, 1) == PUNTCLOVER_METER_HELD);
    CHECK(puntclover_meter_enter(METERED, 20, 1, 0) == 101 && puntclover_meter_enter(METERED, 3, 1, 0) == 102);
    CHECK(puntclover_meter_frame_size(METERED, 0) == 65635 && puntclover_meter_frame_unit(METERED, 0) == 100);
    CHECK(puntclover_meter_frame_destination(METERED, 0) == 101 && puntclover_meter_frame_hops(METERED, 0) == 100);
    CHECK(puntclover_meter_frames(METERED) == 103);
    CHECK(puntclover_meter_move(METERED, 0, 0) == PUNTCLOVER_REFUSED_FRAME);
    CHECK(puntclover_meter_move(METERED, 0, 2) == PUNTCLOVER_REFUSED_UNIT);
    CHECK(puntclover_meter_move(METERED, 0, 1) == PUNTCLOVER_METER_DELIVERED);
    CHECK(puntclover_meter_drop(METERED, 1) == PUNTCLOVER_METER_DROPPED);
    CHECK(puntclover_meter_drop(METERED, 1) == PUNTCLOVER_REFUSED_FRAME);
    CHECK(puntclover_meter_frame_hops(METERED, PUNTCLOVER_METER_FRAMES) == PUNTCLOVER_REFUSED_FRAME);
    CHECK(puntclover_figure(puntclover_meter_entered(METERED)) == 65565);
    CHECK(puntclover_figure(puntclover_meter_delivered(METERED)) == 65542);
    CHECK(puntclover_figure(puntclover_meter_dropped(METERED)) == 20);
    CHECK(puntclover_figure(puntclover_meter_held(METERED)) == 3 && puntclover_meter_frames(METERED) == 101);
    for (place = 0; place < PUNTCLOVER_METER_FRAMES; place++)
        if (place != 2)
            CHECK(puntclover_meter_place(puntclover_meter_enter(METERED, 1, 0, 1)) == place);
    memcpy(full, meter, sizeof meter);
    CHECK(puntclover_meter_enter(METERED, 1, 1, 1) == PUNTCLOVER_REFUSED_NO_PLACE && memcmp(full, meter, sizeof meter) == 0);
    meter[7] ^= 1;
    CHECK(puntclover_meter_entered(METERED) == PUNTCLOVER_REFUSED_TABLES);
}

static void traces(void)
{
    CHECK(puntclover_trace_ending(101) == PUNTCLOVER_ARRIVED && puntclover_trace_hops(101) == 1);
    CHECK(puntclover_trace_ending(215) == PUNTCLOVER_STRANDED && puntclover_trace_hops(215) == 15);
    CHECK(puntclover_trace_ending(302) == PUNTCLOVER_CIRCLING && puntclover_trace_hops(302) == 2);
    CHECK(puntclover_trace_ending(PUNTCLOVER_REFUSED_ROOM) == 0 && puntclover_trace_hops(PUNTCLOVER_REFUSED_ROOM) == 0);
}

int main(void)
{
    CHECK(strcmp(PUNTCLOVER_VERSION, "") != 0 && PUNTCLOVER_UNITS == 16);
    answers();
    outgoing();
    messages();
    hub();
    network();
    traces();
    fates();
    metered();
    return failed;
}
