/*
 * Puntclover: a meter over a network's routes. Frames enter, move along successors and are delivered or dropped, and bytes add
 * up: those entered are those delivered, dropped and held, after any calls. What every call asks of its caller, and what an
 * answer means, stands in answers.h; the network's calls in network.h.
 *
 * A meter is one table of PUNTCLOVER_METER_BYTES bytes. puntclover_meter_fresh writes it, and from then on only calls change it.
 * It belongs to one network, whose tables every other call is lent beside it, and only reads. Each call tests all of them first,
 * and is refused with 2 if they are unfit: also where a held frame is at its destination, at a unit that is none or past its
 * hops, or where the bytes don't add up. A call takes at most some 31,000 bytes of stack.
 *
 * A held frame has one of PUNTCLOVER_METER_FRAMES places, whose number names it until it is delivered or dropped. Then the
 * place is free, and a frame that enters takes the lowest free one.
 */
#ifndef PUNTCLOVER_METER_H
#define PUNTCLOVER_METER_H

#include <stddef.h>
#include <stdint.h>

#include "answers.h"

#ifdef __cplusplus
extern "C" {
#endif

/* The bytes of a meter's table. */
#define PUNTCLOVER_METER_BYTES 1048u

/* The most frames that are held; their places are numbered from 0. */
#define PUNTCLOVER_METER_FRAMES 64u

/* The bytes of the largest frame; the smallest has 1. */
#define PUNTCLOVER_METER_LARGEST 65535u

/* The most bytes that may enter, 10^15. */
#define PUNTCLOVER_METER_MOST 1000000000000000u

/* The hop at which a frame that isn't at its destination is dropped. */
#define PUNTCLOVER_METER_LAST_HOP 64u

/* What became of the frame of an accepted call. */
enum puntclover_fate {
    PUNTCLOVER_METER_HELD = 100,      /* it is held; its place is added */
    PUNTCLOVER_METER_DELIVERED = 200, /* it is at its destination, and no longer held */
    PUNTCLOVER_METER_DROPPED = 300    /* it is gone */
};

/* A fresh meter, without a frame: 100. Refused with 2 (the length alone). */
uint32_t puntclover_meter_fresh(uint8_t *meter, size_t meter_len);

/*
 * A frame of `size` bytes enters at `unit`, for `destination`. Entered at its destination it is delivered at once and takes no
 * place. Answers held or delivered. Refused with 2, 3, 14 (also if it would be delivered at once), 15, 16.
 */
uint32_t puntclover_meter_enter(const uint8_t *units, size_t units_len, const uint8_t *queues, size_t queues_len,
                                uint8_t *meter, size_t meter_len, uint32_t size, uint32_t unit, uint32_t destination);

/*
 * A frame moves one hop to `unit`, which puntclover_network_successors now names for its destination. There it is delivered if
 * that is its destination, else dropped if it was its last hop, else held. Refused with 2, 3, 16.
 */
uint32_t puntclover_meter_move(const uint8_t *units, size_t units_len, const uint8_t *queues, size_t queues_len,
                               uint8_t *meter, size_t meter_len, uint32_t frame, uint32_t unit);

/* A frame is dropped where it is: PUNTCLOVER_METER_DROPPED. Refused with 2, 16. */
uint32_t puntclover_meter_drop(const uint8_t *units, size_t units_len, const uint8_t *queues, size_t queues_len,
                               uint8_t *meter, size_t meter_len, uint32_t frame);

/* Figures: 100 plus a number that may pass 32 bits. They change nothing. Refused with 2. */

/* The bytes of all frames that entered: the sum of the next three. */
uint64_t puntclover_meter_entered(const uint8_t *units, size_t units_len, const uint8_t *queues, size_t queues_len,
                                  const uint8_t *meter, size_t meter_len);

/* The bytes of those that reached their destinations. */
uint64_t puntclover_meter_delivered(const uint8_t *units, size_t units_len, const uint8_t *queues, size_t queues_len,
                                    const uint8_t *meter, size_t meter_len);

/* The bytes of those that were dropped. */
uint64_t puntclover_meter_dropped(const uint8_t *units, size_t units_len, const uint8_t *queues, size_t queues_len,
                                  const uint8_t *meter, size_t meter_len);

/* The bytes of those that are held. */
uint64_t puntclover_meter_held(const uint8_t *units, size_t units_len, const uint8_t *queues, size_t queues_len,
                               const uint8_t *meter, size_t meter_len);

/* The number of frames that are held. */
uint64_t puntclover_meter_frames(const uint8_t *units, size_t units_len, const uint8_t *queues, size_t queues_len,
                                 const uint8_t *meter, size_t meter_len);

/* Questions about a held frame: 100 plus a number. They change nothing. Refused with 2, 16. */

/* Its bytes. */
uint32_t puntclover_meter_frame_size(const uint8_t *units, size_t units_len, const uint8_t *queues, size_t queues_len,
                                     const uint8_t *meter, size_t meter_len, uint32_t frame);

/* The unit that it is at. */
uint32_t puntclover_meter_frame_unit(const uint8_t *units, size_t units_len, const uint8_t *queues, size_t queues_len,
                                     const uint8_t *meter, size_t meter_len, uint32_t frame);

/* The unit that it is for. */
uint32_t puntclover_meter_frame_destination(const uint8_t *units, size_t units_len, const uint8_t *queues, size_t queues_len,
                                            const uint8_t *meter, size_t meter_len, uint32_t frame);

/* The hops that it has made. */
uint32_t puntclover_meter_frame_hops(const uint8_t *units, size_t units_len, const uint8_t *queues, size_t queues_len,
                                     const uint8_t *meter, size_t meter_len, uint32_t frame);

/* What became of a frame, an enum puntclover_fate; 0 for a refused call. */
static inline uint32_t puntclover_meter_fate(uint32_t answer)
{
    return answer / 100u * 100u;
}

/* The place of a frame that is held; PUNTCLOVER_METER_FRAMES, which is no place, for any other answer. */
static inline uint32_t puntclover_meter_place(uint32_t answer)
{
    return puntclover_meter_fate(answer) == PUNTCLOVER_METER_HELD ? answer % 100u : PUNTCLOVER_METER_FRAMES;
}

/* Whether a figure was refused. */
static inline int puntclover_figure_refused(uint64_t answer)
{
    return answer < PUNTCLOVER_ANSWERED;
}

/* The value of a figure. A refused one has none: 0 stands for it. */
static inline uint64_t puntclover_figure(uint64_t answer)
{
    return puntclover_figure_refused(answer) ? 0 : answer - PUNTCLOVER_ANSWERED;
}

#ifdef __cplusplus
}
#endif

#endif
