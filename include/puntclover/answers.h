/*
 * Puntclover: what all calls share. What they ask of the caller, and what an answer means.
 *
 * Slices. A slice is a pointer and, as the next argument, its length in bytes. No pointer is NULL, not even with a length of
 * 0. The slices that are lent to one call don't overlap, not by one byte. They need no alignment.
 *
 * Tables. A table is bytes that the caller owns and lends to each call, 4 for each number, high byte first; docs/TABLES.md
 * has the order, which no caller needs to know. One call at a time on the same tables: a second one, from a thread or an
 * interrupt, waits until the first has returned. Calls on other tables may run at the same time.
 *
 * Nothing else is kept. Nothing is allocated, nothing stands in static memory, no state of a thread or of an interrupt is
 * read or set, and no pointer is kept after a call has returned. Every call returns, whatever the bytes.
 *
 * Answers. Below PUNTCLOVER_ANSWERED (100) the call is refused, with the lowest number that applies, and then nothing has
 * changed: no table, no buffer. PUNTCLOVER_UNREACHABLE says that a destination is unreachable; only questions for a distance
 * or a feasible distance answer so. Every other answer is 100 plus a value. Figures of a meter are 64 bits wide: meter.h has the
 * tests for them.
 */
#ifndef PUNTCLOVER_ANSWERS_H
#define PUNTCLOVER_ANSWERS_H

#include <stdint.h>

#ifdef __cplusplus
extern "C" {
#endif

/* The most units of a network; they are numbered from 0. The fewest are 2. */
#define PUNTCLOVER_UNITS 16u

/* The highest cost of a link; the lowest is 1. */
#define PUNTCLOVER_HIGHEST_COST 65535u

/* An accepted call answers this plus a value. */
#define PUNTCLOVER_ANSWERED 100u

/* A distance that is above all numbers. */
#define PUNTCLOVER_UNREACHABLE UINT32_MAX

/* Why a call is refused. */
enum puntclover_refusal {
    PUNTCLOVER_REFUSED_COUNT = 1,            /* unit count not 2 to 16 */
    PUNTCLOVER_REFUSED_TABLES = 2,           /* tables unfit, or a table not of its fixed length */
    PUNTCLOVER_REFUSED_UNIT = 3,             /* a unit number not below the count, or two equal ends */
    PUNTCLOVER_REFUSED_COST = 4,             /* cost not 1 to 65,535 */
    PUNTCLOVER_REFUSED_ALREADY_UP = 5,       /* link up asked, already up */
    PUNTCLOVER_REFUSED_NOT_UP = 6,           /* cost, down, delivery or message for a link not up */
    PUNTCLOVER_REFUSED_ROOM = 7,             /* buffer too short, or an offset past the end */
    PUNTCLOVER_REFUSED_EMPTY_QUEUE = 8,      /* delivery from an empty queue */
    PUNTCLOVER_REFUSED_LAYOUT = 9,           /* message against the layout, or not from the neighbour it came by */
    PUNTCLOVER_REFUSED_NOT_AWAITED = 10,     /* an acknowledgment that isn't awaited */
    PUNTCLOVER_REFUSED_CHANGES_NOTHING = 11, /* an entry that changes nothing in the copy */
    PUNTCLOVER_REFUSED_NOT_A_TREE = 12,      /* the changed copy isn't a tree rooted at the sender */
    PUNTCLOVER_REFUSED_QUEUE_FULL = 13,      /* some queue would pass 4 messages */
    PUNTCLOVER_REFUSED_NO_PLACE = 14,        /* no free place: 64 frames are held */
    PUNTCLOVER_REFUSED_ENTERED = 15,         /* entered bytes would pass 10^15 */
    PUNTCLOVER_REFUSED_FRAME = 16            /* size not 1 to 65,535, a frame that isn't held, or no present successor */
};

/* Whether the call was refused. */
static inline int puntclover_refused(uint32_t answer)
{
    return answer < PUNTCLOVER_ANSWERED;
}

/* Whether the call was accepted; unreachable is an accepted answer. */
static inline int puntclover_accepted(uint32_t answer)
{
    return !puntclover_refused(answer);
}

/*
 * The value of an accepted answer; PUNTCLOVER_UNREACHABLE stays what it is. A refusal has none: 0 stands for it, so that no
 * bytes are sent and no successor is taken. Whoever asks for a distance tests for a refusal first.
 */
static inline uint32_t puntclover_value(uint32_t answer)
{
    if (answer == PUNTCLOVER_UNREACHABLE)
        return answer;
    return puntclover_accepted(answer) ? answer - PUNTCLOVER_ANSWERED : 0;
}

/* A refusal in words, for logs. */
static inline const char *puntclover_refusal_words(uint32_t answer)
{
    static const char *const words[] = {
        "no such refusal",
        "unit count not 2 to 16",
        "tables unfit, or a table not of its fixed length",
        "a unit number not below the count, or two equal ends",
        "cost not 1 to 65,535",
        "link up asked, already up",
        "cost, down, delivery or message for a link not up",
        "buffer too short, or an offset past the end",
        "delivery from an empty queue",
        "message against the layout, or not from the neighbour it came by",
        "an acknowledgment that isn't awaited",
        "an entry that changes nothing in the copy",
        "the changed copy isn't a tree rooted at the sender",
        "some queue would pass 4 messages",
        "no free place: 64 frames are held",
        "entered bytes would pass 10^15",
        "size not 1 to 65,535, a frame that isn't held, or no present successor"
    };

    if (puntclover_accepted(answer))
        return "not refused";
    return words[answer < sizeof words / sizeof words[0] ? answer : 0];
}

#ifdef __cplusplus
}
#endif

#endif
