/*
 * Puntclover: a message's bytes, read and written, for radio tools. A hub's firmware needs no more of this than the length of
 * a message. What every call asks of its caller, and what an answer means, stands in answers.h.
 *
 * Byte 0: edition 1. Byte 1: sender. Byte 2: kind. Byte 3: number of entries. Then that many changed units, rising. Then for
 * each its head and its cost, high byte first; 255, 0, 0 for an entry that is removed.
 *
 * A change is the four bytes that a message has for an entry: unit, head, cost high, cost low.
 */
#ifndef PUNTCLOVER_MESSAGE_H
#define PUNTCLOVER_MESSAGE_H

#include <stddef.h>
#include <stdint.h>

#include "answers.h"

#ifdef __cplusplus
extern "C" {
#endif

/* The bytes of the longest message. */
#define PUNTCLOVER_MESSAGE_MOST 64u

/* The bytes of a change. */
#define PUNTCLOVER_CHANGE_BYTES 4u

/* The bytes that the fields of a message take: kind, sender, number of entries and 15 changes, 4 bytes each. */
#define PUNTCLOVER_FIELDS_BYTES 72u

/* The head of an entry that is removed. */
#define PUNTCLOVER_REMOVED 255u

/* The kinds of messages. */
enum puntclover_kind {
    PUNTCLOVER_ACKNOWLEDGMENT = 1,
    PUNTCLOVER_UPDATE = 2,
    PUNTCLOVER_ACKNOWLEDGMENT_AND_UPDATE = 3
};

/*
 * Reads exactly one message of a network of `count` units, and lays its fields into the first PUNTCLOVER_FIELDS_BYTES bytes
 * of `fields`: the numbers kind, sender and number of entries, high byte first, then the changes, zeros for those that there
 * are not. The bytes after them stay. Answers 100 plus the number of entries. Refused with 1; 7 for a shorter `fields`; 9.
 */
uint32_t puntclover_message_read(uint32_t count, const uint8_t *bytes, size_t bytes_len, uint8_t *fields, size_t fields_len);

/*
 * Lays a message into `frame` from `offset` on; the bytes before and after it stay. `changes` holds 4 bytes for each entry,
 * so as many entries as it has whole fours. Answers 100 plus the message's length. Refused with 1; 7 when fewer than 4 bytes
 * and 4 for each entry are left from `offset` on; 9 for what the reader would refuse, and for a `changes_len` that is no
 * multiple of 4.
 */
uint32_t puntclover_message_write(uint32_t count, uint32_t kind, uint32_t sender, const uint8_t *changes, size_t changes_len,
                                  uint8_t *frame, size_t frame_len, size_t offset);

/* The length of the message that begins here, of which at least 4 bytes are there: 4, and 4 for each entry. */
static inline size_t puntclover_message_bytes(const uint8_t *message)
{
    return 4u + 4u * (size_t)message[3];
}

/* The number at a place of `fields` or of a table: its four bytes, high byte first. */
static inline uint32_t puntclover_number_at(const uint8_t *bytes, size_t place)
{
    const uint8_t *number = bytes + 4u * place;

    return (uint32_t)number[0] << 24 | (uint32_t)number[1] << 16 | (uint32_t)number[2] << 8 | (uint32_t)number[3];
}

#ifdef __cplusplus
}
#endif

#endif
