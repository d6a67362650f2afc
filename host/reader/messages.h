/* Messages over a connection: two bytes of length, big-endian, and the bytes. So are vpcd's, and so are ours. */
#ifndef READER_MESSAGES_H
#define READER_MESSAGES_H

#include <stddef.h>
#include <stdint.h>

#include "held.h"

/* From here on Ctrl-C and SIGTERM end waiting and nothing else, so that no tap is cut short. */
void ends_by_signal(void);
int has_ended(void);

/* Whether this can be read or written (or the other side is gone) within so many milliseconds; any number for FOR_EVER. */
#define FOR_EVER -1
int readable_within(int descriptor, int milliseconds);
int writable_within(int descriptor, int milliseconds);

/* What a message gets: the length of its answer, or NO_ANSWER. */
#define NO_ANSWER SIZE_MAX
typedef size_t answering(held_card *card, const uint8_t *message, size_t length, uint8_t answer[PRACTICE_ROOM]);

/* Answers every message until the connection ends, and closes it. The first client that waits at `others` meanwhile, a socket that
 * listens or -1, is told of on standard error. */
void serve(int connection, int others, held_card *card, answering *answer);

#endif
