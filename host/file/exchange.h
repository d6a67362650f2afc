/* One tap in memory: ask, answer, settle; and a power-off. */
#ifndef EXCHANGE_H
#define EXCHANGE_H

#include <stddef.h>
#include <stdint.h>

#include "complaint.h"
#include "practice.h"
#include "provider.h"
#include "seed.h"

typedef struct {
    uint8_t questions[PRACTICE_ROOM];
    size_t questions_len;
    uint8_t answers[PROVIDER_ROOM];
    size_t answers_len;
    uint8_t response[PRACTICE_ROOM];
    size_t response_len;
    uint16_t word;  /* the status word */
    uint8_t reason; /* the check that refused, 0 where none did */
    uint8_t next[PRACTICE_IMAGE_ROOM]; /* practice_image_length() bytes of it are the card after the tap */
} exchange;

/* Taps an image, which is a card, with a request under a draw, the provider's keys coming from the seed.
 *
 * A complaint means that there was no tap: the provider could not answer. A refusal by a status word is a response like any other, and
 * so is 9789: either may leave another card. */
complaint exchange_tap(const uint8_t *image, const uint8_t *request, size_t length, const uint8_t draw[PRACTICE_DRAW], seed keys,
                       exchange *tap);

/* The same in two halves, for a caller who wants to know what is asked before it is answered. */
complaint exchange_ask(const uint8_t *image, const uint8_t *request, size_t length, const uint8_t draw[PRACTICE_DRAW], exchange *tap);
complaint exchange_settle(const uint8_t *image, const uint8_t *request, size_t length, const uint8_t draw[PRACTICE_DRAW], seed keys,
                          exchange *tap);

/* The card after its power went off. No tap: what an exchange has beside is empty. */
complaint exchange_power_off(const uint8_t *image, exchange *off);

#endif
