/* The card that a client talks to: its file, and what a request gets. Every way to reach the card comes through here. */
#ifndef READER_HELD_H
#define READER_HELD_H

#include <stddef.h>
#include <stdint.h>

#include "complaint.h"
#include "practice.h"
#include "seed.h"

typedef struct {
    const char *path;
    seed keys;
    uint32_t taps;
} held_card;

/* NULL where the file is a card. */
complaint held_look(const held_card *card);

/* One tap. Returns the length of the response, which is 6F00 where there was no tap; the reason then stands on standard error. */
size_t held_answer(held_card *card, const uint8_t *request, size_t length, uint8_t response[PRACTICE_ROOM]);

/* The card has no power now. Where that cannot be stored the reason stands on standard error. */
void held_power_off(const held_card *card);

#endif
