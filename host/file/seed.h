/* The seed that a card's keys come from, and its draws where the user gave one. */
#ifndef SEED_H
#define SEED_H

#include <stddef.h>
#include <stdint.h>

#include "complaint.h"
#include "practice.h"

/* The seed of the keys where none is given. */
#define SEED_PRACTICE "practice"

typedef struct {
    const uint8_t *bytes;
    size_t length;
    int draws; /* whether draws come from it as well, so that a lesson can be made again: where a user gave it */
} seed;

/* The seed that a user gave, or the practice seed where text is NULL. */
seed seed_of(const char *text);

/* The seed's fingerprint, as docs/KEYS.md makes it: capital hex and a NUL. */
#define SEED_FINGERPRINT 64
complaint seed_fingerprint(seed of, char text[SEED_FINGERPRINT + 1]);

/* The draw of a tap, numbered from 1: the seed's own, or by chance. */
complaint seed_draw(seed from, uint32_t tap, uint8_t draw[PRACTICE_DRAW]);

#endif
