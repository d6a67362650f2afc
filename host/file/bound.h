/* Which seed a card file belongs to. Its fingerprint (docs/KEYS.md) stands in CARD.seed beside the card, from the first tap on in which
 * a key of the seed was used: the card file itself is exactly the image. */
#ifndef BOUND_H
#define BOUND_H

#include <stdint.h>

#include "complaint.h"
#include "seed.h"
#include "store.h"

/* A complaint where the card was made under another seed: by CARD.seed, or where that is missing by the key of its wallet. */
complaint bound_fits(const char *path, const uint8_t *image, seed keys);

/* CARD.seed of a locked card: whether it is there, written, removed. */
int bound_is(const store *card);
complaint bound_write(const store *card, seed keys);
void bound_remove(const store *card);

#endif
