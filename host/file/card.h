/* A card in its file: locked, looked at, tapped, replaced.
 *
 * card_tap is all of it for a request that is there already. Where the request is made from the card, or something has to be written
 * before the card moves on, the steps are called one by one. No complaint here names the file: the caller knows how its user calls it. */
#ifndef CARD_H
#define CARD_H

#include <stddef.h>
#include <stdint.h>

#include "complaint.h"
#include "exchange.h"
#include "practice.h"
#include "seed.h"
#include "store.h"

typedef struct {
    store file;
    uint8_t image[PRACTICE_IMAGE_ROOM]; /* practice_image_length() bytes of it */
    int keyed; /* whether the tap under way uses the seed's keys, so that the card has to be bound to the seed */
    int bound; /* whether it was for this tap */
} card;

/* The image of a card file, or a complaint where it is no card. It needs no lock: the file is one whole card at every moment. */
complaint card_read(const char *path, uint8_t image[PRACTICE_IMAGE_ROOM]);

/* A card file where there was none. It is bound to the seed at once where the user gave one. */
complaint card_create(const char *path, const uint8_t *image, seed keys);

/* One tap: the response in tap->response, and the card after it stored. After a complaint the card is as it was. */
complaint card_tap(const char *path, seed keys, const uint8_t *request, size_t length, const uint8_t draw[PRACTICE_DRAW],
                   exchange *tap);

/* The card loses its power: what it holds is forgotten, and it is stored so. */
complaint card_power_off(const char *path);

/* ---- the same in steps ---- */

/* Takes the lock and reads the card. After a complaint nothing is held. */
complaint card_open(card *c, const char *path);
void card_close(card *c);

/* Before the seed's keys are used in any way: a complaint where the card was made under another seed (bound.h). */
complaint card_use_keys(card *c, seed keys);

/* The tap in memory: the file is as it was. */
complaint card_answer(card *c, seed keys, const uint8_t *request, size_t length, const uint8_t draw[PRACTICE_DRAW], exchange *tap);

/* Binds the card to the seed where its keys were used and it is not bound yet; card_unbind takes that back where the tap comes to
 * nothing after all. */
complaint card_bind(card *c, seed keys);
void card_unbind(card *c);

/* Puts the card after the tap in the place of the one before, whatever the status word: a refusal may have changed it too. A tap that
 * changed nothing leaves the file alone. */
complaint card_keep(card *c, const exchange *tap);

/* Whether the file holds this image now: after card_keep has complained, whether that came too late to undo the tap. */
int card_holds(const card *c, const uint8_t *image);

#endif
