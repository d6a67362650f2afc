/* One request is one tap on the card file, which is free between requests: `tap` may use the card meanwhile. */
#include "held.h"

#include <stdio.h>
#include <string.h>

#include "card.h"

/* ISO 7816-4's word for a card that cannot say what is wrong. The card itself never answers it: it stands where there was no tap. */
static const uint8_t no_tap[] = {0x6F, 0x00};

/* Less than the ten seconds of `tap`: a client waits for the answer, and gives up sooner than a person does. */
#define LOCK_SECONDS 2

static complaint about(const held_card *card, complaint wrong)
{
    return wrong ? complain("%s: %s", card->path, wrong) : NULL;
}

complaint held_look(const held_card *card)
{
    static uint8_t image[PRACTICE_IMAGE_ROOM];
    store_patience = LOCK_SECONDS;
    return about(card, card_read(card->path, image));
}

static complaint tap_once(held_card *card, const uint8_t *request, size_t length, exchange *tap)
{
    uint8_t draw[PRACTICE_DRAW];
    complaint wrong = seed_draw(card->keys, ++card->taps, draw);
    return about(card, wrong ? wrong : card_tap(card->path, card->keys, request, length, draw, tap));
}

size_t held_answer(held_card *card, const uint8_t *request, size_t length, uint8_t response[PRACTICE_ROOM])
{
    static exchange tap;
    complaint wrong = tap_once(card, request, length, &tap);
    if (wrong) {
        fprintf(stderr, "reader: %s\n", wrong);
        memcpy(response, no_tap, sizeof no_tap);
        return sizeof no_tap;
    }
    memcpy(response, tap.response, tap.response_len);
    return tap.response_len;
}

void held_power_off(const held_card *card)
{
    complaint wrong = about(card, card_power_off(card->path));
    if (wrong)
        fprintf(stderr, "reader: %s\n", wrong);
}
