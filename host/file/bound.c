/* CARD.seed: 64 hex digits and a line feed. */
#include "bound.h"

#include <errno.h>
#include <stdlib.h>
#include <string.h>
#include <unistd.h>

#include "image.h"
#include "provider.h"

#define ENDING ".seed"

/* Whether a seed is the card's. */
typedef enum { UNKNOWN, FITS, OTHER } fit;

static complaint fit_of_file(const char *name, seed keys, fit *found)
{
    char own[SEED_FINGERPRINT + 1];
    uint8_t kept[SEED_FINGERPRINT + 2];
    size_t length;
    *found = UNKNOWN;
    if (access(name, F_OK) != 0 && errno == ENOENT)
        return NULL;
    complaint wrong = seed_fingerprint(keys, own);
    if (!wrong && (wrong = store_read_file(name, kept, sizeof kept, &length)))
        wrong = complain("its seed file: %s", wrong);
    if (!wrong && (length != SEED_FINGERPRINT + 1 || kept[SEED_FINGERPRINT] != '\n'))
        wrong = complain("its seed file holds no fingerprint");
    if (!wrong)
        *found = memcmp(kept, own, SEED_FINGERPRINT) == 0 ? FITS : OTHER;
    return wrong;
}

/* A card without CARD.seed, as a copy of one, still tells its seed while it has a wallet. */
static fit fit_of_wallet(const uint8_t *image, seed keys)
{
    uint8_t key[PROVIDER_KEY];
    size_t length;
    image_value held = image_get(image, PRACTICE_VIEW_WALLET_PUBLIC_KEY);
    if (held.length == 0)
        return UNKNOWN;
    provider_result made = provider_public_key(keys.bytes, keys.length, image_get(image, PRACTICE_VIEW_CID).bytes, PROVIDER_WALLET,
                                               (uint16_t)practice_view_number(image, PRACTICE_VIEW_WALLET_NUMBER),
                                               (uint8_t)practice_view_number(image, PRACTICE_VIEW_CURVE), key, &length);
    return made == PROVIDER_DONE && length == held.length && memcmp(key, held.bytes, length) == 0 ? FITS : OTHER;
}

static complaint find_fit(const char *path, const uint8_t *image, seed keys, fit *found)
{
    char *card = realpath(path, NULL), *name = card ? store_beside(card, ENDING) : NULL;
    complaint wrong = name ? fit_of_file(name, keys, found) : complain("cannot be opened: %s", strerror(errno));
    free(name);
    free(card);
    if (!wrong && *found == UNKNOWN)
        *found = fit_of_wallet(image, keys);
    return wrong;
}

complaint bound_fits(const char *path, const uint8_t *image, seed keys)
{
    fit found, by_practice;
    complaint wrong = find_fit(path, image, keys, &found);
    if (wrong || found != OTHER)
        return wrong;
    wrong = find_fit(path, image, seed_of(NULL), &by_practice);
    return wrong ? wrong : complain("was made under another seed; %s", by_practice == FITS ? "leave out --seed" : "give it with --seed");
}

int bound_is(const store *card)
{
    char *name = store_beside(card->path, ENDING);
    int is = name && access(name, F_OK) == 0;
    free(name);
    return is;
}

complaint bound_write(const store *card, seed keys)
{
    char text[SEED_FINGERPRINT + 1];
    complaint wrong = seed_fingerprint(keys, text);
    text[SEED_FINGERPRINT] = '\n';
    return wrong ? wrong : store_replace_beside(card, ENDING, (const uint8_t *)text, sizeof text);
}

void bound_remove(const store *card)
{
    char *name = store_beside(card->path, ENDING);
    if (name)
        unlink(name);
    free(name);
}
