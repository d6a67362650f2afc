/* The steps of a tap on a card file. */
#include "card.h"

#include <string.h>
#include <unistd.h>

#include "bound.h"
#include "image.h"

complaint card_read(const char *path, uint8_t image[PRACTICE_IMAGE_ROOM])
{
    size_t length;
    complaint wrong = store_read_plain(path, image, PRACTICE_IMAGE_ROOM, &length);
    return wrong ? wrong : image_is_card(image, length);
}

/* A seed that stands there already is that of a card which is gone. */
complaint card_create(const char *path, const uint8_t *image, seed keys)
{
    store file;
    complaint wrong = store_open_new(&file, path);
    if (wrong)
        return wrong;
    bound_remove(&file);
    if (keys.draws)
        wrong = bound_write(&file, keys);
    if (!wrong)
        wrong = store_replace(&file, image, practice_image_length());
    if (wrong && access(path, F_OK) != 0)
        bound_remove(&file);
    store_close(&file);
    return wrong;
}

/* ---- a tap in steps ---- */

static complaint is_card(const char *path)
{
    uint8_t image[PRACTICE_IMAGE_ROOM];
    return card_read(path, image);
}

complaint card_open(card *c, const char *path)
{
    complaint wrong = store_open(&c->file, path, is_card);
    if (wrong)
        return wrong;
    c->keyed = c->bound = 0;
    if ((wrong = card_read(c->file.path, c->image)))
        store_close(&c->file);
    return wrong;
}

void card_close(card *c)
{
    store_close(&c->file);
}

complaint card_use_keys(card *c, seed keys)
{
    complaint wrong = bound_fits(c->file.path, c->image, keys);
    c->keyed |= !wrong;
    return wrong;
}

complaint card_answer(card *c, seed keys, const uint8_t *request, size_t length, const uint8_t draw[PRACTICE_DRAW], exchange *tap)
{
    complaint wrong = exchange_ask(c->image, request, length, draw, tap);
    if (!wrong && tap->questions_len > 0)
        wrong = card_use_keys(c, keys);
    return wrong ? wrong : exchange_settle(c->image, request, length, draw, keys, tap);
}

void card_unbind(card *c)
{
    if (c->bound)
        bound_remove(&c->file);
    c->bound = 0;
}

complaint card_bind(card *c, seed keys)
{
    if (!c->keyed || bound_is(&c->file))
        return NULL;
    c->bound = 1;
    complaint wrong = bound_write(&c->file, keys);
    if (wrong)
        card_unbind(c);
    return wrong;
}

complaint card_keep(card *c, const exchange *tap)
{
    size_t length = practice_image_length();
    complaint wrong = memcmp(tap->next, c->image, length) != 0 ? store_replace(&c->file, tap->next, length) : NULL;
    if (!wrong)
        memcpy(c->image, tap->next, length);
    return wrong;
}

int card_holds(const card *c, const uint8_t *image)
{
    uint8_t now[PRACTICE_IMAGE_ROOM];
    return !card_read(c->file.path, now) && memcmp(now, image, practice_image_length()) == 0;
}

/* The seed goes first: a kill between the two leaves a card that knows the seed of a tap that was not made. The other way round it
 * would hold what was made under a seed that it does not know. */
complaint card_tap(const char *path, seed keys, const uint8_t *request, size_t length, const uint8_t draw[PRACTICE_DRAW],
                   exchange *tap)
{
    card c;
    complaint wrong = card_open(&c, path);
    if (wrong)
        return wrong;
    wrong = card_answer(&c, keys, request, length, draw, tap);
    if (!wrong)
        wrong = card_bind(&c, keys);
    if (!wrong && (wrong = card_keep(&c, tap)) && !card_holds(&c, tap->next))
        card_unbind(&c);
    card_close(&c);
    return wrong;
}

complaint card_power_off(const char *path)
{
    static exchange off;
    card c;
    complaint wrong = card_open(&c, path);
    if (wrong)
        return wrong;
    wrong = exchange_power_off(c.image, &off);
    if (!wrong)
        wrong = card_keep(&c, &off);
    card_close(&c);
    return wrong;
}
