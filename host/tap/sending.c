/* Each request of a feed: made, sent to the card, kept, shown. */
#include "sending.h"

#include <stdio.h>
#include <string.h>
#include <unistd.h>

#include "card.h"
#include "feed.h"
#include "image.h"
#include "recorder.h"
#include "sheet.h"
#include "showing.h"
#include "store.h"

/* A card that is tapped. */
typedef struct {
    const settings *set;
    const char *path; /* of its file; NULL for a card in memory alone */
    card c;           /* its file is open from card_open to card_close only */
    recorder *to;     /* NULL where nothing is recorded */
    uint32_t taps;    /* made so far: those of the recording, or of this process */
    unsigned shown;   /* by this process */
} desk;

static complaint about(const desk *d, complaint wrong)
{
    return wrong && d->path ? complain("%s: %s", d->path, wrong) : wrong;
}

/* ---- one tap ---- */

/* What the issuer signs is signed by its key while the request is made. */
static complaint make_request(desk *d, size_t count, char *const *words, tap *t)
{
    request_source from = {d->c.image, t->draw, d->set->keys, d->set->pin1, d->set->pin2, d->set->cvc};
    complaint wrong = seed_draw(d->set->keys, d->taps + 1, t->draw);
    if (!wrong && d->path && request_is_issued(words[0]))
        wrong = about(d, card_use_keys(&d->c, d->set->keys));
    t->again = 0;
    t->off = request_is_power_off(words[0]);
    if (t->off && d->to)
        return complain("a recording has no power-off");
    return wrong ? wrong : request_make(&from, count, words, &t->sent);
}

/* The tap in memory: nothing is stored yet. */
static complaint answer(desk *d, tap *t)
{
    const request *sent = &t->sent;
    memcpy(t->before, d->c.image, practice_image_length());
    if (t->off)
        return about(d, exchange_power_off(d->c.image, &t->got));
    complaint wrong = d->path ? card_answer(&d->c, d->set->keys, sent->bytes, sent->length, t->draw, &t->got)
                              : exchange_tap(d->c.image, sent->bytes, sent->length, t->draw, d->set->keys, &t->got);
    if (wrong)
        return about(d, wrong);
    return d->to ? recorder_takes(t, d->taps + 1) : NULL;
}

/* The card moves on. A power-off is no tap, and takes no draw. */
static void move_on(desk *d, const tap *t)
{
    memcpy(d->c.image, t->got.next, practice_image_length());
    d->taps += !t->off;
}

static complaint answer_alone(desk *d, tap *t)
{
    complaint wrong = answer(d, t);
    if (!wrong)
        move_on(d, t);
    return wrong;
}

/* The line before the card: see recorder.h. */
static complaint store_both(desk *d, const tap *t)
{
    complaint wrong = d->to ? recorder_write(d->to, t) : NULL;
    if (wrong || !d->path)
        return wrong;
    wrong = about(d, card_keep(&d->c, &t->got));
    if (wrong && d->to && !card_holds(&d->c, t->got.next))
        recorder_take_back(d->to);
    return wrong;
}

static complaint make_tap(desk *d, tap *t)
{
    complaint wrong = answer(d, t);
    if (!wrong && d->path)
        wrong = about(d, card_bind(&d->c, d->set->keys));
    if (wrong)
        return wrong;
    if ((wrong = store_both(d, t)) && d->path && !card_holds(&d->c, t->got.next))
        card_unbind(&d->c);
    if (!wrong)
        move_on(d, t);
    return wrong;
}

/* ---- one request ---- */

static int goes_again(const desk *d, const tap *t)
{
    return d->set->wait && t->got.word == PRACTICE_SW_NEED_PAUSE;
}

/* Where the user waits for the card: the same bytes again, each time under a draw of its own, until the card goes on. The card is locked
 * meanwhile: another process's request would make it wait anew, and two that wait would do so for ever. */
static complaint send_request(desk *d, size_t count, char *const *words, tap *t, complaint (*send)(desk *, tap *))
{
    complaint wrong = make_request(d, count, words, t);
    if (!wrong)
        wrong = send(d, t);
    while (!wrong && goes_again(d, t)) {
        t->again = 1;
        wrong = seed_draw(d->set->keys, d->taps + 1, t->draw);
        if (!wrong)
            wrong = send(d, t);
    }
    return wrong;
}

/* All but the last of the sendings of a request are shown at once, the last by who let go of the lock. */
static complaint make_and_show(desk *d, tap *t)
{
    complaint wrong = make_tap(d, t);
    if (!wrong && goes_again(d, t))
        show_tap(d->set, !d->shown++, t);
    return wrong;
}

/* ---- the requests of a batch ---- */

/* The lock is held from reading to replacing, and let go before the next request: standard input may take its time. */
static complaint open_card(desk *d)
{
    complaint wrong = d->path ? about(d, card_open(&d->c, d->path)) : NULL;
    if (!wrong && d->path && d->to && (wrong = recorder_is_at(d->to, d->c.image)))
        card_close(&d->c);
    return wrong;
}

static void close_card(desk *d)
{
    if (d->path)
        card_close(&d->c);
}

static complaint answer_all(desk copy, batch all)
{
    static tap t;
    char **words;
    complaint wrong = NULL;
    for (size_t count; !wrong && (count = batch_next(&all, &words)) > 0;)
        wrong = send_request(&copy, count, words, &t, answer_alone);
    return wrong;
}

/* Several taps are first made on a copy of the card: where one of them is wrong, none is made. */
static complaint try_all(desk *d, batch all)
{
    char **words;
    batch rest = all;
    if (batch_next(&rest, &words) == 0 || (batch_next(&rest, &words) == 0 && !d->set->wait))
        return NULL;
    complaint wrong = open_card(d);
    if (!wrong) {
        wrong = answer_all(*d, all);
        close_card(d);
    }
    return wrong;
}

static complaint tap_all(desk *d, batch all)
{
    static tap t;
    char **words;
    complaint wrong = try_all(d, all);
    for (size_t count; !wrong && (count = batch_next(&all, &words)) > 0;) {
        if ((wrong = open_card(d)))
            break;
        wrong = send_request(d, count, words, &t, make_and_show);
        close_card(d);
        if (!wrong)
            show_tap(d->set, !d->shown++, &t);
    }
    return wrong;
}

/* ---- all batches ---- */

static complaint tap_feed(desk *d, size_t count, char **arguments)
{
    static feed from;
    batch next;
    complaint wrong;
    feed_open(&from, count, arguments, stdin);
    if (from.lines && isatty(STDIN_FILENO))
        fputs("one request a line ('tap help' has the words), Ctrl-D to end\n", stderr);
    while (!(wrong = feed_next(&from, &next)) && next.count > 0 && !(wrong = tap_all(d, next)))
        ;
    return wrong && from.lines ? complain("line %u of standard input: %s", from.line, wrong) : wrong;
}

complaint send_requests(const settings *set, const char *path, size_t count, char **arguments)
{
    static desk d;
    d.set = set;
    d.path = path;
    complaint wrong = about(&d, card_read(path, d.c.image));
    return wrong ? wrong : tap_feed(&d, count, arguments);
}

/* ---- recordings ---- */

static complaint record_card(desk *d, const char *file, size_t count, char **arguments)
{
    static recorder to = {.file = -1};
    complaint wrong = about(d, card_read(d->path, d->c.image));
    if (!wrong)
        wrong = recorder_open(&to, file);
    if (!wrong && !(wrong = open_card(d))) {
        wrong = recorder_go_on(&to, &d->c);
        close_card(d);
    }
    d->to = &to;
    d->taps = to.so_far.taps;
    if (!wrong)
        wrong = tap_feed(d, count, arguments);
    recorder_close(&to);
    return wrong;
}

static complaint record_sheet(desk *d, const uint8_t *sheet, size_t length, const char *file, size_t count, char **arguments)
{
    static recorder to;
    complaint wrong = recorder_begin(&to, file, sheet, length);
    d->to = &to;
    if (!wrong)
        wrong = tap_feed(d, count, arguments);
    if (!wrong)
        wrong = recorder_end(&to);
    recorder_close(&to);
    return wrong;
}

complaint record_requests(const settings *set, const char *from, const char *file, size_t count, char **arguments)
{
    static desk d;
    static uint8_t bytes[SHEET_ROOM];
    size_t length;
    complaint wrong = store_read_file(from, bytes, sizeof bytes, &length);
    if (wrong)
        return complain("%s: %s", from, wrong);
    d.set = set;
    wrong = sheet_card(bytes, length, d.c.image);
    if (!wrong)
        return record_sheet(&d, bytes, length, file, count, arguments);
    if (length != practice_image_length() && !image_of_before(bytes, length))
        return complain("%s: %s", from, wrong);
    d.path = from;
    return record_card(&d, file, count, arguments);
}
