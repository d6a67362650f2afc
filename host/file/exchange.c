/* The library's calls: the two of a tap with the provider between them, and the power-off. */
#include "exchange.h"

#include "image.h"

static complaint by_number(const char *call, practice_result done)
{
    return done.number == 0   ? NULL
           : done.number == 1 ? complain("is no card")
                              : complain("%s answered number %u, which this host never provokes", call, done.number);
}

complaint exchange_ask(const uint8_t *image, const uint8_t *request, size_t length, const uint8_t draw[PRACTICE_DRAW], exchange *tap)
{
    practice_result asked = practice_ask(image, practice_image_length(), request, length, draw, PRACTICE_DRAW, tap->questions,
                                         sizeof tap->questions);
    tap->questions_len = asked.length;
    return by_number("practice_ask", asked);
}

complaint exchange_settle(const uint8_t *image, const uint8_t *request, size_t length, const uint8_t draw[PRACTICE_DRAW], seed keys,
                          exchange *tap)
{
    provider_result answered = provider_answer(keys.bytes, keys.length, image_get(image, PRACTICE_VIEW_CID).bytes, tap->questions,
                                               tap->questions_len, tap->answers, sizeof tap->answers, &tap->answers_len);
    if (answered != PROVIDER_DONE)
        return complain("the provider could not answer (%d)", answered);
    practice_result settled = practice_settle(image, practice_image_length(), request, length, draw, PRACTICE_DRAW, tap->answers,
                                              tap->answers_len, tap->response, sizeof tap->response, tap->next, sizeof tap->next);
    tap->response_len = settled.length;
    tap->word = settled.word;
    tap->reason = settled.reason;
    return by_number("practice_settle", settled);
}

complaint exchange_tap(const uint8_t *image, const uint8_t *request, size_t length, const uint8_t draw[PRACTICE_DRAW], seed keys,
                       exchange *tap)
{
    complaint wrong = exchange_ask(image, request, length, draw, tap);
    return wrong ? wrong : exchange_settle(image, request, length, draw, keys, tap);
}

complaint exchange_power_off(const uint8_t *image, exchange *off)
{
    practice_result done = practice_power_off(image, practice_image_length(), off->next, sizeof off->next);
    off->questions_len = off->answers_len = off->response_len = 0;
    off->word = off->reason = 0;
    return by_number("practice_power_off", done);
}
