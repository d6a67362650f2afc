/* A card tapped from C: a fresh one from the sheet on standard input, then CREATE_WALLET. */
#include <stdio.h>
#include <string.h>
#include <sys/random.h>

#include "practice.h"
#include "practice_request.h"
#include "practice_view.h"
#include "provider.h"

/* One tap. The image is the card, and all that is kept of it. Where the result's number is not 0, there was no tap. */
static practice_result tap(uint8_t *image, const uint8_t *request, size_t request_len, uint8_t response[PRACTICE_ROOM])
{
    uint8_t draw[PRACTICE_DRAW], questions[PRACTICE_ROOM], answers[PROVIDER_ROOM], next[PRACTICE_IMAGE_ROOM];
    const uint8_t *cid = practice_view(image, PRACTICE_VIEW_CID).bytes;
    size_t image_len = practice_image_length(), answers_len;
    if (getrandom(draw, sizeof draw, 0) != sizeof draw)
        return (practice_result){.number = PRACTICE_NO_DRAW};
    practice_result asked = practice_ask(image, image_len, request, request_len, draw, sizeof draw, questions, sizeof questions);
    if (asked.number != PRACTICE_DONE)
        return asked;
    if (provider_answer((const uint8_t *)"practice", 8, cid, questions, asked.length, answers, sizeof answers, &answers_len) !=
        PROVIDER_DONE)
        return (practice_result){.number = PRACTICE_NO_ANSWERS};
    practice_result done = practice_settle(image, image_len, request, request_len, draw, sizeof draw, answers, answers_len, response,
                                           PRACTICE_ROOM, next, sizeof next);
    if (done.number == PRACTICE_DONE)
        memcpy(image, next, image_len);
    return done;
}

static void show(const uint8_t *response, size_t length)
{
    for (size_t byte = 0; byte < length; byte++)
        printf("%02X", response[byte]);
    putchar('\n');
}

int main(void)
{
    static uint8_t sheet[4096], image[PRACTICE_IMAGE_ROOM], request[PRACTICE_REQUEST_ROOM], response[PRACTICE_ROOM];
    if (practice_personalise(sheet, fread(sheet, 1, sizeof sheet, stdin), image, sizeof image) != 0)
        return fputs("the sheet is bad\n", stderr), 1;
    practice_codes codes = practice_codes_of(image);
    size_t length = practice_request_create_wallet(request, sizeof request, &codes);
    practice_result done;
    do /* an app shows a bar meanwhile: the card makes its holder wait, and wants the same bytes again */
        done = tap(image, request, length, response);
    while (done.word == PRACTICE_SW_NEED_PAUSE);
    show(response, done.length);
    if (done.reason != 0)
        printf("refused by check %u\n", done.reason);
    printf("Remaining %u\n", practice_view_number(image, PRACTICE_VIEW_REMAINING));
    return done.number != PRACTICE_DONE;
}
