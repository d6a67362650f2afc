/* teller: a recording on standard input, told in JSON. With --image it goes on from a card's image, which then stands in the sheet's place.
 * For a program that shows lessons; docs/JSON.md has the objects. */
#include <stdio.h>
#include <string.h>

#include "changes.h"
#include "explain.h"
#include "fields.h"
#include "json.h"
#include "practice_request.h"
#include "practice_view.h"
#include "provider.h"
#include "recorded.h"
#include "showing.h"
#include "words.h"

#define ED25519_KEY 32

/* ---- the questions, and what answered each ---- */

/* How many bytes answer it. */
static size_t wanted(message question)
{
    switch (question.bytes[0]) {
    case PRACTICE_MAKE_KEY: return question.bytes[3] == PRACTICE_ED25519 ? ED25519_KEY : PROVIDER_KEY;
    case PRACTICE_ISSUER_SIGNED:
    case PRACTICE_ISSUER_CONFIRMED: return 1;
    default: return PROVIDER_SIGNATURE;
    }
}

static void tell_question(int first, message question, message answer)
{
    fputs(first ? "{\"parts\":" : ",{\"parts\":", stdout);
    explain_questions(stdout, EXPLAIN_LIST, question);
    json_member_hex(stdout, "answer", answer.bytes, answer.length);
    putchar('}');
}

/* So many bytes from the beginning, as far as there are so many; what is left stays. */
static message cut(message *from, size_t length)
{
    message piece = {from->bytes, length < from->length ? length : from->length};
    from->bytes += piece.length;
    from->length -= piece.length;
    return piece;
}

static void tell_questions(message questions, message answers)
{
    int first = 1;
    putchar('[');
    for (message one; (one = explain_question(questions)).length > 0;) {
        tell_question(first, cut(&questions, one.length), cut(&answers, wanted(one)));
        first = 0;
    }
    if (answers.length > 0)
        tell_question(first, questions, answers);
    putchar(']');
}

/* ---- the numbers ---- */

/* Of a note that is sent: its counter, where the request has one field for it, of four bytes. */
static void tell_sent_number(message request)
{
    message payload = explain_payload(request);
    field_walk walk = {payload.bytes, payload.length, 0};
    field one, counter = {0};
    int count = 0;
    while (field_next(&walk, &one) == FIELD_FOUND)
        if (one.tag == PRACTICE_TAG_ISSUER_DATA_COUNTER) {
            counter = one;
            count++;
        }
    if (count == 1 && counter.length == 4 && request.bytes[1] == PRACTICE_INS_WRITE_ISSUER_DATA)
        printf("%u", value_number(counter.value, counter.length));
    else
        fputs("null", stdout);
}

static void tell_numbers(const tap *t, message request)
{
    const uint8_t *card = t->got.next;
    printf("{\"stored\":%u,\"sent\":", practice_view_number(card, PRACTICE_VIEW_ISSUER_DATA_COUNTER));
    tell_sent_number(request);
    printf(",\"remaining\":%u,\"hashes\":%u,\"seconds\":%u}", practice_view_number(card, PRACTICE_VIEW_REMAINING),
           practice_view_number(card, PRACTICE_VIEW_SIGNED_HASHES), practice_view_number(card, PRACTICE_VIEW_SECONDS_LEFT));
}

/* ---- a tap ---- */

static void tell_bytes(const tap *t, message answers)
{
    json_member_string(stdout, "command", words_command(t->sent.bytes, t->sent.length));
    show_status(t);
    json_member_hex(stdout, "request", t->sent.bytes, t->sent.length);
    json_member_hex(stdout, "draw", t->draw, sizeof t->draw);
    json_member_hex(stdout, "answers", answers.bytes, answers.length);
    show_response(t);
    printf(",\"check\":%u", t->got.reason);
}

static void tell_parts(const tap *t, message answers)
{
    message request = {t->sent.bytes, t->sent.length}, response = {t->got.response, t->got.response_len};
    json_member(stdout, "sent");
    explain_request(stdout, EXPLAIN_LIST, request);
    json_member(stdout, "asked");
    tell_questions((message){t->got.questions, t->got.questions_len}, answers);
    json_member(stdout, "got");
    if (response.length > 0)
        explain_response(stdout, EXPLAIN_LIST, request, response);
    else
        fputs("[]", stdout);
    json_member(stdout, "changed");
    changes_texts(stdout, t->before, t->got.next);
    json_member(stdout, "numbers");
    tell_numbers(t, request);
}

static complaint tell_tap(recorded *from, const tapline *read, unsigned *others)
{
    static tap t;
    char response[2 * PRACTICE_ROOM + 1];
    message answers = {read->answers, read->answers_len};
    complaint wrong = exchange_ask(from->image, read->sent.bytes, read->sent.length, read->draw, &t.got);
    if (!wrong)
        wrong = recorded_play(from, read, &t);
    if (wrong)
        return wrong;
    recorded_response(&t, response);
    int is_other = strcmp(response, read->expected) != 0;
    *others += is_other;
    show_verdict(from->taps, is_other ? "other" : "same", read->expected);
    tell_bytes(&t, answers);
    tell_parts(&t, answers);
    puts("}");
    return NULL;
}

/* ---- all of it ---- */

static void tell_card(const recorded *from)
{
    fputs("{\"card\":", stdout);
    values_texts(stdout, from->image);
    json_member_hex(stdout, "image", from->image, practice_image_length());
    puts("}");
}

static void tell_end(const recorded *from, unsigned others)
{
    if (from->bad_line)
        show_bad_line(from->bad_line, from->why);
    putchar(from->bad_line ? ',' : '{');
    show_counts(from->taps, others);
    if (from->is_card)
        json_member_hex(stdout, "image", from->image, practice_image_length());
    else
        fputs(",\"image\":null", stdout);
    puts("}");
}

static complaint tell(int goes_on)
{
    static recorded from;
    static tapline read;
    unsigned others = 0;
    complaint wrong = NULL;
    (goes_on ? recorded_open_image : recorded_open)(&from, stdin);
    if (from.is_card)
        tell_card(&from);
    while (!wrong && recorded_next(&from, &read) == RECORDED_TAP)
        wrong = tell_tap(&from, &read, &others);
    if (!wrong)
        tell_end(&from, others);
    return !wrong && ferror(stdin) ? "standard input cannot be read" : wrong;
}

int main(int count, char **words)
{
    complaint wrong = tell(count > 1 && strcmp(words[1], "--image") == 0);
    if (!wrong && fflush(stdout) == 0 && !ferror(stdout))
        return 0;
    remark("%s", wrong ? wrong : "standard output cannot be written");
    return 1;
}
