/* A tap in words, as JSON, or its response in hex alone. */
#include "showing.h"

#include <stdio.h>
#include <string.h>

#include "changes.h"
#include "hex.h"
#include "json.h"
#include "response.h"
#include "values.h"
#include "words.h"

#define STATUS_WORD 2
#define PAUSE_AT 2 /* behind its tag and its length */
#define NO_RESPONSE "the answers do not fit the questions: no response, and no change"

/* ---- words ---- */

void show_hex(char mark, const uint8_t *bytes, size_t length)
{
    printf("%c ", mark);
    hex_print(stdout, bytes, length);
    putchar('\n');
}

static void show_answer(const tap *t)
{
    show_hex('<', t->got.response, t->got.response_len);
    response_print(stdout, t->sent.bytes, t->sent.length, t->got.response, t->got.response_len);
    if (t->got.reason != 0)
        response_print_check(stdout, t->got.reason);
    changes_print(stdout, t->before, t->got.next);
}

void show_lines(const tap *t)
{
    show_hex('>', t->sent.bytes, t->sent.length);
    if (t->got.response_len == 0)
        puts("< " SHOWING_NONE "\n   " SHOWING_NONE "     " NO_RESPONSE);
    else
        show_answer(t);
}

/* ---- JSON ---- */

void show_status(const tap *t)
{
    size_t end = t->got.response_len - STATUS_WORD;
    if (t->got.response_len == 0) {
        fputs(",\"word\":null,\"status\":null,\"meaning\":\"" NO_RESPONSE "\"", stdout);
        return;
    }
    words_status row = words_status_of((uint16_t)value_number(t->got.response + end, STATUS_WORD), t->sent.bytes, t->sent.length);
    printf(",\"word\":\"%04X\"", row.word);
    json_member_string(stdout, "status", row.name);
    json_member_string(stdout, "meaning", row.meaning);
}

void show_response(const tap *t)
{
    if (t->got.response_len > 0)
        json_member_hex(stdout, "response", t->got.response, t->got.response_len);
    else
        fputs(",\"response\":null", stdout);
}

void show_members(const tap *t)
{
    size_t length = t->got.response_len;
    fputs("\"command\":", stdout);
    json_string(stdout, words_command(t->sent.bytes, t->sent.length));
    json_member_hex(stdout, "request", t->sent.bytes, t->sent.length);
    show_response(t);
    show_status(t);
    json_member(stdout, "fields");
    json_fields(stdout, t->got.response, length > 0 ? length - STATUS_WORD : 0);
    json_member(stdout, "changed");
    changes_json(stdout, t->before, t->got.next);
    json_member_hex(stdout, "draw", t->draw, sizeof t->draw);
}

/* ---- JSON of a play ---- */

void show_verdict(unsigned number, const char *verdict, const char *expected)
{
    printf("{\"tap\":%u,\"verdict\":\"%s\"", number, verdict);
    json_member_string(stdout, "expected", strcmp(expected, SHOWING_NONE) == 0 ? NULL : expected);
}

void show_bad_line(unsigned line, const char *why)
{
    printf("{\"line\":%u", line);
    json_member_string(stdout, "reason", why);
}

void show_counts(unsigned taps, unsigned others)
{
    printf("\"taps\":%u,\"same\":%u,\"other\":%u", taps, taps - others, others);
}

/* ---- either ---- */

/* A sending that had to wait, of several: the response is the field Pause, two bytes, and the word. */
static void show_wait(const tap *t)
{
    fputs("< ", stdout);
    hex_print(stdout, t->got.response, t->got.response_len);
    printf("  %s left\n", value_meaning(VALUE_PAUSE, value_number(t->got.response + PAUSE_AT, 2)));
}

static void show_words(const settings *set, int first, const tap *t)
{
    if (!t->again) {
        fputs(first ? "" : "\n", stdout);
        puts(t->off ? REQUEST_POWER_OFF : words_command(t->sent.bytes, t->sent.length));
    }
    if (t->off) {
        changes_print(stdout, t->before, t->got.next);
        return;
    }
    if (!t->again)
        show_hex('>', t->sent.bytes, t->sent.length);
    if (set->wait && t->got.word == PRACTICE_SW_NEED_PAUSE)
        show_wait(t);
    else
        show_answer(t);
}

static void show_check(uint8_t reason)
{
    if (reason == 0) {
        fputs(",\"check\":null", stdout);
        return;
    }
    printf(",\"check\":{\"number\":%u", reason);
    json_member_string(stdout, "meaning", words_reason(reason));
    putchar('}');
}

/* The members of a tap, and of these only what a power-off has. */
static void show_off(const tap *t)
{
    fputs("{\"command\":\"" REQUEST_POWER_OFF "\",\"request\":null,\"response\":null,\"word\":null,\"status\":null,\"meaning\":null,\"fields\":[]", stdout);
    fputs(",\"changed\":", stdout);
    changes_json(stdout, t->before, t->got.next);
    puts(",\"draw\":null,\"check\":null}");
}

static void show_object(const tap *t)
{
    putchar('{');
    show_members(t);
    show_check(t->got.reason);
    puts("}");
}

void show_tap(const settings *set, int first, const tap *t)
{
    if (set->hex_only && !t->off) {
        hex_print(stdout, t->got.response, t->got.response_len);
        putchar('\n');
    } else if (set->json) {
        (t->off ? show_off : show_object)(t);
    } else if (!set->hex_only) {
        show_words(set, first, t);
    }
    fflush(stdout);
}
