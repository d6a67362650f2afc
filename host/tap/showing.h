/* A tap shown to the user. */
#ifndef SHOWING_H
#define SHOWING_H

#include "exchange.h"
#include "requests.h"
#include "sending.h"

/* What stands in the place of a response where there is none: the answers do not fit the questions. */
#define SHOWING_NONE "4"

/* A tap that was made: what was sent, and what came of it. */
typedef struct {
    uint8_t before[PRACTICE_IMAGE_ROOM]; /* the card that was tapped; got.next is the one after */
    int off;   /* no tap: the card's power went off */
    int again; /* the bytes of the tap before, sent again since the card had them wait */
    request sent;
    uint8_t draw[PRACTICE_DRAW];
    exchange got;
} tap;

/* The lines of a tap below its command: request, response, fields, status word, the check that refused, changes. A response of no bytes
 * stands for number 4. */
void show_lines(const tap *t);

/* A mark, and bytes in hex. */
void show_hex(char mark, const uint8_t *bytes, size_t length);

/* The members of a tap's JSON object that a play has too, without the braces. */
void show_members(const tap *t);

/* Some of them alone, with a comma before each: the response, and what its status word says. */
void show_response(const tap *t);
void show_status(const tap *t);

/* The objects of a play, without the last brace: a tap's first members, a bad line, how many taps there were (without the first). */
void show_verdict(unsigned number, const char *verdict, const char *expected);
void show_bad_line(unsigned line, const char *why);
void show_counts(unsigned taps, unsigned others);

/* Prints the tap as the settings want it. All but the first of several are set off by an empty line. In words, where the user waits for
 * the card, the sendings of the same bytes stand together: a line for each that had to wait, with the seconds left, and then the last. */
void show_tap(const settings *set, int first, const tap *t);

#endif
