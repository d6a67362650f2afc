/* The lines of a recording, read and played. */
#define _GNU_SOURCE
#include "played.h"

#include <errno.h>
#include <stdio.h>
#include <string.h>
#include <unistd.h>

#include "hex.h"
#include "sheet.h"

/* Where the answers do not fit the questions, 4 stands in the place of a response, and the card stays. */
static complaint play_tap(played *p, const tapline *tap)
{
    uint8_t said[PRACTICE_ROOM], next[PRACTICE_IMAGE_ROOM];
    char expected[2 * PRACTICE_ROOM + 1] = "4";
    practice_result done = practice_settle(p->image, practice_image_length(), tap->sent.bytes, tap->sent.length, tap->draw,
                                           sizeof tap->draw, tap->answers, tap->answers_len, said, sizeof said, next, sizeof next);
    if (done.number == 0)
        hex_write(expected, said, done.length);
    if (strcmp(tap->expected, expected) != 0)
        return complain("tap %u has another response on the card of its sheet", p->taps + 1);
    memcpy(p->before, p->image, practice_image_length());
    if (done.number == 0)
        memcpy(p->image, next, practice_image_length());
    p->taps++;
    return NULL;
}

/* That a line feed is missing is not the line's fault here: the last one may lack it. */
static complaint play_line(played *p, recording_line *from)
{
    static tapline tap;
    if (p->taps == RECORDING_TAPS)
        return complain("a recording has at most %d taps", RECORDING_TAPS);
    from->kind = LINE_WHOLE;
    complaint wrong = tapline_read(from, &tap);
    return wrong ? complain("line %u is no tap: %s", p->sheet_lines + p->taps + 1, wrong) : play_tap(p, &tap);
}

/* A sheet, as far as it was read. */
typedef struct {
    uint8_t text[SHEET_ROOM];
    size_t length;
} sheet;

static complaint read_sheet(FILE *in, sheet *s, played *p)
{
    int c = 0;
    s->length = 0;
    for (int lines = 0; lines < SHEET_LINES && s->length < sizeof s->text && (c = getc(in)) != EOF; lines += c == '\n')
        s->text[s->length++] = (uint8_t)c;
    if (s->length == 0)
        return complain("is empty: a recording begins with its sheet, so copy the card's sheet there first");
    complaint wrong = sheet_card(s->text, s->length, p->image);
    p->sheet_lines = SHEET_LINES;
    p->length = (off_t)s->length;
    return wrong ? complain("is no recording: %s", wrong) : NULL;
}

/* Whether the first line behind the sheet's is one more of them, the pause. */
static int is_of_sheet(const sheet *s, const recording_line *one, line_kind read, played *p)
{
    int is = read == LINE_WHOLE && p->sheet_lines == SHEET_LINES && p->taps == 0 &&
             sheet_goes_on(s->text, s->length, one->text, one->length, p->image);
    p->sheet_lines += (uint32_t)is;
    return is;
}

static complaint play_lines(FILE *in, const sheet *s, played *p)
{
    static recording_line one;
    for (line_kind read; (read = line_read(in, one.text, sizeof one.text, &one.length)) != LINE_NONE;) {
        if (read == LINE_LONG)
            return complain("line %u has more than %d bytes", p->sheet_lines + p->taps + 1, RECORDING_LINE);
        complaint wrong = is_of_sheet(s, &one, read, p) ? NULL : play_line(p, &one);
        if (read == LINE_TORN)
            p->end = wrong ? PLAYED_TORN : PLAYED_UNENDED;
        if (wrong)
            return read == LINE_TORN ? NULL : wrong;
        p->length += (off_t)one.length + (read == LINE_WHOLE);
    }
    return NULL;
}

complaint played_file(int file, played *p)
{
    static sheet s;
    int copy = dup(file);
    FILE *in = copy < 0 ? NULL : fdopen(copy, "r");
    if (!in)
        return complain("cannot be read: %s", strerror(errno));
    p->taps = 0;
    p->end = PLAYED_WHOLE;
    complaint wrong = read_sheet(in, &s, p);
    if (!wrong)
        wrong = play_lines(in, &s, p);
    if (ferror(in))
        wrong = complain("cannot be read");
    fclose(in);
    return wrong;
}
