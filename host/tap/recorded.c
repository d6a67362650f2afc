/* The lines of a recording, one after the other. */
#include "recorded.h"

#include <string.h>

#include "hex.h"
#include "image.h"
#include "sheet.h"

static int next_line(recorded *r, recording_line *read)
{
    if (r->is_ahead)
        *read = r->ahead;
    else
        read->kind = line_read(r->in, read->text, sizeof read->text, &read->length);
    r->is_ahead = 0;
    r->lines += read->kind != LINE_NONE;
    return read->kind != LINE_NONE;
}

static recorded_step note_bad(recorded *r, uint32_t line, complaint why)
{
    r->bad_line = line;
    snprintf(r->why, sizeof r->why, "%s", why);
    return RECORDED_BAD;
}

/* ---- the sheet ---- */

/* What sheet_card says the line should be, and what is wrong with it at sight. */
static void note_bad_sheet(recorded *r, uint32_t line, const uint8_t *sheet, size_t length, const recording_line *lines)
{
    const char *should = strstr(sheet_card(sheet, length, r->image), ": ");
    note_bad(r, line, should ? should + 2 : "");
    complaint fault = line <= r->lines ? tapline_fault(&lines[line - 1]) : complain("the file ends before it");
    if (fault)
        snprintf(r->why + strlen(r->why), sizeof r->why - strlen(r->why), "; %s", fault);
}

/* The line behind fourteen good ones is the sheet's where it is a pause, else it waits to be read as a tap's. */
static void read_pause(recorded *r, const uint8_t *sheet, size_t length)
{
    recording_line *one = &r->ahead;
    if (!next_line(r, one) || (one->kind == LINE_WHOLE && sheet_goes_on(sheet, length, one->text, one->length, r->image)))
        return;
    r->is_ahead = 1;
    r->lines--;
}

static void read_sheet(recorded *r)
{
    static uint8_t sheet[SHEET_LINES * sizeof(recording_line)];
    static recording_line lines[SHEET_LINES];
    size_t length = 0;
    for (recording_line *one = lines; r->lines < SHEET_LINES && next_line(r, one); one++) {
        memcpy(sheet + length, one->text, one->length);
        length += one->length;
        if (one->kind == LINE_WHOLE)
            sheet[length++] = '\n';
    }
    uint32_t bad = practice_personalise(sheet, length, r->image, sizeof r->image);
    r->is_card = bad == 0;
    if (bad)
        note_bad_sheet(r, bad, sheet, length, lines);
    else
        read_pause(r, sheet, length);
}

void recorded_open(recorded *r, FILE *in)
{
    *r = (recorded){.in = in};
    read_sheet(r);
}

/* ---- an image ---- */

void recorded_open_image(recorded *r, FILE *in)
{
    static recording_line one;
    size_t length;
    *r = (recorded){.in = in};
    complaint wrong = next_line(r, &one) ? tapline_image(&one, r->image, &length) : complain("the file ends before it");
    if (!wrong && (wrong = image_is_card(r->image, length)))
        wrong = complain("the image %s", wrong);
    r->is_card = !wrong;
    if (wrong)
        note_bad(r, 1, wrong);
}

/* ---- taps ---- */

recorded_step recorded_next(recorded *r, tapline *read)
{
    static recording_line one;
    if (r->bad_line)
        return RECORDED_BAD;
    if (!next_line(r, &one))
        return RECORDED_END;
    complaint wrong = r->taps == RECORDING_TAPS ? complain("a recording has at most %d taps", RECORDING_TAPS) : tapline_read(&one, read);
    if (wrong)
        return note_bad(r, r->lines, wrong);
    r->taps++;
    return RECORDED_TAP;
}

complaint recorded_play(recorded *r, const tapline *read, tap *t)
{
    size_t length = practice_image_length();
    memcpy(t->before, r->image, length);
    memcpy(t->got.next, r->image, length);
    memcpy(t->draw, read->draw, sizeof t->draw);
    t->sent = read->sent;
    practice_result done =
        practice_settle(r->image, length, read->sent.bytes, read->sent.length, read->draw, sizeof read->draw, read->answers,
                        read->answers_len, t->got.response, sizeof t->got.response, t->got.next, sizeof t->got.next);
    if (done.number != PRACTICE_DONE && done.number != PRACTICE_NO_ANSWERS)
        return complain("tap %u: practice_settle answered number %u", r->taps, done.number);
    t->got.response_len = done.length;
    t->got.word = done.word;
    t->got.reason = done.reason;
    memcpy(r->image, t->got.next, length);
    return NULL;
}

void recorded_response(const tap *t, char text[2 * PRACTICE_ROOM + 1])
{
    if (t->got.response_len > 0)
        hex_write(text, t->got.response, t->got.response_len);
    else
        strcpy(text, SHOWING_NONE);
}
