/* What the library says of a sheet, in words. */
#include "sheet.h"

#include <string.h>

static const char *const lines[SHEET_LINES + 1] = {
    "cid, a tab and 16 hex digits in capitals",
    "pin1, a tab and 64 hex digits in capitals",
    "pin2, a tab and 64 hex digits in capitals",
    "cvc, a tab and three digits",
    "curve, a tab and secp256k1 or ed25519",
    "max, a tab and a number from 1 to 4294967295 without leading zeros",
    "reusable, a tab and 0 or 1",
    "usecvc, a tab and 0 or 1",
    "setpin1, a tab and 0 or 1",
    "setpin2, a tab and 0 or 1",
    "nopurge, a tab and 0 or 1",
    "replay, a tab and 0 or 1",
    "active, a tab and 0 or 1",
    "seed, a tab and 32 hex digits in capitals",
    "pause, a tab and a number from 0 to 60 without leading zeros",
};

/* The last one counts without its line feed, too. */
static uint32_t count_lines(const uint8_t *sheet, size_t length)
{
    uint32_t count = length > 0 && sheet[length - 1] != '\n';
    for (size_t at = 0; at < length; at++)
        count += sheet[at] == '\n';
    return count;
}

complaint sheet_card(const uint8_t *sheet, size_t length, uint8_t image[PRACTICE_IMAGE_ROOM])
{
    uint32_t line = practice_personalise(sheet, length, image, PRACTICE_IMAGE_ROOM);
    if (line == 0)
        return NULL;
    if (line > SHEET_LINES + 1)
        return complain("line %u is bad: nothing may follow line %d", line, SHEET_LINES + 1);
    if (line > SHEET_LINES)
        return complain("line %u is bad: nothing may follow line %d but %s, ended by a line feed", line, SHEET_LINES, lines[line - 1]);
    return complain("line %u is %s: it has to be %s, ended by a line feed", line, line > count_lines(sheet, length) ? "missing" : "bad",
                    lines[line - 1]);
}

/* By the library's own word: it takes the line behind the others, or calls it bad. */
int sheet_goes_on(const uint8_t *sheet, size_t length, const char *line, size_t line_length, uint8_t image[PRACTICE_IMAGE_ROOM])
{
    static uint8_t whole[SHEET_ROOM];
    if (length + line_length + 1 > sizeof whole)
        return 0;
    memcpy(whole, sheet, length);
    memcpy(whole + length, line, line_length);
    whole[length + line_length] = '\n';
    return practice_personalise(whole, length + line_length + 1, image, PRACTICE_IMAGE_ROOM) == 0;
}
