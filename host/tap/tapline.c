/* Lines of taps, and why one is bad. The proved player only says that it is: these are its rules (README, "Lessons"), in words. */
#include "tapline.h"

#include <ctype.h>
#include <string.h>

#include "hex.h"

#define PAUSE "pause\t"
#define IMAGE "image\t"

enum { REQUEST, DRAW, ANSWERS, EXPECTED, FIELDS };

static const char *const names[FIELDS] = {"request", "draw", "answers", "expected response"};

complaint tapline_fault(const recording_line *from)
{
    if (from->kind == LINE_LONG)
        return complain("it has more than %d bytes", RECORDING_LINE);
    if (from->length >= 3 && memcmp(from->text, "\xEF\xBB\xBF", 3) == 0)
        return complain("a byte order mark stands before it");
    if (from->kind == LINE_TORN)
        return complain("the file ends in it, before its line feed");
    if (from->length > 0 && from->text[from->length - 1] == '\r')
        return complain("it ends with CR LF, and has to end with a line feed alone");
    return NULL;
}

static int begins(const recording_line *from, const char *with)
{
    return from->length >= strlen(with) && memcmp(from->text, with, strlen(with)) == 0;
}

typedef struct {
    const char *text;
    size_t length;
} part;

/* The parts between tabs; how many there are, of which the first four are kept. */
static size_t cut(const recording_line *from, part parts[FIELDS])
{
    size_t count = 0;
    const char *at = from->text, *end = from->text + from->length;
    for (;; at++) {
        const char *tab = memchr(at, '\t', (size_t)(end - at));
        if (count < FIELDS)
            parts[count] = (part){at, (size_t)((tab ? tab : end) - at)};
        count++;
        if (!tab)
            return count;
        at = tab;
    }
}

static complaint no_digit(const recording_line *from, const char *at)
{
    size_t column = (size_t)(at - from->text) + 1;
    unsigned char c = (unsigned char)*at;
    if (c >= 'a' && c <= 'f')
        return complain("'%c' at column %zu is a small letter, and hex has capitals here", c, column);
    if (isprint(c))
        return complain("'%c' at column %zu is no hex digit", c, column);
    return complain("the byte %02X at column %zu is no hex digit", c, column);
}

static complaint digits_fault(const recording_line *from, part p)
{
    for (size_t at = 0; at < p.length; at++)
        if (!isdigit((unsigned char)p.text[at]) && (p.text[at] < 'A' || p.text[at] > 'F'))
            return no_digit(from, p.text + at);
    return NULL;
}

static complaint odd_digits(const char *name, part p)
{
    return p.length % 2 ? complain("%zu digit%s in the %s, and a byte has two", p.length, p.length == 1 ? "" : "s", name) : NULL;
}

static complaint field_fault(const recording_line *from, int which, part p)
{
    complaint wrong = digits_fault(from, p);
    if (wrong)
        return wrong;
    if (p.length == 0 && which != ANSWERS)
        return complain("the %s is empty", names[which]);
    if (which == EXPECTED && p.length == 1 && p.text[0] == '4')
        return NULL;
    if ((wrong = odd_digits(names[which], p)))
        return wrong;
    if (which == DRAW && p.length != 2 * PRACTICE_DRAW)
        return complain("the draw has %zu bytes, and has to have %d", p.length / 2, PRACTICE_DRAW);
    return NULL;
}

static size_t bytes_of(part p, uint8_t *bytes, size_t room)
{
    char text[RECORDING_LINE + 1];
    size_t length = 0;
    memcpy(text, p.text, p.length);
    text[p.length] = 0;
    hex_read(text, bytes, room, &length);
    return length;
}

complaint tapline_read(const recording_line *from, tapline *read)
{
    part parts[FIELDS];
    complaint wrong = tapline_fault(from);
    if (wrong)
        return wrong;
    if (begins(from, PAUSE))
        return complain("a pause is the sheet's, as line 15 alone: pause, a tab and a number from 0 to 60 without leading zeros");
    size_t count = cut(from, parts);
    if (count != FIELDS)
        return complain("it has %zu tab%s, and three part its four fields", count - 1, count == 2 ? "" : "s");
    for (int which = 0; !wrong && which < FIELDS; which++)
        wrong = field_fault(from, which, parts[which]);
    if (wrong)
        return wrong;
    read->sent.length = bytes_of(parts[REQUEST], read->sent.bytes, sizeof read->sent.bytes);
    bytes_of(parts[DRAW], read->draw, sizeof read->draw);
    read->answers_len = bytes_of(parts[ANSWERS], read->answers, sizeof read->answers);
    memcpy(read->expected, parts[EXPECTED].text, parts[EXPECTED].length);
    read->expected[parts[EXPECTED].length] = 0;
    return NULL;
}

complaint tapline_image(const recording_line *from, uint8_t image[PRACTICE_IMAGE_ROOM], size_t *length)
{
    part hex = {from->text + strlen(IMAGE), from->length - strlen(IMAGE)};
    complaint wrong = tapline_fault(from);
    if (!wrong && !begins(from, IMAGE))
        wrong = complain("it has to be image, a tab and a card's image in hex");
    if (!wrong)
        wrong = digits_fault(from, hex);
    if (!wrong)
        wrong = odd_digits("image", hex);
    *length = wrong ? 0 : bytes_of(hex, image, PRACTICE_IMAGE_ROOM);
    return wrong;
}
