/* UTF-8, read strictly: a character has one spelling, and a card must not be able to draw on the screen of whoever reads it. */
#include "text.h"

#include <string.h>

typedef struct {
    uint32_t first, last;
} range;

static int is_in(const range *ranges, size_t count, uint32_t character)
{
    for (size_t at = 0; at < count; at++)
        if (character >= ranges[at].first && character <= ranges[at].last)
            return 1;
    return 0;
}

/* Control characters of one byte and of two, marks and overrides of direction, separators of lines; halves of pairs are no characters. */
static int stays_hidden(uint32_t character)
{
    static const range hidden[] = {{0x00, 0x1F},     {0x7F, 0x9F},     {0x061C, 0x061C}, {0x200E, 0x200F},
                                   {0x2028, 0x202E}, {0x2066, 0x2069}, {0xD800, 0xDFFF}, {0x110000, UINT32_MAX}};
    return is_in(hidden, sizeof hidden / sizeof *hidden, character);
}

/* How many bytes the character at the start takes; 0 where it is none that shows. */
static size_t one_character(const uint8_t *bytes, size_t length)
{
    static const uint32_t least[] = {0, 0, 0x80, 0x800, 0x10000}; /* by length: below it a shorter spelling is the right one */
    size_t taken = bytes[0] < 0x80 ? 1 : bytes[0] < 0xC0 ? 0 : bytes[0] < 0xE0 ? 2 : bytes[0] < 0xF0 ? 3 : bytes[0] < 0xF8 ? 4 : 0;
    uint32_t character = taken > 1 ? bytes[0] & (0x7Fu >> taken) : bytes[0];
    if (taken == 0 || taken > length)
        return 0;
    for (size_t at = 1; at < taken; at++) {
        if ((bytes[at] & 0xC0) != 0x80)
            return 0;
        character = character << 6 | (bytes[at] & 0x3F);
    }
    return character < least[taken] || stays_hidden(character) ? 0 : taken;
}

int text_shows(const uint8_t *bytes, size_t length)
{
    for (size_t at = 0, taken; at < length; at += taken)
        if ((taken = one_character(bytes + at, length - at)) == 0)
            return 0;
    return length > 0;
}

void text_tame(char *line)
{
    uint8_t *bytes = (uint8_t *)line;
    size_t length = strlen(line);
    for (size_t at = 0, taken; at < length; at += taken ? taken : 1)
        if ((taken = one_character(bytes + at, length - at)) == 0)
            line[at] = '?';
}
