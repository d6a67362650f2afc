/* Hex, as requests and responses are written. */
#include "hex.h"

#include <ctype.h>
#include <string.h>

static int digit(char c)
{
    if (c >= '0' && c <= '9')
        return c - '0';
    c = (char)toupper((unsigned char)c);
    return c >= 'A' && c <= 'F' ? c - 'A' + 10 : -1;
}

complaint hex_read(const char *text, uint8_t *bytes, size_t room, size_t *length)
{
    size_t count = 0;
    for (const char *at = text; *at;) {
        if (*at == ' ') {
            at++;
            continue;
        }
        if (digit(at[0]) < 0)
            return complain("'%c' is no hex digit", at[0]);
        if (digit(at[1]) < 0)
            return complain("hex digits come in pairs");
        if (count == room)
            return complain("more than %zu bytes", room);
        bytes[count++] = (uint8_t)(digit(at[0]) << 4 | digit(at[1]));
        at += 2;
    }
    *length = count;
    return NULL;
}

int hex_looks(const char *text)
{
    return strspn(text, "0123456789abcdefABCDEF ") == strlen(text) && strpbrk(text, "0123456789abcdefABCDEF") != NULL;
}

void hex_write(char *text, const uint8_t *bytes, size_t length)
{
    *text = 0;
    for (size_t at = 0; at < length; at++)
        sprintf(text + 2 * at, "%02X", bytes[at]);
}

static char digit_at(const uint8_t *bytes, size_t at)
{
    return "0123456789ABCDEF"[at % 2 ? bytes[at / 2] & 15 : bytes[at / 2] >> 4];
}

/* Digit by digit: with a printf for each byte, most of the time of a long play would go into this. */
void hex_print(FILE *out, const uint8_t *bytes, size_t length)
{
    for (size_t at = 0; at < 2 * length; at++)
        putc(digit_at(bytes, at), out);
}

int hex_is(const char *text, size_t text_len, const uint8_t *bytes, size_t length)
{
    size_t at = 0;
    while (at < text_len && at < 2 * length && text[at] == digit_at(bytes, at))
        at++;
    return at == text_len && at == 2 * length;
}
