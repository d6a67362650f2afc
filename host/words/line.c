/* Lines, byte by byte: fgets does not tell a NUL from an end. */
#include "line.h"

line_kind line_read(FILE *in, char *text, size_t room, size_t *length)
{
    int c = getc(in);
    line_kind found = c == EOF ? LINE_NONE : LINE_WHOLE;
    for (*length = 0; c != EOF && c != '\n' && *length < room - 1; c = getc(in))
        text[(*length)++] = (char)c;
    text[*length] = 0;
    return found == LINE_NONE || c == '\n' ? found : c == EOF ? LINE_TORN : LINE_LONG;
}
