/* Lines of a stream, each read whole and with every byte that is in it. */
#ifndef LINE_H
#define LINE_H

#include <stddef.h>
#include <stdio.h>

typedef enum {
    LINE_WHOLE,
    LINE_TORN, /* the stream ended, or could not be read on, before a line feed */
    LINE_LONG, /* more than fits; what fits is there */
    LINE_NONE  /* the stream has ended */
} line_kind;

/* The next line without its line feed: length bytes, then a NUL. All of it fits in room bytes. */
line_kind line_read(FILE *in, char *text, size_t room, size_t *length);

#endif
