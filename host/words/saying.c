/* One stream in memory, written over from its beginning each time: a message has many parts, and a play ten thousand taps. */
#define _GNU_SOURCE
#include "saying.h"

#include <stdlib.h>

#include "complaint.h"

static FILE *stream;
static char *text;
static size_t room;

FILE *saying_start(void)
{
    if (!stream)
        stream = open_memstream(&text, &room);
    if (!stream) {
        remark("no memory");
        exit(1);
    }
    rewind(stream);
    return stream;
}

const char *saying_end(size_t *length)
{
    *length = (size_t)ftell(stream);
    fflush(stream); /* which sets text */
    return text;
}
