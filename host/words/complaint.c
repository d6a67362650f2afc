/* The one line that a complaint is. */
#define _GNU_SOURCE
#include "complaint.h"

#include <errno.h>
#include <stdarg.h>
#include <stdio.h>
#include <stdlib.h>

#include "text.h"

/* A line has the room that it needs: a path may be long, and the reason stands after it. */
static char *line_of(const char *format, va_list arguments)
{
    char *line;
    if (vasprintf(&line, format, arguments) < 0)
        return NULL;
    text_tame(line); /* an operand may hold a line feed, and one line is promised */
    return line;
}

complaint complain(const char *format, ...)
{
    static char *said;
    va_list arguments;
    va_start(arguments, format);
    char *line = line_of(format, arguments);
    va_end(arguments);
    free(said); /* not before: an argument may be the line of an earlier complaint */
    said = line;
    return said ? said : "no memory";
}

void remark(const char *format, ...)
{
    va_list arguments;
    va_start(arguments, format);
    char *line = line_of(format, arguments);
    va_end(arguments);
    if (line)
        fprintf(stderr, "%s: %s\n", program_invocation_short_name, line);
    free(line);
}
