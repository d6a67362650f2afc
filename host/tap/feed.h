/* The requests of a command line, or of the lines of standard input. */
#ifndef FEED_H
#define FEED_H

#include <stddef.h>
#include <stdio.h>

#include "complaint.h"

#define FEED_WORDS 64
#define FEED_LINE 16384

/* Requests that are given together, so that none is tapped where one is wrong: those of a command line, or of a line. A lone comma
 * parts them, and stands here as NULL; after a word all up to it are its operands, else each is a request of its own. */
typedef struct {
    size_t count;
    char **words;
} batch;

/* The next request's words, of which there are as many as it returns; 0 at the end. */
size_t batch_next(batch *left, char ***words);

/* A line is parted by blanks, an operand with blanks or a comma stands in double quotes, and hex may have blanks in it. An empty line
 * and one that starts with # are passed over. A carriage return before the line feed belongs to the line's end. */
typedef struct {
    batch arguments;
    FILE *lines; /* read where not NULL, and then the arguments are not */
    unsigned line;
    char text[FEED_LINE + 2]; /* a carriage return and a NUL beside */
    char *words[FEED_WORDS];
} feed;

/* From arguments, or from lines where there are none. */
void feed_open(feed *from, size_t count, char **arguments, FILE *lines);

/* The next batch, which stands until the next call; one without words at the end. */
complaint feed_next(feed *from, batch *next);

#endif
