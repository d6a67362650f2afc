/* The line of a tap in a recording: request, draw, answers, and the response that is expected. */
#ifndef TAPLINE_H
#define TAPLINE_H

#include <stddef.h>
#include <stdint.h>

#include "complaint.h"
#include "line.h"
#include "practice.h"
#include "requests.h"

/* A recording's limits (Ask 4 of the paper on changes). */
#define RECORDING_LINE 8192
#define RECORDING_TAPS 10000

/* A line as it was read. */
typedef struct {
    char text[RECORDING_LINE + 1];
    size_t length;
    line_kind kind;
} recording_line;

typedef struct {
    request sent;
    uint8_t draw[PRACTICE_DRAW];
    uint8_t answers[REQUEST_ROOM];
    size_t answers_len;
    char expected[RECORDING_LINE]; /* in hex, or "4" where the answers do not fit the questions */
} tapline;

/* NULL where the line is that of a tap, else what is wrong with it. */
complaint tapline_read(const recording_line *from, tapline *read);

/* The line that stands in the place of a sheet where a play goes on from a card: image, a tab and the image in hex. NULL where it is one;
 * its bytes may be no card. */
complaint tapline_image(const recording_line *from, uint8_t image[PRACTICE_IMAGE_ROOM], size_t *length);

/* What may be wrong with any line, whatever it should say: how it ends, what stands before it. NULL where nothing is. */
complaint tapline_fault(const recording_line *from);

#endif
