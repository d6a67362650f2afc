/* A recording played in memory, from its sheet to its end, as ./play does it: what a new line may follow. */
#ifndef PLAYED_H
#define PLAYED_H

#include <stdint.h>
#include <sys/types.h>

#include "complaint.h"
#include "practice.h"
#include "tapline.h"

/* What a killed process may leave at the end of the file. */
typedef enum {
    PLAYED_WHOLE,
    PLAYED_UNENDED, /* the last tap is whole but for its line feed */
    PLAYED_TORN     /* after the last tap stands a piece of another, which is not played */
} played_end;

typedef struct {
    uint32_t sheet_lines, taps;
    off_t length; /* of the sheet and the taps, with the line feeds that are there */
    uint8_t image[PRACTICE_IMAGE_ROOM], before[PRACTICE_IMAGE_ROOM]; /* the card after the last tap, and before it */
    played_end end;
} played;

/* Plays an open file. A complaint where it is no recording, or where a tap has another response than the recorded one. */
complaint played_file(int file, played *p);

#endif
