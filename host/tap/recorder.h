/* The recording's side of `tap record`: a file with a sheet, then a line for each tap.
 *
 * A tap's line is on the disk before its card is replaced, and both are before the response is shown. What a kill leaves between is
 * mended at the next start: the recording is played from its sheet on; a piece of a last line is taken away, and a last tap that the
 * card has not made is made on it. So a recording is one card's, and at its end stands the card as it is. */
#ifndef RECORDER_H
#define RECORDER_H

#include <stddef.h>
#include <stdint.h>
#include <sys/types.h>

#include "card.h"
#include "complaint.h"
#include "played.h"
#include "showing.h"

typedef struct {
    const char *path;
    int file; /* open and locked while the process records; -1 where it is not there yet */
    played so_far;
    off_t last; /* how long the line is that was written last */
    const uint8_t *sheet; /* of a recording that is not there yet */
    size_t sheet_len;
} recorder;

/* Opens and locks a recording; plays it, and mends what a kill left of it and of its card, which is open. The lock comes before the
 * card's: who records holds it until he ends, and the card's for a tap at a time. */
complaint recorder_open(recorder *to, const char *path);
complaint recorder_go_on(recorder *to, card *c);

/* Begins one, in a file that is not there: it is made with the first line. */
complaint recorder_begin(recorder *to, const char *path, const uint8_t *sheet, size_t length);

/* A recording that was begun and has no tap is its sheet alone. */
complaint recorder_end(recorder *to);
void recorder_close(recorder *to);

/* A complaint where this is not the card that stands at the end of the recording. */
complaint recorder_is_at(const recorder *to, const uint8_t *image);

/* A complaint where a tap's line cannot be the one of this number. */
complaint recorder_takes(const tap *t, uint32_t number);

/* Writes a tap's line; takes it back, where the card could not be stored. */
complaint recorder_write(recorder *to, const tap *t);
void recorder_take_back(recorder *to);

#endif
