/* A recording read from its first line to its last, or to a bad one, and its card from tap to tap. */
#ifndef RECORDED_H
#define RECORDED_H

#include <stdint.h>
#include <stdio.h>

#include "complaint.h"
#include "practice.h"
#include "showing.h"
#include "tapline.h"

typedef struct {
    FILE *in;
    recording_line ahead; /* the line behind a sheet of fourteen lines, until it is read as a tap's */
    int is_ahead;
    unsigned lines, taps; /* that have been read */
    int is_card;          /* whether the sheet, or the image in its place, is a card's */
    uint8_t image[PRACTICE_IMAGE_ROOM]; /* the card after the taps that have been made */
    uint32_t bad_line;    /* 0 where none is */
    char why[512];        /* it is bad */
} recorded;

/* Begins with the sheet; or with the image of a card in the sheet's place. */
void recorded_open(recorded *r, FILE *in);
void recorded_open_image(recorded *r, FILE *in);

typedef enum { RECORDED_END, RECORDED_TAP, RECORDED_BAD } recorded_step;

/* The line of the next tap. Behind a bad line nothing is read. */
recorded_step recorded_next(recorded *r, tapline *read);

/* Makes this tap on the card. Answers that do not fit leave no response, and the card as it was. */
complaint recorded_play(recorded *r, const tapline *read, tap *t);

/* The response as a recording has it: in hex, or SHOWING_NONE. */
void recorded_response(const tap *t, char text[2 * PRACTICE_ROOM + 1]);

#endif
