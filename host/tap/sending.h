/* Taps one after the other: `tap send` and `tap record`. */
#ifndef SENDING_H
#define SENDING_H

#include <stddef.h>

#include "complaint.h"
#include "seed.h"

typedef struct {
    seed keys;
    const char *pin1, *pin2, *cvc;
    int wait;     /* send the same bytes until the card goes on */
    int hex_only; /* print the response alone */
    int json;     /* print each tap as an object */
} settings;

/* Sends each request to the card file, and prints each response. With no argument the requests are the lines of standard input. */
complaint send_requests(const settings *set, const char *card, size_t count, char **arguments);

/* From a sheet: a recording of each tap on the fresh card, in a file that was not there.
 * From a card file: each request is sent to it, and its tap's line is put at the end of its recording. */
complaint record_requests(const settings *set, const char *from, const char *file, size_t count, char **arguments);

#endif
