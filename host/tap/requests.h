/* Requests made from words, so that a person can tap by hand: the codes and the CID come from the card itself. */
#ifndef REQUESTS_H
#define REQUESTS_H

#include <stddef.h>
#include <stdint.h>
#include <stdio.h>

#include "complaint.h"
#include "seed.h"

/* Above the card's own limit of 1,024, so that a lesson may go past it. */
#define REQUEST_ROOM 4096

typedef struct {
    uint8_t bytes[REQUEST_ROOM];
    size_t length;
} request;

/* What a request is made from. */
typedef struct {
    const uint8_t *image;
    const uint8_t *draw; /* a challenge that is not given is the SHA-256 of this: one draw, one tap */
    seed keys; /* the issuer's among them, for notes and confirmations */
    const char *pin1, *pin2, *cvc; /* sent instead of the card's own where not NULL; a PIN is hashed first */
} request_source;

/* The request of one word with its operands, as `sign HASH HASH`, or of one operand in hex. */
complaint request_make(const request_source *from, size_t count, char *const *words, request *made);

/* Whether a request may begin with this word. Anything else has to be hex. */
int request_is_word(const char *word);

/* Whether the practice issuer signs what this word sends, so that making its request uses the seed's keys. */
int request_is_issued(const char *word);

/* The word that sends nothing, but takes the card's power away. Its request has no bytes. */
#define REQUEST_POWER_OFF "power-off"
int request_is_power_off(const char *word);

/* The words that there are, a line each. */
void request_help(FILE *out);

#endif
