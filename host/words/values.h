/* How a value is shown to a person: a card's in `tap show`, a field's in `tap send`. */
#ifndef VALUES_H
#define VALUES_H

#include <stddef.h>
#include <stdint.h>
#include <stdio.h>

typedef enum {
    VALUE_BYTES,
    VALUE_CODE,   /* a PIN as stored: hashed */
    VALUE_NUMBER, /* big-endian */
    VALUE_TEXT,
    VALUE_DATA, /* text where it can be printed, else hex */
    VALUE_FLAG,
    VALUE_STATUS,
    VALUE_CURVE,
    VALUE_SECONDS,
    VALUE_PAUSE, /* in units of 10 ms */
    VALUE_SIGNATURES,
    VALUE_HASHES,
    VALUE_REQUEST
} value_form;

uint32_t value_number(const uint8_t *bytes, size_t length);

/* Whether a value of this form and length is a number: a counter, a code for something, a flag. */
int value_is_number(value_form form, size_t length);

/* The name of a number that stands for something, or NULL where it stands for itself. It stands until the next call. */
const char *value_meaning(value_form form, uint32_t number);

/* Prints the value. One of several lines starts the later ones with indent blanks. */
void value_put(FILE *out, value_form form, const uint8_t *bytes, size_t length, int indent);

/* The same, and a line feed. */
void value_print(FILE *out, value_form form, const uint8_t *bytes, size_t length, int indent);

/* "none", "1 byte", "20 bytes". */
void value_put_length(FILE *out, size_t length);

#endif
