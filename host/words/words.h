/* Names: of commands, fields, status words and reasons. */
#ifndef WORDS_H
#define WORDS_H

#include <stddef.h>
#include <stdint.h>

#include "values.h"

/* What stands for a name that is not known. */
#define WORDS_UNKNOWN "?"

/* The command of a request, or "?" where it has none that is known. */
const char *words_command(const uint8_t *request, size_t length);

/* Whether the command of this request reads this tag, which may then not stand twice. */
int words_reads(const uint8_t *request, size_t length, uint8_t tag);

/* A field by its tag. Its length is right where it is least, or more than that by whole steps, up to most. */
typedef struct {
    uint8_t tag;
    const char *name;
    value_form form;
    uint16_t least, most, step;
} words_field;

/* Of a tag that is not known the name is "?", and any length is right. */
words_field words_field_of(uint8_t tag);
int words_fits(const words_field *row, size_t length);

typedef struct {
    uint16_t word;
    const char *name, *meaning;
} words_status;

/* The request is looked at because 9000 after SET_PIN has a name of its own; it may be empty. */
words_status words_status_of(uint16_t word, const uint8_t *request, size_t request_len);

/* What the check of this number refuses, in words; "?" where there is no such check. */
const char *words_reason(uint8_t reason);

#endif
