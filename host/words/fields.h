/* The walk over fields: tag, length, value, as payloads and responses have them. */
#ifndef FIELDS_H
#define FIELDS_H

#include <stddef.h>
#include <stdint.h>

typedef struct {
    const uint8_t *bytes;
    size_t length, at;
} field_walk;

typedef struct {
    size_t at; /* where its tag stands */
    uint8_t tag;
    const uint8_t *value;
    size_t length;
} field;

typedef enum { FIELD_END, FIELD_FOUND, FIELD_TORN } field_step;

/* The next field. Torn where the bytes end inside it: found then has at and tag, and the walk stays there. */
field_step field_next(field_walk *walk, field *found);

#endif
