/* A length is one byte up to FE, or FF and two bytes. */
#include "fields.h"

#include "values.h"

#define LONG_FORM 0xFF

field_step field_next(field_walk *walk, field *found)
{
    const uint8_t *bytes = walk->bytes + walk->at;
    size_t left = walk->length - walk->at, header = left >= 2 && bytes[1] == LONG_FORM ? 4 : 2;
    if (left == 0)
        return FIELD_END;
    *found = (field){walk->at, bytes[0], bytes, 0};
    if (left < header)
        return FIELD_TORN;
    found->length = header == 4 ? value_number(bytes + 2, 2) : bytes[1];
    found->value = bytes + header;
    if (left - header < found->length)
        return FIELD_TORN;
    walk->at += header + found->length;
    return FIELD_FOUND;
}
