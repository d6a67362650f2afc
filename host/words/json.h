/* JSON, as docs/JSON.md says: valid whatever bytes a card holds. */
#ifndef JSON_H
#define JSON_H

#include <stddef.h>
#include <stdint.h>
#include <stdio.h>

#include "values.h"

/* A string; null where the text is NULL, or a name that is not known. The text is one that shows. */
void json_string(FILE *out, const char *text);
void json_hex(FILE *out, const uint8_t *bytes, size_t length);

/* A string, whatever it says, of lines that show. */
void json_lines(FILE *out, const char *text, size_t length);

/* A member that is not its object's first: a comma, the name, and the value as above. */
void json_member(FILE *out, const char *name);
void json_member_string(FILE *out, const char *name, const char *text);
void json_member_hex(FILE *out, const char *name, const uint8_t *bytes, size_t length);

/* A number, a flag's true or false, text where it shows, else hex. */
void json_value(FILE *out, value_form form, const uint8_t *bytes, size_t length);

/* The fields of a response, as a list. */
void json_fields(FILE *out, const uint8_t *bytes, size_t length);

#endif
