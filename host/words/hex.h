/* Hex: capital digits out; digits of either case in, with blanks allowed between bytes. */
#ifndef HEX_H
#define HEX_H

#include <stddef.h>
#include <stdint.h>
#include <stdio.h>

#include "complaint.h"

/* Reads all of the text. A complaint where it is no hex or takes more than room bytes. */
complaint hex_read(const char *text, uint8_t *bytes, size_t room, size_t *length);

/* As a text of twice the length, and a NUL. */
void hex_write(char *text, const uint8_t *bytes, size_t length);
void hex_print(FILE *out, const uint8_t *bytes, size_t length);

/* Whether the text is nothing but the hex of these bytes. */
int hex_is(const char *text, size_t text_len, const uint8_t *bytes, size_t length);

/* Whether the text has hex digits and blanks alone, at least one digit. */
int hex_looks(const char *text);

#endif
