/* Text that may reach a terminal: UTF-8 without anything that moves the cursor, ends a line or turns the direction of reading. */
#ifndef TEXT_H
#define TEXT_H

#include <stddef.h>
#include <stdint.h>

/* Whether there are bytes, and all of them are such text. */
int text_shows(const uint8_t *bytes, size_t length);

/* Puts a question mark in the place of each byte of the line that is none. */
void text_tame(char *line);

#endif
