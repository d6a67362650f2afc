/* The values of a card, and those of them that a tap changed. */
#ifndef CHANGES_H
#define CHANGES_H

#include <stdint.h>
#include <stdio.h>

/* A line for each value that is another now: counters and states before and after; of blocks and codes only how long they are. */
void changes_print(FILE *out, const uint8_t *before, const uint8_t *after);

/* The same as an object: by name, a list of the value before and the one after; as docs/JSON.md has them, or as the texts of values_print. */
void changes_json(FILE *out, const uint8_t *before, const uint8_t *after);
void changes_texts(FILE *out, const uint8_t *before, const uint8_t *after);

/* All values: a line for each; as an object on a line; as an object of the same texts. */
void values_print(FILE *out, const uint8_t *image);
void values_json(FILE *out, const uint8_t *image);
void values_texts(FILE *out, const uint8_t *image);

#endif
