/* A response in words, and the columns that stand below a tap: a mark, a name, a value. */
#ifndef RESPONSE_H
#define RESPONSE_H

#include <stddef.h>
#include <stdint.h>
#include <stdio.h>

/* Where values stand in a line. */
#define RESPONSE_INDENT 35

/* The start of a line, up to its value. */
void response_start(FILE *out, const char *mark, const char *name);

/* A line for each field and one for the status word. The request is that which was answered; it may be empty. */
void response_print(FILE *out, const uint8_t *request, size_t request_len, const uint8_t *response, size_t response_len);

/* The line below a refusal's status word: which check it was. No response has it in its bytes. */
void response_print_check(FILE *out, uint8_t reason);

#endif
