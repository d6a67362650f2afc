/* Messages taken apart byte by byte, without a card: what each part is, and what is wrong with it and where. */
#ifndef EXPLAIN_H
#define EXPLAIN_H

#include <stddef.h>
#include <stdint.h>
#include <stdio.h>

typedef struct {
    const uint8_t *bytes;
    size_t length;
} message;

typedef enum { EXPLAIN_UNKNOWN, EXPLAIN_REQUEST, EXPLAIN_RESPONSE, EXPLAIN_QUESTIONS } explain_kind;

/* A request or a response, where the bytes tell. */
explain_kind explain_guess(message m);

/* As lines for a person, as a JSON object on a line of its own, or as the list of its parts alone (docs/JSON.md). */
typedef enum { EXPLAIN_LINES, EXPLAIN_OBJECT, EXPLAIN_LIST } explain_form;

void explain_request(FILE *out, explain_form form, message m);

/* The request is that which was answered; it may be empty. */
void explain_response(FILE *out, explain_form form, message request, message m);

/* What practice_ask wrote for the provider. */
void explain_questions(FILE *out, explain_form form, message m);

/* The first of these questions; empty where the bytes end inside it. */
message explain_question(message m);

/* The bytes of a request that are fields, whole or not. */
message explain_payload(message m);

#endif
