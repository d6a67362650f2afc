/* Messages of a command line taken apart. */
#include "explaining.h"

#include <string.h>

#include "hex.h"
#include "requests.h"

typedef struct {
    uint8_t bytes[REQUEST_ROOM];
    message m;
    explain_kind kind;
} operand;

static complaint read_message(const char *text, explain_kind kind, operand *read)
{
    complaint wrong = hex_read(text, read->bytes, sizeof read->bytes, &read->m.length);
    if (wrong)
        return complain("the message %.20s%s: %s", text, strlen(text) > 20 ? ".." : "", wrong);
    read->m.bytes = read->bytes;
    read->kind = kind != EXPLAIN_UNKNOWN ? kind : explain_guess(read->m);
    if (read->kind == EXPLAIN_UNKNOWN)
        return complain("'%.20s%s' may be a request or a response: --request or --response says which", text, strlen(text) > 20 ? ".." : "");
    return NULL;
}

/* A response is read in the light of the request before it: 9000 has another name after SET_PIN. */
static void explain_one(explain_form form, const operand *one, message request)
{
    switch (one->kind) {
    case EXPLAIN_RESPONSE: explain_response(stdout, form, request, one->m); break;
    case EXPLAIN_QUESTIONS: explain_questions(stdout, form, one->m); break;
    default: explain_request(stdout, form, one->m);
    }
}

/* All are read before the first is shown, so that wrong input prints nothing. */
complaint explain_messages(explain_kind kind, explain_form form, size_t count, char **messages)
{
    static operand one, before;
    message request = {before.bytes, 0};
    for (size_t at = 0; at < count; at++) {
        complaint wrong = read_message(messages[at], kind, &one);
        if (wrong)
            return wrong;
    }
    for (size_t at = 0; at < count; at++) {
        read_message(messages[at], kind, &one);
        fputs(at > 0 && form == EXPLAIN_LINES ? "\n" : "", stdout);
        explain_one(form, &one, request);
        before = one;
        request.length = one.kind == EXPLAIN_REQUEST ? one.m.length : 0;
    }
    return NULL;
}
