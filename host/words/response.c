/* Responses in words. */
#include "response.h"

#include "fields.h"
#include "values.h"
#include "words.h"

#define STATUS_WORD 2

void response_start(FILE *out, const char *mark, const char *name)
{
    fprintf(out, "   %-4s  %-24s  ", mark, name);
}

static void print_field(FILE *out, const field *one)
{
    words_field row = words_field_of(one->tag);
    char mark[3];
    snprintf(mark, sizeof mark, "%02X", one->tag);
    response_start(out, mark, row.name);
    value_print(out, row.form, one->value, one->length, RESPONSE_INDENT);
}

static void print_status(FILE *out, words_status row)
{
    char mark[5];
    snprintf(mark, sizeof mark, "%04X", row.word);
    response_start(out, mark, row.name);
    fprintf(out, "%s\n", row.meaning);
}

void response_print(FILE *out, const uint8_t *request, size_t request_len, const uint8_t *response, size_t response_len)
{
    if (response_len < STATUS_WORD) {
        fputs("   the response ends before its status word\n", out);
        return;
    }
    size_t end = response_len - STATUS_WORD;
    field_walk walk = {response, end, 0};
    field one;
    field_step step;
    while ((step = field_next(&walk, &one)) == FIELD_FOUND)
        print_field(out, &one);
    if (step == FIELD_TORN)
        fputs("   the response ends inside a field\n", out);
    print_status(out, words_status_of((uint16_t)value_number(response + end, STATUS_WORD), request, request_len));
}

void response_print_check(FILE *out, uint8_t reason)
{
    char name[10];
    snprintf(name, sizeof name, "check %u", reason);
    response_start(out, "", name);
    fprintf(out, "%s\n", words_reason(reason));
}
