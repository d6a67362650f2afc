/* Images, value by value. */
#include "changes.h"

#include <string.h>

#include "image.h"
#include "json.h"
#include "response.h"
#include "saying.h"

/* The lines of changes stand below the response's, under this mark. */
#define MARK "card"
#define NAME_WIDTH 26

static int is_same(const image_value *one, const image_value *other)
{
    return one->length == other->length && memcmp(one->bytes, other->bytes, one->length) == 0;
}

static void print_number(FILE *out, const image_value *was, const image_value *is)
{
    value_put(out, was->form, was->bytes, was->length, 0);
    fputs(" -> ", out);
    value_put(out, is->form, is->bytes, is->length, 0);
}

/* Its content would fill the screen, and stands in the request or the response in any case. */
static void print_block(FILE *out, const image_value *was, const image_value *is)
{
    value_put_length(out, was->length);
    fputs(" -> ", out);
    if (was->length == is->length)
        fprintf(out, "%zu other%s", is->length, is->length == 1 ? "" : "s");
    else
        value_put_length(out, is->length);
}

void changes_print(FILE *out, const uint8_t *before, const uint8_t *after)
{
    for (practice_view_name name = 0; name < PRACTICE_VIEW_VALUES; name++) {
        image_value was = image_get(before, name), is = image_get(after, name);
        if (is_same(&was, &is))
            continue;
        response_start(out, MARK, is.name);
        if (value_is_number(is.form, is.length))
            print_number(out, &was, &is);
        else
            print_block(out, &was, &is);
        fputc('\n', out);
    }
}

/* ---- as JSON ---- */

typedef void (*put)(FILE *out, const image_value *value);

/* Blocks are hex here, text or not, so that nobody has to guess. */
static void put_json(FILE *out, const image_value *value)
{
    json_value(out, value->form == VALUE_DATA ? VALUE_BYTES : value->form, value->bytes, value->length);
}

static void put_text(FILE *out, const image_value *value)
{
    size_t length;
    value_put(saying_start(), value->form, value->bytes, value->length, 0);
    const char *text = saying_end(&length);
    json_lines(out, text, length);
}

static void put_name(FILE *out, int *first, const char *name)
{
    fputs(*first ? "" : ",", out);
    *first = 0;
    json_string(out, name);
    fputc(':', out);
}

static void put_changes(FILE *out, const uint8_t *before, const uint8_t *after, put one)
{
    int first = 1;
    fputc('{', out);
    for (practice_view_name name = 0; name < PRACTICE_VIEW_VALUES; name++) {
        image_value was = image_get(before, name), is = image_get(after, name);
        if (is_same(&was, &is))
            continue;
        put_name(out, &first, is.name);
        fputc('[', out);
        one(out, &was);
        fputc(',', out);
        one(out, &is);
        fputc(']', out);
    }
    fputc('}', out);
}

void changes_json(FILE *out, const uint8_t *before, const uint8_t *after)
{
    put_changes(out, before, after, put_json);
}

void changes_texts(FILE *out, const uint8_t *before, const uint8_t *after)
{
    put_changes(out, before, after, put_text);
}

static void put_values(FILE *out, const uint8_t *image, put one)
{
    int first = 1;
    fputc('{', out);
    for (practice_view_name name = 0; name < PRACTICE_VIEW_VALUES; name++) {
        image_value value = image_get(image, name);
        put_name(out, &first, value.name);
        one(out, &value);
    }
    fputc('}', out);
}

void values_json(FILE *out, const uint8_t *image)
{
    put_values(out, image, put_json);
    fputc('\n', out);
}

void values_texts(FILE *out, const uint8_t *image)
{
    put_values(out, image, put_text);
}

/* ---- all values, as lines ---- */

void values_print(FILE *out, const uint8_t *image)
{
    for (practice_view_name name = 0; name < PRACTICE_VIEW_VALUES; name++) {
        image_value value = image_get(image, name);
        fprintf(out, "%-*s", NAME_WIDTH, value.name);
        value_print(out, value.form, value.bytes, value.length, NAME_WIDTH);
    }
}
