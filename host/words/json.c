/* JSON written out: strings, values, fields. */
#include "json.h"

#include <string.h>

#include "fields.h"
#include "hex.h"
#include "text.h"
#include "words.h"

/* Text that shows is UTF-8 without control characters, and between its lines are line feeds: three characters alone need an escape. */
void json_lines(FILE *out, const char *text, size_t length)
{
    fputc('"', out);
    for (size_t at = 0; at < length; at++) {
        if (text[at] == '"' || text[at] == '\\' || text[at] == '\n')
            fputc('\\', out);
        fputc(text[at] == '\n' ? 'n' : text[at], out);
    }
    fputc('"', out);
}

void json_string(FILE *out, const char *text)
{
    if (!text || strcmp(text, WORDS_UNKNOWN) == 0)
        fputs("null", out);
    else
        json_lines(out, text, strlen(text));
}

void json_hex(FILE *out, const uint8_t *bytes, size_t length)
{
    fputc('"', out);
    hex_print(out, bytes, length);
    fputc('"', out);
}

void json_member(FILE *out, const char *name)
{
    fprintf(out, ",\"%s\":", name);
}

void json_member_string(FILE *out, const char *name, const char *text)
{
    json_member(out, name);
    json_string(out, text);
}

void json_member_hex(FILE *out, const char *name, const uint8_t *bytes, size_t length)
{
    json_member(out, name);
    json_hex(out, bytes, length);
}

void json_value(FILE *out, value_form form, const uint8_t *bytes, size_t length)
{
    uint32_t number = value_number(bytes, length);
    if (value_is_number(form, length) && form == VALUE_FLAG && number < 2)
        fputs(number ? "true" : "false", out);
    else if (value_is_number(form, length))
        fprintf(out, "%u", number);
    else if ((form == VALUE_TEXT || form == VALUE_DATA) && text_shows(bytes, length))
        json_lines(out, (const char *)bytes, length);
    else
        json_hex(out, bytes, length);
}

static void put_field(FILE *out, const field *one)
{
    words_field row = words_field_of(one->tag);
    const char *meaning = value_is_number(row.form, one->length) ? value_meaning(row.form, value_number(one->value, one->length)) : NULL;
    fprintf(out, "{\"tag\":\"%02X\"", one->tag);
    json_member_string(out, "name", row.name);
    json_member_hex(out, "hex", one->value, one->length);
    json_member(out, "value");
    json_value(out, row.form, one->value, one->length);
    if (meaning)
        json_member_string(out, "meaning", meaning);
    fputc('}', out);
}

void json_fields(FILE *out, const uint8_t *bytes, size_t length)
{
    field_walk walk = {bytes, length, 0};
    field one;
    fputc('[', out);
    for (int first = 1; field_next(&walk, &one) == FIELD_FOUND; first = 0) {
        fputs(first ? "" : ",", out);
        put_field(out, &one);
    }
    fputc(']', out);
}
