/* The lines of a message taken apart, or its parts as JSON. */
#include "page.h"

#include <stdarg.h>

#include "hex.h"
#include "json.h"
#include "saying.h"
#include "words.h"

#define INDENT 47

/* A part: where it starts, and how many bytes its value has. A field has a tag, and before its value a head of tag and length. */
typedef struct {
    size_t at, head, length;
    const char *name;
    int is_field;
} part;

static int is_lines(const page *p)
{
    return p->form == EXPLAIN_LINES;
}

static message value_of(const page *p, const part *one)
{
    return (message){p->m.bytes + one->at + one->head, one->length};
}

page page_start(FILE *out, explain_form form, const char *kind, message m)
{
    if (form == EXPLAIN_LINES)
        fprintf(out, "%s of %zu byte%s\n", kind, m.length, m.length == 1 ? "" : "s");
    if (form == EXPLAIN_LINES && m.length > 0)
        fprintf(out, "  byte  tag  length  %-24s  value\n", "name");
    if (form == EXPLAIN_OBJECT)
        fprintf(out, "{\"kind\":\"%s\",\"length\":%zu,\"parts\":", kind, m.length);
    fputs(form == EXPLAIN_LINES ? "" : "[", out);
    return (page){out, form, m, 0};
}

void page_end(const page *p)
{
    static const char *const ends[] = {[EXPLAIN_LINES] = "", [EXPLAIN_OBJECT] = "]}\n", [EXPLAIN_LIST] = "]"};
    fputs(ends[p->form], p->out);
}

/* ---- one part ---- */

static void start_line(const page *p, const part *one)
{
    char tag[3] = "", length[24] = "";
    if (one->is_field) {
        snprintf(tag, sizeof tag, "%02X", p->m.bytes[one->at]);
        snprintf(length, sizeof length, "%zu", one->length);
    }
    fprintf(p->out, "%6zu  %-3s  %6s  %-24s  ", one->at, tag, length, one->name);
}

static void start_object(page *p, size_t at)
{
    fprintf(p->out, "%s{\"at\":%zu", p->parts++ ? "," : "", at);
}

static void put_bytes(page *p, const part *one)
{
    message value = value_of(p, one);
    start_object(p, one->at);
    json_member_string(p->out, "name", one->name);
    if (one->is_field)
        json_member_hex(p->out, "tag", p->m.bytes + one->at, 1);
    if (one->head > 0)
        json_member_hex(p->out, "head", p->m.bytes + one->at, one->head);
    json_member_hex(p->out, "hex", value.bytes, value.length);
}

static void put_torn(page *p, const part *one)
{
    if (is_lines(p))
        return;
    put_bytes(p, one);
    fputc('}', p->out);
}

/* Where the words of a part go, until they are ended. */
static FILE *start_words(page *p, const part *one)
{
    if (is_lines(p)) {
        start_line(p, one);
        return p->out;
    }
    put_bytes(p, one);
    return saying_start();
}

/* As JSON the words stand under this name, but where they only repeat the hex of these bytes. */
static void end_words(page *p, const char *name, message unless)
{
    size_t length;
    if (is_lines(p)) {
        fputc('\n', p->out);
        return;
    }
    const char *text = saying_end(&length);
    if (!hex_is(text, length, unless.bytes, unless.length)) {
        json_member(p->out, name);
        json_lines(p->out, text, length);
    }
    fputc('}', p->out);
}

static void put_value(page *p, const part *one, value_form form)
{
    message value = value_of(p, one);
    value_put(start_words(p, one), form, value.bytes, value.length, is_lines(p) ? INDENT : 0);
    end_words(p, "text", value);
}

void page_part(page *p, size_t at, size_t length, const char *name, const char *format, ...)
{
    part one = {at, 0, length, name, 0};
    va_list arguments;
    va_start(arguments, format);
    vfprintf(start_words(p, &one), format, arguments);
    va_end(arguments);
    end_words(p, "text", value_of(p, &one));
}

void page_value(page *p, size_t at, size_t length, const char *name, value_form form)
{
    put_value(p, &(part){at, 0, length, name, 0}, form);
}

void page_torn(page *p, size_t at, size_t length, const char *name)
{
    put_torn(p, &(part){at, 0, length, name, 0});
}

void page_wrong(page *p, size_t at, const char *format, ...)
{
    va_list arguments;
    if (is_lines(p))
        fprintf(p->out, "%6zu  wrong: ", at);
    else
        start_object(p, at);
    va_start(arguments, format);
    vfprintf(is_lines(p) ? p->out : saying_start(), format, arguments);
    va_end(arguments);
    end_words(p, "wrong", (message){NULL, 0});
}

/* ---- fields ---- */

static void put_lengths(const words_field *row, char *text, size_t room)
{
    if (row->least == row->most)
        snprintf(text, room, "%u", row->least);
    else if (row->least + row->step == row->most)
        snprintf(text, room, "%u or %u", row->least, row->most);
    else if (row->step > 1)
        snprintf(text, room, "%u to %u in steps of %u", row->least, row->most, row->step);
    else
        snprintf(text, room, "%u to %u", row->least, row->most);
}

static void put_field(page *p, size_t at, const field *one)
{
    words_field row = words_field_of(one->tag);
    char lengths[40];
    put_value(p, &(part){at, (size_t)(one->value - p->m.bytes) - at, one->length, row.name, 1}, row.form);
    put_lengths(&row, lengths, sizeof lengths);
    if (!words_fits(&row, one->length))
        page_wrong(p, at, "the length of %s is %zu, and has to be %s", row.name, one->length, lengths);
}

/* A response has every tag once, and a request those that its command reads. */
static int may_repeat(message request, uint8_t tag)
{
    return request.length > 0 && !words_reads(request.bytes, request.length, tag);
}

void page_fields(page *p, size_t at, size_t length, message request)
{
    const char *word = request.length > 0 ? " (6A86)" : "";
    field_walk walk = {p->m.bytes + at, length, 0};
    field one;
    field_step step;
    uint8_t seen[256] = {0};
    while ((step = field_next(&walk, &one)) == FIELD_FOUND) {
        put_field(p, at + one.at, &one);
        if (seen[one.tag] && !may_repeat(request, one.tag))
            page_wrong(p, at + one.at, "tag %02X stands here again, and may not%s", one.tag, word);
        seen[one.tag] = 1;
    }
    if (step == FIELD_TORN) {
        const char *name = words_field_of(one.tag).name;
        put_torn(p, &(part){at + one.at, 0, length - one.at, name, 1});
        page_wrong(p, at + one.at, "the bytes end inside field %02X, %s%s", one.tag, name, word);
    }
}
