/* The page of a message taken apart: a line, or an object, for each part with its first byte's place, or for what is wrong there. */
#ifndef PAGE_H
#define PAGE_H

#include "explain.h"
#include "fields.h"
#include "values.h"

typedef struct {
    FILE *out;
    explain_form form;
    message m;
    int parts; /* how many stand on it */
} page;

page page_start(FILE *out, explain_form form, const char *kind, message m);
void page_end(const page *p);

/* A part that is no field, so many bytes from this place on; text is printed as it is. */
void page_part(page *p, size_t at, size_t length, const char *name, const char *format, ...) __attribute__((format(printf, 5, 6)));
void page_value(page *p, size_t at, size_t length, const char *name, value_form form);

/* A part that is not whole. No line is for it: what is wrong with it has one. As JSON every byte stands in a part. */
void page_torn(page *p, size_t at, size_t length, const char *name);

void page_wrong(page *p, size_t at, const char *format, ...) __attribute__((format(printf, 3, 4)));

/* The fields of so many bytes from this place on: of this request, or, where it is empty, of a response. */
void page_fields(page *p, size_t at, size_t length, message request);

#endif
