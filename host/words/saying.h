/* Text that is put together on a stream before it is shown: as a string of JSON, or not at all. */
#ifndef SAYING_H
#define SAYING_H

#include <stddef.h>
#include <stdio.h>

/* An empty stream. There is one, so that a text ends before the next starts. */
FILE *saying_start(void);

/* What was printed on it: length bytes, which stand until the next start. */
const char *saying_end(size_t *length);

#endif
