/* The options of tap, which may stand before or after any operand; -- ends them. */
#ifndef OPTIONS_H
#define OPTIONS_H

#include <stdio.h>

#include "complaint.h"
#include "explain.h"
#include "sending.h"

/* An option's letter, by which a command says that it takes it. */
#define OPTION_SEED "s"
#define OPTION_CODES "12c"
#define OPTION_WAIT "w"
#define OPTION_HEX "x"
#define OPTION_JSON "j"
#define OPTION_KINDS "qrk"

typedef struct {
    settings set;
    explain_kind kind; /* what `tap explain` is to take its messages for */
    int help, version;
    char given[16]; /* the letters of those that were given */
} options;

/* Reads the options among the arguments and leaves the operands alone in them, so many as count then says. */
complaint options_read(int *count, char **arguments, options *read);

/* The first given option that is not among these letters, or NULL. */
const char *options_beside(const options *read, const char *letters);

/* A line or two for each of these letters, and for those that every command takes. */
void options_help(FILE *out, const char *letters);

#endif
