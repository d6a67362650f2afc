/* What this is: the project's name, and the version that the file VERSION has. */
#ifndef VERSION_H
#define VERSION_H

#include <stdio.h>

/* "tap, of Merelstof 0.1: .." and a line feed. */
void version_print(FILE *out, const char *program);

#endif
