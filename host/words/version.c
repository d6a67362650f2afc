/* The line of --version. */
#include "version.h"

#include "practice.h"

void version_print(FILE *out, const char *program)
{
    fprintf(out, "%s, of Merelstof " VERSION ": a practice card, whose image has %u bytes\n", program, practice_image_length());
}
