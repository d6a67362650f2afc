/* Files written whole or not at all.
 *
 * What is new is written beside the old to a file of its own name, .FILE.new-XXXXXX, made for this and never through a link; it is
 * brought to the disk and then given its name in one step. A lost power or a killed process leaves the old or the new. */
#ifndef WHOLE_H
#define WHOLE_H

#include <stddef.h>
#include <stdint.h>

#include "complaint.h"

typedef enum { WHOLE_NEW, WHOLE_REPLACE } whole_how;

/* Writes the file of a path. With WHOLE_NEW it may not be there.
 *
 * It gets the owner, group and rights of `like`, where that is there, and the new file is called after it. Only root may give a file
 * away: in another user's hands a replaced file becomes his own, with the rights that it had, and he is told so in a line on standard
 * error. */
complaint whole_write(const char *path, const char *like, whole_how how, const uint8_t *bytes, size_t length);

/* Removes what killed processes left of new files called after this one. No other process may be writing one: hold its lock. */
void whole_remove_leftovers(const char *path);

/* Writes at the end of an open file, and brings it to the disk; 0 where not all of it could be done, with errno set. */
int whole_append(int file, const uint8_t *bytes, size_t length);

#endif
