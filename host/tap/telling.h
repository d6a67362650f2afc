/* `tap told`: a play told tap by tap. */
#ifndef TELLING_H
#define TELLING_H

#include "complaint.h"
#include "sending.h"

/* Reads on standard input what the proved player printed of the recording, and tells each tap, why a line is bad, and the sums.
 *
 * The verdicts are the player's. The card's values are found by playing again with the library; a complaint where that gives another
 * response than the player printed. */
complaint tell_play(const settings *set, const char *recording);

#endif
