/* `tap explain`. */
#ifndef EXPLAINING_H
#define EXPLAINING_H

#include "complaint.h"
#include "explain.h"

/* Each message in hex taken apart; what each is, it says by itself where the kind is EXPLAIN_UNKNOWN. */
complaint explain_messages(explain_kind kind, explain_form form, size_t count, char **messages);

#endif
