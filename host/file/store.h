/* The card file: exactly the image, replaced whole or not at all (whole.h).
 *
 * CARD.lock is held from reading to replacing, so that no second process taps the same card meanwhile. It stays beside the card, and has
 * nothing in it. */
#ifndef STORE_H
#define STORE_H

#include <stddef.h>
#include <stdint.h>

#include "complaint.h"

typedef struct {
    char *path; /* without symbolic links, so that one card has one lock */
    int lock;
} store;

/* How many seconds a lock is waited for; a program may say otherwise. */
extern int store_patience;

/* Waits for the lock. Where there is none yet it is made, but only beside what is a card. After a complaint nothing is held. */
complaint store_open(store *card, const char *path, complaint (*is_card)(const char *path));
/* The same for a card file that is to be made: a complaint where there is one. */
complaint store_open_new(store *card, const char *path);
void store_close(store *card);

/* The card, or CARD.ending beside it with the card's rights. */
complaint store_replace(const store *card, const uint8_t *image, size_t length);
complaint store_replace_beside(const store *card, const char *ending, const uint8_t *bytes, size_t length);

/* The name CARD.ending, to be freed. */
char *store_beside(const char *path, const char *ending);

/* Waits for the lock of an open file. */
complaint store_lock(int file);

/* The whole of a file, as a sheet; of a plain file, as a card: a pipe would keep its reader waiting. */
complaint store_read_file(const char *path, uint8_t *bytes, size_t room, size_t *length);
complaint store_read_plain(const char *path, uint8_t *bytes, size_t room, size_t *length);

/* Opens a plain file that is there, with flags of open(). */
complaint store_open_plain(const char *path, int flags, int *file);

#endif
