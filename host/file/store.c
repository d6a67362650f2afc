/* The card file on the disk. */
#define _GNU_SOURCE
#include "store.h"

#include <errno.h>
#include <fcntl.h>
#include <stdlib.h>
#include <string.h>
#include <sys/file.h>
#include <sys/stat.h>
#include <time.h>
#include <unistd.h>

#include "whole.h"

#define PAUSE_MS 10

int store_patience = 10;

static complaint because(const char *what)
{
    return complain("%s: %s", what, strerror(errno));
}

char *store_beside(const char *path, const char *ending)
{
    char *name = malloc(strlen(path) + strlen(ending) + 1);
    if (name)
        strcat(strcpy(name, path), ending);
    return name;
}

/* ---- the lock ---- */

static long now_ms(void)
{
    struct timespec now;
    clock_gettime(CLOCK_MONOTONIC, &now);
    return now.tv_sec * 1000L + now.tv_nsec / 1000000L;
}

/* Another process may be in the middle of its tap, which takes milliseconds: so some seconds are waited before giving up, by the clock,
 * since on a busy machine each pause is longer than it was meant to be. */
complaint store_lock(int file)
{
    const struct timespec pause = {0, PAUSE_MS * 1000000L};
    for (long until = now_ms() + store_patience * 1000L; flock(file, LOCK_EX | LOCK_NB) != 0; nanosleep(&pause, NULL)) {
        if (errno != EWOULDBLOCK && errno != EINTR)
            return because("cannot be locked");
        if (now_ms() >= until)
            return complain("is in use by another process");
    }
    return NULL;
}

/* Opened for reading, which is enough to lock, so that all who may write the card can. One that is there is not opened with O_CREAT:
 * in a folder as /tmp Linux then refuses another user's file. */
static int open_lock(const char *name)
{
    for (;;) {
        int lock = open(name, O_RDONLY | O_NOFOLLOW | O_NONBLOCK | O_CLOEXEC);
        if (lock >= 0 || errno != ENOENT)
            return lock;
        lock = open(name, O_RDONLY | O_CREAT | O_EXCL | O_CLOEXEC, 0644);
        if (lock >= 0)
            fchmod(lock, 0644); /* whatever the user's umask: who may write the card may not be he */
        if (lock >= 0 || errno != EEXIST)
            return lock;
    }
}

static complaint take_lock(store *card)
{
    char *name = store_beside(card->path, ".lock");
    card->lock = name ? open_lock(name) : -1;
    free(name);
    if (card->lock < 0)
        return because("cannot make the lock file beside it");
    complaint wrong = store_lock(card->lock);
    if (wrong)
        close(card->lock);
    return wrong;
}

static complaint is_not_there(const char *path)
{
    struct stat there;
    return lstat(path, &there) == 0 ? complain("exists already, and is left as it is") : NULL;
}

static complaint open_as(store *card, char *path)
{
    card->path = path;
    complaint wrong = take_lock(card);
    if (wrong)
        free(path);
    return wrong;
}

complaint store_open(store *card, const char *path, complaint (*is_card)(const char *))
{
    char *real = realpath(path, NULL), *lock = real ? store_beside(real, ".lock") : NULL;
    complaint wrong = !lock ? because("cannot be opened") : access(lock, F_OK) != 0 ? is_card(real) : NULL;
    free(lock);
    if (!wrong)
        return open_as(card, real);
    free(real);
    return wrong;
}

/* What is there already gets no lock beside it; and another process may make it while the lock is waited for. */
complaint store_open_new(store *card, const char *path)
{
    complaint wrong = is_not_there(path);
    char *copy = wrong ? NULL : strdup(path);
    if (!wrong)
        wrong = copy ? open_as(card, copy) : because("no memory");
    if (!wrong && (wrong = is_not_there(path)))
        store_close(card);
    return wrong;
}

void store_close(store *card)
{
    close(card->lock);
    free(card->path);
}

/* ---- reading ---- */

static complaint read_all(int file, uint8_t *bytes, size_t room, size_t *length)
{
    *length = 0;
    for (;;) {
        ssize_t got = read(file, bytes + *length, room - *length);
        if (got < 0 && errno == EINTR)
            continue;
        if (got < 0)
            return because("cannot be read");
        if (got == 0)
            return NULL;
        *length += (size_t)got;
        if (*length == room)
            return complain("has %zu bytes or more, which is too long", room);
    }
}

complaint store_read_file(const char *path, uint8_t *bytes, size_t room, size_t *length)
{
    int file = open(path, O_RDONLY | O_CLOEXEC);
    if (file < 0)
        return because("cannot be opened");
    complaint wrong = read_all(file, bytes, room, length);
    close(file);
    return wrong;
}

/* O_NONBLOCK: a pipe that nobody writes to would be waited for before it could be refused. */
complaint store_open_plain(const char *path, int flags, int *file)
{
    struct stat found;
    *file = open(path, flags | O_NONBLOCK | O_CLOEXEC);
    if (*file < 0 && errno == EISDIR)
        return complain("is no plain file");
    if (*file < 0)
        return because("cannot be opened");
    if (fstat(*file, &found) == 0 && S_ISREG(found.st_mode))
        return NULL;
    close(*file);
    return complain("is no plain file");
}

complaint store_read_plain(const char *path, uint8_t *bytes, size_t room, size_t *length)
{
    int file;
    complaint wrong = store_open_plain(path, O_RDONLY, &file);
    if (wrong)
        return wrong;
    wrong = read_all(file, bytes, room, length);
    close(file);
    return wrong;
}

/* ---- replacing ---- */

complaint store_replace(const store *card, const uint8_t *image, size_t length)
{
    whole_remove_leftovers(card->path);
    return whole_write(card->path, card->path, WHOLE_REPLACE, image, length);
}

complaint store_replace_beside(const store *card, const char *ending, const uint8_t *bytes, size_t length)
{
    char *name = store_beside(card->path, ending);
    whole_remove_leftovers(card->path);
    complaint wrong = name ? whole_write(name, card->path, WHOLE_REPLACE, bytes, length) : because("no memory");
    free(name);
    return wrong ? complain("its %s file: %s", ending + 1, wrong) : NULL;
}
