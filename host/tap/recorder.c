/* Lines at the end of a recording. */
#include "recorder.h"

#include <errno.h>
#include <fcntl.h>
#include <stdio.h>
#include <stdlib.h>
#include <string.h>
#include <sys/stat.h>
#include <unistd.h>

#include "hex.h"
#include "image.h"
#include "whole.h"

static complaint because(const recorder *to, const char *what)
{
    return complain("%s: %s: %s", to->path, what, strerror(errno));
}

static int same_image(const uint8_t *one, const uint8_t *other)
{
    return memcmp(one, other, practice_image_length()) == 0;
}

/* ---- what is there ---- */

static complaint open_plain(recorder *to)
{
    complaint wrong = store_open_plain(to->path, O_RDWR | O_APPEND, &to->file);
    if (wrong)
        return complain("%s: %s", to->path, wrong);
    return (wrong = store_lock(to->file)) ? complain("%s: %s", to->path, wrong) : NULL;
}

/* Whether the path still names the file that is open, and this has the length that it was given. */
static int is_as_left(const recorder *to)
{
    struct stat named, open;
    return stat(to->path, &named) == 0 && fstat(to->file, &open) == 0 && named.st_dev == open.st_dev && named.st_ino == open.st_ino &&
           open.st_size == to->so_far.length;
}

static int is_the_card(const recorder *to, const card *c)
{
    struct stat file, image;
    return fstat(to->file, &file) == 0 && stat(c->file.path, &image) == 0 && file.st_dev == image.st_dev && file.st_ino == image.st_ino;
}

complaint recorder_is_at(const recorder *to, const uint8_t *image)
{
    if (same_image(image, to->so_far.image))
        return NULL;
    image_value own = image_get(to->so_far.image, PRACTICE_VIEW_CID), other = image_get(image, PRACTICE_VIEW_CID);
    if (memcmp(own.bytes, other.bytes, own.length) != 0)
        return complain("%s: is the recording of another card", to->path);
    return complain("%s: at its end stands another state of the card, which was tapped outside of it", to->path);
}

/* ---- what a kill left ---- */

static complaint mend_end(recorder *to)
{
    played *p = &to->so_far;
    if (p->end == PLAYED_UNENDED && !whole_append(to->file, (const uint8_t *)"\n", 1))
        return because(to, "its last line cannot be ended");
    p->length += p->end == PLAYED_UNENDED;
    if (p->end == PLAYED_TORN && (ftruncate(to->file, p->length) != 0 || fsync(to->file) != 0))
        return because(to, "its last line cannot be taken away");
    if (p->end == PLAYED_TORN)
        remark("%s: a piece of a last line, of a tap that was not made, is taken away", to->path);
    p->end = PLAYED_WHOLE;
    return NULL;
}

static complaint catch_up(recorder *to, card *c)
{
    const uint8_t *image = to->so_far.image;
    int behind = to->so_far.taps > 0 && !same_image(c->image, image) && same_image(c->image, to->so_far.before);
    complaint wrong = behind ? NULL : recorder_is_at(to, c->image);
    if (!wrong)
        wrong = mend_end(to);
    if (wrong || !behind)
        return wrong;
    if ((wrong = store_replace(&c->file, image, practice_image_length())))
        return complain("the card: %s", wrong);
    memcpy(c->image, image, practice_image_length());
    remark("%s: its last tap had not reached the card, and has now", to->path);
    return NULL;
}

complaint recorder_open(recorder *to, const char *path)
{
    *to = (recorder){.path = path, .file = -1};
    if (access(path, F_OK) != 0 && errno == ENOENT)
        return complain("%s: is not there: a recording begins with its sheet, so copy the card's sheet there first", path);
    return open_plain(to);
}

complaint recorder_go_on(recorder *to, card *c)
{
    if (is_the_card(to, c))
        return complain("%s: is the card itself", to->path);
    complaint wrong = played_file(to->file, &to->so_far);
    return wrong ? complain("%s: %s", to->path, wrong) : catch_up(to, c);
}

/* ---- lines ---- */

complaint recorder_takes(const tap *t, uint32_t number)
{
    size_t length = 2 * (t->sent.length + sizeof t->draw + t->got.answers_len + t->got.response_len) + 3;
    if (length > RECORDING_LINE)
        return complain("the line of tap %u would have %zu bytes; a recording's have at most %d", number, length, RECORDING_LINE);
    return number > RECORDING_TAPS ? complain("a recording has at most %d taps", RECORDING_TAPS) : NULL;
}

static size_t make_line(const tap *t, char line[RECORDING_LINE + 2])
{
    const struct {
        const uint8_t *bytes;
        size_t length;
    } fields[] = {{t->sent.bytes, t->sent.length}, {t->draw, sizeof t->draw}, {t->got.answers, t->got.answers_len},
                  {t->got.response, t->got.response_len}};
    char *at = line;
    for (int field = 0; field < 4; field++) {
        hex_write(at, fields[field].bytes, fields[field].length);
        at += 2 * fields[field].length;
        *at++ = field < 3 ? '\t' : '\n';
    }
    return (size_t)(at - line);
}

/* Brings a line to the end of the file, or leaves the file as it was. */
static complaint append(recorder *to, const char *line, size_t length)
{
    if (!is_as_left(to))
        return complain("%s: was changed by another process", to->path);
    if (whole_append(to->file, (const uint8_t *)line, length))
        return NULL;
    complaint wrong = because(to, "cannot be written");
    if (ftruncate(to->file, to->so_far.length) != 0)
        wrong = because(to, "has a piece of a line, which cannot be taken away");
    return wrong;
}

/* The file of a recording that was begun: the sheet, and a line where there is one. */
static complaint make_file(recorder *to, const char *line, size_t length)
{
    char *text = malloc(to->sheet_len + length + 1);
    if (!text)
        return because(to, "no memory");
    memcpy(text, to->sheet, to->sheet_len);
    memcpy(text + to->sheet_len, line, length);
    complaint wrong = whole_write(to->path, to->path, WHOLE_NEW, (const uint8_t *)text, to->sheet_len + length);
    free(text);
    if (wrong)
        return complain("%s: %s", to->path, wrong);
    to->so_far.length = (off_t)to->sheet_len;
    return open_plain(to);
}

complaint recorder_write(recorder *to, const tap *t)
{
    static char line[RECORDING_LINE + 2];
    size_t length = make_line(t, line);
    complaint wrong = to->file < 0 ? make_file(to, line, length) : append(to, line, length);
    if (wrong)
        return wrong;
    played *p = &to->so_far;
    p->taps++;
    p->length += to->last = (off_t)length;
    memcpy(p->before, p->image, practice_image_length());
    memcpy(p->image, t->got.next, practice_image_length());
    return NULL;
}

/* What cannot be taken back is made on the card at the next start. */
void recorder_take_back(recorder *to)
{
    played *p = &to->so_far;
    if (ftruncate(to->file, p->length - to->last) != 0 || fsync(to->file) != 0)
        return;
    p->taps--;
    p->length -= to->last;
    memcpy(p->image, p->before, practice_image_length());
}

/* ---- its beginning and its end ---- */

complaint recorder_begin(recorder *to, const char *path, const uint8_t *sheet, size_t length)
{
    struct stat there;
    *to = (recorder){.path = path, .file = -1, .sheet = sheet, .sheet_len = length};
    return lstat(path, &there) == 0 ? complain("%s: exists already, and is left as it is", path) : NULL;
}

complaint recorder_end(recorder *to)
{
    return to->file < 0 ? make_file(to, "", 0) : NULL;
}

void recorder_close(recorder *to)
{
    if (to->file >= 0)
        close(to->file);
}
