/* The handover book, for C hosts: a library of its own, which needs no card.
 *
 * A book is at most 256 engine notes, each with its tablet, that tablet's running number, the engine's hours in tenths, and a text. The
 * tablet comes first in its order, then the number. Two books joined in either order give the same book, and each note of both stands in
 * it once.
 *
 *   host/build                       makes target/host/lib/libbook.a and libbook.so (x86-64): the proved library, as rt lib writes
 *                                    it in crates/book_c
 *   cc host.c target/host/lib/libbook.a
 *
 * Every pointer is followed by a count: of bytes for a text, of places for a list of notes. No pointer may be NULL, also where its count
 * is 0, and what is written may not overlap with what is read; the two books of a join may be one list. Beyond that every content and
 * every count is taken: what does not fit is refused by a number, below.
 *
 * A call keeps nothing, and takes its working room from the stack: book_read some 22 kB, book_write some 3.3 kB, book_join some 1.2 kB. A
 * thread has to have so much left. */
#ifndef BOOK_H
#define BOOK_H

#include <stddef.h>
#include <stdint.h>

#ifdef __cplusplus
extern "C" {
#endif

#define BOOK_NOTES 256       /* the most notes of a book, and the least places of a list that notes are written to */
#define BOOK_TEXT 60         /* the most bytes of a note's text */
#define BOOK_LINE 78         /* the most bytes of a line, with its line feed */
#define BOOK_TEXT_ROOM 20480 /* the least bytes of a buffer that a book is written to; the longest has 19,968 */

/* A note: 72 bytes with its padding, which is not looked at.
 *
 *   tablet  0 to 255
 *   number  1 to 65,535, counted by each tablet for itself
 *   hours   0 to 999,999 tenths: 12040 means 1,204.0 hours
 *   len     1 to BOOK_TEXT, the bytes of the text
 *   text    any bytes but tab (09) and line feed (0A), in no special encoding; behind them the array is filled up with zeros, so that one
 *           note has one form */
typedef struct {
    uint8_t tablet;
    uint16_t number;
    uint32_t hours;
    uint8_t len;
    uint8_t text[BOOK_TEXT];
} book_note;

/* How a call ended: `number` of its result. They are looked for in the order BOOK_NO_ROOM, BOOK_BAD_LINE, BOOK_CLASH, BOOK_FULL, and the
 * first that is found decides. With any but BOOK_DONE every list and every buffer is as it was. */
enum {
    BOOK_DONE = 0,
    BOOK_BAD_LINE = 1, /* a book is none: a line or record may not stand where it does. The first book's comes before the second's */
    BOOK_CLASH = 2,    /* both books have a note of this tablet and number, and it is not the same: the lowest of these (book_join only) */
    BOOK_FULL = 3,     /* together the two books have more than BOOK_NOTES notes (book_join only) */
    BOOK_NO_ROOM = 99  /* the list has fewer than BOOK_NOTES places, or the buffer fewer than BOOK_TEXT_ROOM bytes */
};

/* What a call returns.
 *
 *   number  how it ended
 *   which   of BOOK_BAD_LINE the book: 1, or in a join 1 or 2. Of BOOK_CLASH the tablet. Else 0
 *   at      of BOOK_BAD_LINE the line, or the record's place in its list: the first is 1. Of BOOK_CLASH the note's number. Else 0
 *   count   of BOOK_DONE what was written, notes or bytes of text: all after them is as it was. Else 0 */
typedef struct {
    uint8_t number;
    uint8_t which;
    uint16_t at;
    uint32_t count;
} book_result;

/* The notes of a text.
 *
 * in:   a line for each note: tablet, number, hours and text, parted by a tab each and ended by a line feed. Numbers are decimal without
 *       sign and leading zeros. No line at all is the book of no notes
 * out:  the notes, count of them
 * A line is bad where a field is missing, empty, out of its range or one too many, where it does not rise above the line before it, where
 * its line feed is missing, and where it is line 257. */
book_result book_read(const uint8_t *text, size_t text_len, book_note *book, size_t places);

/* The text of a book, as book_read takes it: of every book there is one.
 *
 * in:   a list of notes. A record is bad where a value is out of its range, where its text has a tab or a line feed, where a byte
 *       behind the text is not zero, where it does not rise above the record before it, and where it is record 257
 * out:  the text, count bytes of it, without a NUL behind it */
book_result book_write(const book_note *book, size_t count, uint8_t *text, size_t text_len);

/* Two books joined.
 *
 * in:   two lists of notes, as for book_write
 * out:  the notes of both, count of them */
book_result book_join(const book_note *first, size_t first_count, const book_note *second, size_t second_count, book_note *joined,
                      size_t places);

#ifdef __cplusplus
}
#endif

#endif
