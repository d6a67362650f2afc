/* The library for a program in another language: one call after the other, over standard input and output.
 *
 * A call is its letter and its parts, each part four bytes of length (big-endian) and the bytes:
 *
 *   A   image, request, draw; questions                     practice_ask
 *   S   image, request, draw, answers; response, next       practice_settle
 *   O   image; next                                         practice_power_off
 *   P   sheet; image                                        practice_personalise
 *   L   (none)                                              practice_image_length
 *
 * Parts after the semicolon are the lent buffers. They come with their content, so that the caller knows what each byte past the
 * written part has to be. The answer is the result (number, reason, word, length in 1, 1, 2 and 4 bytes; of P and L one number in 4)
 * and then the lent buffers, whole.
 *
 * Every part stands in memory of its own that ends where the part ends: a call that reads or writes past an end kills this process. A
 * call that changes what it was only to read ends it with a message. */
#define _GNU_SOURCE
#include <stdio.h>
#include <stdlib.h>
#include <string.h>
#include <sys/mman.h>
#include <unistd.h>

#include "practice.h"

#define ROOM 65536
#define MOST_PARTS 6

typedef struct {
    uint8_t *end; /* after it a page that may not be touched */
    uint8_t *bytes;
    size_t length;
    uint8_t sent[ROOM];
} part;

typedef struct {
    char letter;
    int parts;
    int given; /* the first ones are read, the others lent */
    uint64_t (*call)(void);
    int answer_length;
} kind;

static part parts[MOST_PARTS];

/* What a part becomes in a call: pointer and length. */
#define PART(number) parts[number].bytes, parts[number].length

static void stop(const char *why)
{
    fprintf(stderr, "serve: %s\n", why);
    exit(2);
}

/* ---- the calls ---- */

static uint64_t packed(practice_result result)
{
    return (uint64_t)result.number << 56 | (uint64_t)result.reason << 48 | (uint64_t)result.word << 32 | result.length;
}

static uint64_t ask(void)
{
    return packed(practice_ask(PART(0), PART(1), PART(2), PART(3)));
}

static uint64_t settle(void)
{
    return packed(practice_settle(PART(0), PART(1), PART(2), PART(3), PART(4), PART(5)));
}

static uint64_t power_off(void)
{
    return packed(practice_power_off(PART(0), PART(1)));
}

static uint64_t personalise(void)
{
    return practice_personalise(PART(0), PART(1));
}

static uint64_t image_length(void)
{
    return practice_image_length();
}

static const kind kinds[] = {
    {'A', 4, 3, ask, 8},         {'S', 6, 4, settle, 8},       {'O', 2, 1, power_off, 8},
    {'P', 2, 1, personalise, 4}, {'L', 0, 0, image_length, 4},
};

static const kind *kind_of(int letter)
{
    for (size_t at = 0; at < sizeof kinds / sizeof *kinds; at++)
        if (kinds[at].letter == letter)
            return &kinds[at];
    stop("no such call");
    return NULL;
}

/* ---- parts ---- */

static void make_room(part *p)
{
    size_t page = (size_t)sysconf(_SC_PAGESIZE);
    uint8_t *start = mmap(NULL, ROOM + page, PROT_READ | PROT_WRITE, MAP_PRIVATE | MAP_ANONYMOUS, -1, 0);
    if (start == MAP_FAILED || mprotect(start + ROOM, page, PROT_NONE) != 0)
        stop("no memory");
    p->end = start + ROOM;
}

static void read_bytes(uint8_t *bytes, size_t length)
{
    if (fread(bytes, 1, length, stdin) != length)
        stop("a call is cut short");
}

static void read_part(part *p)
{
    uint8_t length[4];
    read_bytes(length, sizeof length);
    p->length = (size_t)length[0] << 24 | (size_t)length[1] << 16 | (size_t)length[2] << 8 | length[3];
    if (p->length > ROOM)
        stop("a part is too long");
    read_bytes(p->sent, p->length);
    p->bytes = p->end - p->length;
    memcpy(p->bytes, p->sent, p->length);
}

static void write_bytes(const uint8_t *bytes, size_t length)
{
    if (fwrite(bytes, 1, length, stdout) != length)
        stop("the answer cannot be written");
}

static void serve(const kind *k)
{
    uint8_t answer[8];
    for (int at = 0; at < k->parts; at++)
        read_part(&parts[at]);
    uint64_t result = k->call();
    for (int at = 0; at < k->given; at++)
        if (memcmp(parts[at].bytes, parts[at].sent, parts[at].length) != 0)
            stop("the call changed what it was only to read");
    for (int at = 0; at < k->answer_length; at++)
        answer[at] = (uint8_t)(result >> 8 * (k->answer_length - 1 - at));
    write_bytes(answer, (size_t)k->answer_length);
    for (int at = k->given; at < k->parts; at++)
        write_bytes(parts[at].bytes, parts[at].length);
    if (fflush(stdout) != 0)
        stop("the answer cannot be written");
}

int main(void)
{
    for (int at = 0; at < MOST_PARTS; at++)
        make_room(&parts[at]);
    for (int letter; (letter = getchar()) != EOF;)
        serve(kind_of(letter));
    return 0;
}
