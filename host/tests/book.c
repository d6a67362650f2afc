/* The handover book's library for host/tests/book.test: one call after the other, over standard input and output.
 *
 * A call is its letter and its parts, each part four bytes of length (big-endian) and the bytes:
 *
 *   R   text; list             book_read
 *   W   list; buffer           book_write
 *   J   first, second; list    book_join
 *   B   list; list             book_join, the first list as both books
 *
 * The part after the semicolon is lent, and comes with its content. The answer is the result (number, which, at, count in 1, 1, 2 and 4
 * bytes), four bytes that tell how much of its stack the call took, and the lent part, whole.
 *
 * Every part stands in memory of its own that ends where the part ends, and what is only read may not be written there: a call that
 * reaches past an end, or changes what it is to read, kills this process. */
#define _GNU_SOURCE
#include <pthread.h>
#include <stdio.h>
#include <stdlib.h>
#include <string.h>
#include <sys/mman.h>
#include <unistd.h>

#include "book.h"

#define ROOM 131072
#define STACK 1048576
#define MOST_PARTS 3
#define PAINT 0xC5

typedef struct {
    uint8_t *start;
    uint8_t *bytes; /* they end where a page begins that may not be touched */
    size_t length;
} part;

typedef struct {
    char letter;
    int parts;
    void (*call)(void);
} kind;

static part parts[MOST_PARTS];
static uint8_t *stack;
static book_result result;

static void stop(const char *why)
{
    fprintf(stderr, "book: %s\n", why);
    exit(2);
}

/* ---- the calls ---- */

/* What a part becomes in a call: pointer and count. */
#define TEXT(number) parts[number].bytes, parts[number].length
#define LIST(number) (book_note *)(void *)parts[number].bytes, parts[number].length / sizeof(book_note)

static void read_text(void)
{
    result = book_read(TEXT(0), LIST(1));
}

static void write_list(void)
{
    result = book_write(LIST(0), TEXT(1));
}

static void join_two(void)
{
    result = book_join(LIST(0), LIST(1), LIST(2));
}

static void join_one(void)
{
    result = book_join(LIST(0), LIST(0), LIST(1));
}

static const kind kinds[] = {{'R', 2, read_text}, {'W', 2, write_list}, {'J', 3, join_two}, {'B', 2, join_one}};

static const kind *kind_of(int letter)
{
    for (size_t at = 0; at < sizeof kinds / sizeof *kinds; at++)
        if (kinds[at].letter == letter)
            return &kinds[at];
    stop("no such call");
    return NULL;
}

/* ---- parts ---- */

static uint8_t *memory(size_t length)
{
    uint8_t *start = mmap(NULL, length, PROT_READ | PROT_WRITE, MAP_PRIVATE | MAP_ANONYMOUS, -1, 0);
    if (start == MAP_FAILED)
        stop("no memory");
    return start;
}

static void allow(uint8_t *start, size_t length, int rights)
{
    if (mprotect(start, length, rights) != 0)
        stop("no memory of these rights");
}

static void make_room(part *p)
{
    size_t page = (size_t)sysconf(_SC_PAGESIZE);
    p->start = memory(ROOM + page);
    allow(p->start + ROOM, page, PROT_NONE);
}

static void read_bytes(uint8_t *bytes, size_t length)
{
    if (fread(bytes, 1, length, stdin) != length)
        stop("a call is cut short");
}

static void read_part(part *p, int is_lent)
{
    uint8_t length[4];
    read_bytes(length, sizeof length);
    p->length = (size_t)length[0] << 24 | (size_t)length[1] << 16 | (size_t)length[2] << 8 | length[3];
    if (p->length > ROOM)
        stop("a part is too long");
    p->bytes = p->start + ROOM - p->length;
    allow(p->start, ROOM, PROT_READ | PROT_WRITE);
    read_bytes(p->bytes, p->length);
    if (!is_lent)
        allow(p->start, ROOM, PROT_READ);
}

/* ---- the stack: a thread's, painted before a call, so that what it took can be seen ---- */

static void *in_thread(void *of_kind)
{
    ((const kind *)of_kind)->call();
    return NULL;
}

static void do_nothing(void)
{
}

/* How much of the stack was taken, what a thread takes by itself included. */
static uint32_t run(const kind *k)
{
    pthread_attr_t own;
    pthread_t thread;
    size_t at = 0;
    memset(stack, PAINT, STACK);
    if (pthread_attr_init(&own) != 0 || pthread_attr_setstack(&own, stack, STACK) != 0 ||
        pthread_create(&thread, &own, in_thread, (void *)k) != 0 || pthread_join(thread, NULL) != 0)
        stop("no thread");
    pthread_attr_destroy(&own);
    while (at < STACK && stack[at] == PAINT)
        at++;
    return (uint32_t)(STACK - at);
}

static void write_answer(const part *lent, uint32_t took)
{
    uint8_t head[] = {result.number, result.which, (uint8_t)(result.at >> 8), (uint8_t)result.at,
                      (uint8_t)(result.count >> 24), (uint8_t)(result.count >> 16), (uint8_t)(result.count >> 8), (uint8_t)result.count,
                      (uint8_t)(took >> 24), (uint8_t)(took >> 16), (uint8_t)(took >> 8), (uint8_t)took};
    if (fwrite(head, 1, sizeof head, stdout) != sizeof head || fwrite(lent->bytes, 1, lent->length, stdout) != lent->length)
        stop("an answer cannot be written");
}

int main(void)
{
    stack = memory(STACK);
    uint32_t idle = run(&(kind){'N', 0, do_nothing});
    for (int at = 0; at < MOST_PARTS; at++)
        make_room(&parts[at]);
    for (int letter; (letter = getchar()) != EOF;) {
        const kind *k = kind_of(letter);
        for (int at = 0; at < k->parts; at++)
            read_part(&parts[at], at == k->parts - 1);
        write_answer(&parts[k->parts - 1], run(k) - idle);
    }
    return fflush(stdout) == 0 ? 0 : 2;
}
