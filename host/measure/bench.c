/* What host/bench counts: each call of the library, and what stands beside it, once on the same bytes.
 *
 *   bench            calls everything once between marks for callgrind, which counts inside the functions named to it
 *   bench list       the names of what can be called, with the length of the request
 *   bench NAME N     calls that N times, for a counter that only sees whole runs: two runs give the cost of one call
 *
 * Two cards are tapped, both Loaded. One holds no data, no signatures and no request, the other as much as a card can hold. They are made
 * through the library's own calls, with answers of no meaning: what a signature is does not matter here. Wrong codes are sent to the first,
 * and to one like it that asks for the CVC. On one like each, a wrong code was sent before, so that the next request has to wait. */
#include <stdio.h>
#include <stdlib.h>
#include <string.h>

#include "practice.h"
#include "practice_view.h"

#if __has_include(<valgrind/callgrind.h>)
#include <valgrind/callgrind.h>
#else
#define CALLGRIND_DUMP_STATS_AT(name) (void)(name)
#endif

#define COUNTED __attribute__((noinline))
#define REQUEST_ROOM 1024
#define CODE 32
#define DATA 512
#define HASH 32
#define SIGNATURE 64
#define MOST_HASHES 10

enum { PIN1 = 0x10, CID = 0x01, PIN2 = 0x11, NEW_PIN1 = 0x12, NEW_PIN2 = 0x13, CVC = 0x19 };
enum { DATA_OPEN = 0x2A, DATA_PROTECTED = 0x2B, ISSUER_DATA = 0x32, UNREAD = 0x77 };
enum { ISSUER_SIGNATURE = 0x33, ISSUER_COUNTER = 0x35, HASHES = 0x50, HASH_SIZE = 0x51 };

typedef struct {
    uint8_t bytes[REQUEST_ROOM];
    size_t length;
} request;

typedef struct {
    const char *card, *name;
    const uint8_t *image;
    request sent;
    uint8_t answers[MOST_HASHES * SIGNATURE];
    size_t answers_len;
    unsigned word; /* that settle gives */
    int calls_alone; /* ask and settle are counted, and nothing beside them */
} tap_case;

static uint8_t empty[PRACTICE_IMAGE_ROOM], signed_once[PRACTICE_IMAGE_ROOM], full[PRACTICE_IMAGE_ROOM], guarded[PRACTICE_IMAGE_ROOM];
static uint8_t empty_waits[PRACTICE_IMAGE_ROOM], full_waits[PRACTICE_IMAGE_ROOM];
static uint8_t draw[PRACTICE_DRAW], code[CODE], data[DATA], cid[8] = {0xAA, 0, 0, 0, 0, 1, 0x66, 0x75};
static const uint8_t cvc[3] = {'1', '2', '3'};
static uint8_t questions[PRACTICE_ROOM], response[PRACTICE_ROOM], next[PRACTICE_IMAGE_ROOM];
static tap_case cases[64];
static size_t case_count;

static void stop(const char *why)
{
    fprintf(stderr, "bench: %s\n", why);
    exit(1);
}

/* ---- requests ---- */

static void begin(request *r, uint8_t ins)
{
    const uint8_t head[] = {0, ins, 0, 0, 0, 0, 0};
    memcpy(r->bytes, head, sizeof head);
    r->length = sizeof head;
}

static void field(request *r, uint8_t tag, const uint8_t *value, size_t length)
{
    const uint8_t brief[] = {tag, (uint8_t)length}, extended[] = {tag, 0xFF, (uint8_t)(length >> 8), (uint8_t)length};
    size_t head = length < 255 ? sizeof brief : sizeof extended;
    if (r->length + head + length > sizeof r->bytes)
        stop("a request is too long");
    memcpy(r->bytes + r->length, length < 255 ? brief : extended, head);
    memcpy(r->bytes + r->length + head, value, length);
    r->length += head + length;
}

/* Lc in one byte where it fits. */
static void finish(request *r)
{
    size_t payload = r->length - 7;
    r->bytes[5] = (uint8_t)(payload >> 8);
    r->bytes[6] = (uint8_t)payload;
    if (payload < 256) {
        memmove(r->bytes + 5, r->bytes + 7, payload);
        r->bytes[4] = (uint8_t)payload;
        r->length -= 2;
    }
}

/* PIN1 and CID, then PIN2 where the command needs it. The two codes are the same on these cards. */
static void access_fields(request *r, int pin2)
{
    field(r, PIN1, code, sizeof code);
    field(r, CID, cid, sizeof cid);
    if (pin2)
        field(r, PIN2, code, sizeof code);
}

static void make_plain(request *r, uint8_t ins, int pin2)
{
    begin(r, ins);
    access_fields(r, pin2);
    finish(r);
}

static void hash_fields(request *r, size_t hashes)
{
    const uint8_t size = HASH;
    field(r, HASHES, data, hashes * HASH);
    field(r, HASH_SIZE, &size, 1);
}

static void make_sign(request *r, size_t hashes)
{
    begin(r, 0xFB);
    access_fields(r, 1);
    hash_fields(r, hashes);
    finish(r);
}

/* With the CVC: a SIGN of one hash, or a command without fields of its own. */
static void make_guarded(request *r, uint8_t ins)
{
    begin(r, ins);
    access_fields(r, 1);
    field(r, CVC, cvc, sizeof cvc);
    if (ins == 0xFB)
        hash_fields(r, 1);
    finish(r);
}

/* The codes that the card has are the new ones. */
static void make_set_pin(request *r)
{
    begin(r, 0xFA);
    access_fields(r, 1);
    field(r, NEW_PIN1, code, sizeof code);
    field(r, NEW_PIN2, code, sizeof code);
    finish(r);
}

static void make_write(request *r, uint8_t ins, uint8_t tag)
{
    begin(r, ins);
    access_fields(r, ins == 0xE0);
    field(r, tag, data, DATA);
    finish(r);
}

static void make_issuer_write(request *r, uint8_t counter)
{
    const uint8_t sent[4] = {0, 0, 0, counter};
    begin(r, 0xF6);
    access_fields(r, 0);
    field(r, ISSUER_DATA, data, DATA);
    field(r, ISSUER_SIGNATURE, data, SIGNATURE);
    field(r, ISSUER_COUNTER, sent, sizeof sent);
    finish(r);
}

static void make_wrong_code(request *r)
{
    make_plain(r, 0xF2, 0);
    r->bytes[7 + CODE - 1] ^= 1;
}

/* READ_CARD of the greatest length: behind its fields stand two that no command reads. */
static void make_longest(request *r)
{
    begin(r, 0xF2);
    access_fields(r, 0);
    field(r, UNREAD, data, DATA);
    field(r, UNREAD, data, sizeof r->bytes - r->length - 4);
    finish(r);
}

/* ---- cards ---- */

static void personalise(uint8_t image[PRACTICE_IMAGE_ROOM], int usecvc)
{
    char sheet[512];
    snprintf(sheet, sizeof sheet,
             "cid\tAA00000000016675\n"
             "pin1\t1111111111111111111111111111111111111111111111111111111111111111\n"
             "pin2\t1111111111111111111111111111111111111111111111111111111111111111\n"
             "cvc\t123\ncurve\tsecp256k1\nmax\t1000000\nreusable\t1\nusecvc\t%d\nsetpin1\t1\nsetpin2\t1\nnopurge\t1\nreplay\t1\nactive\t1\n"
             "seed\t00112233445566778899AABBCCDDEEFF\n",
             usecvc);
    if (practice_personalise((const uint8_t *)sheet, strlen(sheet), image, PRACTICE_IMAGE_ROOM) != 0)
        stop("the sheet is bad");
}

static void tap_to(unsigned word, uint8_t image[PRACTICE_IMAGE_ROOM], const request *r, const uint8_t *answers, size_t answers_len)
{
    practice_result done = practice_settle(image, practice_image_length(), r->bytes, r->length, draw, sizeof draw, answers, answers_len,
                                           response, sizeof response, next, sizeof next);
    if (done.number != 0 || done.word != word)
        stop("a card could not be made");
    memcpy(image, next, practice_image_length());
}

static void tap(uint8_t image[PRACTICE_IMAGE_ROOM], const request *r, const uint8_t *answers, size_t answers_len)
{
    tap_to(0x9000, image, r, answers, answers_len);
}

/* The full card holds a request besides, one second before its end. With the wrong code that it waits for every request would have to
 * wait: on `full` that is taken from the count, so that others go on, and drop it. No taps lead there; it is a card all the same. */
static void make_waits(void)
{
    request r;
    memcpy(empty_waits, empty, sizeof empty);
    memcpy(full_waits, full, sizeof full);
    make_wrong_code(&r);
    tap_to(0x6A86, empty_waits, &r, data, 0);
    tap_to(0x6A86, full_waits, &r, data, 0);
    make_longest(&r);
    tap_to(0x9789, full_waits, &r, data, 0);
    memcpy(full, full_waits, sizeof full);
    full[practice_view(full, PRACTICE_VIEW_WRONG_CODES).bytes - full] = 0;
}

static void make_cards(void)
{
    const uint8_t key[65] = {4}, yes = 1;
    request r;
    personalise(empty, 0);
    make_plain(&r, 0xF8, 1);
    tap(empty, &r, key, sizeof key);
    personalise(guarded, 1);
    make_guarded(&r, 0xF8);
    tap(guarded, &r, key, sizeof key);
    memcpy(signed_once, empty, sizeof empty);
    make_sign(&r, 1);
    tap(signed_once, &r, data, SIGNATURE);
    memcpy(full, empty, sizeof empty);
    make_write(&r, 0xE0, DATA_OPEN);
    tap(full, &r, data, 0);
    make_write(&r, 0xE0, DATA_PROTECTED);
    tap(full, &r, data, 0);
    make_issuer_write(&r, 1);
    tap(full, &r, &yes, 1);
    make_sign(&r, MOST_HASHES);
    uint8_t signatures[MOST_HASHES * SIGNATURE];
    memset(signatures, 0x5A, sizeof signatures);
    tap(full, &r, signatures, sizeof signatures);
    make_waits();
}

/* ---- cases ---- */

static tap_case *new_case(const char *card, const uint8_t *image, const char *name, size_t answers_len, unsigned word)
{
    tap_case *c = &cases[case_count++];
    c->card = card;
    c->image = image;
    c->name = name;
    memset(c->answers, 1, sizeof c->answers);
    c->answers_len = answers_len;
    c->word = word;
    return c;
}

static void make_cases(const char *card, const uint8_t *image, const uint8_t *with_signatures, const uint8_t *waits)
{
    make_plain(&new_case(card, image, "READ_CARD", 0, 0x9000)->sent, 0xF2, 0);
    make_sign(&new_case(card, image, "SIGN, 1 hash", SIGNATURE, 0x9000)->sent, 1);
    make_sign(&new_case(card, image, "SIGN, 10 hashes", MOST_HASHES * SIGNATURE, 0x9000)->sent, MOST_HASHES);
    make_plain(&new_case(card, with_signatures, "SIGN, the repeat", 0, 0x9000)->sent, 0xFB, 1);
    make_issuer_write(&new_case(card, image, "WRITE_ISSUER_DATA, 512 bytes", 1, 0x9000)->sent, 2);
    request *refused = &new_case(card, image, "refused by check 1", 0, 0x6700)->sent;
    make_plain(refused, 0xF2, 0);
    refused->length--;
    make_wrong_code(&new_case(card, image, "refused by check 6", 0, 0x6A86)->sent);
    make_plain(&new_case(card, image, "refused by check 12", 0, 0x6985)->sent, 0xFC, 1);
    make_plain(&new_case(card, waits, "READ_CARD, has to wait", 0, 0x9789)->sent, 0xF2, 0);
}

/* ---- wrong codes: ask and settle alone ---- */

#define EVERY_BYTE ((size_t)-1)

static void read_card(request *r)
{
    make_plain(r, 0xF2, 0);
}

static void sign_one(request *r)
{
    make_sign(r, 1);
}

static void sign_guarded(request *r)
{
    make_guarded(r, 0xFB);
}

/* Each request with a code of which one byte is another than the card's, or every one. A name is the request, the code and how it is
 * sent, parted by a colon and a blank. */
static const struct {
    const char *name;
    const uint8_t *image;
    void (*make)(request *);
    uint8_t tag;
    size_t place;
    unsigned word;
} spoilt[] = {
    {"READ_CARD: PIN1: wrong in byte 0", empty, read_card, PIN1, 0, 0x6A86},
    {"READ_CARD: PIN1: wrong in byte 15", empty, read_card, PIN1, 15, 0x6A86},
    {"READ_CARD: PIN1: wrong in byte 31", empty, read_card, PIN1, 31, 0x6A86},
    {"READ_CARD: PIN1: wrong in every byte", empty, read_card, PIN1, EVERY_BYTE, 0x6A86},
    {"SIGN, 1 hash: PIN2: wrong in byte 0", empty, sign_one, PIN2, 0, 0x6A86},
    {"SIGN, 1 hash: PIN2: wrong in byte 15", empty, sign_one, PIN2, 15, 0x6A86},
    {"SIGN, 1 hash: PIN2: wrong in byte 31", empty, sign_one, PIN2, 31, 0x6A86},
    {"SIGN, 1 hash: PIN2: wrong in every byte", empty, sign_one, PIN2, EVERY_BYTE, 0x6A86},
    {"SIGN, 1 hash, CVC used: CVC: wrong in its first character", guarded, sign_guarded, CVC, 0, 0x6A86},
    {"SIGN, 1 hash, CVC used: CVC: wrong in its second character", guarded, sign_guarded, CVC, 1, 0x6A86},
    {"SIGN, 1 hash, CVC used: CVC: wrong in its third character", guarded, sign_guarded, CVC, 2, 0x6A86},
    {"SIGN, 1 hash, CVC used: CVC: wrong in all", guarded, sign_guarded, CVC, EVERY_BYTE, 0x6A86},
    {"SET_PIN: New_PIN1: another in byte 0", empty, make_set_pin, NEW_PIN1, 0, 0x9001},
    {"SET_PIN: New_PIN1: another in byte 31", empty, make_set_pin, NEW_PIN1, 31, 0x9001},
    {"SET_PIN: New_PIN1: another in every byte", empty, make_set_pin, NEW_PIN1, EVERY_BYTE, 0x9001},
    {"SET_PIN: New_PIN2: another in byte 0", empty, make_set_pin, NEW_PIN2, 0, 0x9002},
    {"SET_PIN: New_PIN2: another in byte 31", empty, make_set_pin, NEW_PIN2, 31, 0x9002},
    {"SET_PIN: New_PIN2: another in every byte", empty, make_set_pin, NEW_PIN2, EVERY_BYTE, 0x9002},
};

/* PIN1 of other lengths, which begins with the card's. */
static const struct {
    const char *name;
    size_t length;
} resized[] = {
    {"READ_CARD: PIN1: of 0 bytes", 0},
    {"READ_CARD: PIN1: of 31 bytes", CODE - 1},
    {"READ_CARD: PIN1: of 33 bytes", CODE + 1},
    {"READ_CARD: PIN1: of 64 bytes", 2 * CODE},
};

static request *code_case(const uint8_t *image, const char *name, unsigned word)
{
    tap_case *c = new_case("codes", image, name, 0, word);
    c->calls_alone = 1;
    return &c->sent;
}

static void spoil(request *r, uint8_t tag, size_t place)
{
    size_t at = 5;
    while (r->bytes[at] != tag)
        at += 2 + r->bytes[at + 1];
    for (size_t i = 0; i < r->bytes[at + 1]; i++)
        if (place == EVERY_BYTE || place == i)
            r->bytes[at + 2 + i] ^= 1;
}

static void make_code_cases(void)
{
    for (size_t one = 0; one < sizeof spoilt / sizeof *spoilt; one++) {
        request *r = code_case(spoilt[one].image, spoilt[one].name, spoilt[one].word);
        spoilt[one].make(r);
        spoil(r, spoilt[one].tag, spoilt[one].place);
    }
    uint8_t begins[2 * CODE] = {0};
    memcpy(begins, code, CODE);
    for (size_t one = 0; one < sizeof resized / sizeof *resized; one++) {
        request *r = code_case(empty, resized[one].name, 0x6A86);
        begin(r, 0xF2);
        field(r, PIN1, begins, resized[one].length);
        field(r, CID, cid, sizeof cid);
        finish(r);
    }
    request *r = code_case(empty, "READ_CARD: PIN1: absent", 0x6A86);
    begin(r, 0xF2);
    field(r, CID, cid, sizeof cid);
    finish(r);
}

static void check_cases(void)
{
    for (size_t at = 0; at < case_count; at++) {
        const tap_case *c = &cases[at];
        practice_result done =
            practice_settle(c->image, practice_image_length(), c->sent.bytes, c->sent.length, draw, sizeof draw, c->answers,
                            c->answers_len, response, sizeof response, next, sizeof next);
        if (done.number != 0 || done.word != c->word)
            stop(c->name);
    }
}

/* ---- what is counted ---- */

static volatile unsigned kept; /* so that no call is left out */

static void count_ask(const tap_case *c)
{
    kept = practice_ask(c->image, practice_image_length(), c->sent.bytes, c->sent.length, draw, sizeof draw, questions,
                        sizeof questions).word;
}

static void count_settle(const tap_case *c)
{
    kept = practice_settle(c->image, practice_image_length(), c->sent.bytes, c->sent.length, draw, sizeof draw, c->answers,
                           c->answers_len, response, sizeof response, next, sizeof next).word;
}

/* The copy that a host itself makes of an image: by the C library, and byte by byte as it is written here, left so by the compiler. */
COUNTED void copy_library(uint8_t *to, const uint8_t *from, size_t length)
{
    memcpy(to, from, length);
}

COUNTED __attribute__((optimize("no-tree-loop-distribute-patterns", "no-tree-vectorize"))) void
copy_bytes(uint8_t *restrict to, const uint8_t *restrict from, size_t length)
{
    for (size_t at = 0; at < length; at++)
        to[at] = from[at];
}

static void count_copy_library(const tap_case *c)
{
    copy_library(next, c->image, practice_image_length());
}

static void count_copy_bytes(const tap_case *c)
{
    copy_bytes(next, c->image, practice_image_length());
}

#ifdef OPENSC
/* OpenSC's reader of one field. Its two-byte lengths are little-endian, so the payload it gets has them exchanged. */
int sc_simpletlv_read_tag(const uint8_t **at, size_t left, uint8_t *tag, size_t *length);

typedef struct {
    const uint8_t *value;
    size_t length;
} found;

#define WANTED 9

/* To the payload's end, with the first value of each tag that one of the commands above reads. */
COUNTED int walk(const uint8_t *payload, size_t length, found wanted[WANTED])
{
    static const uint8_t places[256] = {[PIN1] = 1,      [CID] = 2,         [PIN2] = 3,             [HASHES] = 4,
                                        [HASH_SIZE] = 5, [ISSUER_DATA] = 6, [ISSUER_SIGNATURE] = 7, [ISSUER_COUNTER] = 8};
    const uint8_t *at = payload, *end = payload + length;
    while (at < end) {
        uint8_t tag;
        size_t size;
        if (sc_simpletlv_read_tag(&at, (size_t)(end - at), &tag, &size) != 0)
            return 0;
        found *place = &wanted[places[tag]];
        if (places[tag] && !place->value) {
            place->value = at;
            place->length = size;
        }
        at += size;
    }
    return 1;
}

static void exchange_lengths(request *r, size_t start)
{
    for (size_t at = start; at < r->length;) {
        int is_long = r->bytes[at + 1] == 0xFF;
        size_t size = is_long ? (size_t)r->bytes[at + 2] << 8 | r->bytes[at + 3] : r->bytes[at + 1];
        if (is_long) {
            uint8_t first = r->bytes[at + 2];
            r->bytes[at + 2] = r->bytes[at + 3];
            r->bytes[at + 3] = first;
        }
        at += size + (is_long ? 4 : 2);
    }
}

static void count_walk(const tap_case *c)
{
    static request r;
    found wanted[WANTED] = {0};
    size_t start = c->sent.bytes[4] ? 5 : 7;
    r = c->sent;
    if (c->word != 0x6700)
        exchange_lengths(&r, start);
    kept = (unsigned)walk(r.bytes + start, r.length - start, wanted);
}
#endif

static const struct {
    const char *name;
    void (*call)(const tap_case *);
} counts[] = {
    {"ask", count_ask},
    {"settle", count_settle},
    {"copy, C library", count_copy_library},
    {"copy, byte by byte", count_copy_bytes},
#ifdef OPENSC
    {"walk", count_walk},
#endif
};

#define CALLS 2 /* the first of them: ask and settle */

static size_t counted(const tap_case *c)
{
    return c->calls_alone ? CALLS : sizeof counts / sizeof *counts;
}

static const char *full_name(size_t one, const tap_case *c)
{
    static char name[128];
    snprintf(name, sizeof name, "%s/%s/%s", c->card, c->name, counts[one].name);
    return name;
}

/* The first call is for the dynamic linker, which then has found what is called. */
static void count_all(void)
{
    for (size_t at = 0; at < case_count; at++)
        for (size_t one = 0; one < counted(&cases[at]); one++) {
            counts[one].call(&cases[at]);
            CALLGRIND_DUMP_STATS_AT("first call");
            counts[one].call(&cases[at]);
            CALLGRIND_DUMP_STATS_AT(full_name(one, &cases[at]));
        }
}

static void list(void)
{
    for (size_t at = 0; at < case_count; at++)
        for (size_t one = 0; one < counted(&cases[at]); one++)
            printf("%s\t%zu\n", full_name(one, &cases[at]), cases[at].sent.length);
}

static void call_times(const char *name, unsigned long times)
{
    for (size_t at = 0; at < case_count; at++)
        for (size_t one = 0; one < counted(&cases[at]); one++)
            if (strcmp(name, full_name(one, &cases[at])) == 0) {
                while (times-- > 0)
                    counts[one].call(&cases[at]);
                return;
            }
    stop("no such name");
}

int main(int count, char **arguments)
{
    memset(code, 0x11, sizeof code);
    memset(data, 0xA5, sizeof data);
    make_cards();
    make_cases("empty", empty, signed_once, empty_waits);
    make_cases("full", full, full, full_waits);
    make_code_cases();
    check_cases();
    if (count == 1)
        count_all();
    else if (count == 2 && strcmp(arguments[1], "list") == 0)
        list();
    else if (count == 3)
        call_times(arguments[1], strtoul(arguments[2], NULL, 10));
    else
        stop("takes nothing, 'list', or NAME N");
    return 0;
}
