/* Requests in words: one row a word, and what each picks for the request that host/link makes. */
#include "requests.h"

#include <ctype.h>
#include <stdlib.h>
#include <string.h>

#include "hex.h"
#include "practice_request.h"
#include "provider.h"

#define MANY 1000
#define HASH 32
#define CHALLENGE 16
#define ACTIVATION_SEED 16
#define TOP_32 0xFFFFFFFF

static const practice_bytes left_out;

/* A word with its operands, the codes that go with it, and the request that becomes of it. */
typedef struct {
    const request_source *from;
    practice_codes codes;
    uint8_t pin1[HASH], pin2[HASH]; /* of the codes, where the user gave them */
    size_t count;
    char *const *operand;
    request *made;
} order;

/* A word that takes nothing is made by `plain`, any other by `make`. */
typedef struct {
    const char *word, *operands, *meaning;
    size_t least, most;
    size_t (*plain)(uint8_t *, size_t, const practice_codes *);
    complaint (*make)(order *);
} row;

/* ---- values ---- */

static practice_bytes bytes_of(const char *text)
{
    return (practice_bytes){(const uint8_t *)text, (uint32_t)strlen(text)};
}

static complaint hash_text(const char *text, uint8_t hash[HASH])
{
    return provider_sha256((const uint8_t *)text, strlen(text), hash) == PROVIDER_DONE ? NULL : complain("no hash could be made");
}

static complaint hash_pin(const char *text, uint8_t hash[HASH], practice_bytes *pin)
{
    *pin = (practice_bytes){hash, HASH};
    return hash_text(text, hash);
}

/* The card's own codes, but for those that the user gave. */
static complaint pick_codes(order *o)
{
    const request_source *from = o->from;
    o->codes = practice_codes_of(from->image);
    if (from->cvc)
        o->codes.cvc = bytes_of(from->cvc);
    complaint wrong = from->pin1 ? hash_pin(from->pin1, o->pin1, &o->codes.pin1) : NULL;
    return !wrong && from->pin2 ? hash_pin(from->pin2, o->pin2, &o->codes.pin2) : wrong;
}

static complaint read_counter(const char *text, uint32_t *counter)
{
    char *end;
    unsigned long long number = strtoull(text, &end, 10);
    if (!isdigit((unsigned char)*text) || *end || strlen(text) > 10 || number > TOP_32)
        return complain("'%s' is no counter: a decimal number up to 4294967295", text);
    *counter = (uint32_t)number;
    return NULL;
}

static complaint ended(order *o, size_t length)
{
    o->made->length = length;
    return length ? NULL : complain("the request would have more than %zu bytes", sizeof o->made->bytes);
}

/* What every function of practice_request.h begins with. */
#define BUFFER(o) (o)->made->bytes, sizeof(o)->made->bytes, &(o)->codes

/* ---- what the words take ---- */

/* A challenge: that of an operand, an empty one for '-', or a part of the draw's SHA-256. */
static complaint pick_challenge(const order *o, size_t operand, uint8_t bytes[HASH], practice_bytes *challenge)
{
    size_t length = 0;
    *challenge = (practice_bytes){bytes, CHALLENGE};
    if (operand >= o->count)
        return provider_sha256(o->from->draw, PRACTICE_DRAW, bytes) == PROVIDER_DONE ? NULL : complain("no challenge could be made");
    if (strcmp(o->operand[operand], "-") == 0)
        challenge->length = 0;
    else if (hex_read(o->operand[operand], bytes, HASH, &length) || length != CHALLENGE)
        return complain("'%s' is no challenge: 32 hex digits, or - for an empty one", o->operand[operand]);
    return NULL;
}

static complaint make_verify(order *o)
{
    uint8_t bytes[HASH];
    practice_bytes challenge;
    complaint wrong = pick_challenge(o, 0, bytes, &challenge);
    return wrong ? wrong : ended(o, practice_request_verify_card(BUFFER(o), challenge));
}

static complaint make_check(order *o)
{
    uint8_t bytes[HASH], more[HASH];
    practice_bytes challenge, of_key = left_out;
    complaint wrong = pick_challenge(o, 0, bytes, &challenge);
    if (!wrong && o->count == 2)
        wrong = pick_challenge(o, 1, more, &of_key);
    return wrong ? wrong : ended(o, practice_request_check_wallet(BUFFER(o), challenge, of_key));
}

static complaint make_set_pin(order *o)
{
    uint8_t bytes[2][HASH];
    practice_bytes pin1, pin2;
    complaint wrong = hash_pin(o->operand[0], bytes[0], &pin1);
    if (!wrong)
        wrong = hash_pin(o->operand[1], bytes[1], &pin2);
    return wrong ? wrong : ended(o, practice_request_set_pin(BUFFER(o), pin1, pin2));
}

static complaint read_hash(const char *text, uint8_t hash[HASH])
{
    size_t length = 0;
    if (hex_read(text, hash, HASH, &length) || length != HASH)
        return complain("'%s' is no hash: 64 hex digits (sign-text hashes a text)", text);
    return NULL;
}

static complaint sign_each(order *o, complaint (*hash_of)(const char *, uint8_t *))
{
    uint8_t hashes[REQUEST_ROOM];
    if (o->count > sizeof hashes / HASH)
        return complain("more than %zu hashes", sizeof hashes / HASH);
    for (size_t at = 0; at < o->count; at++) {
        complaint wrong = hash_of(o->operand[at], hashes + at * HASH);
        if (wrong)
            return wrong;
    }
    return ended(o, practice_request_sign(BUFFER(o), hashes, o->count));
}

static complaint make_sign(order *o)
{
    return sign_each(o, read_hash);
}

static complaint make_sign_text(order *o)
{
    return sign_each(o, hash_text);
}

/* The counter after a text, where the user gave one. */
static complaint pick_counter(const order *o, uint32_t *counter, const uint32_t **sent)
{
    *sent = o->count == 2 ? counter : NULL;
    return o->count == 2 ? read_counter(o->operand[1], counter) : NULL;
}

static complaint make_write_user(order *o)
{
    uint32_t counter;
    const uint32_t *sent;
    complaint wrong = pick_counter(o, &counter, &sent);
    return wrong ? wrong : ended(o, practice_request_write_user_data(BUFFER(o), bytes_of(o->operand[0]), left_out, sent, NULL));
}

static complaint make_write_protected(order *o)
{
    uint32_t counter;
    const uint32_t *sent;
    complaint wrong = pick_counter(o, &counter, &sent);
    return wrong ? wrong : ended(o, practice_request_write_user_data(BUFFER(o), left_out, bytes_of(o->operand[0]), NULL, sent));
}

/* ---- notes ---- */

/* The counter of a note: as given, or the one after the card's. */
static complaint note_counter(const order *o, uint32_t *counter)
{
    uint32_t stored = practice_view_number(o->from->image, PRACTICE_VIEW_ISSUER_DATA_COUNTER);
    if (o->count == 2)
        return read_counter(o->operand[1], counter);
    *counter = stored + 1;
    return stored == TOP_32 ? complain("the card's counter is at its top: it takes no more notes") : NULL;
}

/* The issuer's signature of CID, data and, where there is one, counter. */
static complaint sign_note(const order *o, practice_bytes text, const uint32_t *counter, uint8_t signature[PROVIDER_SIGNATURE])
{
    uint8_t message[PROVIDER_CID + REQUEST_ROOM + 4];
    const uint8_t *cid = o->codes.cid.bytes;
    size_t length = PROVIDER_CID + text.length;
    if (text.length > REQUEST_ROOM)
        return complain("the note is too long");
    memcpy(message, cid, PROVIDER_CID);
    memcpy(message + PROVIDER_CID, text.bytes, text.length);
    for (int shift = 24; counter && shift >= 0; shift -= 8)
        message[length++] = (uint8_t)(*counter >> shift);
    if (provider_issue(o->from->keys.bytes, o->from->keys.length, cid, message, length, signature) != PROVIDER_DONE)
        return complain("the issuer could not sign");
    return NULL;
}

/* Only a card with replay protection reads a counter. */
static complaint make_note(order *o)
{
    uint8_t signature[PROVIDER_SIGNATURE];
    uint32_t counter;
    practice_bytes text = bytes_of(o->operand[0]);
    int counted = practice_view_number(o->from->image, PRACTICE_VIEW_REPLAY_PROTECTION) == 1;
    if (!counted && o->count == 2)
        return complain("this card has no replay protection, so a note has no counter");
    complaint wrong = counted ? note_counter(o, &counter) : NULL;
    if (!wrong)
        wrong = sign_note(o, text, counted ? &counter : NULL, signature);
    if (wrong)
        return wrong;
    return ended(o, practice_request_write_issuer_data(BUFFER(o), text, (practice_bytes){signature, sizeof signature},
                                                       counted ? &counter : NULL));
}

/* ---- activation ---- */

/* The issuer's signature of CID, Activation_Seed and Reset_PIN1. */
static complaint sign_confirmation(const order *o, uint8_t reset, uint8_t signature[PROVIDER_SIGNATURE])
{
    uint8_t message[PROVIDER_CID + ACTIVATION_SEED + 1];
    const uint8_t *cid = o->codes.cid.bytes;
    memcpy(message, cid, PROVIDER_CID);
    memcpy(message + PROVIDER_CID, practice_view(o->from->image, PRACTICE_VIEW_ACTIVATION_SEED).bytes, ACTIVATION_SEED);
    message[PROVIDER_CID + ACTIVATION_SEED] = reset;
    if (provider_confirm(o->from->keys.bytes, o->from->keys.length, cid, message, sizeof message, signature) != PROVIDER_DONE)
        return complain("the issuer could not sign");
    return NULL;
}

static complaint make_activate(order *o)
{
    uint8_t signature[PROVIDER_SIGNATURE], reset = strcmp(o->operand[0], "reset") == 0;
    if (!reset && strcmp(o->operand[0], "keep") != 0)
        return complain("'%s' is neither keep nor reset", o->operand[0]);
    complaint wrong = sign_confirmation(o, reset, signature);
    return wrong ? wrong : ended(o, practice_request_activate_card(BUFFER(o), &reset, (practice_bytes){signature, sizeof signature}));
}

/* ---- no request ---- */

static complaint make_power_off(order *o)
{
    o->made->length = 0;
    return NULL;
}

/* ---- the words ---- */

static const row rows[] = {
    {"read-card", "", "READ_CARD", 0, 0, practice_request_read_card, NULL},
    {"create-wallet", "", "CREATE_WALLET", 0, 0, practice_request_create_wallet, NULL},
    {"check", "[CHALLENGE [KEY_CHALLENGE]]", "CHECK_WALLET; '-' is an empty key challenge", 0, 2, NULL, make_check},
    {"sign", "HASH..", "SIGN", 1, MANY, NULL, make_sign},
    {"sign-text", "TEXT..", "SIGN of the SHA-256 of each text", 1, MANY, NULL, make_sign_text},
    {"again", "", "SIGN without hashes: the last signatures again", 0, 0, NULL, make_sign},
    {"set-pin", "PIN1 PIN2", "SET_PIN", 2, 2, NULL, make_set_pin},
    {"purge", "", "PURGE_WALLET", 0, 0, practice_request_purge_wallet, NULL},
    {"verify", "[CHALLENGE]", "VERIFY_CARD", 0, 1, NULL, make_verify},
    {"validate", "", "VALIDATE_CARD", 0, 0, practice_request_validate_card, NULL},
    {"write-user", "TEXT [COUNTER]", "WRITE_USER_DATA", 1, 2, NULL, make_write_user},
    {"write-protected", "TEXT [COUNTER]", "WRITE_USER_DATA, protected by PIN2", 1, 2, NULL, make_write_protected},
    {"read-user", "", "READ_USER_DATA", 0, 0, practice_request_read_user_data, NULL},
    {"write-note", "TEXT [COUNTER]", "WRITE_ISSUER_DATA, signed by the practice issuer", 1, 2, NULL, make_note},
    {"read-note", "", "READ_ISSUER_DATA", 0, 0, practice_request_read_issuer_data, NULL},
    {"activate", "keep|reset", "ACTIVATE_CARD, signed by the practice issuer; reset makes PIN1 000000", 1, 1, NULL, make_activate},
    {REQUEST_POWER_OFF, "", "no request: the card leaves the field, and forgets the request that waits", 0, 0, NULL, make_power_off},
};
#define ROWS (sizeof rows / sizeof *rows)

void request_help(FILE *out)
{
    for (size_t at = 0; at < ROWS; at++)
        fprintf(out, "  %-16s%-29s%s\n", rows[at].word, rows[at].operands, rows[at].meaning);
}

static complaint make_word(const request_source *from, const row *r, size_t count, char *const *operands, request *made)
{
    order o = {.from = from, .count = count, .operand = operands, .made = made};
    if (count < r->least || count > r->most)
        return complain("%s takes %s", r->word, *r->operands ? r->operands : "nothing after it");
    complaint wrong = pick_codes(&o);
    if (!wrong)
        wrong = r->plain ? ended(&o, r->plain(BUFFER(&o))) : r->make(&o);
    return wrong ? complain("%s: %s", r->word, wrong) : NULL;
}

static complaint make_raw(const char *text, request *made)
{
    complaint wrong = hex_read(text, made->bytes, sizeof made->bytes, &made->length);
    return wrong ? complain("the request %.20s%s: %s", text, strlen(text) > 20 ? ".." : "", wrong) : NULL;
}

static const row *row_of(const char *word)
{
    for (size_t at = 0; at < ROWS; at++)
        if (strcmp(word, rows[at].word) == 0)
            return &rows[at];
    return NULL;
}

int request_is_word(const char *word)
{
    return row_of(word) != NULL;
}

int request_is_issued(const char *word)
{
    const row *r = row_of(word);
    return r && (r->make == make_note || r->make == make_activate);
}

int request_is_power_off(const char *word)
{
    return strcmp(word, REQUEST_POWER_OFF) == 0;
}

complaint request_make(const request_source *from, size_t count, char *const *words, request *made)
{
    const row *r = row_of(words[0]);
    if (r)
        return make_word(from, r, count - 1, words + 1, made);
    if (!hex_looks(words[0]))
        return complain("'%.40s' is no request: neither hex nor one of the words of 'tap help'", words[0]);
    return make_raw(words[0], made);
}
