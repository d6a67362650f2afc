/* Values in words: numbers in decimal, names for codes, text where it is text. */
#include "values.h"

#include <string.h>

#include "hex.h"
#include "practice.h"
#include "provider.h"
#include "text.h"
#include "words.h"

#define HASH 32

uint32_t value_number(const uint8_t *bytes, size_t length)
{
    uint32_t number = 0;
    for (size_t at = 0; at < length; at++)
        number = number << 8 | bytes[at];
    return number;
}

int value_is_number(value_form form, size_t length)
{
    return (form == VALUE_NUMBER && length >= 1 && length <= 4) || (form == VALUE_PAUSE && length == 2) ||
           ((form == VALUE_FLAG || form == VALUE_STATUS || form == VALUE_CURVE || form == VALUE_SECONDS) && length == 1);
}

void value_put_length(FILE *out, size_t length)
{
    if (length == 0)
        fputs("none", out);
    else
        fprintf(out, "%zu byte%s", length, length == 1 ? "" : "s");
}

static void put_text(FILE *out, const uint8_t *bytes, size_t length)
{
    if (text_shows(bytes, length))
        fwrite(bytes, 1, length, out);
    else
        hex_print(out, bytes, length);
}

static void put_data(FILE *out, const uint8_t *bytes, size_t length)
{
    value_put_length(out, length);
    fputs(length > 0 ? "  " : "", out);
    put_text(out, bytes, length);
}

/* A code is stored as its SHA-256. The two that cards are delivered with are named. */
static void put_code(FILE *out, const uint8_t *bytes, size_t length)
{
    static const char *const defaults[] = {"000000", "000"};
    hex_print(out, bytes, length);
    for (size_t at = 0; at < 2; at++) {
        uint8_t hash[HASH];
        if (length == HASH && provider_sha256((const uint8_t *)defaults[at], strlen(defaults[at]), hash) == PROVIDER_DONE &&
            memcmp(hash, bytes, HASH) == 0)
            fprintf(out, "  (SHA-256 of '%s')", defaults[at]);
    }
}

/* A piece a line: signatures, hashes. What is left over at the end is a piece, too. */
static void put_pieces(FILE *out, const uint8_t *bytes, size_t length, size_t size, int indent)
{
    for (size_t at = 0; at < length; at += size) {
        if (at > 0)
            fprintf(out, "\n%*s", indent, "");
        hex_print(out, bytes + at, length - at < size ? length - at : size);
    }
}

/* With the command's name before its bytes. */
static void put_request(FILE *out, const uint8_t *bytes, size_t length)
{
    value_put_length(out, length);
    fprintf(out, "  %s  ", words_command(bytes, length));
    hex_print(out, bytes, length);
}

/* A card of this kind waits for whole seconds; a message from another may say otherwise. */
static const char *seconds_of(uint32_t hundredths)
{
    static char text[32];
    uint32_t whole = hundredths / 100, rest = hundredths % 100;
    if (rest)
        snprintf(text, sizeof text, "%u.%02u seconds", whole, rest);
    else
        snprintf(text, sizeof text, "%u second%s", whole, whole == 1 ? "" : "s");
    return text;
}

const char *value_meaning(value_form form, uint32_t number)
{
    static const char *const flags[] = {"no", "yes"};
    static const char *const statuses[] = {
        WORDS_UNKNOWN, [PRACTICE_EMPTY] = "Empty", [PRACTICE_LOADED] = "Loaded", [PRACTICE_PURGED] = "Purged"};
    static const char *const curves[] = {WORDS_UNKNOWN, [PRACTICE_SECP256K1] = "secp256k1", [PRACTICE_ED25519] = "ed25519"};
    switch (form) {
    case VALUE_FLAG: return number < 2 ? flags[number] : WORDS_UNKNOWN;
    case VALUE_STATUS: return number < 4 ? statuses[number] : WORDS_UNKNOWN;
    case VALUE_CURVE: return number < 3 ? curves[number] : WORDS_UNKNOWN;
    case VALUE_SECONDS: return number == 1 ? "second" : "seconds";
    case VALUE_PAUSE: return seconds_of(number);
    default: return NULL;
    }
}

static void put_number(FILE *out, value_form form, uint32_t number)
{
    const char *meaning = value_meaning(form, number);
    fprintf(out, "%u%s%s", number, meaning ? "  " : "", meaning ? meaning : "");
}

void value_put(FILE *out, value_form form, const uint8_t *bytes, size_t length, int indent)
{
    if (value_is_number(form, length)) {
        put_number(out, form, value_number(bytes, length));
        return;
    }
    if (length == 0) {
        fputs("none", out);
        return;
    }
    switch (form) {
    case VALUE_CODE: put_code(out, bytes, length); break;
    case VALUE_TEXT: put_text(out, bytes, length); break;
    case VALUE_DATA: put_data(out, bytes, length); break;
    case VALUE_SIGNATURES: put_pieces(out, bytes, length, PROVIDER_SIGNATURE, indent); break;
    case VALUE_HASHES: put_pieces(out, bytes, length, HASH, indent); break;
    case VALUE_REQUEST: put_request(out, bytes, length); break;
    default: hex_print(out, bytes, length);
    }
}

void value_print(FILE *out, value_form form, const uint8_t *bytes, size_t length, int indent)
{
    value_put(out, form, bytes, length, indent);
    fputc('\n', out);
}
