/* Holds the provider to vectors, read from standard input in the form of docs/KEYS.md: a name, then lines of a word and hex. Lines of
 * prose are taken for names, which does no harm: a line is looked at only where an answer, a key or a draw follows. */
#include <string.h>

#include "hex.h"
#include "provider.h"

#define LINE 8192

typedef struct {
    uint8_t bytes[LINE / 2];
    size_t length;
} value;

static char name[LINE];
static value seed, cid, asked, tap;

static const struct {
    const char *word;
    value *of;
} inputs[] = {{"seed ", &seed}, {"cid ", &cid}, {"question ", &asked}, {"tap ", &tap}};

static int read_value(const char *line, const char *word, value *into)
{
    size_t length = strlen(word);
    return strncmp(line, word, length) == 0 && !hex_read(line + length, into->bytes, sizeof into->bytes, &into->length);
}

static int read_input(const char *line)
{
    for (size_t at = 0; at < sizeof inputs / sizeof *inputs; at++)
        if (read_value(line, inputs[at].word, inputs[at].of))
            return 1;
    return 0;
}

static int failures;

static void verdict(provider_result result, const value *said, const value *expected)
{
    int same = result == PROVIDER_DONE && said->length == expected->length && memcmp(said->bytes, expected->bytes, said->length) == 0;
    failures += !same;
    printf("%s %s\n", same ? "ok" : "FAIL", name);
}

static void answer_vector(const value *expected)
{
    static value said;
    verdict(provider_answer(seed.bytes, seed.length, cid.bytes, asked.bytes, asked.length, said.bytes, sizeof said.bytes, &said.length),
            &said, expected);
}

static void key_vector(const value *expected)
{
    static value said;
    provider_owner owner = *name == 'i' ? PROVIDER_ISSUER : *name == 't' ? PROVIDER_TRANSACTION : PROVIDER_CARD;
    verdict(provider_public_key(seed.bytes, seed.length, cid.bytes, owner, 9, 2, said.bytes, &said.length), &said, expected);
}

static void draw_vector(const value *expected)
{
    static value said;
    uint32_t number = 0;
    for (size_t at = 0; at < tap.length; at++)
        number = number << 8 | tap.bytes[at];
    said.length = 32;
    verdict(provider_draw(seed.bytes, seed.length, number, said.bytes), &said, expected);
}

static void read_line(char *line)
{
    static value expected;
    line[strcspn(line, "\n")] = 0;
    if (!*line || read_input(line))
        return;
    if (read_value(line, "answer ", &expected))
        answer_vector(&expected);
    else if (read_value(line, "key ", &expected))
        key_vector(&expected);
    else if (read_value(line, "draw ", &expected))
        draw_vector(&expected);
    else
        strcpy(name, line);
}

/* ---- what no vector says ---- */

static void check(const char *what, int holds)
{
    failures += !holds;
    printf("%s %s\n", holds ? "ok" : "FAIL", what);
}

static provider_result answers_to(const char *hex, size_t room, size_t *length)
{
    static value said;
    const uint8_t no_cid[PROVIDER_CID] = {0};
    hex_read(hex, asked.bytes, sizeof asked.bytes, &asked.length);
    return provider_answer((const uint8_t *)"practice", 8, no_cid, asked.bytes, asked.length, said.bytes, room, length);
}

static void refusals(void)
{
    static const char *const bad[] = {"01", "0100010100", "0100010100 01", "010001010001AA", "0100010300 00", "0000010100 00",
                                      "0700010100 00", "02000101001FAA", "0500010100 00", "0600010100 00"};
    size_t length = 9;
    check("no question has no answer", answers_to("", 0, &length) == PROVIDER_DONE && length == 0);
    check("two questions have two answers", answers_to("010001010000 010002010000", 130, &length) == PROVIDER_DONE && length == 130);
    check("answers without room are refused", answers_to("010001010000 010002010000", 129, &length) == PROVIDER_NO_ROOM && length == 0);
    for (size_t at = 0; at < sizeof bad / sizeof *bad; at++) {
        char what[64];
        snprintf(what, sizeof what, "no question: %s", bad[at]);
        check(what, answers_to(bad[at], 1024, &length) == PROVIDER_BAD_QUESTION && length == 0);
    }
}

int main(int count, char **arguments)
{
    static char line[LINE];
    if (count == 2 && strcmp(arguments[1], "refusals") == 0)
        refusals();
    else
        while (fgets(line, sizeof line, stdin))
            read_line(line);
    return failures != 0;
}
