/* tap: a practice card in a file, tapped from the command line. */
#include <stdio.h>
#include <stdlib.h>
#include <string.h>

#include "bound.h"
#include "card.h"
#include "changes.h"
#include "explaining.h"
#include "image.h"
#include "options.h"
#include "practice.h"
#include "provider.h"
#include "requests.h"
#include "sending.h"
#include "sheet.h"
#include "store.h"
#include "telling.h"
#include "version.h"

static int usage(const char *line)
{
    fprintf(stderr, "tap: %s ('tap help' says more)\n", line);
    return 2;
}

static int ended(complaint wrong)
{
    if (!wrong && fflush(stdout) == 0 && !ferror(stdout))
        return 0;
    fprintf(stderr, "tap: %s\n", wrong ? wrong : "standard output cannot be written");
    return 1;
}

static complaint about(const char *path, complaint wrong)
{
    return wrong ? complain("%s: %s", path, wrong) : NULL;
}

static complaint new_card(const settings *set, const char *sheet_path, const char *card_path)
{
    static uint8_t sheet[SHEET_ROOM], image[PRACTICE_IMAGE_ROOM];
    size_t length;
    complaint wrong = store_read_file(sheet_path, sheet, sizeof sheet, &length);
    if (!wrong)
        wrong = sheet_card(sheet, length, image);
    if (wrong)
        return about(sheet_path, wrong);
    return about(card_path, card_create(card_path, image, set->keys));
}

static complaint show_card(const settings *set, const char *path)
{
    static uint8_t image[PRACTICE_IMAGE_ROOM];
    complaint wrong = about(path, card_read(path, image));
    if (!wrong)
        (set->json ? values_json : values_print)(stdout, image);
    return wrong;
}

#define KEY_NAME 30

static complaint show_key(const char *name, seed keys, const uint8_t *image, provider_owner owner)
{
    uint8_t key[PROVIDER_KEY];
    size_t length;
    if (provider_public_key(keys.bytes, keys.length, image_get(image, PRACTICE_VIEW_CID).bytes, owner, 0, 1, key, &length) !=
        PROVIDER_DONE)
        return complain("the provider made no key");
    printf("%-*s", KEY_NAME, name);
    value_print(stdout, VALUE_BYTES, key, length, KEY_NAME);
    return NULL;
}

static complaint show_keys(const settings *set, const char *path)
{
    static uint8_t image[PRACTICE_IMAGE_ROOM];
    complaint wrong = card_read(path, image);
    if (!wrong)
        wrong = bound_fits(path, image, set->keys);
    if (wrong)
        return about(path, wrong);
    wrong = show_key("Card_PublicKey", set->keys, image, PROVIDER_CARD);
    if (!wrong)
        wrong = show_key("Issuer_Data_PublicKey", set->keys, image, PROVIDER_ISSUER);
    return wrong ? wrong : show_key("Issuer_Transaction_PublicKey", set->keys, image, PROVIDER_TRANSACTION);
}

/* ---- the commands ---- */

typedef complaint (*action)(const options *given, size_t count, char **operands);

static complaint run_new(const options *given, size_t count, char **operands)
{
    (void)count;
    return new_card(&given->set, operands[0], operands[1]);
}

static complaint run_show(const options *given, size_t count, char **operands)
{
    (void)count;
    return show_card(&given->set, operands[0]);
}

static complaint run_keys(const options *given, size_t count, char **operands)
{
    (void)count;
    return show_keys(&given->set, operands[0]);
}

static complaint run_send(const options *given, size_t count, char **operands)
{
    return send_requests(&given->set, operands[0], count - 1, operands + 1);
}

/* As a word among requests, so that it is shown as there. */
static complaint run_power_off(const options *given, size_t count, char **operands)
{
    char *word[] = {REQUEST_POWER_OFF};
    (void)count;
    return send_requests(&given->set, operands[0], 1, word);
}

static complaint run_record(const options *given, size_t count, char **operands)
{
    return record_requests(&given->set, operands[0], operands[1], count - 2, operands + 2);
}

static complaint run_explain(const options *given, size_t count, char **operands)
{
    return explain_messages(given->kind, given->set.json ? EXPLAIN_OBJECT : EXPLAIN_LINES, count, operands);
}

static complaint run_told(const options *given, size_t count, char **operands)
{
    (void)count;
    return tell_play(&given->set, operands[0]);
}

#define MANY SIZE_MAX
#define SENT OPTION_SEED OPTION_CODES OPTION_WAIT OPTION_HEX OPTION_JSON

typedef struct {
    const char *name, *operands, *meaning, *letters;
    size_t least, most;
    action run;
} command;

static const command commands[] = {
    {"new", "SHEET CARD", "a fresh card file from a personalisation sheet", OPTION_SEED, 2, 2, run_new},
    {"send", "CARD REQUEST..", "send requests, show each response in hex and in words, and what changed", SENT, 1, MANY, run_send},
    {REQUEST_POWER_OFF, "CARD", "the card leaves the field: the request that waits is forgotten, and stored so", OPTION_JSON, 1, 1, run_power_off},
    {"show", "CARD", "the card's values", OPTION_JSON, 1, 1, run_show},
    {"keys", "CARD", "the public keys of the card and of its issuer", OPTION_SEED, 1, 1, run_keys},
    {"record", "SHEET FILE REQUEST..", "a recording from a fresh card: the sheet, then a line for each tap", SENT, 2, MANY, run_record},
    {"record", "CARD FILE REQUEST..", "as send, and put each tap's line at the end of FILE, the card's recording", SENT, 2, MANY, run_record},
    {"explain", "MESSAGE..", "requests or responses in hex, taken apart; no card is needed", OPTION_KINDS OPTION_JSON, 1, MANY, run_explain},
    {"told", "RECORDING", "what the player printed, on standard input, told in words; ./play --words does it", OPTION_JSON, 1, 1, run_told},
};
#define COMMANDS (sizeof commands / sizeof *commands)

static void help_on_requests(void)
{
    puts("\nA request is hex, or a word with its operands; a lone comma parts requests. Without a REQUEST each line of standard\n"
         "input is one. The words take the CID and the codes from the card:\n");
    request_help(stdout);
}

/* On one command, or on all where it is NULL. */
static void help(const char *name)
{
    const char *letters = name ? "" : SENT OPTION_KINDS;
    int requests = name == NULL;
    puts("tap: a practice card in a file, tapped from the command line. Its keys are practice keys: anybody can work them out.\n");
    for (size_t at = 0; at < COMMANDS; at++) {
        if (name && strcmp(name, commands[at].name) != 0)
            continue;
        printf("  tap %-10s%-21s %s\n", commands[at].name, commands[at].operands, commands[at].meaning);
        letters = name ? commands[at].letters : letters;
        requests |= strstr(commands[at].operands, "REQUEST") != NULL;
    }
    if (requests)
        help_on_requests();
    puts("\nOptions stand anywhere after the command; -- ends them, so that a text may begin with a dash.\n");
    options_help(stdout, letters);
}

static const command *command_of(const char *name)
{
    for (size_t at = 0; at < COMMANDS; at++)
        if (strcmp(name, commands[at].name) == 0)
            return &commands[at];
    return NULL;
}

static int run(const options *given, const char *name, size_t count, char **operands)
{
    const command *found = command_of(name);
    if (!found)
        return usage(complain("'%.40s' is no command", name));
    const char *beside = options_beside(given, found->letters);
    if (beside)
        return usage(complain("%s takes no --%s", name, beside));
    if (count < found->least || count > found->most)
        return usage(complain("%s takes %s", name, found->run == run_record ? "SHEET or CARD, FILE and REQUEST.." : found->operands));
    return ended(found->run(given, count, operands));
}

int main(int count, char **arguments)
{
    options given = {.set = {.keys = seed_of(NULL)}};
    complaint wrong = options_read(&count, arguments, &given);
    const char *name = count > 0 ? arguments[0] : NULL;
    int asks = name && strcmp(name, "help") == 0;
    if (wrong)
        return usage(wrong);
    if (given.version) {
        version_print(stdout, "tap");
        return ended(NULL);
    }
    if (given.help || asks) {
        help(asks ? (count > 1 ? arguments[1] : NULL) : name);
        return ended(NULL);
    }
    if (!name)
        return usage("no command");
    if (given.set.hex_only && given.set.json)
        return usage("either --hex or --json");
    if (given.set.keys.length == 0)
        return usage("the seed has no bytes");
    return run(&given, name, (size_t)count - 1, arguments + 1);
}
