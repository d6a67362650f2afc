/* Options, one row each. */
#include "options.h"

#include <getopt.h>
#include <string.h>

typedef struct {
    char letter;
    const char *name, *value, *meaning;
} row;

static const row rows[] = {
    {'s', "seed", "TEXT",
     "keys and draws from this seed: the same taps are the same to the byte. Without it the keys come from\n"
     "                the seed '" SEED_PRACTICE "' and the draws from chance. A card keeps to the seed of its first key"},
    {'1', "pin1", "TEXT", "send this PIN1, hashed by SHA-256, instead of the card's own"},
    {'2', "pin2", "TEXT", "the same for PIN2"},
    {'c', "cvc", "TEXT", "send this CVC instead of the card's own"},
    {'w', "wait", NULL,
     "send the same bytes until the card goes on, and show the seconds left each time. On this card a second\n"
     "                is a sending: no time has to pass"},
    {'x', "hex", NULL, "print each response in hex alone"},
    {'j', "json", NULL, "print JSON, one object a line (docs/JSON.md)"},
    {'q', "request", NULL, "take the messages for requests"},
    {'r', "response", NULL, "take the messages for responses"},
    {'k', "questions", NULL, "take the messages for what practice_ask asks the provider"},
    {'h', "help", NULL, "print this help; -h does, too"},
    {'v', "version", NULL, "print what this is"},
};
#define ROWS (sizeof rows / sizeof *rows)

static void take(char letter, char *value, options *read)
{
    switch (letter) {
    case 's': read->set.keys = seed_of(value); break;
    case '1': read->set.pin1 = value; break;
    case '2': read->set.pin2 = value; break;
    case 'c': read->set.cvc = value; break;
    case 'w': read->set.wait = 1; break;
    case 'x': read->set.hex_only = 1; break;
    case 'j': read->set.json = 1; break;
    case 'q': read->kind = EXPLAIN_REQUEST; break;
    case 'r': read->kind = EXPLAIN_RESPONSE; break;
    case 'k': read->kind = EXPLAIN_QUESTIONS; break;
    case 'h': read->help = 1; break;
    case 'v': read->version = 1; break;
    }
    if (!strchr(read->given, letter) && strlen(read->given) + 1 < sizeof read->given)
        strncat(read->given, &letter, 1);
}

/* The word that getopt stumbled on; of letters that stand together after a dash it names the one. */
static complaint no_option(const char *word)
{
    char letter[] = {'-', (char)optopt, 0};
    return complain("%s is no option; after -- a text may begin with a dash", strncmp(word, "--", 2) == 0 ? word : letter);
}

complaint options_read(int *count, char **arguments, options *read)
{
    struct option table[ROWS + 1] = {{NULL, 0, NULL, 0}};
    int operands = 0;
    for (size_t at = 0; at < ROWS; at++)
        table[at] = (struct option){rows[at].name, rows[at].value ? required_argument : no_argument, NULL, rows[at].letter};
    opterr = 0;
    /* With '-' first an operand comes as option 1, in its place. */
    for (int letter; (letter = getopt_long(*count, arguments, "-:h", table, NULL)) != -1;)
        if (letter == 1)
            arguments[operands++] = optarg;
        else if (letter == ':')
            return complain("%s takes a value after it", arguments[optind - 1]);
        else if (letter == '?')
            return no_option(arguments[optind - 1]);
        else
            take((char)letter, optarg, read);
    while (optind < *count)
        arguments[operands++] = arguments[optind++];
    *count = operands;
    return NULL;
}

const char *options_beside(const options *read, const char *letters)
{
    for (size_t at = 0; at < ROWS; at++)
        if (strchr(read->given, rows[at].letter) && !strchr(letters, rows[at].letter) && !strchr("hv", rows[at].letter))
            return rows[at].name;
    return NULL;
}

void options_help(FILE *out, const char *letters)
{
    for (size_t at = 0; at < ROWS; at++) {
        char name[24];
        if (!strchr(letters, rows[at].letter) && !strchr("hv", rows[at].letter))
            continue;
        snprintf(name, sizeof name, "--%s%s%s", rows[at].name, rows[at].value ? " " : "", rows[at].value ? rows[at].value : "");
        fprintf(out, "  %-13s %s\n", name, rows[at].meaning);
    }
}
