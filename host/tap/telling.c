/* What the player printed, line by line, beside the recording that it played. */
#include "telling.h"

#include <stdlib.h>
#include <string.h>

#include "hex.h"
#include "recorded.h"
#include "response.h"
#include "showing.h"
#include "tapline.h"
#include "words.h"

#define PRINTED_ROOM 8192
#define PARTS 4

/* The play so far. */
typedef struct {
    const settings *set;
    recorded from;
    unsigned others;
} play;

/* ---- a bad line ---- */

static complaint tell_bad_line(play *p, char **parts)
{
    static tapline unused;
    unsigned number = (unsigned)strtoul(parts[1], NULL, 10);
    if (recorded_next(&p->from, &unused) != RECORDED_BAD || number != p->from.bad_line)
        return complain("the player calls line %u bad, and this host finds nothing wrong with it", number);
    if (p->set->json) {
        show_bad_line(number, p->from.why);
        puts("}");
    } else {
        printf("%sline %u is bad: %s\n", p->from.taps ? "\n" : "", number, p->from.why);
    }
    return NULL;
}

/* ---- a tap ---- */

static void tell_expected(const tap *t, const char *expected)
{
    static uint8_t bytes[RECORDING_LINE];
    size_t length = 0;
    if (strcmp(expected, SHOWING_NONE) == 0) {
        puts("expected\n< " SHOWING_NONE);
        return;
    }
    hex_read(expected, bytes, sizeof bytes, &length);
    puts("expected");
    show_hex('<', bytes, length);
    response_print(stdout, t->sent.bytes, t->sent.length, bytes, length);
}

static void tell_words(const play *p, const char *verdict, const tap *t, const char *expected)
{
    printf("%s%u  %s  %s\n", p->from.taps > 1 ? "\n" : "", p->from.taps, verdict, words_command(t->sent.bytes, t->sent.length));
    show_lines(t);
    if (strcmp(verdict, "other") == 0)
        tell_expected(t, expected);
}

static void tell_object(const play *p, const char *verdict, const tap *t, const char *expected)
{
    show_verdict(p->from.taps, verdict, expected);
    putchar(',');
    show_members(t);
    puts("}");
}

static complaint tell_tap(play *p, char **parts)
{
    static tapline read;
    static tap t;
    char response[2 * PRACTICE_ROOM + 1];
    recorded_step step = recorded_next(&p->from, &read);
    if (!p->from.is_card || step == RECORDED_END)
        return complain("the player has a tap %.12s, and the recording has none", parts[0]);
    if (step == RECORDED_BAD)
        return complain("line %u is bad for this host and good for the player: %s", p->from.bad_line, p->from.why);
    complaint wrong = recorded_play(&p->from, &read, &t);
    if (wrong)
        return wrong;
    t.got.reason = 0; /* a play tells what stands in the recording, and no recording has the check that refused */
    recorded_response(&t, response);
    if (strcmp(response, parts[2]) != 0 || (strcmp(response, read.expected) == 0) != (strcmp(parts[1], "same") == 0))
        return complain("tap %u: the player printed %s %.40s, and this host's library answers %.40s", p->from.taps, parts[1], parts[2],
                        response);
    p->others += strcmp(parts[1], "other") == 0;
    (p->set->json ? tell_object : tell_words)(p, parts[1], &t, read.expected);
    return NULL;
}

/* ---- the sums ---- */

static complaint tell_sums(play *p, char **parts)
{
    static const struct {
        const char *name, *meaning;
    } sums[PARTS] = {{"Remaining", "signatures that the card has left"},
                     {"Signed_Hashes", "hashes that the card has signed, as it counts them"},
                     {"SIGNs", "new SIGNs of the wallet that lives, counted from the taps"},
                     {"hashes", "hashes newly signed, counted from the taps"}};
    if (p->set->json) {
        putchar('{');
        show_counts(p->from.taps, p->others);
    } else {
        printf("%s%-13s  %10u  %u same, %u other\n", p->from.taps ? "\n" : "", "taps", p->from.taps, p->from.taps - p->others, p->others);
    }
    for (size_t at = 0; at < PARTS; at++)
        if (p->set->json)
            printf(",\"%s\":%s", sums[at].name, parts[at]);
        else
            printf("%-13s  %10s  %s\n", sums[at].name, parts[at], sums[at].meaning);
    fputs(p->set->json ? "}\n" : "", stdout);
    return NULL;
}

/* ---- all of it ---- */

static size_t cut(char *printed, char **parts)
{
    size_t count = 0;
    printed[strcspn(printed, "\n")] = 0;
    for (char *at = printed; at && count <= PARTS; count++) {
        if (count < PARTS)
            parts[count] = at;
        if ((at = strchr(at, '\t')))
            *at++ = 0;
    }
    return count;
}

static complaint tell_line(play *p, char *printed)
{
    char *parts[PARTS];
    size_t count = cut(printed, parts);
    if (count == 2 && strcmp(parts[0], "line") == 0)
        return tell_bad_line(p, parts);
    if (count == 3 && (strcmp(parts[1], "same") == 0 || strcmp(parts[1], "other") == 0))
        return tell_tap(p, parts);
    if (count == 4 && strspn(parts[0], "0123456789") > 0)
        return tell_sums(p, parts);
    return complain("standard input: '%.40s' is no line that the player prints", printed);
}

complaint tell_play(const settings *set, const char *recording)
{
    static play p;
    char printed[PRINTED_ROOM];
    complaint wrong = NULL;
    FILE *in = fopen(recording, "r");
    if (!in)
        return complain("%s: cannot be opened", recording);
    p.set = set;
    recorded_open(&p.from, in);
    while (!wrong && fgets(printed, sizeof printed, stdin)) {
        wrong = tell_line(&p, printed);
        fflush(stdout);
    }
    fclose(in);
    return !wrong && ferror(stdin) ? complain("standard input cannot be read") : wrong;
}
