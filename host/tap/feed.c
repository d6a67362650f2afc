/* Where requests come from. */
#include "feed.h"

#include <string.h>

#include "line.h"
#include "requests.h"

static size_t up_to_comma(const batch *in)
{
    size_t length = 0;
    while (length < in->count && in->words[length])
        length++;
    return length;
}

size_t batch_next(batch *left, char ***words)
{
    while (left->count > 0 && !left->words[0]) {
        left->words++;
        left->count--;
    }
    *words = left->words;
    size_t taken = left->count > 0 && request_is_word(left->words[0]) ? up_to_comma(left) : left->count > 0;
    left->words += taken;
    left->count -= taken;
    return taken;
}

/* ---- lines ---- */

/* Cuts the text into words where it stands. */
static complaint cut(feed *from, batch *next)
{
    char *at = from->text;
    for (; at += strspn(at, " \t"), *at; next->count++) {
        int quoted = *at == '"';
        if (next->count == FEED_WORDS)
            return complain("more than %d words", FEED_WORDS);
        at += quoted;
        char *word = at;
        at += strcspn(at, quoted ? "\"" : " \t");
        if (quoted && !*at)
            return complain("a quote is not closed");
        if (*at)
            *at++ = 0;
        next->words[next->count] = quoted || strcmp(word, ",") != 0 ? word : NULL;
    }
    return NULL;
}

/* Words that were cut one after the other from a text, as one again with blanks between. */
static void join(char **words, size_t count)
{
    for (size_t at = 1; at < count; at++)
        for (char *gap = words[at - 1] + strlen(words[at - 1]); gap < words[at]; gap++)
            *gap = ' ';
}

/* The first word decides: only where it is none of the words is all up to a comma one piece of hex, blanks and all. */
static void join_hex(batch *next)
{
    batch left = *next;
    size_t kept = 0;
    while (left.count > 0) {
        size_t taken = up_to_comma(&left);
        int is_hex = taken > 1 && !request_is_word(left.words[0]);
        if (is_hex)
            join(left.words, taken);
        for (size_t at = 0; at < taken; at++)
            if (at == 0 || !is_hex)
                next->words[kept++] = left.words[at];
        if (taken < left.count)
            next->words[kept++] = NULL;
        left.words += taken + (taken < left.count);
        left.count -= taken + (taken < left.count);
    }
    next->count = kept;
}

static complaint check_line(feed *from, line_kind read, size_t length)
{
    if (length > 0 && from->text[length - 1] == '\r' && read != LINE_LONG)
        from->text[--length] = 0;
    if (read == LINE_LONG || length > FEED_LINE)
        return complain("more than %d characters", FEED_LINE);
    if (strlen(from->text) != length)
        return complain("there is a NUL in it");
    return strchr(from->text, '\r') ? complain("there is a carriage return inside it") : NULL;
}

static complaint next_of_lines(feed *from, batch *next)
{
    size_t length;
    for (line_kind read; (read = line_read(from->lines, from->text, sizeof from->text, &length)) != LINE_NONE;) {
        from->line++;
        if (ferror(from->lines))
            break;
        complaint wrong = check_line(from, read, length);
        if (!wrong && (from->text[0] == '#' || from->text[strspn(from->text, " \t")] == 0))
            continue;
        if (!wrong)
            wrong = cut(from, next);
        if (!wrong)
            join_hex(next);
        return wrong;
    }
    return ferror(from->lines) ? complain("it cannot be read") : NULL;
}

/* ---- both ---- */

void feed_open(feed *from, size_t count, char **arguments, FILE *lines)
{
    from->arguments = (batch){count, arguments};
    from->lines = count == 0 ? lines : NULL;
    from->line = 0;
    for (size_t at = 0; at < count; at++)
        if (strcmp(arguments[at], ",") == 0)
            arguments[at] = NULL;
}

complaint feed_next(feed *from, batch *next)
{
    *next = from->lines ? (batch){0, from->words} : from->arguments;
    from->arguments.count = 0;
    return from->lines ? next_of_lines(from, next) : NULL;
}
