/* Requests, responses and questions taken apart. */
#include "explain.h"

#include <string.h>

#include "page.h"
#include "practice.h"
#include "words.h"

enum { HEADER = 4, LEAST = 6, MOST = 1024, STATUS_WORD = 2, QUESTION = 6, SIGNATURE = 64 };

/* ---- requests ---- */

/* Lc: how long it is itself, and what it says. It cannot be read where the bytes end inside it. */
typedef struct {
    size_t width, says;
    int is_read;
} length_code;

static length_code read_lc(message m)
{
    if (m.length > HEADER && m.bytes[HEADER] != 0)
        return (length_code){1, m.bytes[HEADER], 1};
    if (m.length >= HEADER + 3)
        return (length_code){3, value_number(m.bytes + HEADER + 1, 2), 1};
    return (length_code){m.length > HEADER ? m.length - HEADER : 0, 0, 0};
}

static int lc_fits(message m)
{
    length_code lc = read_lc(m);
    return lc.is_read && lc.says > 0 && HEADER + lc.width + lc.says == m.length;
}

message explain_payload(message m)
{
    length_code lc = read_lc(m);
    size_t start = HEADER + lc.width, follow = m.length > start ? m.length - start : 0;
    return (message){m.bytes + (follow > 0 ? start : 0), follow < lc.says ? follow : lc.says};
}

static void put_header(page *p, message m)
{
    static const char *const names[] = {"CLA", "INS", "P1", "P2"};
    for (size_t at = 0; at < HEADER && at < m.length; at++)
        page_part(p, at, 1, names[at], "%02X%s%s", m.bytes[at], at == 1 ? "  " : "", at == 1 ? words_command(m.bytes, m.length) : "");
}

static void put_lc(page *p, length_code lc)
{
    if (lc.is_read)
        page_part(p, HEADER, lc.width, "Lc", "%zu%s", lc.says, lc.width == 1 ? "" : ", in three bytes");
    else if (lc.width > 0)
        page_torn(p, HEADER, lc.width, "Lc");
}

/* What is wrong with length and header stands below the parts, in the order of the card's checks: the first decides. */
static void judge_length(page *p, message m, length_code lc)
{
    size_t start = HEADER + lc.width, follow = m.length - (m.length < start ? m.length : start);
    if (m.length < LEAST || m.length > MOST)
        page_wrong(p, m.length, "a request has %d to %d bytes, and this one has %zu (6700)", LEAST, MOST, m.length);
    if (m.length > HEADER && !lc.is_read)
        page_wrong(p, HEADER, "Lc is one byte from 01 to FF, or 00 and two bytes (6700)");
    if (lc.is_read && lc.says == 0)
        page_wrong(p, HEADER, "Lc says 0, and has to be 1 or more (6700)");
    else if (lc.is_read && lc.says != follow)
        page_wrong(p, HEADER, "Lc says %zu bytes, and %zu follow (6700)%s", lc.says, follow,
                   follow == lc.says + 1 ? "; if the last is an Le: this card takes none" : "");
}

static void judge_header(page *p, message m)
{
    if (m.bytes[0] != 0)
        page_wrong(p, 0, "CLA has to be 00 (6E00)");
    if (m.length > 1 && strcmp(words_command(m.bytes, m.length), WORDS_UNKNOWN) == 0)
        page_wrong(p, 1, "no such command (6D00)");
    if (m.length > 3 && (m.bytes[3] == 1 || m.bytes[3] == 2))
        page_wrong(p, 3, "P2 asks for an encrypted session, and there is none (6982)");
    else if (m.length > 3 && (m.bytes[2] != 0 || m.bytes[3] != 0))
        page_wrong(p, m.bytes[2] ? 2 : 3, "P1 and P2 have to be 00 (6A86)");
}

void explain_request(FILE *out, explain_form form, message m)
{
    length_code lc = read_lc(m);
    size_t start = HEADER + lc.width, payload = explain_payload(m).length, end = start + payload;
    page p = page_start(out, form, "request", m);
    put_header(&p, m);
    put_lc(&p, lc);
    if (payload > 0)
        page_fields(&p, start, payload, m);
    if (m.length > end)
        page_value(&p, end, m.length - end, "after the payload", VALUE_BYTES);
    judge_length(&p, m, lc);
    if (m.length > 0)
        judge_header(&p, m);
    page_end(&p);
}

/* ---- responses ---- */

/* The field Pause, all by itself. */
static int is_pause(message fields)
{
    return fields.length == 4 && fields.bytes[0] == 0x1C && fields.bytes[1] == 2;
}

static void judge_response(page *p, message m, size_t end, words_status row)
{
    int is_done = row.word >= PRACTICE_SW_PROCESS_COMPLETED && row.word <= PRACTICE_SW_PINS_CHANGED;
    int is_wait = row.word == PRACTICE_SW_NEED_PAUSE;
    if (strcmp(row.name, WORDS_UNKNOWN) == 0)
        page_wrong(p, end, "a response ends with a status word, and this is none of this card's");
    else if (is_wait && !is_pause((message){m.bytes, end}))
        page_wrong(p, 0, "before 9789 this card tells Pause (1C), two bytes, and nothing else");
    else if (is_done && (end == 0 || m.bytes[0] != 0x01))
        page_wrong(p, 0, "a response of this card begins with the CID (01)");
    else if (!is_done && !is_wait && end > 0)
        page_wrong(p, 0, "a refusal of this card is its status word alone");
}

static void put_response(page *p, message request, message m)
{
    if (m.length == 1)
        page_torn(p, 0, m.length, "status word");
    if (m.length < STATUS_WORD) {
        page_wrong(p, m.length, "a response ends with its status word, two bytes");
        return;
    }
    size_t end = m.length - STATUS_WORD;
    words_status row = words_status_of((uint16_t)value_number(m.bytes + end, STATUS_WORD), request.bytes, request.length);
    if (end > 0)
        page_fields(p, 0, end, (message){NULL, 0});
    page_part(p, end, STATUS_WORD, "status word", "%04X  %s  %s", row.word, row.name, row.meaning);
    judge_response(p, m, end, row);
}

void explain_response(FILE *out, explain_form form, message request, message m)
{
    page p = page_start(out, form, "response", m);
    put_response(&p, request, m);
    page_end(&p);
}

/* ---- questions ---- */

message explain_question(message m)
{
    size_t length = QUESTION + (m.length < QUESTION ? 0 : value_number(m.bytes + 4, 2));
    return (message){m.bytes, m.length < length ? 0 : length};
}

static void put_message(page *p, size_t at, uint8_t kind, size_t length)
{
    int verify = (kind == PRACTICE_ISSUER_SIGNED || kind == PRACTICE_ISSUER_CONFIRMED) && length >= SIGNATURE;
    size_t skipped = verify ? SIGNATURE : 0;
    if (verify)
        page_value(p, at, SIGNATURE, "signature", VALUE_BYTES);
    page_value(p, at + skipped, length - skipped, kind == PRACTICE_SIGN_HASH ? "hash" : "message", VALUE_BYTES);
}

static void put_question(page *p, size_t at, message question)
{
    static const char *const kinds[] = {
        [PRACTICE_MAKE_KEY] = "make a wallet key",
        [PRACTICE_SIGN_HASH] = "sign this hash with the wallet key",
        [PRACTICE_HASH_AND_SIGN] = "hash this message and sign it with the wallet key",
        [PRACTICE_CARD_SIGNS] = "SHA-256 of this message, signed with the card key",
        [PRACTICE_ISSUER_SIGNED] = "did the issuer data key sign the SHA-256 of the message?",
        [PRACTICE_ISSUER_CONFIRMED] = "did the issuer transaction key sign the SHA-256 of the message?",
    };
    uint8_t kind = question.bytes[0], curve = question.bytes[3];
    size_t length = question.length - QUESTION;
    int is_kind = kind >= PRACTICE_MAKE_KEY && kind <= PRACTICE_ISSUER_CONFIRMED;
    page_part(p, at, 1, "kind", "%u  %s", kind, is_kind ? kinds[kind] : WORDS_UNKNOWN);
    page_part(p, at + 1, 2, "wallet number", "%u", value_number(question.bytes + 1, 2));
    page_value(p, at + 3, 1, "curve", VALUE_CURVE);
    page_part(p, at + 4, 2, "message length", "%zu", length);
    if (length > 0)
        put_message(p, at + QUESTION, kind, length);
    if (!is_kind)
        page_wrong(p, at, "the kinds are %d to %d", PRACTICE_MAKE_KEY, PRACTICE_ISSUER_CONFIRMED);
    if (curve != PRACTICE_SECP256K1 && curve != PRACTICE_ED25519)
        page_wrong(p, at + 3, "a curve is 1 or 2");
}

void explain_questions(FILE *out, explain_form form, message m)
{
    page p = page_start(out, form, "questions", m);
    size_t at = 0;
    for (message one; (one = explain_question((message){m.bytes + at, m.length - at})).length > 0; at += one.length)
        put_question(&p, at, one);
    if (at < m.length) {
        page_torn(&p, at, m.length - at, "question");
        page_wrong(&p, at, "the bytes end inside this question");
    }
    page_end(&p);
}

/* ---- which of them ---- */

static int ends_in_status(message m)
{
    field_walk walk = {m.bytes, m.length - STATUS_WORD, 0};
    field one;
    words_status row = words_status_of((uint16_t)value_number(m.bytes + walk.length, STATUS_WORD), NULL, 0);
    field_step step;
    while ((step = field_next(&walk, &one)) == FIELD_FOUND)
        ;
    return step == FIELD_END && strcmp(row.name, WORDS_UNKNOWN) != 0;
}

static int is_status_alone(message m)
{
    return m.length == STATUS_WORD && (m.bytes[0] >> 4 == 6 || m.bytes[0] >> 4 == 9);
}

/* A request of this card has CLA 00, and a response begins with the CID, tag 01, or is a status word. */
explain_kind explain_guess(message m)
{
    if (m.length == 0)
        return EXPLAIN_UNKNOWN;
    if (m.bytes[0] == 0x00)
        return EXPLAIN_REQUEST;
    if (m.bytes[0] == 0x01 || is_status_alone(m) || (m.length >= STATUS_WORD && ends_in_status(m)))
        return EXPLAIN_RESPONSE;
    return lc_fits(m) ? EXPLAIN_REQUEST : EXPLAIN_UNKNOWN;
}
