/* Makes the requests that standard input asks for, a line each, and prints each in hex; '0' where the builder refused, and '!' where it
 * wrote past its room. A line has these words: the room, the command's INS, PIN1, CID, PIN2 and CVC, then what the command takes, a
 * counter in four bytes. A value is hex behind a point, or '-' where it is left out. With 'image' for a room, the words are the codes
 * that practice_codes_of finds in the image. With an INS of no command what follows the codes are tags, each with its value. */
#include <stdio.h>
#include <stdlib.h>
#include <string.h>

#include "hex.h"
#include "practice_request.h"

#define LINE 300000
#define GUARD 0xA5

static uint8_t buffer[LINE], values[12][LINE / 2];
static practice_bytes word[12];
static uint32_t numbers[12];

static void read_word(const char *text, int at)
{
    size_t length = 0;
    word[at] = (practice_bytes){NULL, 0};
    if (*text == '-')
        return;
    if (*text != '.' || (text[1] && hex_read(text + 1, values[at], sizeof values[at], &length)))
        exit(2);
    word[at] = (practice_bytes){values[at], (uint32_t)length};
}

static const uint32_t *counter(int at)
{
    numbers[at] = 0;
    for (uint32_t byte = 0; byte < word[at].length; byte++)
        numbers[at] = numbers[at] << 8 | word[at].bytes[byte];
    return word[at].bytes ? &numbers[at] : NULL;
}

static size_t by_fields(size_t room, uint8_t ins, int count)
{
    practice_request made = practice_request_begin(buffer, room, ins);
    for (int at = 4; at + 1 < count; at += 2)
        practice_request_field(&made, *word[at].bytes, word[at + 1]);
    return practice_request_end(&made);
}

static size_t make(size_t room, uint8_t ins, int count)
{
    const practice_codes codes = {.pin1 = word[0], .cid = word[1], .pin2 = word[2], .cvc = word[3]};
    const practice_bytes *own = word + 4;
    switch (ins) {
    case PRACTICE_INS_READ_CARD: return practice_request_read_card(buffer, room, &codes);
    case PRACTICE_INS_CREATE_WALLET: return practice_request_create_wallet(buffer, room, &codes);
    case PRACTICE_INS_CHECK_WALLET: return practice_request_check_wallet(buffer, room, &codes, own[0], own[1]);
    case PRACTICE_INS_SET_PIN: return practice_request_set_pin(buffer, room, &codes, own[0], own[1]);
    case PRACTICE_INS_SIGN: return practice_request_sign(buffer, room, &codes, own[0].bytes, own[0].length / 32);
    case PRACTICE_INS_VERIFY_CARD: return practice_request_verify_card(buffer, room, &codes, own[0]);
    case PRACTICE_INS_VALIDATE_CARD: return practice_request_validate_card(buffer, room, &codes);
    case PRACTICE_INS_PURGE_WALLET: return practice_request_purge_wallet(buffer, room, &codes);
    case PRACTICE_INS_READ_USER_DATA: return practice_request_read_user_data(buffer, room, &codes);
    case PRACTICE_INS_WRITE_USER_DATA:
        return practice_request_write_user_data(buffer, room, &codes, own[0], own[1], counter(6), counter(7));
    case PRACTICE_INS_WRITE_ISSUER_DATA: return practice_request_write_issuer_data(buffer, room, &codes, own[0], own[1], counter(6));
    case PRACTICE_INS_READ_ISSUER_DATA: return practice_request_read_issuer_data(buffer, room, &codes);
    case PRACTICE_INS_ACTIVATE_CARD: return practice_request_activate_card(buffer, room, &codes, own[0].bytes, own[1]);
    default: return by_fields(room, ins, count);
    }
}

static void print(const uint8_t *bytes, size_t length, const char *after)
{
    hex_print(stdout, bytes, length);
    fputs(after, stdout);
}

static void show_codes(const uint8_t *image)
{
    practice_codes codes = practice_codes_of(image);
    print(codes.pin1.bytes, codes.pin1.length, " ");
    print(codes.cid.bytes, codes.cid.length, " ");
    print(codes.pin2.bytes, codes.pin2.length, " ");
    print(codes.cvc.bytes, codes.cvc.length, codes.cvc.bytes ? "\n" : "-\n");
}

static void show_request(size_t room, uint8_t ins, int count)
{
    memset(buffer, GUARD, sizeof buffer);
    size_t length = make(room, ins, count);
    if (buffer[room] != GUARD || memcmp(buffer + room, buffer + room + 1, sizeof buffer - room - 1) != 0)
        puts("!");
    else if (length == 0)
        puts("0");
    else
        print(buffer, length, "\n");
}

int main(void)
{
    static char line[LINE];
    while (fgets(line, sizeof line, stdin)) {
        char *room = strtok(line, " \n"), *ins = strtok(NULL, " \n");
        int count = 0;
        memset(word, 0, sizeof word);
        for (char *text; count < 12 && (text = strtok(NULL, " \n"));)
            read_word(text, count++);
        if (strcmp(room, "image") == 0) {
            read_word(ins, 0);
            show_codes(word[0].bytes);
        } else
            show_request(strtoul(room, NULL, 10), (uint8_t)strtoul(ins, NULL, 16), count);
    }
    return 0;
}
