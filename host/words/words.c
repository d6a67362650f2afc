/* The tables of names. */
#include "words.h"

#include <string.h>

#include "practice.h"

#define COUNT(table) (sizeof(table) / sizeof *(table))
#define ANY_LENGTH 65535

enum { SET_PIN = 0xFA };

typedef struct {
    uint8_t ins;
    const char *name, *reads; /* the tags that it reads, one after the other */
} command;

static const command commands[] = {
    {0xF2, "READ_CARD", "\x10"},
    {0xF8, "CREATE_WALLET", "\x10\x01\x11\x19"},
    {0xF9, "CHECK_WALLET", "\x10\x01\x16\x14"},
    {0xFA, "SET_PIN", "\x10\x01\x11\x19\x12\x13"},
    {0xFB, "SIGN", "\x10\x01\x11\x19\x50\x51"},
    {0xF3, "VERIFY_CARD", "\x10\x01\x16"},
    {0xF4, "VALIDATE_CARD", "\x10\x01\x11"},
    {0xFC, "PURGE_WALLET", "\x10\x01\x11"},
    {0xE1, "READ_USER_DATA", "\x10\x01"},
    {0xE0, "WRITE_USER_DATA", "\x10\x01\x11\x2A\x2B\x2C\x2D"},
    {0xF6, "WRITE_ISSUER_DATA", "\x10\x01\x23\x32\x33\x35"},
    {0xF7, "READ_ISSUER_DATA", "\x10\x01\x23"},
    {0xFE, "ACTIVATE_CARD", "\x10\x01\x36\x34"},
};

/* Of requests and of responses: no tag has two meanings. */
static const words_field fields[] = {
    {0x01, "CID", VALUE_BYTES, 8, 8, 1},
    {0x02, "Status", VALUE_STATUS, 1, 1, 1},
    {0x04, "Card_Signature", VALUE_BYTES, 64, 64, 1},
    {0x05, "Curve_ID", VALUE_TEXT, 7, 9, 2}, /* ed25519, secp256k1 */
    {0x10, "PIN1", VALUE_CODE, 32, 32, 1},
    {0x11, "PIN2", VALUE_CODE, 32, 32, 1},
    {0x12, "New_PIN1", VALUE_CODE, 32, 32, 1},
    {0x13, "New_PIN2", VALUE_CODE, 32, 32, 1},
    {0x14, "Public_Key_Challenge", VALUE_BYTES, 0, 16, 16},
    {0x15, "Public_Key_Salt", VALUE_BYTES, 16, 16, 1},
    {0x16, "Challenge", VALUE_BYTES, 16, 16, 1},
    {0x17, "Salt", VALUE_BYTES, 16, 16, 1},
    {0x18, "Card_Validation_Counter", VALUE_NUMBER, 2, 2, 1},
    {0x19, "CVC", VALUE_TEXT, 3, 3, 1},
    {0x1C, "Pause", VALUE_PAUSE, 2, 2, 1},
    {0x23, "Mode", VALUE_NUMBER, 1, 1, 1},
    {0x2A, "User_Data", VALUE_DATA, 1, 512, 1},
    {0x2B, "User_ProtectedData", VALUE_DATA, 1, 512, 1},
    {0x2C, "User_Counter", VALUE_NUMBER, 4, 4, 1},
    {0x2D, "User_ProtectedCounter", VALUE_NUMBER, 4, 4, 1},
    {0x32, "Issuer_Data", VALUE_DATA, 1, 512, 1},
    {0x33, "Issuer_Data_Signature", VALUE_BYTES, 64, 64, 1},
    {0x34, "Activation_Signature", VALUE_BYTES, 64, 64, 1},
    {0x35, "Issuer_Data_Counter", VALUE_NUMBER, 4, 4, 1},
    {0x36, "Reset_PIN1", VALUE_FLAG, 1, 1, 1},
    {0x3A, "Is_Activated", VALUE_FLAG, 1, 1, 1},
    {0x3B, "Activation_Seed", VALUE_BYTES, 16, 16, 1},
    {0x50, "Transaction_Hash", VALUE_HASHES, 32, 320, 32},
    {0x51, "Transaction_Hash_Size", VALUE_NUMBER, 1, 1, 1},
    {0x60, "Wallet_PublicKey", VALUE_BYTES, 32, 65, 33}, /* on ed25519, on secp256k1 */
    {0x61, "Signature", VALUE_SIGNATURES, 64, 640, 64},
    {0x62, "Remaining", VALUE_NUMBER, 4, 4, 1},
    {0x63, "Signed_Hashes", VALUE_NUMBER, 4, 4, 1},
    {0x64, "Check_Wallet_Counter", VALUE_NUMBER, 4, 4, 1},
};

static const words_status statuses[] = {
    {PRACTICE_SW_PROCESS_COMPLETED, "SW_PROCESS_COMPLETED", "done"},
    {PRACTICE_SW_PIN1_CHANGED, "SW_PIN1_CHANGED", "done: PIN1 is another now"},
    {PRACTICE_SW_PIN2_CHANGED, "SW_PIN2_CHANGED", "done: PIN2 is another now"},
    {PRACTICE_SW_PINS_CHANGED, "SW_PINS_CHANGED", "done: both codes are others now"},
    {PRACTICE_SW_NEED_PAUSE, "SW_NEED_PAUSE", "wait: send the same bytes again"},
    {PRACTICE_SW_ERROR_PROCESSING_COMMAND, "SW_ERROR_PROCESSING_COMMAND", "refused: the issuer did not sign this"},
    {PRACTICE_SW_WRONG_LENGTH, "SW_WRONG_LENGTH", "refused: the length of the request, or its Lc"},
    {PRACTICE_SW_NEED_ENCRYPTION, "SW_NEED_ENCRYPTION", "refused: no encrypted session is open"},
    {PRACTICE_SW_INVALID_STATUS, "SW_INVALID_STATUS", "refused: not in the card's state, or a condition of the command fails"},
    {PRACTICE_SW_INVALID_PARAMS, "SW_INVALID_PARAMS", "refused: a code, the CID or a field is absent, wrong or malformed, or stands twice"},
    {PRACTICE_SW_INS_NOT_SUPPORTED, "SW_INS_NOT_SUPPORTED", "refused: no such command"},
    {PRACTICE_SW_CLA_NOT_SUPPORTED, "SW_CLA_NOT_SUPPORTED", "refused: no such class"},
};

static const char *const reasons[] = {
    [PRACTICE_CHECK_LENGTH] = "the length of the request, or its Lc",
    [PRACTICE_CHECK_CLASS] = "the class is not 00",
    [PRACTICE_CHECK_COMMAND] = "no such command",
    [PRACTICE_CHECK_P1_P2] = "P1 or P2 is not 00 (P2 01 or 02: no encrypted session is open)",
    [PRACTICE_CHECK_PAYLOAD] = "the payload does not end at a field's end, or a field that the command reads stands twice",
    [PRACTICE_CHECK_PIN1] = "PIN1 is absent or is not the card's",
    [PRACTICE_CHECK_CID] = "the CID is absent or is not the card's",
    [PRACTICE_CHECK_ACTIVATED] = "the card is not activated",
    [PRACTICE_CHECK_STATUS] = "the card's Status does not allow the command",
    [PRACTICE_CHECK_PIN2_CVC] = "PIN2 or the CVC is absent or is not the card's",
    [PRACTICE_CHECK_FIELDS] = "a field of the command is absent or not as it has to be",
    [PRACTICE_CHECK_CONDITION] = "a condition of the command is not met",
    [PRACTICE_CHECK_ISSUER] = "the issuer did not sign this",
};

static command command_of(const uint8_t *request, size_t length)
{
    for (size_t at = 0; length >= 2 && at < COUNT(commands); at++)
        if (commands[at].ins == request[1])
            return commands[at];
    return (command){0, WORDS_UNKNOWN, ""};
}

const char *words_command(const uint8_t *request, size_t length)
{
    return command_of(request, length).name;
}

int words_reads(const uint8_t *request, size_t length, uint8_t tag)
{
    return tag != 0 && strchr(command_of(request, length).reads, tag) != NULL;
}

words_field words_field_of(uint8_t tag)
{
    for (size_t at = 0; at < COUNT(fields); at++)
        if (fields[at].tag == tag)
            return fields[at];
    return (words_field){tag, WORDS_UNKNOWN, VALUE_BYTES, 0, ANY_LENGTH, 1};
}

int words_fits(const words_field *row, size_t length)
{
    return length >= row->least && length <= row->most && (length - row->least) % row->step == 0;
}

words_status words_status_of(uint16_t word, const uint8_t *request, size_t request_len)
{
    if (word == PRACTICE_SW_PROCESS_COMPLETED && request_len >= 2 && request[1] == SET_PIN)
        return (words_status){word, "SW_PINS_NOT_CHANGED", "done: both codes are as they were"};
    for (size_t at = 0; at < COUNT(statuses); at++)
        if (statuses[at].word == word)
            return statuses[at];
    return (words_status){word, WORDS_UNKNOWN, "no status word of this card"};
}

const char *words_reason(uint8_t reason)
{
    return reason > 0 && reason < COUNT(reasons) ? reasons[reason] : WORDS_UNKNOWN;
}
