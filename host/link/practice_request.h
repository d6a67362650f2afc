/* Requests for the practice card: one function for each of its thirteen commands, and below them begin, field and end for any other.
 *
 *   uint8_t request[PRACTICE_REQUEST_ROOM];
 *   practice_codes codes = practice_codes_of(image);
 *   size_t length = practice_request_sign(request, sizeof request, &codes, hash, 1);
 *
 * Each writes into the caller's buffer and returns how many bytes the request has, or 0 where it does not fit in room bytes; the buffer's
 * content then means nothing. Lengths take the short form where they fit it. Nothing is allocated or kept, and whether the card takes
 * the request the card alone decides: a code of three bytes, a note of 600 or a request of 4,096 can be made, to see it refused. */
#ifndef PRACTICE_REQUEST_H
#define PRACTICE_REQUEST_H

#include <stddef.h>
#include <stdint.h>

#include "practice_view.h"

#ifdef __cplusplus
extern "C" {
#endif

/* The longest request that a card takes. */
#define PRACTICE_REQUEST_ROOM 1024

/* The codes and the CID of a card. A code goes into the requests of the commands that ask for it. One whose bytes are NULL is left out,
 * and so is every practice_bytes below. */
typedef struct {
    practice_bytes pin1, pin2; /* 32 bytes: the SHA-256 of what a person knows */
    practice_bytes cid;        /* 8 bytes */
    practice_bytes cvc;        /* 3 bytes, where the card uses one */
} practice_codes;

/* The card's own, which point into the image. CVC is left out on a card that uses none. */
practice_codes practice_codes_of(const uint8_t *image);

/* ---- the commands ---- */

/* PIN1 alone. */
size_t practice_request_read_card(uint8_t *request, size_t room, const practice_codes *codes);

/* PIN1, CID, PIN2, CVC. */
size_t practice_request_create_wallet(uint8_t *request, size_t room, const practice_codes *codes);

/* PIN1, CID. The challenge has 16 bytes. With the other one, of 16 bytes or empty, the card signs its wallet's public key too: an empty
 * one is not one left out. */
size_t practice_request_check_wallet(uint8_t *request, size_t room, const practice_codes *codes, practice_bytes challenge,
                                     practice_bytes public_key_challenge);

/* PIN1, CID, PIN2, CVC. As many hashes of 32 bytes as count says, one after the other; none asks for the last signatures again. */
size_t practice_request_sign(uint8_t *request, size_t room, const practice_codes *codes, const uint8_t *hashes, size_t count);

/* PIN1, CID, PIN2, CVC. The new codes, 32 bytes each; one that stays is sent as it is. */
size_t practice_request_set_pin(uint8_t *request, size_t room, const practice_codes *codes, practice_bytes new_pin1,
                                practice_bytes new_pin2);

/* PIN1, CID, PIN2. */
size_t practice_request_purge_wallet(uint8_t *request, size_t room, const practice_codes *codes);
size_t practice_request_validate_card(uint8_t *request, size_t room, const practice_codes *codes);

/* PIN1, CID. The challenge has 16 bytes. */
size_t practice_request_verify_card(uint8_t *request, size_t room, const practice_codes *codes, practice_bytes challenge);

/* PIN1, CID, and PIN2 where one of the protected two is sent. A counter that is NULL is left out. */
size_t practice_request_write_user_data(uint8_t *request, size_t room, const practice_codes *codes, practice_bytes data,
                                        practice_bytes protected_data, const uint32_t *counter, const uint32_t *protected_counter);

/* PIN1, CID. */
size_t practice_request_read_user_data(uint8_t *request, size_t room, const practice_codes *codes);

/* PIN1, CID. The issuer's signature, 64 bytes, is of the SHA-256 of CID, data and, on a card with replay protection, counter in four
 * bytes, which is then sent as well; on any other card it is NULL. */
size_t practice_request_write_issuer_data(uint8_t *request, size_t room, const practice_codes *codes, practice_bytes data,
                                          practice_bytes signature, const uint32_t *counter);

/* PIN1, CID. */
size_t practice_request_read_issuer_data(uint8_t *request, size_t room, const practice_codes *codes);

/* PIN1, CID. Reset_PIN1 is 0, PIN1 stays, or 1, PIN1 becomes the SHA-256 of "000000". The issuer's signature, 64 bytes, is of the SHA-256
 * of CID, Activation_Seed and that byte. A byte that is NULL is left out. */
size_t practice_request_activate_card(uint8_t *request, size_t room, const practice_codes *codes, const uint8_t *reset_pin1,
                                      practice_bytes signature);

/* ---- field by field ---- */

enum {
    PRACTICE_INS_READ_CARD = 0xF2,
    PRACTICE_INS_CREATE_WALLET = 0xF8,
    PRACTICE_INS_CHECK_WALLET = 0xF9,
    PRACTICE_INS_SET_PIN = 0xFA,
    PRACTICE_INS_SIGN = 0xFB,
    PRACTICE_INS_VERIFY_CARD = 0xF3,
    PRACTICE_INS_VALIDATE_CARD = 0xF4,
    PRACTICE_INS_PURGE_WALLET = 0xFC,
    PRACTICE_INS_READ_USER_DATA = 0xE1,
    PRACTICE_INS_WRITE_USER_DATA = 0xE0,
    PRACTICE_INS_WRITE_ISSUER_DATA = 0xF6,
    PRACTICE_INS_READ_ISSUER_DATA = 0xF7,
    PRACTICE_INS_ACTIVATE_CARD = 0xFE
};

/* The fields of requests and of responses. */
enum {
    PRACTICE_TAG_CID = 0x01,
    PRACTICE_TAG_STATUS = 0x02,
    PRACTICE_TAG_CARD_SIGNATURE = 0x04,
    PRACTICE_TAG_CURVE_ID = 0x05,
    PRACTICE_TAG_PIN1 = 0x10,
    PRACTICE_TAG_PIN2 = 0x11,
    PRACTICE_TAG_NEW_PIN1 = 0x12,
    PRACTICE_TAG_NEW_PIN2 = 0x13,
    PRACTICE_TAG_PUBLIC_KEY_CHALLENGE = 0x14,
    PRACTICE_TAG_PUBLIC_KEY_SALT = 0x15,
    PRACTICE_TAG_CHALLENGE = 0x16,
    PRACTICE_TAG_SALT = 0x17,
    PRACTICE_TAG_CARD_VALIDATION_COUNTER = 0x18,
    PRACTICE_TAG_CVC = 0x19,
    PRACTICE_TAG_PAUSE = 0x1C,
    PRACTICE_TAG_MODE = 0x23,
    PRACTICE_TAG_USER_DATA = 0x2A,
    PRACTICE_TAG_USER_PROTECTED_DATA = 0x2B,
    PRACTICE_TAG_USER_COUNTER = 0x2C,
    PRACTICE_TAG_USER_PROTECTED_COUNTER = 0x2D,
    PRACTICE_TAG_ISSUER_DATA = 0x32,
    PRACTICE_TAG_ISSUER_DATA_SIGNATURE = 0x33,
    PRACTICE_TAG_ACTIVATION_SIGNATURE = 0x34,
    PRACTICE_TAG_ISSUER_DATA_COUNTER = 0x35,
    PRACTICE_TAG_RESET_PIN1 = 0x36,
    PRACTICE_TAG_IS_ACTIVATED = 0x3A,
    PRACTICE_TAG_ACTIVATION_SEED = 0x3B,
    PRACTICE_TAG_HASH_ARRAY = 0x50,
    PRACTICE_TAG_HASH_SIZE = 0x51,
    PRACTICE_TAG_WALLET_PUBLIC_KEY = 0x60,
    PRACTICE_TAG_WALLET_SIGNATURE = 0x61,
    PRACTICE_TAG_REMAINING = 0x62,
    PRACTICE_TAG_SIGNED_HASHES = 0x63,
    PRACTICE_TAG_CHECK_WALLET_COUNTER = 0x64
};

/* A request under way, in the caller's buffer. */
typedef struct {
    uint8_t *bytes;
    size_t room, payload;
    uint8_t ins;
    int fits;
} practice_request;

practice_request practice_request_begin(uint8_t *request, size_t room, uint8_t ins);

/* Adds a field. One that does not fit makes the request too long for good. */
void practice_request_field(practice_request *made, uint8_t tag, practice_bytes value);

/* The request's length, or 0 where it does not fit. */
size_t practice_request_end(practice_request *made);

#ifdef __cplusplus
}
#endif

#endif
