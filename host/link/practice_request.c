/* Requests: the payload is put together behind a header of five bytes, and moves where Lc turns out to take three. */
#include "practice_request.h"

#include <string.h>

enum { SHORT_HEADER = 5, LONG_HEADER = 7, TOP_8 = 0xFF, TOP_16 = 0xFFFF, HASH = 32 };

/* ---- field by field ---- */

static size_t header_of(size_t payload)
{
    return 1 <= payload && payload <= TOP_8 ? SHORT_HEADER : LONG_HEADER;
}

static int has_room(const practice_request *made, size_t payload)
{
    return payload <= TOP_16 && header_of(payload) + payload <= made->room;
}

practice_request practice_request_begin(uint8_t *request, size_t room, uint8_t ins)
{
    return (practice_request){request, room, 0, ins, 1};
}

void practice_request_field(practice_request *made, uint8_t tag, practice_bytes value)
{
    size_t header = value.length < TOP_8 ? 2 : 4;
    if (!value.bytes || !made->fits)
        return;
    made->fits = value.length <= TOP_16 && has_room(made, made->payload + header + value.length);
    if (!made->fits)
        return;
    uint8_t *at = made->bytes + SHORT_HEADER + made->payload;
    const uint8_t in_two[] = {tag, (uint8_t)value.length}, in_four[] = {tag, TOP_8, (uint8_t)(value.length >> 8), (uint8_t)value.length};
    memcpy(at, header == 2 ? in_two : in_four, header);
    memcpy(at + header, value.bytes, value.length);
    made->payload += header + value.length;
}

size_t practice_request_end(practice_request *made)
{
    size_t header = header_of(made->payload), length = made->payload;
    const uint8_t in_one[] = {0, made->ins, 0, 0, (uint8_t)length};
    const uint8_t in_three[] = {0, made->ins, 0, 0, 0, (uint8_t)(length >> 8), (uint8_t)length};
    if (!made->fits || !has_room(made, length))
        return 0;
    memmove(made->bytes + header, made->bytes + SHORT_HEADER, length);
    memcpy(made->bytes, header == SHORT_HEADER ? in_one : in_three, header);
    return header + length;
}

static void put_counter(practice_request *made, uint8_t tag, const uint32_t *counter)
{
    if (!counter)
        return;
    const uint8_t bytes[] = {(uint8_t)(*counter >> 24), (uint8_t)(*counter >> 16), (uint8_t)(*counter >> 8), (uint8_t)*counter};
    practice_request_field(made, tag, (practice_bytes){bytes, sizeof bytes});
}

/* ---- codes ---- */

practice_codes practice_codes_of(const uint8_t *image)
{
    practice_codes codes = {practice_view(image, PRACTICE_VIEW_PIN1), practice_view(image, PRACTICE_VIEW_PIN2),
                            practice_view(image, PRACTICE_VIEW_CID), {NULL, 0}};
    if (practice_view_number(image, PRACTICE_VIEW_CVC_USED))
        codes.cvc = practice_view(image, PRACTICE_VIEW_CVC);
    return codes;
}

/* How many of them a command asks for. Whoever asks for one asks for those before it. */
typedef enum { TO_PIN1, TO_CID, TO_PIN2, TO_CVC } reach;

static practice_request begin(uint8_t *request, size_t room, uint8_t ins, const practice_codes *codes, reach up_to)
{
    practice_request made = practice_request_begin(request, room, ins);
    practice_request_field(&made, PRACTICE_TAG_PIN1, codes->pin1);
    if (up_to >= TO_CID)
        practice_request_field(&made, PRACTICE_TAG_CID, codes->cid);
    if (up_to >= TO_PIN2)
        practice_request_field(&made, PRACTICE_TAG_PIN2, codes->pin2);
    if (up_to >= TO_CVC)
        practice_request_field(&made, PRACTICE_TAG_CVC, codes->cvc);
    return made;
}

static size_t codes_alone(uint8_t *request, size_t room, uint8_t ins, const practice_codes *codes, reach up_to)
{
    practice_request made = begin(request, room, ins, codes, up_to);
    return practice_request_end(&made);
}

/* ---- the commands ---- */

size_t practice_request_read_card(uint8_t *request, size_t room, const practice_codes *codes)
{
    return codes_alone(request, room, PRACTICE_INS_READ_CARD, codes, TO_PIN1);
}

size_t practice_request_create_wallet(uint8_t *request, size_t room, const practice_codes *codes)
{
    return codes_alone(request, room, PRACTICE_INS_CREATE_WALLET, codes, TO_CVC);
}

size_t practice_request_check_wallet(uint8_t *request, size_t room, const practice_codes *codes, practice_bytes challenge,
                                     practice_bytes public_key_challenge)
{
    practice_request made = begin(request, room, PRACTICE_INS_CHECK_WALLET, codes, TO_CID);
    practice_request_field(&made, PRACTICE_TAG_CHALLENGE, challenge);
    practice_request_field(&made, PRACTICE_TAG_PUBLIC_KEY_CHALLENGE, public_key_challenge);
    return practice_request_end(&made);
}

size_t practice_request_sign(uint8_t *request, size_t room, const practice_codes *codes, const uint8_t *hashes, size_t count)
{
    static const uint8_t size[] = {HASH};
    practice_request made = begin(request, room, PRACTICE_INS_SIGN, codes, TO_CVC);
    if (count > TOP_16 / HASH)
        return 0;
    if (count > 0) {
        practice_request_field(&made, PRACTICE_TAG_HASH_SIZE, (practice_bytes){size, sizeof size});
        practice_request_field(&made, PRACTICE_TAG_HASH_ARRAY, (practice_bytes){hashes, (uint32_t)count * HASH});
    }
    return practice_request_end(&made);
}

size_t practice_request_set_pin(uint8_t *request, size_t room, const practice_codes *codes, practice_bytes new_pin1,
                                practice_bytes new_pin2)
{
    practice_request made = begin(request, room, PRACTICE_INS_SET_PIN, codes, TO_CVC);
    practice_request_field(&made, PRACTICE_TAG_NEW_PIN1, new_pin1);
    practice_request_field(&made, PRACTICE_TAG_NEW_PIN2, new_pin2);
    return practice_request_end(&made);
}

size_t practice_request_purge_wallet(uint8_t *request, size_t room, const practice_codes *codes)
{
    return codes_alone(request, room, PRACTICE_INS_PURGE_WALLET, codes, TO_PIN2);
}

size_t practice_request_validate_card(uint8_t *request, size_t room, const practice_codes *codes)
{
    return codes_alone(request, room, PRACTICE_INS_VALIDATE_CARD, codes, TO_PIN2);
}

size_t practice_request_verify_card(uint8_t *request, size_t room, const practice_codes *codes, practice_bytes challenge)
{
    practice_request made = begin(request, room, PRACTICE_INS_VERIFY_CARD, codes, TO_CID);
    practice_request_field(&made, PRACTICE_TAG_CHALLENGE, challenge);
    return practice_request_end(&made);
}

size_t practice_request_write_user_data(uint8_t *request, size_t room, const practice_codes *codes, practice_bytes data,
                                        practice_bytes protected_data, const uint32_t *counter, const uint32_t *protected_counter)
{
    reach up_to = protected_data.bytes || protected_counter ? TO_PIN2 : TO_CID;
    practice_request made = begin(request, room, PRACTICE_INS_WRITE_USER_DATA, codes, up_to);
    practice_request_field(&made, PRACTICE_TAG_USER_DATA, data);
    practice_request_field(&made, PRACTICE_TAG_USER_PROTECTED_DATA, protected_data);
    put_counter(&made, PRACTICE_TAG_USER_COUNTER, counter);
    put_counter(&made, PRACTICE_TAG_USER_PROTECTED_COUNTER, protected_counter);
    return practice_request_end(&made);
}

size_t practice_request_read_user_data(uint8_t *request, size_t room, const practice_codes *codes)
{
    return codes_alone(request, room, PRACTICE_INS_READ_USER_DATA, codes, TO_CID);
}

size_t practice_request_write_issuer_data(uint8_t *request, size_t room, const practice_codes *codes, practice_bytes data,
                                          practice_bytes signature, const uint32_t *counter)
{
    practice_request made = begin(request, room, PRACTICE_INS_WRITE_ISSUER_DATA, codes, TO_CID);
    practice_request_field(&made, PRACTICE_TAG_ISSUER_DATA, data);
    practice_request_field(&made, PRACTICE_TAG_ISSUER_DATA_SIGNATURE, signature);
    put_counter(&made, PRACTICE_TAG_ISSUER_DATA_COUNTER, counter);
    return practice_request_end(&made);
}

size_t practice_request_read_issuer_data(uint8_t *request, size_t room, const practice_codes *codes)
{
    return codes_alone(request, room, PRACTICE_INS_READ_ISSUER_DATA, codes, TO_CID);
}

size_t practice_request_activate_card(uint8_t *request, size_t room, const practice_codes *codes, const uint8_t *reset_pin1,
                                      practice_bytes signature)
{
    practice_request made = begin(request, room, PRACTICE_INS_ACTIVATE_CARD, codes, TO_CID);
    practice_request_field(&made, PRACTICE_TAG_RESET_PIN1, (practice_bytes){reset_pin1, 1});
    practice_request_field(&made, PRACTICE_TAG_ACTIVATION_SIGNATURE, signature);
    return practice_request_end(&made);
}
