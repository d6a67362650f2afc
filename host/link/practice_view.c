/* The image's values. A row says how long each is; where it stands follows from the rows before it. */
#include "practice_view.h"

typedef struct {
    uint16_t room;
    uint8_t prefix; /* bytes before the room that tell how much of it is used, 0 where all of it is */
    uint8_t unit;   /* how many bytes one of the prefix stands for */
} row;

static const row rows[PRACTICE_VIEW_VALUES] = {
    [PRACTICE_VIEW_PIN1] = {32, 0, 0},
    [PRACTICE_VIEW_PIN2] = {32, 0, 0},
    [PRACTICE_VIEW_CID] = {8, 0, 0},
    [PRACTICE_VIEW_CVC] = {3, 0, 0},
    [PRACTICE_VIEW_CURVE] = {1, 0, 0},
    [PRACTICE_VIEW_MAX_SIGNATURES] = {4, 0, 0},
    [PRACTICE_VIEW_ACTIVATION_SEED] = {16, 0, 0},
    [PRACTICE_VIEW_PAUSE] = {1, 0, 0},
    [PRACTICE_VIEW_REUSABLE] = {1, 0, 0},
    [PRACTICE_VIEW_CVC_USED] = {1, 0, 0},
    [PRACTICE_VIEW_PIN1_MAY_CHANGE] = {1, 0, 0},
    [PRACTICE_VIEW_PIN2_MAY_CHANGE] = {1, 0, 0},
    [PRACTICE_VIEW_PURGE_PROHIBITED] = {1, 0, 0},
    [PRACTICE_VIEW_REPLAY_PROTECTION] = {1, 0, 0},
    [PRACTICE_VIEW_ACTIVATED] = {1, 0, 0},
    [PRACTICE_VIEW_STATUS] = {1, 0, 0},
    [PRACTICE_VIEW_WALLET_NUMBER] = {2, 0, 0},
    [PRACTICE_VIEW_REMAINING] = {4, 0, 0},
    [PRACTICE_VIEW_SIGNED_HASHES] = {4, 0, 0},
    [PRACTICE_VIEW_WALLET_PUBLIC_KEY] = {65, 1, 1},
    [PRACTICE_VIEW_CHECK_WALLET_COUNTER] = {4, 0, 0},
    [PRACTICE_VIEW_CARD_VALIDATION_COUNTER] = {2, 0, 0},
    [PRACTICE_VIEW_USER_COUNTER] = {4, 0, 0},
    [PRACTICE_VIEW_USER_PROTECTED_COUNTER] = {4, 0, 0},
    [PRACTICE_VIEW_USER_DATA] = {512, 2, 1},
    [PRACTICE_VIEW_USER_PROTECTED_DATA] = {512, 2, 1},
    [PRACTICE_VIEW_ISSUER_DATA] = {512, 2, 1},
    [PRACTICE_VIEW_ISSUER_DATA_SIGNATURE] = {64, 0, 0},
    [PRACTICE_VIEW_ISSUER_DATA_COUNTER] = {4, 0, 0},
    [PRACTICE_VIEW_WRONG_CODES] = {1, 0, 0},
    [PRACTICE_VIEW_SECONDS_LEFT] = {1, 0, 0},
    [PRACTICE_VIEW_HELD_REQUEST] = {1024, 2, 1},
    [PRACTICE_VIEW_LAST_SIGNATURES] = {640, 1, 64},
};

static uint32_t place_of(practice_view_name name)
{
    uint32_t place = 0;
    for (int before = 0; before < (int)name; before++)
        place += (uint32_t)rows[before].prefix + rows[before].room;
    return place;
}

static uint32_t number_of(const uint8_t *bytes, uint32_t length)
{
    uint32_t number = 0;
    for (uint32_t at = 0; at < length; at++)
        number = number << 8 | bytes[at];
    return number;
}

practice_bytes practice_view(const uint8_t *image, practice_view_name name)
{
    const row *value = &rows[name];
    const uint8_t *at = image + place_of(name);
    uint32_t used = value->prefix ? number_of(at, value->prefix) * value->unit : value->room;
    return (practice_bytes){at + value->prefix, used < value->room ? used : value->room};
}

uint32_t practice_view_number(const uint8_t *image, practice_view_name name)
{
    practice_bytes value = practice_view(image, name);
    return number_of(value.bytes, value.length);
}

uint32_t practice_view_length(void)
{
    return place_of(PRACTICE_VIEW_VALUES);
}
