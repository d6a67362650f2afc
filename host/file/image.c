/* The image's values, each with its name and its form for a person. */
#include "image.h"

#include <string.h>

#include "practice.h"
#include "provider.h"

/* The byte before the last signatures, which says how many they are. */
#define COUNT 1

static const struct {
    const char *name;
    value_form form;
} rows[PRACTICE_VIEW_VALUES] = {
    [PRACTICE_VIEW_PIN1] = {"PIN1", VALUE_CODE},
    [PRACTICE_VIEW_PIN2] = {"PIN2", VALUE_CODE},
    [PRACTICE_VIEW_CID] = {"CID", VALUE_BYTES},
    [PRACTICE_VIEW_CVC] = {"CVC", VALUE_TEXT},
    [PRACTICE_VIEW_CURVE] = {"curve", VALUE_CURVE},
    [PRACTICE_VIEW_MAX_SIGNATURES] = {"Max_Signatures", VALUE_NUMBER},
    [PRACTICE_VIEW_ACTIVATION_SEED] = {"Activation_Seed", VALUE_BYTES},
    [PRACTICE_VIEW_PAUSE] = {"pause", VALUE_SECONDS},
    [PRACTICE_VIEW_REUSABLE] = {"reusable", VALUE_FLAG},
    [PRACTICE_VIEW_CVC_USED] = {"CVC used", VALUE_FLAG},
    [PRACTICE_VIEW_PIN1_MAY_CHANGE] = {"PIN1 may change", VALUE_FLAG},
    [PRACTICE_VIEW_PIN2_MAY_CHANGE] = {"PIN2 may change", VALUE_FLAG},
    [PRACTICE_VIEW_PURGE_PROHIBITED] = {"purge prohibited", VALUE_FLAG},
    [PRACTICE_VIEW_REPLAY_PROTECTION] = {"issuer replay protection", VALUE_FLAG},
    [PRACTICE_VIEW_ACTIVATED] = {"activated", VALUE_FLAG},
    [PRACTICE_VIEW_STATUS] = {"Status", VALUE_STATUS},
    [PRACTICE_VIEW_WALLET_NUMBER] = {"wallet number", VALUE_NUMBER},
    [PRACTICE_VIEW_REMAINING] = {"Remaining", VALUE_NUMBER},
    [PRACTICE_VIEW_SIGNED_HASHES] = {"Signed_Hashes", VALUE_NUMBER},
    [PRACTICE_VIEW_WALLET_PUBLIC_KEY] = {"Wallet_PublicKey", VALUE_BYTES},
    [PRACTICE_VIEW_CHECK_WALLET_COUNTER] = {"Check_Wallet_Counter", VALUE_NUMBER},
    [PRACTICE_VIEW_CARD_VALIDATION_COUNTER] = {"Card_Validation_Counter", VALUE_NUMBER},
    [PRACTICE_VIEW_USER_COUNTER] = {"User_Counter", VALUE_NUMBER},
    [PRACTICE_VIEW_USER_PROTECTED_COUNTER] = {"User_ProtectedCounter", VALUE_NUMBER},
    [PRACTICE_VIEW_USER_DATA] = {"User_Data", VALUE_DATA},
    [PRACTICE_VIEW_USER_PROTECTED_DATA] = {"User_ProtectedData", VALUE_DATA},
    [PRACTICE_VIEW_ISSUER_DATA] = {"Issuer_Data", VALUE_DATA},
    [PRACTICE_VIEW_ISSUER_DATA_SIGNATURE] = {"issuer data signature", VALUE_BYTES},
    [PRACTICE_VIEW_ISSUER_DATA_COUNTER] = {"issuer data counter", VALUE_NUMBER},
    [PRACTICE_VIEW_WRONG_CODES] = {"wrong codes", VALUE_NUMBER},
    [PRACTICE_VIEW_SECONDS_LEFT] = {"seconds left", VALUE_NUMBER},
    [PRACTICE_VIEW_HELD_REQUEST] = {"held request", VALUE_REQUEST},
    [PRACTICE_VIEW_LAST_SIGNATURES] = {"last signatures", VALUE_SIGNATURES},
};

image_value image_get(const uint8_t *image, practice_view_name name)
{
    practice_bytes value = practice_view(image, name);
    return (image_value){rows[name].name, rows[name].form, value.bytes, value.length};
}

/* Any request will do: whether the image is a card is looked at first, and ask changes nothing. */
static int is_card(const uint8_t *image, size_t length)
{
    static uint8_t questions[PRACTICE_ROOM];
    static const uint8_t request[1], draw[PRACTICE_DRAW];
    return practice_ask(image, length, request, sizeof request, draw, sizeof draw, questions, sizeof questions).number != PRACTICE_NO_CARD;
}

/* Where a value stands in an image, behind its length where it has one. */
static size_t place_of(practice_view_name name)
{
    static const uint8_t any[PRACTICE_IMAGE_ROOM];
    return (size_t)(practice_view(any, name).bytes - any);
}

/* Of an image that is no card: whether it would be one without the last signatures, and they are as many as their count says. Then all
 * that is wrong is that no wallet is there beside them. */
static int lacks_wallet_alone(const uint8_t *image)
{
    uint8_t without[PRACTICE_IMAGE_ROOM];
    practice_bytes held = practice_view(image, PRACTICE_VIEW_LAST_SIGNATURES);
    uint8_t *count = without + place_of(PRACTICE_VIEW_LAST_SIGNATURES) - COUNT;
    memcpy(without, image, practice_image_length());
    if ((uint32_t)*count * PROVIDER_SIGNATURE != held.length)
        return 0;
    memset(count, 0, COUNT + held.length);
    return is_card(without, practice_image_length());
}

/* ---- cards from before ---- */

/* Whether the bytes would be a card with zeros for the values that an earlier image had not: those from `first` up to the flags, and what
 * a card waits for, up to the count of the last signatures. */
static int is_card_but_from(practice_view_name first, const uint8_t *image, size_t length)
{
    uint8_t with[PRACTICE_IMAGE_ROOM] = {0};
    size_t fixed = place_of(first), flags = place_of(PRACTICE_VIEW_REUSABLE), waits = place_of(PRACTICE_VIEW_WRONG_CODES);
    size_t last = place_of(PRACTICE_VIEW_LAST_SIGNATURES) - COUNT, end = practice_image_length();
    if (length != fixed + (waits - flags) + (end - last))
        return 0;
    memcpy(with, image, fixed);
    memcpy(with + flags, image + fixed, waits - flags);
    memcpy(with + last, image + fixed + waits - flags, end - last);
    return is_card(with, end);
}

complaint image_of_before(const uint8_t *image, size_t length)
{
    if (is_card_but_from(PRACTICE_VIEW_PAUSE, image, length))
        return complain("is a card from before the security delay; 'tap new SHEET CARD' makes a fresh one from its sheet");
    if (is_card_but_from(PRACTICE_VIEW_ACTIVATION_SEED, image, length))
        return complain("is a card from before activation, and has no seed; 'tap new SHEET CARD' makes a fresh one from a sheet that has line "
                        "14, seed");
    return NULL;
}

complaint image_is_card(const uint8_t *image, size_t length)
{
    uint32_t wanted = practice_image_length();
    if (practice_view_length() != wanted)
        return complain("the library's image has %u bytes, host/link/practice_view.c knows one of %u", wanted, practice_view_length());
    if (is_card(image, length))
        return NULL;
    if (length == wanted && lacks_wallet_alone(image))
        return complain("holds signatures and no wallet, as no card does any more; 'tap new SHEET CARD' makes a fresh one from its sheet");
    complaint of_before = image_of_before(image, length);
    return of_before ? of_before : complain("is no card (%zu bytes; an image has %u)", length, wanted);
}
