/* What a card's image holds, by name, for a test rig that wants to see it:
 *
 *   practice_view_number(image, PRACTICE_VIEW_REMAINING)
 *   practice_view(image, PRACTICE_VIEW_CID).bytes
 *
 * An image has practice_view_length() bytes, and docs/IMAGE.md shows them. Whether they are a card practice_ask says; of any others the
 * values mean nothing, but none reaches past the image. */
#ifndef PRACTICE_VIEW_H
#define PRACTICE_VIEW_H

#include <stdint.h>

#ifdef __cplusplus
extern "C" {
#endif

/* In the order of the image. */
typedef enum {
    PRACTICE_VIEW_PIN1, /* the codes as they are sent: the SHA-256 of what a person knows */
    PRACTICE_VIEW_PIN2,
    PRACTICE_VIEW_CID,
    PRACTICE_VIEW_CVC,
    PRACTICE_VIEW_CURVE, /* PRACTICE_SECP256K1 or PRACTICE_ED25519 */
    PRACTICE_VIEW_MAX_SIGNATURES,
    PRACTICE_VIEW_ACTIVATION_SEED, /* for good, though READ_CARD tells it only until the card is activated */
    PRACTICE_VIEW_PAUSE,    /* seconds that a command which needs PIN2 waits, 0 to 60 */
    PRACTICE_VIEW_REUSABLE, /* the flags, 0 or 1 */
    PRACTICE_VIEW_CVC_USED,
    PRACTICE_VIEW_PIN1_MAY_CHANGE,
    PRACTICE_VIEW_PIN2_MAY_CHANGE,
    PRACTICE_VIEW_PURGE_PROHIBITED,
    PRACTICE_VIEW_REPLAY_PROTECTION,
    PRACTICE_VIEW_ACTIVATED,
    PRACTICE_VIEW_STATUS, /* PRACTICE_EMPTY, PRACTICE_LOADED or PRACTICE_PURGED */
    PRACTICE_VIEW_WALLET_NUMBER,
    PRACTICE_VIEW_REMAINING,
    PRACTICE_VIEW_SIGNED_HASHES,
    PRACTICE_VIEW_WALLET_PUBLIC_KEY, /* no bytes where there is no wallet */
    PRACTICE_VIEW_CHECK_WALLET_COUNTER,
    PRACTICE_VIEW_CARD_VALIDATION_COUNTER,
    PRACTICE_VIEW_USER_COUNTER,
    PRACTICE_VIEW_USER_PROTECTED_COUNTER,
    PRACTICE_VIEW_USER_DATA,
    PRACTICE_VIEW_USER_PROTECTED_DATA,
    PRACTICE_VIEW_ISSUER_DATA,
    PRACTICE_VIEW_ISSUER_DATA_SIGNATURE, /* zeros where no Issuer_Data is held */
    PRACTICE_VIEW_ISSUER_DATA_COUNTER,
    PRACTICE_VIEW_WRONG_CODES,  /* codes refused since a command last went on, 0 to 60; the next one waits so many seconds */
    PRACTICE_VIEW_SECONDS_LEFT, /* of the held request, 1 to 120; 0 where none is held */
    PRACTICE_VIEW_HELD_REQUEST, /* the one that has to wait; no bytes where none is held */
    PRACTICE_VIEW_LAST_SIGNATURES, /* 64 bytes each, one after the other; no bytes where there is no wallet */
    PRACTICE_VIEW_VALUES           /* how many there are */
} practice_view_name;

typedef struct {
    const uint8_t *bytes;
    uint32_t length;
} practice_bytes;

/* The value where it stands in the image, as long as the card holds it: of Issuer_Data the note, not the room for one. */
practice_bytes practice_view(const uint8_t *image, practice_view_name name);

/* The value as a number. Of one with more than four bytes it means nothing. */
uint32_t practice_view_number(const uint8_t *image, practice_view_name name);

/* How many bytes an image has by the table of values here; the library's own practice_image_length() is the same. */
uint32_t practice_view_length(void);

#ifdef __cplusplus
}
#endif

#endif
