/* The practice card, for C hosts.
 *
 * Two calls make a tap. practice_ask takes the card's image, the request and a draw of random bytes, and writes the questions that the
 * host's cryptography has to answer. practice_settle takes the same and the answers, and writes the response and the next image.
 * practice_power_off is the card leaving the reader's field. The library keeps nothing between calls: the host keeps the image.
 *
 *   host/build                       makes target/host/lib/libpractice.a and libpractice.so (x86-64): the proved library, as
 *                                    rt lib writes it in crates/practice_c, and beside it practice_view.h and practice_request.h
 *   cc host.c target/host/lib/libpractice.a
 *
 * Every pointer is followed by a length in bytes. No pointer may be NULL, also where its length is 0, and the buffers that are written
 * may not overlap with one another or with what is read. Beyond that every content and every length is taken: what does not fit is
 * refused by a number, below. */
#ifndef PRACTICE_H
#define PRACTICE_H

#include <stddef.h>
#include <stdint.h>

#ifdef __cplusplus
extern "C" {
#endif

/* How a call ended: `number` of its result. With any but PRACTICE_DONE reason, word and length are 0, and every buffer is as it was. */
enum {
    PRACTICE_DONE = 0,
    PRACTICE_NO_CARD = 1,   /* the image is no card */
    PRACTICE_NO_ROOM = 2,   /* a buffer is too short: PRACTICE_ROOM for questions and response, PRACTICE_IMAGE_ROOM for the next image */
    PRACTICE_NO_DRAW = 3,   /* the draw has not PRACTICE_DRAW bytes */
    PRACTICE_NO_ANSWERS = 4 /* the answers have not the shape that the questions ask for (practice_settle only) */
};

/* The status words: `word` of a result, and the last two bytes of a response. 9000 to 9003 are done, 9789 has the holder wait, any other
 * is a refusal. */
enum {
    PRACTICE_SW_PROCESS_COMPLETED = 0x9000, /* done; after SET_PIN: both codes are as they were */
    PRACTICE_SW_PIN1_CHANGED = 0x9001,      /* done, by SET_PIN alone: PIN1 is another now */
    PRACTICE_SW_PIN2_CHANGED = 0x9002,
    PRACTICE_SW_PINS_CHANGED = 0x9003,
    PRACTICE_SW_NEED_PAUSE = 0x9789,        /* not yet: send the same bytes again (practice_settle) */
    PRACTICE_SW_ERROR_PROCESSING_COMMAND = 0x6286, /* by WRITE_ISSUER_DATA and ACTIVATE_CARD: the issuer did not sign this */
    PRACTICE_SW_WRONG_LENGTH = 0x6700,      /* the request has not 6 to 1,024 bytes, or does not end where its Lc says */
    PRACTICE_SW_NEED_ENCRYPTION = 0x6982,   /* P2 names an encryption (01, 02), and no session is open */
    PRACTICE_SW_INVALID_STATUS = 0x6985,    /* not in the card's state, or a condition of the command fails */
    PRACTICE_SW_INVALID_PARAMS = 0x6A86,    /* a code, the CID or a field is absent, wrong or malformed, or stands twice */
    PRACTICE_SW_INS_NOT_SUPPORTED = 0x6D00, /* no such command */
    PRACTICE_SW_CLA_NOT_SUPPORTED = 0x6E00  /* no such class */
};

/* Which check refused: `reason` of a result. The card makes its checks in this order, and the first to fail decides. 0 where none did:
 * with 9000 to 9003 and 9789 (a wait comes after check 10), and with a number other than PRACTICE_DONE. practice_ask makes the first
 * twelve and practice_settle all of them, so that practice_ask never says PRACTICE_CHECK_ISSUER: it has 0 for whatever passes the others.
 * Each has one status word, but for PRACTICE_CHECK_P1_P2. A real card keeps the reason to itself: no byte of a response tells it. */
enum {
    PRACTICE_CHECK_LENGTH = 1,     /* the length of the request, or its Lc */
    PRACTICE_CHECK_CLASS = 2,      /* the class is not 00 */
    PRACTICE_CHECK_COMMAND = 3,    /* no such command */
    PRACTICE_CHECK_P1_P2 = 4,      /* P1 or P2 is not 00 (P2 01 or 02: no encrypted session is open) */
    PRACTICE_CHECK_PAYLOAD = 5,    /* the payload does not end at a field's end, or a field that the command reads stands twice */
    PRACTICE_CHECK_PIN1 = 6,       /* PIN1 is absent or is not the card's */
    PRACTICE_CHECK_CID = 7,        /* the CID is absent or is not the card's */
    PRACTICE_CHECK_ACTIVATED = 8,  /* the card is not activated */
    PRACTICE_CHECK_STATUS = 9,     /* the card's Status does not allow the command */
    PRACTICE_CHECK_PIN2_CVC = 10,  /* PIN2 or the CVC is absent or is not the card's */
    PRACTICE_CHECK_FIELDS = 11,    /* a field of the command is absent or not as it has to be */
    PRACTICE_CHECK_CONDITION = 12, /* a condition of the command is not met */
    PRACTICE_CHECK_ISSUER = 13     /* the issuer did not sign this */
};

/* What a question wants: its first byte. Beside each what answers it. */
enum {
    PRACTICE_MAKE_KEY = 1,        /* a key for this wallet: 65 bytes starting 04, or 32 on ed25519 */
    PRACTICE_SIGN_HASH = 2,       /* the wallet key's signature of this hash: 64 bytes */
    PRACTICE_HASH_AND_SIGN = 3,   /* the wallet key's of the message's SHA-256, on ed25519 of its SHA-512: 64 bytes */
    PRACTICE_CARD_SIGNS = 4,      /* the card key's of the message's SHA-256: 64 bytes */
    PRACTICE_ISSUER_SIGNED = 5,   /* do the first 64 bytes sign the SHA-256 of the rest under the issuer data key? 1 byte: 1 yes, 0 no */
    PRACTICE_ISSUER_CONFIRMED = 6 /* the same under the issuer transaction key: 1 byte: 1 yes, 0 no */
};

/* The curve of a card's wallets: a question's fourth byte, and a value of the image. */
enum { PRACTICE_SECP256K1 = 1, PRACTICE_ED25519 = 2 };

/* The card's Status: field 02 of a response, and a value of the image. */
enum {
    PRACTICE_EMPTY = 1,  /* no wallet: one can be made */
    PRACTICE_LOADED = 2, /* a wallet is there */
    PRACTICE_PURGED = 3  /* the wallet of a card that is not reusable is gone, for good */
};

/* What a call returns.
 *
 *   number  how it ended
 *   reason  the check that refused, 0 where none did
 *   word    the status word
 *   length  the bytes written to the buffer for questions, or for the response. Bytes after them are as they were. */
typedef struct {
    uint8_t number;
    uint8_t reason;
    uint16_t word;
    uint32_t length;
} practice_result;

#define PRACTICE_ROOM 2048
#define PRACTICE_IMAGE_ROOM 4096
#define PRACTICE_DRAW 32

/* The questions of a request. The card does not change.
 *
 * in:   the image, the request as it came, PRACTICE_DRAW random bytes
 * out:  questions, one after the other: kind (1), wallet number (2), curve (1), message length (2), message; numbers are big-endian.
 * A request that is refused before any question is asked, or has to wait, gives its status word and no question; otherwise the word is
 * 9000, whatever practice_settle will say. */
practice_result practice_ask(const uint8_t *image, size_t image_len, const uint8_t *request, size_t request_len, const uint8_t *draw,
                             size_t draw_len, uint8_t *questions, size_t questions_len);

/* The response to a request, and the card after it.
 *
 * in:   the image, the request and the draw that practice_ask was given, and the answers one after the other with nothing between
 *       (none where there was no question)
 * out:  the response, length bytes of it, and the next image, practice_image_length() bytes. With number 0 the next image is the card,
 *       and the host stores it, whatever the word: a refusal changes the card as well (it counts a wrong code and forgets a request that
 *       had to wait), and so does 9789. With any other number nothing is written, and the old image stays the card.
 *
 * After a wrong code, and before a command that needs PIN2 where the sheet has a pause, the card makes its holder wait. The response is
 * then 1C 02, the seconds left in units of 10 ms in two bytes, and 9789; the answers were not looked at, and the card holds the request.
 * The host sends the same bytes again, under any draw, until the word is another. The first sending says T seconds, 1 to 120; each takes
 * off one, however soon it comes, and sending T+1 is carried out, or refused, as ever. Meanwhile the host shows its user how far it is,
 * and keeps the card in the field: after a power-off, after other bytes, and where one of the first ten checks refuses, the card holds
 * nothing more, and the wait begins anew. */
practice_result practice_settle(const uint8_t *image, size_t image_len, const uint8_t *request, size_t request_len, const uint8_t *draw,
                                size_t draw_len, const uint8_t *answers, size_t answers_len, uint8_t *response, size_t response_len,
                                uint8_t *next, size_t next_len);

/* The card without power: it leaves the reader's field, or is reset.
 *
 * in:   the image
 * out:  the next image, practice_image_length() bytes, with number 0: a request that had to wait is forgotten, and the count of wrong
 *       codes stays. It is written also where no request was held. Number 1 or 2: nothing is written. There is no response: reason, word
 *       and length are 0. */
practice_result practice_power_off(const uint8_t *image, size_t image_len, uint8_t *next, size_t next_len);

/* The fresh card of a personalisation sheet.
 *
 * in:   the sheet's text, fourteen lines, or fifteen where the last is `pause`
 * out:  0   the card's image stands at the start of image
 *       1 to 14   the first bad line: image is as it was
 *       15  what follows line 14 is no line `pause`, or 16 where bytes follow that line: image is as it was
 *       99  image has fewer than PRACTICE_IMAGE_ROOM bytes, and is as it was */
uint32_t practice_personalise(const uint8_t *sheet, size_t sheet_len, uint8_t *image, size_t image_len);

/* How many bytes an image has. */
uint32_t practice_image_length(void);

#ifdef __cplusplus
}
#endif

#endif
