/* The practice card's crypto provider: it answers the questions that practice_ask writes.
 *
 * THESE ARE PRACTICE KEYS. Every key is worked out from a seed that anybody may read, so that a lesson can be made again to the byte.
 * Never put value under one. docs/KEYS.md has the derivation, with vectors that another program made. */
#ifndef PROVIDER_H
#define PROVIDER_H

#include <stddef.h>
#include <stdint.h>

#ifdef __cplusplus
extern "C" {
#endif

#define PROVIDER_CID 8
#define PROVIDER_SIGNATURE 64
#define PROVIDER_KEY 65

/* The most that the answers to one request take: a signature for each of the hashes of a SIGN, with room to grow. */
#define PROVIDER_ROOM 1024

typedef enum {
    PROVIDER_DONE = 0,
    PROVIDER_BAD_QUESTION = 1, /* the bytes are not questions as practice.h lays them out */
    PROVIDER_NO_ROOM = 2,      /* the answers do not fit */
    PROVIDER_FAILED = 3        /* libsecp256k1 or libcrypto refused, which means that it lacks memory or the algorithm */
} provider_result;

/* Whose key: the wallet's on the card's curve; the card's and the issuer's two always on secp256k1. The issuer signs notes with one and
 * confirmations with the other: the bytes of a confirmation could be those of a note, and under one key each would pass for the other. */
typedef enum { PROVIDER_WALLET, PROVIDER_CARD, PROVIDER_ISSUER, PROVIDER_TRANSACTION } provider_owner;

/* Answers questions, kinds 1 to 6, one after the other.
 *
 * in:   the seed (any bytes: the same seed, CID and wallet number make the same keys), the card's CID, the questions that
 *       practice_ask wrote
 * out:  answers, and in answers_len how many bytes they take; with no question that is 0.
 *       Unless PROVIDER_DONE is returned, answers_len is 0 and the content of answers means nothing. */
provider_result provider_answer(const uint8_t *seed, size_t seed_len, const uint8_t cid[PROVIDER_CID], const uint8_t *questions,
                                size_t questions_len, uint8_t *answers, size_t answers_room, size_t *answers_len);

/* The issuer's signature on the SHA-256 of the message, as kind 5 verifies it. For WRITE_ISSUER_DATA the message is CID, data and,
 * with replay protection, counter. The card never asks for this: it is the issuer's side of a lesson. */
provider_result provider_issue(const uint8_t *seed, size_t seed_len, const uint8_t cid[PROVIDER_CID], const uint8_t *message,
                               size_t message_len, uint8_t signature[PROVIDER_SIGNATURE]);

/* The issuer's signature on a confirmation, as kind 6 verifies it: for ACTIVATE_CARD the message is CID, Activation_Seed, Reset_PIN1. */
provider_result provider_confirm(const uint8_t *seed, size_t seed_len, const uint8_t cid[PROVIDER_CID], const uint8_t *message,
                                 size_t message_len, uint8_t signature[PROVIDER_SIGNATURE]);

/* A public key: 65 bytes starting 04, or 32 on ed25519; key_len says which. The curve (1 secp256k1, 2 ed25519) and the wallet
 * number speak of the wallet's key alone: the card's and the issuer's two are the same whatever they say. */
provider_result provider_public_key(const uint8_t *seed, size_t seed_len, const uint8_t cid[PROVIDER_CID], provider_owner owner,
                                    uint16_t wallet_number, uint8_t curve, uint8_t key[PROVIDER_KEY], size_t *key_len);

/* The draw of a tap: 32 bytes that depend on the seed and the tap's number alone, where a lesson is to be made again. */
provider_result provider_draw(const uint8_t *seed, size_t seed_len, uint32_t tap, uint8_t draw[32]);

/* SHA-256, as the manual hashes a code before it is sent. */
provider_result provider_sha256(const uint8_t *message, size_t message_len, uint8_t hash[32]);

#ifdef __cplusplus
}
#endif

#endif
