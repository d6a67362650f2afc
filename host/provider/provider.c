/* The crypto provider: keys from a seed, signatures by libsecp256k1 and by OpenSSL's libcrypto. docs/KEYS.md says what is computed. */
#include "provider.h"

#include <openssl/evp.h>
#include <secp256k1.h>
#include <string.h>

#include "practice.h"

#define SECRET 32
#define LONGEST_LABEL 11
#define QUESTION_HEADER 6

typedef struct {
    const uint8_t *bytes;
    size_t length;
} provider_seed;

typedef struct {
    uint8_t kind;
    uint16_t wallet_number;
    uint8_t curve;
    const uint8_t *message;
    size_t length;
} question;

typedef struct {
    uint8_t bytes[PROVIDER_KEY];
    size_t length;
} answer;

static const secp256k1_context *secp256k1(void)
{
    static secp256k1_context *context;
    if (!context)
        context = secp256k1_context_create(SECP256K1_CONTEXT_SIGN | SECP256K1_CONTEXT_VERIFY);
    return context;
}

/* ---- hashes ---- */

static provider_result digest(const EVP_MD *kind, const uint8_t *message, size_t length, uint8_t *hash)
{
    return EVP_Digest(message, length, hash, NULL, kind, NULL) ? PROVIDER_DONE : PROVIDER_FAILED;
}

provider_result provider_sha256(const uint8_t *message, size_t message_len, uint8_t hash[32])
{
    return digest(EVP_sha256(), message, message_len, hash);
}

/* SHA-256 of the seed and then of some bytes: every secret and every draw is one. */
static provider_result seed_hash(provider_seed seed, const uint8_t *rest, size_t length, uint8_t hash[32])
{
    EVP_MD_CTX *context = EVP_MD_CTX_new();
    int done = context && EVP_DigestInit_ex(context, EVP_sha256(), NULL) && EVP_DigestUpdate(context, seed.bytes, seed.length) &&
               EVP_DigestUpdate(context, rest, length) && EVP_DigestFinal_ex(context, hash, NULL);
    EVP_MD_CTX_free(context);
    return done ? PROVIDER_DONE : PROVIDER_FAILED;
}

provider_result provider_draw(const uint8_t *seed, size_t seed_len, uint32_t tap, uint8_t draw[32])
{
    uint8_t rest[8] = {'d', 'r', 'a', 'w', (uint8_t)(tap >> 24), (uint8_t)(tap >> 16), (uint8_t)(tap >> 8), (uint8_t)tap};
    return seed_hash((provider_seed){seed, seed_len}, rest, sizeof rest, draw);
}

/* ---- keys ---- */

/* A card keeps its own key and its issuer's two for life, so that the wallet number in a question must not reach those. */
static provider_result secret_of(provider_seed seed, const uint8_t *cid, provider_owner owner, uint16_t wallet_number, uint8_t *secret)
{
    static const char *const labels[] = {"wallet", "card", "issuer", "transaction"};
    uint16_t number = owner == PROVIDER_WALLET ? wallet_number : 0;
    size_t label = strlen(labels[owner]);
    uint8_t rest[LONGEST_LABEL + PROVIDER_CID + 3];
    memcpy(rest, labels[owner], label);
    memcpy(rest + label, cid, PROVIDER_CID);
    uint8_t *tail = rest + label + PROVIDER_CID;
    tail[0] = (uint8_t)(number >> 8);
    tail[1] = (uint8_t)number;
    for (int counter = 0; counter < 256; counter++) {
        tail[2] = (uint8_t)counter;
        if (seed_hash(seed, rest, label + PROVIDER_CID + 3, secret) != PROVIDER_DONE)
            return PROVIDER_FAILED;
        if (secp256k1_ec_seckey_verify(secp256k1(), secret))
            return PROVIDER_DONE;
    }
    return PROVIDER_FAILED;
}

static provider_result public_key(const uint8_t *secret, secp256k1_pubkey *key)
{
    return secp256k1_ec_pubkey_create(secp256k1(), key, secret) ? PROVIDER_DONE : PROVIDER_FAILED;
}

static provider_result key_on_secp256k1(const uint8_t *secret, answer *key)
{
    secp256k1_pubkey point;
    if (public_key(secret, &point) != PROVIDER_DONE)
        return PROVIDER_FAILED;
    key->length = PROVIDER_KEY;
    secp256k1_ec_pubkey_serialize(secp256k1(), key->bytes, &key->length, &point, SECP256K1_EC_UNCOMPRESSED);
    return PROVIDER_DONE;
}

static provider_result key_on_ed25519(const uint8_t *secret, answer *key)
{
    EVP_PKEY *pair = EVP_PKEY_new_raw_private_key(EVP_PKEY_ED25519, NULL, secret, SECRET);
    key->length = 32;
    int done = pair && EVP_PKEY_get_raw_public_key(pair, key->bytes, &key->length);
    EVP_PKEY_free(pair);
    return done ? PROVIDER_DONE : PROVIDER_FAILED;
}

provider_result provider_public_key(const uint8_t *seed, size_t seed_len, const uint8_t cid[PROVIDER_CID], provider_owner owner,
                                    uint16_t wallet_number, uint8_t curve, uint8_t key[PROVIDER_KEY], size_t *key_len)
{
    uint8_t secret[SECRET];
    answer made;
    *key_len = 0;
    if (secret_of((provider_seed){seed, seed_len}, cid, owner, wallet_number, secret) != PROVIDER_DONE)
        return PROVIDER_FAILED;
    int on_ed25519 = owner == PROVIDER_WALLET && curve == PRACTICE_ED25519;
    if ((on_ed25519 ? key_on_ed25519 : key_on_secp256k1)(secret, &made) != PROVIDER_DONE)
        return PROVIDER_FAILED;
    memcpy(key, made.bytes, made.length);
    *key_len = made.length;
    return PROVIDER_DONE;
}

/* ---- signatures ---- */

/* libsecp256k1's own way: the nonce of RFC 6979, the low S. */
static provider_result sign_on_secp256k1(const uint8_t *secret, const uint8_t hash[32], uint8_t *signature)
{
    secp256k1_ecdsa_signature made;
    if (!secp256k1_ecdsa_sign(secp256k1(), &made, hash, secret, NULL, NULL))
        return PROVIDER_FAILED;
    secp256k1_ecdsa_signature_serialize_compact(secp256k1(), signature, &made);
    return PROVIDER_DONE;
}

static provider_result sign_on_ed25519(const uint8_t *secret, const uint8_t *message, size_t length, uint8_t *signature)
{
    size_t room = PROVIDER_SIGNATURE;
    EVP_PKEY *pair = EVP_PKEY_new_raw_private_key(EVP_PKEY_ED25519, NULL, secret, SECRET);
    EVP_MD_CTX *context = EVP_MD_CTX_new();
    int done = pair && context && EVP_DigestSignInit(context, NULL, NULL, NULL, pair) == 1 &&
               EVP_DigestSign(context, signature, &room, message, length) == 1;
    EVP_MD_CTX_free(context);
    EVP_PKEY_free(pair);
    return done ? PROVIDER_DONE : PROVIDER_FAILED;
}

static provider_result sha256_and_sign(const uint8_t *secret, const uint8_t *message, size_t length, uint8_t *signature)
{
    uint8_t hash[32];
    if (provider_sha256(message, length, hash) != PROVIDER_DONE)
        return PROVIDER_FAILED;
    return sign_on_secp256k1(secret, hash, signature);
}

static provider_result sha512_and_sign(const uint8_t *secret, const uint8_t *message, size_t length, uint8_t *signature)
{
    uint8_t hash[64];
    if (digest(EVP_sha512(), message, length, hash) != PROVIDER_DONE)
        return PROVIDER_FAILED;
    return sign_on_ed25519(secret, hash, sizeof hash, signature);
}

static provider_result sign_as(provider_owner issuer, provider_seed seed, const uint8_t *cid, const uint8_t *message, size_t length,
                               uint8_t *signature)
{
    uint8_t secret[SECRET];
    if (secret_of(seed, cid, issuer, 0, secret) != PROVIDER_DONE)
        return PROVIDER_FAILED;
    return sha256_and_sign(secret, message, length, signature);
}

provider_result provider_issue(const uint8_t *seed, size_t seed_len, const uint8_t cid[PROVIDER_CID], const uint8_t *message,
                               size_t message_len, uint8_t signature[PROVIDER_SIGNATURE])
{
    return sign_as(PROVIDER_ISSUER, (provider_seed){seed, seed_len}, cid, message, message_len, signature);
}

provider_result provider_confirm(const uint8_t *seed, size_t seed_len, const uint8_t cid[PROVIDER_CID], const uint8_t *message,
                                 size_t message_len, uint8_t signature[PROVIDER_SIGNATURE])
{
    return sign_as(PROVIDER_TRANSACTION, (provider_seed){seed, seed_len}, cid, message, message_len, signature);
}

/* Whether the first 64 bytes sign the SHA-256 of the rest. libsecp256k1 verifies a low S alone; a high one is as good a signature of
 * ECDSA, and no paper forbids it, so it is brought low first. */
static provider_result issuer_signed(const uint8_t *secret, const question *asked, answer *said)
{
    uint8_t hash[32];
    secp256k1_pubkey issuer;
    secp256k1_ecdsa_signature signature;
    if (public_key(secret, &issuer) != PROVIDER_DONE ||
        provider_sha256(asked->message + PROVIDER_SIGNATURE, asked->length - PROVIDER_SIGNATURE, hash) != PROVIDER_DONE)
        return PROVIDER_FAILED;
    int parsed = secp256k1_ecdsa_signature_parse_compact(secp256k1(), &signature, asked->message);
    if (parsed)
        secp256k1_ecdsa_signature_normalize(secp256k1(), &signature, &signature);
    said->length = 1;
    said->bytes[0] = (uint8_t)(parsed && secp256k1_ecdsa_verify(secp256k1(), &signature, hash, &issuer));
    return PROVIDER_DONE;
}

/* ---- questions ---- */

/* The question at the start of the bytes; 0 where there is none as practice.h lays it out. */
static size_t read_question(const uint8_t *bytes, size_t length, question *asked)
{
    if (length < QUESTION_HEADER)
        return 0;
    *asked = (question){bytes[0], (uint16_t)(bytes[1] << 8 | bytes[2]), bytes[3], bytes + QUESTION_HEADER,
                        (size_t)(bytes[4] << 8 | bytes[5])};
    return length - QUESTION_HEADER < asked->length ? 0 : QUESTION_HEADER + asked->length;
}

static int well_formed(const question *asked)
{
    if (asked->curve != PRACTICE_SECP256K1 && asked->curve != PRACTICE_ED25519)
        return 0;
    switch (asked->kind) {
    case PRACTICE_MAKE_KEY: return asked->length == 0;
    case PRACTICE_SIGN_HASH: return asked->length == 32;
    case PRACTICE_HASH_AND_SIGN:
    case PRACTICE_CARD_SIGNS: return 1;
    case PRACTICE_ISSUER_SIGNED:
    case PRACTICE_ISSUER_CONFIRMED: return asked->length >= PROVIDER_SIGNATURE;
    default: return 0;
    }
}

static provider_owner owner_of(const question *asked)
{
    switch (asked->kind) {
    case PRACTICE_CARD_SIGNS: return PROVIDER_CARD;
    case PRACTICE_ISSUER_SIGNED: return PROVIDER_ISSUER;
    case PRACTICE_ISSUER_CONFIRMED: return PROVIDER_TRANSACTION;
    default: return PROVIDER_WALLET;
    }
}

/* The answer to a well-formed question under its secret. Kinds 4 to 6 are on secp256k1 whatever the curve of the wallet. */
static provider_result reply(const question *asked, const uint8_t *secret, answer *said)
{
    int on_ed25519 = asked->curve == PRACTICE_ED25519;
    said->length = PROVIDER_SIGNATURE;
    switch (asked->kind) {
    case PRACTICE_MAKE_KEY: return (on_ed25519 ? key_on_ed25519 : key_on_secp256k1)(secret, said);
    case PRACTICE_SIGN_HASH:
        return on_ed25519 ? sign_on_ed25519(secret, asked->message, asked->length, said->bytes)
                          : sign_on_secp256k1(secret, asked->message, said->bytes);
    case PRACTICE_HASH_AND_SIGN:
        return (on_ed25519 ? sha512_and_sign : sha256_and_sign)(secret, asked->message, asked->length, said->bytes);
    case PRACTICE_CARD_SIGNS: return sha256_and_sign(secret, asked->message, asked->length, said->bytes);
    default: return issuer_signed(secret, asked, said);
    }
}

static provider_result answer_one(provider_seed seed, const uint8_t *cid, const question *asked, answer *said)
{
    uint8_t secret[SECRET];
    if (!well_formed(asked))
        return PROVIDER_BAD_QUESTION;
    if (secret_of(seed, cid, owner_of(asked), asked->wallet_number, secret) != PROVIDER_DONE)
        return PROVIDER_FAILED;
    return reply(asked, secret, said);
}

provider_result provider_answer(const uint8_t *seed, size_t seed_len, const uint8_t cid[PROVIDER_CID], const uint8_t *questions,
                                size_t questions_len, uint8_t *answers, size_t answers_room, size_t *answers_len)
{
    size_t at = 0, written = 0;
    *answers_len = 0;
    while (at < questions_len) {
        question asked;
        answer said;
        size_t taken = read_question(questions + at, questions_len - at, &asked);
        provider_result result = taken ? answer_one((provider_seed){seed, seed_len}, cid, &asked, &said) : PROVIDER_BAD_QUESTION;
        if (result != PROVIDER_DONE)
            return result;
        if (answers_room - written < said.length)
            return PROVIDER_NO_ROOM;
        memcpy(answers + written, said.bytes, said.length);
        written += said.length;
        at += taken;
    }
    *answers_len = written;
    return PROVIDER_DONE;
}
