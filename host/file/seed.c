/* Seeds and draws. */
#include "seed.h"

#include <stdlib.h>
#include <string.h>
#include <sys/random.h>

#include "hex.h"
#include "provider.h"

seed seed_of(const char *text)
{
    const char *taken = text ? text : SEED_PRACTICE;
    return (seed){(const uint8_t *)taken, strlen(taken), text != NULL};
}

complaint seed_draw(seed from, uint32_t tap, uint8_t draw[PRACTICE_DRAW])
{
    if (!from.draws)
        return getrandom(draw, PRACTICE_DRAW, 0) == PRACTICE_DRAW ? NULL : complain("no random bytes are to be had");
    return provider_draw(from.bytes, from.length, tap, draw) == PROVIDER_DONE ? NULL : complain("no draw could be made");
}

complaint seed_fingerprint(seed of, char text[SEED_FINGERPRINT + 1])
{
    static const char label[] = "fingerprint";
    uint8_t hash[SEED_FINGERPRINT / 2], *message = malloc(of.length + strlen(label));
    if (!message)
        return complain("no memory");
    memcpy(message, of.bytes, of.length);
    memcpy(message + of.length, label, strlen(label));
    provider_result done = provider_sha256(message, of.length + strlen(label), hash);
    free(message);
    hex_write(text, hash, sizeof hash);
    return done == PROVIDER_DONE ? NULL : complain("no fingerprint of the seed could be made");
}
