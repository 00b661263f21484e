/* Generate, seal, open, from C. Build: cc -I dist examples/c/seal.c dist/libfrodo_c.a -o seal
 * Where the library is installed: cc examples/c/seal.c $(pkg-config --cflags --libs frodo_c) -o seal
 *
 * All memory is static: nothing here or in the library touches the heap. The seed, the message and the salt come from the system; in a crash handler the
 * public key is compiled in, and message and salt are drawn before anything has gone wrong. */
#define _DEFAULT_SOURCE
#include "frodo.h"
#include <stdio.h>
#include <string.h>
#include <sys/random.h>

enum {
    SET = FRODO1344SHAKE_SET,
    SEED = FRODO1344SHAKE_SEED_LENGTH,
    PUBLIC = FRODO1344SHAKE_PUBLIC_KEY_LENGTH,
    SECRET = FRODO1344SHAKE_SECRET_KEY_LENGTH,
    CIPHERTEXT = FRODO1344SHAKE_CIPHERTEXT_LENGTH,
    KEY = FRODO1344SHAKE_SHARED_SECRET_LENGTH, /* the message's length, too */
    SALT = FRODO1344SHAKE_SALT_LENGTH,
    NOISE = FRODO1344SHAKE_NOISE_WORDS,
    WORK = FRODO1344SHAKE_WORK_WORDS
};

static uint8_t seed[SEED], public_key[PUBLIC], secret_key[SECRET], sealed[CIPHERTEXT];
static uint8_t message[KEY], salt[SALT], key[KEY], opened[KEY], recovered[KEY];
static uint16_t noise[NOISE], work[WORK];

static int refused(const char *call, uint32_t number)
{
    if (number != 0)
        fprintf(stderr, "%s: refusal %u, see frodo.h\n", call, (unsigned)number);
    return number != 0;
}

static int random_bytes(uint8_t *at, size_t count)
{
    return getrandom(at, count, 0) == (ssize_t)count;
}

int main(void)
{
    if (!random_bytes(seed, SEED) || !random_bytes(message, KEY) || !random_bytes(salt, SALT)) {
        fprintf(stderr, "the system gives no random bytes\n");
        return 1;
    }

    /* how near to spoiling the noise of these three comes; asked for first, since key generation zeroes the seed */
    struct frodo_margin_answer margin = frodo_margin(SET, seed, SEED, message, KEY, salt, SALT, noise, NOISE, work, WORK);
    if (refused("frodo_margin", margin.refusal))
        return 1;

    /* the customer, long before */
    if (refused("frodo_generate_keypair_from_seed",
            frodo_generate_keypair_from_seed(SET, seed, SEED, public_key, PUBLIC, secret_key, SECRET, noise, NOISE, work, WORK)))
        return 1;

    /* the dying process: `key` then encrypts the report, and `sealed` is kept beside it */
    if (refused("frodo_encapsulate",
            frodo_encapsulate(SET, public_key, PUBLIC, message, KEY, salt, SALT, sealed, CIPHERTEXT, key, KEY, noise, NOISE, work, WORK)))
        return 1;

    /* the customer, afterwards */
    if (refused("frodo_decapsulate",
            frodo_decapsulate(SET, secret_key, SECRET, sealed, CIPHERTEXT, opened, KEY, recovered, KEY, noise, NOISE, work, WORK)))
        return 1;

    int same = memcmp(key, opened, KEY) == 0 && memcmp(message, recovered, KEY) == 0;
    printf("sealed %d bytes and opened them: %s; noise at %.4f of the limit, %s\n", CIPHERTEXT, same ? "one secret" : "two secrets", margin.ratio,
        margin.kept ? "kept" : "lost");
    return same != (int)margin.kept;
}
