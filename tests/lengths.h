/* The table of lengths and the refusals (docs/RULES.md, 2.1, 3.1 and 3.2), written from the paper for the tests in C: no length here comes from the library. */
#ifndef TESTS_LENGTHS_H
#define TESTS_LENGTHS_H

#include <stddef.h>
#include <stdint.h>

/* The buffers that a call may be lent. */
enum buffer { SEED, PUBLIC_KEY, SECRET_KEY, CIPHERTEXT, MESSAGE, SALT, SHARED_SECRET, NOISE, WORK, BUFFERS };

static const char *const buffer_name[BUFFERS] = {
    "seed", "public key", "secret key", "ciphertext", "message", "salt", "shared secret", "noise scratch", "work scratch",
};

/* Elements by set and buffer: bytes, and words of the two scratches. */
static const uint32_t paper_length[3][BUFFERS] = {
    { 64, 9616, 19888, 9752, 16, 32, 16, 10304, 11136 },
    { 88, 15632, 31296, 15792, 24, 48, 24, 15680, 16848 },
    { 112, 21520, 43088, 21696, 32, 64, 32, 21568, 23104 },
};

static inline size_t element_bytes(int b) { return b == NOISE || b == WORK ? 2 : 1; }

/* The calls, what each is lent and what it may write. */
enum call { KEYPAIR, ENCAPSULATE, DECAPSULATE, DECAPSULATE_SECRET, MARGIN, CALLS };

static const char *const call_name[CALLS] = {
    "frodo_generate_keypair_from_seed", "frodo_encapsulate", "frodo_decapsulate", "frodo_decapsulate_shared_secret", "frodo_margin",
};

#define BIT(b) (1u << (b))
static const unsigned lent[CALLS] = {
    BIT(SEED) | BIT(PUBLIC_KEY) | BIT(SECRET_KEY) | BIT(NOISE) | BIT(WORK),
    BIT(PUBLIC_KEY) | BIT(MESSAGE) | BIT(SALT) | BIT(CIPHERTEXT) | BIT(SHARED_SECRET) | BIT(NOISE) | BIT(WORK),
    BIT(SECRET_KEY) | BIT(CIPHERTEXT) | BIT(SHARED_SECRET) | BIT(MESSAGE) | BIT(NOISE) | BIT(WORK),
    BIT(SECRET_KEY) | BIT(CIPHERTEXT) | BIT(SHARED_SECRET) | BIT(NOISE) | BIT(WORK),
    BIT(SEED) | BIT(MESSAGE) | BIT(SALT) | BIT(NOISE) | BIT(WORK),
};
static const unsigned written[CALLS] = {
    BIT(PUBLIC_KEY) | BIT(SECRET_KEY),
    BIT(CIPHERTEXT) | BIT(SHARED_SECRET),
    BIT(SHARED_SECRET) | BIT(MESSAGE),
    BIT(SHARED_SECRET),
    0,
};

/* The paper's answer to a call: the first number, rising, whose line is true of the call's own buffers; 0 where none is. */
static inline uint32_t paper_answer(int call, uint32_t set, const size_t length[BUFFERS]) {
    static const int by_number[9] = { -1, -1, SEED, PUBLIC_KEY, SECRET_KEY, CIPHERTEXT, MESSAGE, SALT, SHARED_SECRET };
    if (set != 1 && set != 2 && set != 3) return 1;
    const uint32_t *wanted = paper_length[set - 1];
    for (uint32_t number = 2; number <= 8; number++) {
        int b = by_number[number];
        if ((lent[call] & BIT(b)) && length[b] != wanted[b]) return number;
    }
    return length[NOISE] < wanted[NOISE] || length[WORK] < wanted[WORK] ? 9 : 0;
}

/* xorshift64*: a fixed seed gives the same run again. */
static inline uint64_t next_random(uint64_t *state) {
    *state ^= *state >> 12;
    *state ^= *state << 25;
    *state ^= *state >> 27;
    return *state * UINT64_C(0x2545F4914F6CDD1D);
}

static inline void fill_random(uint64_t *state, void *to, size_t bytes) {
    uint8_t *p = to;
    for (; bytes >= 8; bytes -= 8, p += 8) {
        uint64_t x = next_random(state);
        for (int k = 0; k < 8; k++) p[k] = (uint8_t)(x >> 8 * k);
    }
    for (uint64_t x = next_random(state); bytes > 0; bytes--, x >>= 8) *p++ = (uint8_t)x;
}

#endif
