/* Every call under valgrind's memcheck, with outputs and scratches that are marked as never written and input buffers of the heap's exact size: a branch or an
 * address that depends on unset memory, or a byte outside, is an error (run it by `valgrind --error-exitcode=1`). After a done call the outputs and the
 * front of each scratch have to be defined, and the later words of a scratch still undefined. Refused calls get undefined contents in every buffer. */
#include <stdio.h>
#include <stdlib.h>
#include <string.h>
#include <valgrind/memcheck.h>

#include "../lengths.h"
#include "frodo.h"

#define LATER 16 /* words of a scratch beyond what the set wants */

static uint64_t state = 7;
static unsigned long done, refused;

static void fail(const char *why, int call, uint32_t set, int b) {
    printf("unset: FAILED: %s, set %u, %s: %s\n", call_name[call], set, buffer_name[b], why);
    exit(1);
}

static uint32_t make(int call, uint32_t set, void *p[BUFFERS], const size_t n[BUFFERS]) {
    switch (call) {
    case KEYPAIR:
        return frodo_generate_keypair_from_seed(
            set, p[SEED], n[SEED], p[PUBLIC_KEY], n[PUBLIC_KEY], p[SECRET_KEY], n[SECRET_KEY], p[NOISE], n[NOISE], p[WORK], n[WORK]);
    case ENCAPSULATE:
        return frodo_encapsulate(set, p[PUBLIC_KEY], n[PUBLIC_KEY], p[MESSAGE], n[MESSAGE], p[SALT], n[SALT], p[CIPHERTEXT], n[CIPHERTEXT],
            p[SHARED_SECRET], n[SHARED_SECRET], p[NOISE], n[NOISE], p[WORK], n[WORK]);
    case DECAPSULATE:
        return frodo_decapsulate(set, p[SECRET_KEY], n[SECRET_KEY], p[CIPHERTEXT], n[CIPHERTEXT], p[SHARED_SECRET], n[SHARED_SECRET], p[MESSAGE],
            n[MESSAGE], p[NOISE], n[NOISE], p[WORK], n[WORK]);
    case DECAPSULATE_SECRET:
        return frodo_decapsulate_shared_secret(
            set, p[SECRET_KEY], n[SECRET_KEY], p[CIPHERTEXT], n[CIPHERTEXT], p[SHARED_SECRET], n[SHARED_SECRET], p[NOISE], n[NOISE], p[WORK], n[WORK]);
    default:
        return frodo_margin(set, p[SEED], n[SEED], p[MESSAGE], n[MESSAGE], p[SALT], n[SALT], p[NOISE], n[NOISE], p[WORK], n[WORK]).refusal;
    }
}

/* A call over p's contents; the buffers that it writes and the scratches are made undefined first. */
static void call_done(int call, uint32_t set, void *p[BUFFERS], const size_t n[BUFFERS]) {
    for (int b = 0; b < BUFFERS; b++)
        if ((written[call] & BIT(b)) || b == NOISE || b == WORK) VALGRIND_MAKE_MEM_UNDEFINED(p[b], n[b] * element_bytes(b));
    uint32_t given = make(call, set, p, n);
    if (VALGRIND_CHECK_MEM_IS_DEFINED(&given, sizeof given) != 0) fail("the answer depends on unset memory", call, set, NOISE);
    if (given != 0) fail("refused", call, set, NOISE);
    for (int b = 0; b < BUFFERS; b++) {
        size_t front = paper_length[set - 1][b];
        if (!(lent[call] & BIT(b))) continue;
        if (VALGRIND_CHECK_MEM_IS_DEFINED(p[b], front * element_bytes(b)) != 0) fail("not wholly written, or written from unset memory", call, set, b);
        if (b != NOISE && b != WORK) continue;
        uint16_t *word = p[b];
        for (size_t k = 0; k < front; k++)
            if (word[k] != 0) fail("the front of the scratch is not zero", call, set, b);
        for (size_t k = front; RUNNING_ON_VALGRIND && k < n[b]; k++) {
            uint16_t bits = 0;
            (void)VALGRIND_GET_VBITS(&word[k], &bits, 2);
            if (bits != 0xFFFF) fail("a later word of the scratch was written", call, set, b);
        }
    }
    done++;
}

int main(void) {
    if (!RUNNING_ON_VALGRIND) {
        printf("unset: FAILED: run it by valgrind\n");
        return 1;
    }
    for (uint32_t set = 1; set <= 3; set++) {
        void *p[BUFFERS];
        size_t n[BUFFERS];
        for (int b = 0; b < BUFFERS; b++) {
            n[b] = paper_length[set - 1][b] + (b == NOISE || b == WORK ? LATER : 0);
            p[b] = malloc(n[b] * element_bytes(b));
            if (p[b] == NULL) return 2;
        }
        uint8_t *ct = p[CIPHERTEXT], secret[32];
        fprintf(stderr, "unset: set %u\n", set);
        fill_random(&state, p[SEED], n[SEED]), fill_random(&state, p[MESSAGE], n[MESSAGE]), fill_random(&state, p[SALT], n[SALT]);
        call_done(MARGIN, set, p, n);
        call_done(KEYPAIR, set, p, n);
        call_done(ENCAPSULATE, set, p, n);
        memcpy(secret, p[SHARED_SECRET], n[SHARED_SECRET]);
        call_done(DECAPSULATE, set, p, n);
        if (memcmp(secret, p[SHARED_SECRET], n[SHARED_SECRET]) != 0) fail("an honest ciphertext gave another secret", DECAPSULATE, set, SHARED_SECRET);
        call_done(DECAPSULATE_SECRET, set, p, n);
        if (memcmp(secret, p[SHARED_SECRET], n[SHARED_SECRET]) != 0) fail("an honest ciphertext gave another secret", DECAPSULATE_SECRET, set, SHARED_SECRET);
        ct[3] ^= 16;
        call_done(DECAPSULATE, set, p, n);
        if (memcmp(secret, p[SHARED_SECRET], n[SHARED_SECRET]) == 0) fail("a damaged ciphertext gave the honest secret", DECAPSULATE, set, SHARED_SECRET);
        call_done(DECAPSULATE_SECRET, set, p, n);

        for (int b = 0; b < BUFFERS; b++) VALGRIND_MAKE_MEM_UNDEFINED(p[b], n[b] * element_bytes(b));
        for (int call = 0; call < CALLS; call++)
            for (int b = 0; b < BUFFERS; b++) {
                if (!(lent[call] & BIT(b))) continue;
                size_t right = n[b];
                n[b] = paper_length[set - 1][b] - 1;
                uint32_t given = make(call, set, p, n);
                if (VALGRIND_CHECK_MEM_IS_DEFINED(&given, sizeof given) != 0 || given != paper_answer(call, set, n)) fail("another refusal than the paper's", call, set, b);
                n[b] = right;
                refused++;
            }
        for (int b = 0; b < BUFFERS; b++) free(p[b]);
    }
    printf("unset: %lu done and %lu refused calls over unset memory\n", done, refused);
    return 0;
}
