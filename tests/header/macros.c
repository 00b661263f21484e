/* Every macro of frodo.h against the library itself: lengths against frodo_lengths(), refusals against calls that earn them, the version against its parts, and the
 * layout of the two structs. One text for C99, C11 and C++17. Prints the version last, for the script that holds it against the others. */
#include "frodo.h"
#include "frodo.h" /* twice: the second does nothing */
#include <stdio.h>
#include <string.h>

#define LENGTHS(of) \
    { of##_SEED_LENGTH, of##_PUBLIC_KEY_LENGTH, of##_SECRET_KEY_LENGTH, of##_CIPHERTEXT_LENGTH, of##_MESSAGE_LENGTH, of##_SALT_LENGTH, of##_SHARED_SECRET_LENGTH, \
      of##_NOISE_WORDS, of##_WORK_WORDS }
#define SET(of) { #of, of##_SET, LENGTHS(of) }

enum { FIELDS = 9 };
struct named { const char *name; uint32_t set; uint32_t length[FIELDS]; };
static const struct named sets[] = { SET(FRODO640SHAKE), SET(FRODO976SHAKE), SET(FRODO1344SHAKE) };
enum { SETS = sizeof sets / sizeof sets[0] };
static const uint32_t most[FIELDS] = LENGTHS(FRODO_MAX);

static uint8_t seed[FRODO_MAX_SEED_LENGTH], pk[FRODO_MAX_PUBLIC_KEY_LENGTH], sk[FRODO_MAX_SECRET_KEY_LENGTH], ct[FRODO_MAX_CIPHERTEXT_LENGTH];
static uint8_t message[FRODO_MAX_MESSAGE_LENGTH], salt[FRODO_MAX_SALT_LENGTH], ss[FRODO_MAX_SHARED_SECRET_LENGTH];
static uint16_t noise[FRODO_MAX_NOISE_WORDS], work[FRODO_MAX_WORK_WORDS];
static int failures;

static void same(const char *what, const char *of, unsigned long found, unsigned long expected)
{
    if (found == expected)
        return;
    printf("header: FAILED: %s, %s: found %lu, expected %lu\n", of, what, found, expected);
    failures++;
}

static void lengths(void)
{
    static const char *const name[FIELDS] = { "seed", "public key", "secret key", "ciphertext", "message", "salt", "shared secret", "noise words", "work words" };
    uint32_t largest[FIELDS] = { 0, 0, 0, 0, 0, 0, 0, 0, 0 };
    uint32_t known = 0;
    for (uint32_t number = 0; number < 1000; number++) {
        struct frodo_set_lengths found = frodo_lengths(number);
        uint32_t given[FIELDS];
        memcpy(given, &found, sizeof given);
        known += given[1] != 0;
        for (int s = 0; s < SETS; s++)
            for (int f = 0; f < FIELDS && sets[s].set == number; f++)
                same(name[f], sets[s].name, sets[s].length[f], given[f]);
        for (int f = 0; f < FIELDS; f++)
            largest[f] = given[f] > largest[f] ? given[f] : largest[f];
    }
    same("sets that have macros", "frodo.h", SETS, known);
    for (int f = 0; f < FIELDS; f++)
        same(name[f], "FRODO_MAX", most[f], largest[f]);
}

/* A length of 0 with NULL, in the place that earns the refusal; all else is right. */
static void refusals(const struct named *of)
{
    const uint32_t *n = of->length, set = of->set;
#define KEYS(number, a, p, s) frodo_generate_keypair_from_seed(number, a ? seed : NULL, a, p ? pk : NULL, p, s ? sk : NULL, s, noise, n[7], work, n[8])
#define SEAL(m, a, c, s, x, w) \
    frodo_encapsulate(set, pk, n[1], m ? message : NULL, m, a ? salt : NULL, a, c ? ct : NULL, c, s ? ss : NULL, s, x ? noise : NULL, x, w ? work : NULL, w)
    same("FRODO_UNKNOWN_SET", of->name, KEYS(0, n[0], n[1], n[2]), FRODO_UNKNOWN_SET);
    same("FRODO_WRONG_SEED_LENGTH", of->name, KEYS(set, 0, n[1], n[2]), FRODO_WRONG_SEED_LENGTH);
    same("FRODO_WRONG_PUBLIC_KEY_LENGTH", of->name, KEYS(set, n[0], 0, n[2]), FRODO_WRONG_PUBLIC_KEY_LENGTH);
    same("FRODO_WRONG_SECRET_KEY_LENGTH", of->name, KEYS(set, n[0], n[1], 0), FRODO_WRONG_SECRET_KEY_LENGTH);
    same("FRODO_WRONG_CIPHERTEXT_LENGTH", of->name, SEAL(n[4], n[5], 0, n[6], n[7], n[8]), FRODO_WRONG_CIPHERTEXT_LENGTH);
    same("FRODO_WRONG_MESSAGE_LENGTH", of->name, SEAL(0, n[5], n[3], n[6], n[7], n[8]), FRODO_WRONG_MESSAGE_LENGTH);
    same("FRODO_WRONG_SALT_LENGTH", of->name, SEAL(n[4], 0, n[3], n[6], n[7], n[8]), FRODO_WRONG_SALT_LENGTH);
    same("FRODO_WRONG_SHARED_SECRET_LENGTH", of->name, SEAL(n[4], n[5], n[3], 0, n[7], n[8]), FRODO_WRONG_SHARED_SECRET_LENGTH);
    same("FRODO_SHORT_SCRATCH, noise", of->name, SEAL(n[4], n[5], n[3], n[6], 0, n[8]), FRODO_SHORT_SCRATCH);
    same("FRODO_SHORT_SCRATCH, work", of->name, SEAL(n[4], n[5], n[3], n[6], n[7], 0), FRODO_SHORT_SCRATCH);
    same("FRODO_DONE", of->name, SEAL(n[4], n[5], n[3], n[6], n[7], n[8]), FRODO_DONE);
    same("margin's refusal", of->name, frodo_margin(set, NULL, 0, message, n[4], salt, n[5], noise, n[7], work, n[8]).refusal, FRODO_WRONG_SEED_LENGTH);
}

static void layout(void)
{
    same("size", "frodo_set_lengths", sizeof(struct frodo_set_lengths), FIELDS * sizeof(uint32_t));
    same("work_words", "frodo_set_lengths", offsetof(struct frodo_set_lengths, work_words), 8 * sizeof(uint32_t));
    same("size", "frodo_margin_answer", sizeof(struct frodo_margin_answer), 24);
    same("size field", "frodo_margin_answer", offsetof(struct frodo_margin_answer, size), 4);
    same("ratio", "frodo_margin_answer", offsetof(struct frodo_margin_answer, ratio), 8);
    same("kept", "frodo_margin_answer", offsetof(struct frodo_margin_answer, kept), 16);
}

int main(void)
{
    char version[64];
    lengths();
    for (int s = 0; s < SETS; s++)
        refusals(&sets[s]);
    layout();
    snprintf(version, sizeof version, "%d.%d.%d", FRODO_VERSION_MAJOR, FRODO_VERSION_MINOR, FRODO_VERSION_PATCH);
    same("FRODO_VERSION is not its three parts", "frodo.h", strcmp(version, FRODO_VERSION) == 0, 1);
    printf("%s\n", FRODO_VERSION);
    return failures != 0;
}
