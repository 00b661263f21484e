/* FrodoKEM for a dying process: no heap, no global state, no errno; every call comes back, whatever it is lent.
 *
 * Sets 1, 2 and 3 are FrodoKEM-640-SHAKE, FrodoKEM-976-SHAKE and FrodoKEM-1344-SHAKE of the FrodoKEM standard proposal (2023), with a salt.
 *
 *                             set 1     set 2     set 3
 *   key seed                     64        88       112   bytes
 *   public key                 9616     15632     21520
 *   secret key                19888     31296     43088
 *   ciphertext                 9752     15792     21696
 *   message, shared secret       16        24        32
 *   salt                         32        48        64
 *   noise scratch             10304     15680     21568   uint16_t words, or more
 *   work scratch              11136     16848     23104   uint16_t words, or more
 *
 * A call answers 0 when it is done, or the first of these that is true of its own buffers, and then nothing that was lent has changed:
 *
 *   1  the set number is not 1, 2 or 3
 *   2  the key seed's length is wrong             6  the message's length is wrong
 *   3  the public key's length is wrong           7  the salt's length is wrong
 *   4  the secret key's length is wrong           8  the shared secret's length is wrong
 *   5  the ciphertext's length is wrong           9  either scratch is too short
 *
 * After 0 the outputs are written whole, and the first words of each scratch, as many as the table says, are zero; later words are untouched. What outputs and
 * scratches held before does not matter. Sets, lengths and refusals have names below.
 *
 * The caller's duties, which nothing can test for him:
 *
 *   memory      A pointer and its length, in elements and not in bytes, name memory that is valid for the whole call.
 *   NULL        may go with length 0, as may any other pointer: that buffer is never touched, and the call is refused, since no buffer of these sets has length 0.
 *               With any other length NULL is not valid memory.
 *   overlap     No two buffers of one call share a byte, the two scratches included, but for those that are only read (the const ones): they may.
 *   alignment   A uint16_t pointer is even. What an odd one does is undefined on both processors, though many loads and stores happen to bear it. A uint8_t pointer
 *               may have any address.
 *   stack       is aligned to 16 bytes at the call, as the C of x86-64 and of Arm has it. A compiler sees to it; what enters a handler by hand has to, else the
 *               call may fault. A call was measured to take less than 3 KiB of it (`make stack`).
 *   threads     Calls share nothing: any number may run at the same time, also one inside another that a signal interrupted, each on buffers of its own.
 *               Buffers that are only read may be shared.
 *
 * In a signal handler: lend static memory, and link the program with -Wl,-z,now, so that memcpy, memset and, with the shared object, the calls themselves are bound when
 * it starts: bound at first use, they run the dynamic linker on the handler's stack. examples/c/crash_handler.c is a whole handler. */
#ifndef FRODO_H
#define FRODO_H

#include <stddef.h>
#include <stdint.h>

#ifdef __cplusplus
extern "C" {
#endif

#define FRODO_VERSION_MAJOR 0
#define FRODO_VERSION_MINOR 1
#define FRODO_VERSION_PATCH 0
#define FRODO_VERSION "0.1.0"

/* Of each set its number, and the lengths that the table above has: bytes, and words of the scratches. The part before _SET is no macro itself, so that a program
 * can name its set once and paste the rest to it. */
#define FRODO640SHAKE_SET 1
#define FRODO640SHAKE_SEED_LENGTH 64
#define FRODO640SHAKE_PUBLIC_KEY_LENGTH 9616
#define FRODO640SHAKE_SECRET_KEY_LENGTH 19888
#define FRODO640SHAKE_CIPHERTEXT_LENGTH 9752
#define FRODO640SHAKE_MESSAGE_LENGTH 16
#define FRODO640SHAKE_SALT_LENGTH 32
#define FRODO640SHAKE_SHARED_SECRET_LENGTH 16
#define FRODO640SHAKE_NOISE_WORDS 10304
#define FRODO640SHAKE_WORK_WORDS 11136

#define FRODO976SHAKE_SET 2
#define FRODO976SHAKE_SEED_LENGTH 88
#define FRODO976SHAKE_PUBLIC_KEY_LENGTH 15632
#define FRODO976SHAKE_SECRET_KEY_LENGTH 31296
#define FRODO976SHAKE_CIPHERTEXT_LENGTH 15792
#define FRODO976SHAKE_MESSAGE_LENGTH 24
#define FRODO976SHAKE_SALT_LENGTH 48
#define FRODO976SHAKE_SHARED_SECRET_LENGTH 24
#define FRODO976SHAKE_NOISE_WORDS 15680
#define FRODO976SHAKE_WORK_WORDS 16848

#define FRODO1344SHAKE_SET 3
#define FRODO1344SHAKE_SEED_LENGTH 112
#define FRODO1344SHAKE_PUBLIC_KEY_LENGTH 21520
#define FRODO1344SHAKE_SECRET_KEY_LENGTH 43088
#define FRODO1344SHAKE_CIPHERTEXT_LENGTH 21696
#define FRODO1344SHAKE_MESSAGE_LENGTH 32
#define FRODO1344SHAKE_SALT_LENGTH 64
#define FRODO1344SHAKE_SHARED_SECRET_LENGTH 32
#define FRODO1344SHAKE_NOISE_WORDS 21568
#define FRODO1344SHAKE_WORK_WORDS 23104

/* What holds a buffer of any set of this version. Only the scratches may be lent longer than the set's own length. */
#define FRODO_MAX_SEED_LENGTH 112
#define FRODO_MAX_PUBLIC_KEY_LENGTH 21520
#define FRODO_MAX_SECRET_KEY_LENGTH 43088
#define FRODO_MAX_CIPHERTEXT_LENGTH 21696
#define FRODO_MAX_MESSAGE_LENGTH 32
#define FRODO_MAX_SALT_LENGTH 64
#define FRODO_MAX_SHARED_SECRET_LENGTH 32
#define FRODO_MAX_NOISE_WORDS 21568
#define FRODO_MAX_WORK_WORDS 23104

/* The answers. */
#define FRODO_DONE 0
#define FRODO_UNKNOWN_SET 1
#define FRODO_WRONG_SEED_LENGTH 2
#define FRODO_WRONG_PUBLIC_KEY_LENGTH 3
#define FRODO_WRONG_SECRET_KEY_LENGTH 4
#define FRODO_WRONG_CIPHERTEXT_LENGTH 5
#define FRODO_WRONG_MESSAGE_LENGTH 6
#define FRODO_WRONG_SALT_LENGTH 7
#define FRODO_WRONG_SHARED_SECRET_LENGTH 8
#define FRODO_SHORT_SCRATCH 9

/* Writes both keys and zeroes the seed. */
uint32_t frodo_generate_keypair_from_seed(uint32_t set, uint8_t *seed, size_t seed_len, uint8_t *pk, size_t pk_len,
    uint8_t *sk, size_t sk_len, uint16_t *noise, size_t noise_len, uint16_t *work, size_t work_len);

/* Seals a message with a salt under a public key: writes the ciphertext and the shared secret. Message and salt are the caller's random bytes. */
uint32_t frodo_encapsulate(uint32_t set, const uint8_t *pk, size_t pk_len, const uint8_t *message, size_t message_len,
    const uint8_t *salt, size_t salt_len, uint8_t *ct, size_t ct_len, uint8_t *ss, size_t ss_len,
    uint16_t *noise, size_t noise_len, uint16_t *work, size_t work_len);

/* Opens a ciphertext: writes the shared secret and the recovered message, the message also where the ciphertext is not accepted. */
uint32_t frodo_decapsulate(uint32_t set, const uint8_t *sk, size_t sk_len, const uint8_t *ct, size_t ct_len,
    uint8_t *ss, size_t ss_len, uint8_t *message, size_t message_len,
    uint16_t *noise, size_t noise_len, uint16_t *work, size_t work_len);

/* The same without the message. */
uint32_t frodo_decapsulate_shared_secret(uint32_t set, const uint8_t *sk, size_t sk_len, const uint8_t *ct, size_t ct_len,
    uint8_t *ss, size_t ss_len, uint16_t *noise, size_t noise_len, uint16_t *work, size_t work_len);

/* How far the noise of a seed, a message and a salt is from spoiling the message: the largest size of a centred entry of S'E + E'' - E'S; that size over
 * h = q/2^(B+1), exactly; and kept, 1 where every such entry is at least -h and less than h, else 0. Kept is 1 if and only if decapsulation of that seed's key, message and salt
 * gives the message back, and then it gives the same secret. A ratio of 1.0 goes with kept 1 where the worst entry is -h, and with kept 0 where one is h. The seed is only read.
 * Refusals 1, 2, 6, 7, 9, with size 0, ratio 0.0 and kept 0. */
struct frodo_margin_answer {
    uint32_t refusal;
    uint32_t size;
    double ratio;
    uint32_t kept;
};
struct frodo_margin_answer frodo_margin(uint32_t set, const uint8_t *seed, size_t seed_len, const uint8_t *message, size_t message_len,
    const uint8_t *salt, size_t salt_len, uint16_t *noise, size_t noise_len, uint16_t *work, size_t work_len);

/* The lengths of a set, all 0 where the number is no set. */
struct frodo_set_lengths {
    uint32_t seed, public_key, secret_key, ciphertext, message, salt, shared_secret, noise_words, work_words;
};
struct frodo_set_lengths frodo_lengths(uint32_t set);

#ifdef __cplusplus
}
#endif

#endif
