/* A crash handler to copy: seals a report to the customer's public key, writes it, and lets the process die of its own signal. See crash_handler.c. */
#ifndef CRASH_HANDLER_H
#define CRASH_HANDLER_H

#include <signal.h>
#include <stddef.h>
#include <stdint.h>

/* Encrypts `bytes` of `text` with a key that serves this one report, into `out`, which has CRASH_ROOM bytes more than the text for a tag or a nonce. Answers how many bytes
 * it wrote, or 0, and then no report is written. It runs in the handler: no heap, no locks, no stdio. FrodoKEM gives the key; the cipher is yours. */
typedef size_t crash_cipher(uint8_t *out, size_t room, const uint8_t *text, size_t bytes, const uint8_t *key, size_t key_bytes);

/* Writes what is worth knowing into `text` and answers how many bytes. It runs in the handler, too. It may itself fault: then what it should have said is lost, and a report
 * of one line is sealed all the same. */
typedef size_t crash_describe(char *text, size_t room, int number, const siginfo_t *info, const void *context);

enum { CRASH_TEXT = 16384, CRASH_ROOM = 64 };

/* Call it once, early, while nothing has gone wrong. Reads the set's public key from a file, draws the message and the salt, seals once on trial, and takes the five
 * signals. The report will be written to `file`, which is open for writing: first the ciphertext, of the set's length, then what the cipher made. `describe` may be
 * NULL: then the report is one line. Answers 0, or -1 with errno set (EINVAL: no such set, or no public key of it); then no signal is taken. */
int crash_handler_install(uint32_t set, const char *public_key_file, int file, crash_cipher *cipher, crash_describe *describe);

/* An alternate stack for the thread that calls it: without one a thread whose own stack has overflowed cannot report. crash_handler_install does it for its caller; every
 * other thread calls it when it starts. Answers 0, or -1 with errno set. */
int crash_handler_thread(void);

#endif
