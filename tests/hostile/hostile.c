/* Hostile calls: every buffer lies between two guard pages, flush against one of them, so that one byte outside stops the run; sets and lengths are right,
 * wrong, another set's or random, and every answer is held to docs/RULES.md, 3.1 and 3.2 (tests/lengths.h).
 *
 *   refused   the number is the paper's, and every byte of every buffer, lent or not, is as it was
 *   done      outputs are written whole (the same call over other dirt and at other places gives the same bytes), inputs stand, the seed of key generation is
 *             zero, the front of each scratch is zero, later words and all bytes outside what was lent stand
 *
 *   hostile [RANDOM-CALLS [DONE-CALLS-EACH]]      default 120000 random calls, 60 done calls of each kind and set, each made twice */
#include <inttypes.h>
#include <signal.h>
#include <stdbool.h>
#include <stdio.h>
#include <stdlib.h>
#include <string.h>
#include <sys/mman.h>
#include <time.h>
#include <unistd.h>

#include "../lengths.h"
#include "frodo.h"

#define PAGE 65536 /* a multiple of every page size that Linux has on these processors */
#define ROOM 65536    /* bytes of a buffer's memory, more than any set wants */
#define SECONDS 300   /* a run that takes longer has not come back */

struct trial {
    int call;
    uint32_t set;
    size_t length[BUFFERS]; /* elements */
    bool at_start[BUFFERS]; /* flush against the lower guard page, otherwise against the upper one */
    bool null[BUFFERS];     /* NULL in place of a pointer: only with length 0 */
};

static uint8_t *memory[BUFFERS];      /* ROOM bytes between two guard pages */
static uint8_t copy[BUFFERS][ROOM];   /* what memory held before the call */
static volatile struct trial current; /* for the fault handler */
static uint64_t state = 1;
static unsigned long counts[CALLS][10];

static size_t below(size_t bound) { return (size_t)(next_random(&state) % bound); }

static void describe(const struct trial *t) {
    printf("  %s, set %" PRIu32 ", paper's answer %" PRIu32 "\n", call_name[t->call], t->set, paper_answer(t->call, t->set, t->length));
    for (int b = 0; b < BUFFERS; b++) {
        if (!(lent[t->call] & BIT(b))) continue;
        printf("  %-13s %zu elements, %s\n", buffer_name[b], t->length[b], t->null[b] ? "NULL" : t->at_start[b] ? "at the lower guard page" : "at the upper guard page");
    }
}

static void fail(const struct trial *t, const char *why) {
    printf("hostile: FAILED: %s\n", why);
    describe(t);
    exit(1);
}

static void stopped(int number, siginfo_t *info, void *context) {
    (void)context;
    struct trial t = current;
    const uint8_t *address = info->si_addr;
    if (number == SIGALRM) {
        printf("hostile: FAILED: not back after %d seconds\n", SECONDS);
    } else {
        printf("hostile: FAILED: SIGSEGV at %p", (const void *)address);
        for (int b = 0; b < BUFFERS; b++) {
            if (address >= memory[b] - PAGE && address < memory[b]) printf(", %td bytes before the %s's memory", memory[b] - address, buffer_name[b]);
            if (address >= memory[b] + ROOM && address < memory[b] + ROOM + PAGE)
                printf(", %td bytes after the end of the %s's memory", address - (memory[b] + ROOM) + 1, buffer_name[b]);
        }
        printf("\n");
    }
    describe(&t);
    fflush(stdout);
    _exit(1);
}

static void *place(const struct trial *t, int b) {
    if (t->null[b]) return NULL;
    return t->at_start[b] ? memory[b] : memory[b] + ROOM - t->length[b] * element_bytes(b);
}

/* The call, as the trial has it. A refused margin says no more than its number. */
static uint32_t make(const struct trial *t) {
#define BYTES(b) (uint8_t *)place(t, b), t->length[b]
#define WORDS(b) (uint16_t *)place(t, b), t->length[b]
    switch (t->call) {
    case KEYPAIR:
        return frodo_generate_keypair_from_seed(t->set, BYTES(SEED), BYTES(PUBLIC_KEY), BYTES(SECRET_KEY), WORDS(NOISE), WORDS(WORK));
    case ENCAPSULATE:
        return frodo_encapsulate(
            t->set, BYTES(PUBLIC_KEY), BYTES(MESSAGE), BYTES(SALT), BYTES(CIPHERTEXT), BYTES(SHARED_SECRET), WORDS(NOISE), WORDS(WORK));
    case DECAPSULATE:
        return frodo_decapsulate(t->set, BYTES(SECRET_KEY), BYTES(CIPHERTEXT), BYTES(SHARED_SECRET), BYTES(MESSAGE), WORDS(NOISE), WORDS(WORK));
    case DECAPSULATE_SECRET:
        return frodo_decapsulate_shared_secret(t->set, BYTES(SECRET_KEY), BYTES(CIPHERTEXT), BYTES(SHARED_SECRET), WORDS(NOISE), WORDS(WORK));
    default: {
        struct frodo_margin_answer m = frodo_margin(t->set, BYTES(SEED), BYTES(MESSAGE), BYTES(SALT), WORDS(NOISE), WORDS(WORK));
        if (m.refusal != 0 && (m.size != 0 || m.ratio != 0.0 || m.kept != 0)) fail(t, "a refused margin has a size, a ratio or a verdict");
        if (m.refusal == 0) {
            double h = t->set == 3 ? 2048.0 : 4096.0;
            if (m.ratio != m.size / h) fail(t, "the ratio is not the size over h");
            /* of a size of h itself the sign decides, which a margin does not tell */
            if (m.kept > 1 || (m.size != h && m.kept != (m.size < h))) fail(t, "the verdict does not go with the size");
        }
        return m.refusal;
    }
    }
}

/* Makes the call and compares with the paper; a refused call leaves all memory as it was. */
static uint32_t run(const struct trial *t) {
    current = *t;
    uint32_t wanted = paper_answer(t->call, t->set, t->length), given = make(t);
    if (given != wanted) {
        printf("hostile: answer %" PRIu32 "\n", given);
        fail(t, "another answer than the paper's");
    }
    counts[t->call][given]++;
    if (given != 0)
        for (int b = 0; b < BUFFERS; b++)
            if (memcmp(memory[b], copy[b], ROOM) != 0) {
                printf("hostile: the %s's memory\n", buffer_name[b]);
                fail(t, "a refused call changed memory");
            }
    return given;
}

static void dirty(int b) {
    fill_random(&state, memory[b], ROOM);
    memcpy(copy[b], memory[b], ROOM);
}

static size_t room(int b) { return ROOM / element_bytes(b); }

static struct trial exact(int call, uint32_t set) {
    struct trial t = { .call = call, .set = set };
    for (int b = 0; b < BUFFERS; b++) t.length[b] = paper_length[set >= 1 && set <= 3 ? set - 1 : below(3)][b];
    return t;
}

static void places(struct trial *t) {
    for (int b = 0; b < BUFFERS; b++) t->at_start[b] = below(2);
}

static size_t wrong_length(int b, size_t right) {
    switch (below(7)) {
    case 0: return 0;
    case 1: return right - 1;
    case 2: return right + 1;
    case 3: return paper_length[below(3)][b];
    case 4: return room(b);
    case 5: return below(right);
    default: return below(room(b) + 1);
    }
}

static uint32_t any_set(void) {
    static const uint32_t odd[] = { 0, 4, 5, 12, 255, 256, 257, 258, 259, 65535, 65536, 65537, 65538, 65539, 0x7FFFFFFF, 0x80000000, 0x80000001, 0x80000003,
        0xFFFFFFFE, 0xFFFFFFFF, 0x01000001, 0x01010101 };
    switch (below(8)) {
    case 0: return odd[below(sizeof odd / sizeof *odd)];
    case 1: return (uint32_t)next_random(&state);
    default: return 1 + (uint32_t)below(3);
    }
}

static void progress(const char *what, unsigned long done, unsigned long of) {
    static time_t last;
    time_t now = time(NULL);
    if (now - last < 5) return;
    last = now;
    fprintf(stderr, "hostile: %s, %lu of %lu\n", what, done, of);
}

/* Random sets and lengths, some right and some not. Those that the paper would take are left to `done`, which looks closer. */
static void random_calls(unsigned long wanted) {
    for (unsigned long made = 0; made < wanted;) {
        struct trial t = exact((int)below(CALLS), any_set());
        places(&t);
        for (int b = 0; b < BUFFERS; b++) {
            if (below(4) == 0) t.length[b] = wrong_length(b, t.length[b]);
            t.null[b] = t.length[b] == 0 && below(2);
        }
        if (paper_answer(t.call, t.set, t.length) == 0) continue;
        run(&t);
        made++;
        progress("random calls", made, wanted);
    }
}

/* One length wrong at a time, each at both guard pages. */
static void edges(void) {
    for (int call = 0; call < CALLS; call++)
        for (uint32_t set = 1; set <= 3; set++)
            for (int b = 0; b < BUFFERS; b++) {
                if (!(lent[call] & BIT(b))) continue;
                size_t right = paper_length[set - 1][b];
                size_t lengths[] = { 0, 1, right - 1, right + 1, paper_length[0][b], paper_length[1][b], paper_length[2][b], room(b) };
                for (size_t k = 0; k < sizeof lengths / sizeof *lengths; k++)
                    for (int at = 0; at < 2; at++) {
                        struct trial t = exact(call, set);
                        for (int o = 0; o < BUFFERS; o++) t.at_start[o] = at;
                        t.length[b] = lengths[k];
                        if (paper_answer(call, set, t.length) != 0) run(&t);
                    }
            }
}

/* NULL with length 0 in every choice of places; what is not NULL is right. */
static void nulls(void) {
    for (int call = 0; call < CALLS; call++)
        for (uint32_t set = 0; set <= 4; set++)
            for (unsigned which = 1; which < BIT(BUFFERS); which++) {
                if (which & ~lent[call]) continue;
                struct trial t = exact(call, set);
                places(&t);
                for (int b = 0; b < BUFFERS; b++)
                    if (which & BIT(b)) t.null[b] = true, t.length[b] = 0;
                if (run(&t) == 0) fail(&t, "NULL was taken");
            }
}

static void lengths(void) {
    for (unsigned long k = 0; k < 100000; k++) {
        uint32_t set = k < 300 ? (uint32_t)k : any_set();
        struct frodo_set_lengths l = frodo_lengths(set);
        const uint32_t given[BUFFERS] = { l.seed, l.public_key, l.secret_key, l.ciphertext, l.message, l.salt, l.shared_secret, l.noise_words, l.work_words };
        for (int b = 0; b < BUFFERS; b++)
            if (given[b] != (set >= 1 && set <= 3 ? paper_length[set - 1][b] : 0)) {
                printf("hostile: FAILED: frodo_lengths of set %" PRIu32 ": %s %" PRIu32 "\n", set, buffer_name[b], given[b]);
                exit(1);
            }
    }
}

/* Made things of each set, so that half of the done calls are honest ones. */
static struct { uint8_t pk[21520], sk[43088], ct[21696], ss[32], message[32]; } made[3];
static uint8_t input[BUFFERS][ROOM], output[BUFFERS][ROOM];

/* One done call, made twice over the same inputs: other dirt, other places, other scratch lengths. */
static void done(int call, uint32_t set, bool honest) {
    const uint32_t *wanted = paper_length[set - 1];
    for (int b = 0; b < BUFFERS; b++) fill_random(&state, input[b], wanted[b] * element_bytes(b));
    if (honest) {
        memcpy(input[PUBLIC_KEY], made[set - 1].pk, wanted[PUBLIC_KEY]);
        memcpy(input[SECRET_KEY], made[set - 1].sk, wanted[SECRET_KEY]);
        memcpy(input[CIPHERTEXT], made[set - 1].ct, wanted[CIPHERTEXT]);
    }
    for (int turn = 0; turn < 2; turn++) {
        struct trial t = exact(call, set);
        places(&t);
        if (turn == 1)
            for (int b = 0; b < BUFFERS; b++) t.at_start[b] = !t.at_start[b];
        for (int b = NOISE; b <= WORK; b++)
            if (below(2)) t.length[b] += 1 + below(room(b) - t.length[b]);
        for (int b = 0; b < BUFFERS; b++) {
            dirty(b);
            if (!(lent[call] & BIT(b)) || b == NOISE || b == WORK || (written[call] & BIT(b))) continue;
            memcpy(place(&t, b), input[b], t.length[b]);
            memcpy(copy[b], memory[b], ROOM);
        }
        run(&t);
        /* what memory has to hold now */
        for (int b = 0; b < BUFFERS; b++) {
            if (!(lent[call] & BIT(b))) continue;
            uint8_t *p = place(&t, b), *c = copy[b] + (p - memory[b]);
            if (written[call] & BIT(b)) {
                if (turn == 1 && memcmp(p, output[b], t.length[b]) != 0) {
                    printf("hostile: the %s\n", buffer_name[b]);
                    fail(&t, "an output depends on what was in it, in the scratch or on where it lies");
                }
                memcpy(output[b], p, t.length[b]);
                memcpy(c, p, t.length[b]);
            } else if (b == NOISE || b == WORK) {
                memset(c, 0, wanted[b] * 2);
            } else if (b == SEED && call == KEYPAIR) {
                memset(c, 0, wanted[b]);
            }
        }
        for (int b = 0; b < BUFFERS; b++)
            if (memcmp(memory[b], copy[b], ROOM) != 0) {
                size_t k = 0;
                while (memory[b][k] == copy[b][k]) k++;
                printf("hostile: the %s's memory, byte %zu of %d: %02x, expected %02x\n", buffer_name[b], k, ROOM, memory[b][k], copy[b][k]);
                fail(&t, "after a done call an input, the scratch or a byte outside is not as it has to be");
            }
    }
    struct trial t = exact(call, set);
    if (call == KEYPAIR) {
        memcpy(made[set - 1].pk, output[PUBLIC_KEY], wanted[PUBLIC_KEY]);
        memcpy(made[set - 1].sk, output[SECRET_KEY], wanted[SECRET_KEY]);
    } else if (call == ENCAPSULATE && honest) {
        memcpy(made[set - 1].ct, output[CIPHERTEXT], wanted[CIPHERTEXT]);
        memcpy(made[set - 1].ss, output[SHARED_SECRET], wanted[SHARED_SECRET]);
        memcpy(made[set - 1].message, input[MESSAGE], wanted[MESSAGE]);
    } else if (honest && call != MARGIN) {
        if (memcmp(output[SHARED_SECRET], made[set - 1].ss, wanted[SHARED_SECRET]) != 0) fail(&t, "an honest ciphertext gave another secret");
        if (call == DECAPSULATE && memcmp(output[MESSAGE], made[set - 1].message, wanted[MESSAGE]) != 0) fail(&t, "an honest ciphertext gave another message");
    }
}

int main(int n, char **words) {
    unsigned long random = n > 1 ? strtoul(words[1], NULL, 10) : 120000, each = n > 2 ? strtoul(words[2], NULL, 10) : 60;
    for (int b = 0; b < BUFFERS; b++) {
        uint8_t *p = mmap(NULL, ROOM + 2 * PAGE, PROT_NONE, MAP_PRIVATE | MAP_ANONYMOUS, -1, 0);
        if (p == MAP_FAILED || mprotect(p + PAGE, ROOM, PROT_READ | PROT_WRITE) != 0) {
            printf("hostile: FAILED: no memory between guard pages\n");
            return 1;
        }
        memory[b] = p + PAGE;
        dirty(b);
    }
    static uint8_t stack[65536];
    stack_t alternate = { .ss_sp = stack, .ss_size = sizeof stack };
    struct sigaction action = { .sa_sigaction = stopped, .sa_flags = SA_SIGINFO | SA_ONSTACK };
    if (sigaltstack(&alternate, NULL) != 0 || sigaction(SIGSEGV, &action, NULL) != 0 || sigaction(SIGBUS, &action, NULL) != 0 ||
        sigaction(SIGALRM, &action, NULL) != 0) {
        printf("hostile: FAILED: no handler\n");
        return 1;
    }
    alarm(SECONDS);

    lengths();
    edges();
    nulls();
    random_calls(random);
    for (unsigned long k = 0; k < each; k++)
        for (uint32_t set = 1; set <= 3; set++)
            for (int call = 0; call < CALLS; call++) {
                done(call, set, k % 2 == 0);
                progress("done calls", k * 3 * CALLS + (set - 1) * CALLS + (unsigned long)call, each * 3 * CALLS);
            }

    unsigned long all = 0, taken = 0;
    printf("%-34s %9s", "answers of", "0 (done)");
    for (int a = 1; a < 10; a++) printf(" %7d", a);
    printf("\n");
    for (int call = 0; call < CALLS; call++) {
        printf("%-34s %9lu", call_name[call], counts[call][0]);
        for (int a = 1; a < 10; a++) printf(" %7lu", counts[call][a]);
        printf("\n");
        for (int a = 0; a < 10; a++) all += counts[call][a];
        taken += counts[call][0];
    }
    printf("hostile: %lu calls between guard pages, %lu done, %lu refused, and 100000 of frodo_lengths: all as the paper has it\n", all, taken, all - taken);
    return 0;
}
