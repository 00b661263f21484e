/* The stack that each call takes, for every set, done and refused.
 *
 * Each call is made on a stack of its own, painted beforehand, with a guard page below it. Counted are the bytes from the stack pointer at the call
 * instruction down to the lowest byte that the call wrote: the return address where the processor puts it there, and everything below it, what memcpy and memset take included. Not counted
 * are the caller's own frame and, as part of it, the arguments that the call instruction finds on the stack (shown in a column of their own). Two paints
 * are used, so that a byte which happens to be written with the paint's own value is seen in the other run. Then each call is made once more with exactly
 * LIMIT bytes between the stack pointer and the guard page, so that a deeper touch, also a read, stops the run.
 *
 * The program is linked with -z now: a memcpy that is bound at its first use runs the dynamic linker on the caller's stack. */
#include <signal.h>
#include <stdio.h>
#include <stdlib.h>
#include <string.h>
#include <sys/mman.h>
#include <unistd.h>

#include "../lengths.h"
#include "frodo.h"

#define LIMIT 8192
#define STACK 65536
#define PAGE 65536 /* a multiple of every page size that Linux has on these processors */
#define LENGTHS_CALL CALLS

/* Calls with n whole-number arguments on another stack: registers take the first REGISTERS, the rest lie on that stack in their order, and the stack pointer at
 * the call instruction, which *at gets, is a multiple of 16 as both ABIs ask. top is a multiple of 16. Where the call answers a struct, Arm has the pointer to it in a
 * register of its own, and x86-64 as the first argument. */
uint64_t call_on(void *function, const uint64_t *arguments, uint64_t n, void *top, uint64_t *at, void *answer);
#if defined(__x86_64__)
#define REGISTERS 6
#define ANSWER_IS_ARGUMENT 1
__asm__(
    ".text\n"
    ".globl call_on\n"
    "call_on:\n"
    "    push %rbp\n"
    "    push %rbx\n"
    "    push %r12\n"
    "    mov %rsp, %rbp\n"
    "    mov %rdi, %rax\n"       /* function */
    "    mov %rsi, %rbx\n"       /* arguments */
    "    mov %rdx, %r12\n"       /* n */
    "    mov %rcx, %rsp\n"       /* the other stack */
    "    cmp $6, %r12\n"
    "    jbe 2f\n"
    "    test $1, %r12\n"
    "    jz 1f\n"
    "    sub $8, %rsp\n"
    "1:  cmp $6, %r12\n"
    "    jbe 2f\n"
    "    push -8(%rbx,%r12,8)\n"
    "    dec %r12\n"
    "    jmp 1b\n"
    "2:  mov %rsp, (%r8)\n"
    "    mov 0(%rbx), %rdi\n"
    "    mov 8(%rbx), %rsi\n"
    "    mov 16(%rbx), %rdx\n"
    "    mov 24(%rbx), %rcx\n"
    "    mov 32(%rbx), %r8\n"
    "    mov 40(%rbx), %r9\n"
    "    call *%rax\n"
    "    mov %rbp, %rsp\n"
    "    pop %r12\n"
    "    pop %rbx\n"
    "    pop %rbp\n"
    "    ret\n");
#elif defined(__aarch64__)
#define REGISTERS 8
#define ANSWER_IS_ARGUMENT 0
__asm__(
    ".text\n"
    ".globl call_on\n"
    "call_on:\n"
    "    stp x29, x30, [sp, #-16]!\n"
    "    mov x29, sp\n"
    "    mov x16, x0\n"              /* function */
    "    mov x17, x1\n"              /* arguments */
    "    mov x8, x5\n"               /* answer */
    "    subs x10, x2, #8\n"         /* how many lie on the stack */
    "    b.ls 2f\n"
    "    add x11, x10, #1\n"
    "    and x11, x11, #-2\n"
    "    sub x3, x3, x11, lsl #3\n"
    "    add x12, x17, #64\n"
    "    mov x13, #0\n"
    "1:  ldr x14, [x12, x13, lsl #3]\n"
    "    str x14, [x3, x13, lsl #3]\n"
    "    add x13, x13, #1\n"
    "    cmp x13, x10\n"
    "    b.lo 1b\n"
    "2:  mov sp, x3\n"               /* the other stack */
    "    str x3, [x4]\n"
    "    ldp x0, x1, [x17]\n"
    "    ldp x2, x3, [x17, #16]\n"
    "    ldp x4, x5, [x17, #32]\n"
    "    ldp x6, x7, [x17, #48]\n"
    "    blr x16\n"
    "    mov sp, x29\n"
    "    ldp x29, x30, [sp], #16\n"
    "    ret\n");
#else
#error "the stack is measured on x86-64 and on Arm (aarch64)"
#endif

static uint8_t *stack; /* STACK bytes above a guard page */
static uint8_t seed[112], pk[21520], sk[43088], ct[21696], message[32], salt[64], ss[32];
static uint16_t noise[21568], work[23104];
static const char *doing;

static void fail(const char *why, uint32_t set, const char *name) {
    printf("stack: FAILED: set %u, %s: %s\n", set, name, why);
    exit(1);
}

static void fault(int number) {
    (void)number;
    static const char text[] = "stack: FAILED: the guard page below the stack was touched: ";
    if (write(1, text, sizeof text - 1) < 0 || write(1, doing, strlen(doing)) < 0 || write(1, "\n", 1) < 0) _exit(2);
    _exit(1);
}

/* One call: its arguments as whole numbers, and its answer. */
struct made {
    void *function;
    uint64_t arguments[15], n;
    union { struct frodo_margin_answer margin; struct frodo_set_lengths lengths; } by_pointer;
};

static void lend(struct made *m, void *from, size_t elements) {
    m->arguments[m->n++] = (uint64_t)(uintptr_t)from;
    m->arguments[m->n++] = elements;
}

static void make(struct made *m, int call, uint32_t set, int short_by) {
    const uint32_t *length = paper_length[set >= 1 && set <= 3 ? set - 1 : 2];
    m->n = 0;
    if (ANSWER_IS_ARGUMENT && (call == MARGIN || call == LENGTHS_CALL)) m->arguments[m->n++] = (uint64_t)(uintptr_t)&m->by_pointer;
    m->arguments[m->n++] = set;
    size_t work_words = length[WORK] - (size_t)short_by;
    switch (call) {
    case KEYPAIR:
        m->function = (void *)(uintptr_t)frodo_generate_keypair_from_seed;
        lend(m, seed, length[SEED]), lend(m, pk, length[PUBLIC_KEY]), lend(m, sk, length[SECRET_KEY]);
        break;
    case ENCAPSULATE:
        m->function = (void *)(uintptr_t)frodo_encapsulate;
        lend(m, pk, length[PUBLIC_KEY]), lend(m, message, length[MESSAGE]), lend(m, salt, length[SALT]);
        lend(m, ct, length[CIPHERTEXT]), lend(m, ss, length[SHARED_SECRET]);
        break;
    case DECAPSULATE:
        m->function = (void *)(uintptr_t)frodo_decapsulate;
        lend(m, sk, length[SECRET_KEY]), lend(m, ct, length[CIPHERTEXT]), lend(m, ss, length[SHARED_SECRET]), lend(m, message, length[MESSAGE]);
        break;
    case DECAPSULATE_SECRET:
        m->function = (void *)(uintptr_t)frodo_decapsulate_shared_secret;
        lend(m, sk, length[SECRET_KEY]), lend(m, ct, length[CIPHERTEXT]), lend(m, ss, length[SHARED_SECRET]);
        break;
    case MARGIN:
        m->function = (void *)(uintptr_t)frodo_margin;
        lend(m, seed, length[SEED]), lend(m, message, length[MESSAGE]), lend(m, salt, length[SALT]);
        break;
    default:
        m->function = (void *)(uintptr_t)frodo_lengths;
        return;
    }
    lend(m, noise, length[NOISE]), lend(m, work, work_words);
}

static void inputs(uint64_t *state) {
    fill_random(state, seed, sizeof seed), fill_random(state, message, sizeof message), fill_random(state, salt, sizeof salt);
}

/* What the call answered: margin and lengths answer by a pointer. */
static uint32_t answer(const struct made *m, int call, uint64_t returned) {
    if (call == MARGIN) return m->by_pointer.margin.refusal;
    if (call == LENGTHS_CALL) return m->by_pointer.lengths.seed == 0 ? 1 : 0;
    return (uint32_t)returned;
}

int main(void) {
    uint8_t *region = mmap(NULL, PAGE + STACK, PROT_READ | PROT_WRITE, MAP_PRIVATE | MAP_ANONYMOUS, -1, 0);
    if (region == MAP_FAILED || mprotect(region, PAGE, PROT_NONE) != 0) fail("no memory for a stack", 0, "mmap");
    stack = region + PAGE;
    static uint8_t other[65536];
    stack_t alternate = { .ss_sp = other, .ss_size = sizeof other };
    struct sigaction action = { .sa_handler = fault, .sa_flags = SA_ONSTACK };
    if (sigaltstack(&alternate, NULL) != 0 || sigaction(SIGSEGV, &action, NULL) != 0) fail("no handler", 0, "sigaction");

    static const struct { const char *what; uint32_t set; int short_by, damaged; uint32_t number; } kinds[] = {
        { "done", 1, 0, 0, 0 }, { "done", 2, 0, 0, 0 }, { "done", 3, 0, 0, 0 },
        { "ciphertext damaged", 1, 0, 1, 0 }, { "ciphertext damaged", 2, 0, 1, 0 }, { "ciphertext damaged", 3, 0, 1, 0 },
        { "refused: no such set", 4, 0, 0, 1 },
        { "refused: scratch short", 1, 1, 0, 9 }, { "refused: scratch short", 2, 1, 0, 9 }, { "refused: scratch short", 3, 1, 0, 9 },
    };
    uint64_t state = 20, most = 0;
    printf("%-34s %-24s %3s %12s %20s\n", "call", "what", "set", "stack bytes", "arguments on stack");
    for (int call = 0; call <= LENGTHS_CALL; call++) {
        const char *name = call == LENGTHS_CALL ? "frodo_lengths" : call_name[call];
        for (size_t k = 0; k < sizeof kinds / sizeof *kinds; k++) {
            uint32_t set = kinds[k].set;
            if (kinds[k].damaged && call != DECAPSULATE && call != DECAPSULATE_SECRET) continue;
            if (kinds[k].short_by && call == LENGTHS_CALL) continue;
            doing = name;
            uint64_t deepest = 0, pushed = 0;
            /* two paints, then the tight stack */
            for (int turn = 0; turn < 3; turn++) {
                struct made m;
                uint64_t at = 0;
                if (kinds[k].number == 0 && call != LENGTHS_CALL) {
                    /* a key and a ciphertext of this set, made on the ordinary stack */
                    inputs(&state);
                    const uint32_t *l = paper_length[set - 1];
                    if (frodo_generate_keypair_from_seed(set, seed, l[SEED], pk, l[PUBLIC_KEY], sk, l[SECRET_KEY], noise, l[NOISE], work, l[WORK]) != 0 ||
                        frodo_encapsulate(set, pk, l[PUBLIC_KEY], message, l[MESSAGE], salt, l[SALT], ct, l[CIPHERTEXT], ss, l[SHARED_SECRET], noise, l[NOISE],
                            work, l[WORK]) != 0)
                        fail("a key or a ciphertext could not be made", set, name);
                    if (kinds[k].damaged) ct[turn] ^= 1;
                    inputs(&state);
                }
                make(&m, call, set, kinds[k].short_by);
                uint8_t paint = turn == 0 ? 0xA5 : 0x5A;
                memset(stack, paint, STACK);
                uint8_t *top = stack + STACK;
                size_t above = m.n > REGISTERS ? ((m.n - REGISTERS) * 8 + 15) / 16 * 16 : 0; /* what call_on puts above the stack pointer at the call */
                if (turn == 2) top = stack + LIMIT + above;
                uint64_t returned = call_on(m.function, m.arguments, m.n, top, &at, &m.by_pointer);
                if (answer(&m, call, returned) != kinds[k].number) fail("another answer than the paper's", set, name);
                size_t low = 0;
                while (low < STACK && stack[low] == paint) low++;
                uint64_t lowest = (uint64_t)(uintptr_t)(stack + low);
                /* a call that writes nothing there takes none: Arm keeps the return address in a register */
                uint64_t depth = at > lowest ? at - lowest : 0;
                if (at % 16 != 0) fail("the stack pointer at the call is not a multiple of 16", set, name);
                if (turn == 2 && at - (uint64_t)(uintptr_t)stack != LIMIT) fail("the tight stack is not LIMIT bytes", set, name);
                if (depth > deepest) deepest = depth;
                pushed = m.n > REGISTERS ? 8 * (m.n - REGISTERS) : 0;
            }
            printf("%-34s %-24s %3u %12llu %20llu\n", name, kinds[k].what, set, (unsigned long long)deepest, (unsigned long long)pushed);
            if (deepest > most) most = deepest;
        }
    }
    if (most > LIMIT) {
        printf("stack: FAILED: more than %d bytes\n", LIMIT);
        printf("most stack %llu bytes\n", (unsigned long long)most);
        return 1;
    }
    printf("most stack %llu bytes\n", (unsigned long long)most);
    return 0;
}
