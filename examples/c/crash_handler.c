/* A crash handler that a team can copy: crash_handler.h says how it is used. Linux, x86-64 and Arm.
 *
 * What it takes care of:
 *   - The heap may be broken: all memory is static, or mapped when the handler is installed. Everything that the handler calls is safe in a signal handler (signal-safety(7)).
 *   - The stack may have overflowed: the handler runs on an alternate stack above a guard page, which has room for two frames of the kernel's own size for this machine.
 *   - The handler may fault, in `describe` above all, which walks a broken process: it is then entered again, leaves `describe` out and seals
 *     a line. Any other fault in the handler ends the process.
 *   - Two threads may fault at once: the first reports, the others wait for the end.
 *   - The process may have forked: message and salt serve one report, so a child draws its own.
 *   - The exit status is to tell the truth: the signal's own action is put back and the signal raised again, whatever became of the report.
 *   - A core file is not to hold the report's key: key, message and text are wiped first.
 * Link with -Wl,-z,now: what is bound at its first use runs the dynamic linker on the alternate stack. */
#ifndef _GNU_SOURCE
#define _GNU_SOURCE
#endif
#include "crash_handler.h"

#include "frodo.h"
#include <errno.h>
#include <fcntl.h>
#include <stdatomic.h>
#include <string.h>
#include <sys/auxv.h>
#include <sys/mman.h>
#include <sys/syscall.h>
#include <unistd.h>

/* The alternate stack beside two of the kernel's frames: the library takes less than 3 KiB, and the rest is for the cipher and for `describe`. */
#define ROOM ((size_t)32 * 1024)

/* The largest frame of the kernel on these processors where it does not say (Linux before 5.14 on x86-64). */
#define OLD_FRAME 4096

static const int taken[] = { SIGSEGV, SIGBUS, SIGILL, SIGFPE, SIGABRT };
enum { TAKEN = sizeof taken / sizeof taken[0] };

/* All that the handler needs stands here before anything has gone wrong. */
static uint32_t set;
static struct frodo_set_lengths length;
static uint8_t public_key[FRODO_MAX_PUBLIC_KEY_LENGTH], message[FRODO_MAX_MESSAGE_LENGTH], salt[FRODO_MAX_SALT_LENGTH];
static uint8_t ciphertext[FRODO_MAX_CIPHERTEXT_LENGTH], key[FRODO_MAX_SHARED_SECRET_LENGTH];
static uint16_t noise[FRODO_MAX_NOISE_WORDS], work[FRODO_MAX_WORK_WORDS];
static char text[CRASH_TEXT];
static uint8_t body[CRASH_TEXT + CRASH_ROOM];
static int report_file = -1;
static crash_cipher *cipher_hook;
static crash_describe *describe_hook;
static pid_t drawn_by; /* the process whose message and salt these are */

/* How far the handler has come, and the thread that is in it. */
enum { IDLE, DESCRIBING, SEALING, WRITING };
static atomic_int stage = IDLE;
static atomic_int inside = 0;

static int draw(void)
{
    drawn_by = getpid();
    if (syscall(SYS_getrandom, message, (size_t)length.message, 0) != (long)length.message)
        return -1;
    return syscall(SYS_getrandom, salt, (size_t)length.salt, 0) == (long)length.salt ? 0 : -1;
}

static uint32_t seal(void)
{
    return frodo_encapsulate(set, public_key, length.public_key, message, length.message, salt, length.salt, ciphertext, length.ciphertext, key, length.shared_secret,
        noise, length.noise_words, work, length.work_words);
}

static void wipe(volatile void *at, size_t bytes)
{
    for (volatile uint8_t *p = at; bytes > 0; bytes--)
        *p++ = 0;
}

static int write_all(int file, const uint8_t *from, size_t bytes)
{
    while (bytes > 0) {
        ssize_t n = write(file, from, bytes);
        if (n < 0 && errno == EINTR)
            continue;
        if (n <= 0)
            return -1;
        from += n;
        bytes -= (size_t)n;
    }
    return 0;
}

static size_t add_text(char *to, size_t at, const char *words)
{
    for (; *words != 0; words++)
        to[at++] = *words;
    return at;
}

static size_t add_number(char *to, size_t at, uint64_t number, unsigned base)
{
    char digits[20];
    int count = 0;
    do
        digits[count++] = "0123456789abcdef"[number % base];
    while ((number /= base) != 0);
    while (count > 0)
        to[at++] = digits[--count];
    return at;
}

/* The one line that every report begins with: at most 120 characters. */
static size_t one_line(char *to, int number, const siginfo_t *info, int again)
{
    size_t n = add_text(to, 0, "signal ");
    n = add_number(to, n, (uint64_t)number, 10);
    n = add_text(to, n, ", code ");
    if (info->si_code < 0)
        n = add_text(to, n, "-");
    n = add_number(to, n, (uint64_t)(info->si_code < 0 ? -(int64_t)info->si_code : info->si_code), 10);
    n = add_text(to, n, ", process ");
    n = add_number(to, n, (uint64_t)getpid(), 10);
    n = add_text(to, n, ", address 0x");
    n = add_number(to, n, info->si_code > 0 ? (uint64_t)(uintptr_t)info->si_addr : 0, 16);
    return add_text(to, n, again ? ", the handler faulted in its turn\n" : "\n");
}

/* Gives the signal its own action back and dies of it. */
static _Noreturn void die(int number)
{
    struct sigaction own;
    sigset_t only;
    wipe(key, sizeof key), wipe(message, sizeof message), wipe(text, sizeof text), wipe(noise, sizeof noise), wipe(work, sizeof work);
    memset(&own, 0, sizeof own);
    own.sa_handler = SIG_DFL;
    sigaction(number, &own, NULL);
    sigemptyset(&only);
    sigaddset(&only, number);
    sigprocmask(SIG_UNBLOCK, &only, NULL);
    raise(number);
    _exit(128 + number);
}

/* The library wants a stack that is aligned to 16 bytes. Linux enters a handler so; QEMU 7.2 for x86-64 does not, and neither may code that enters it by hand. */
#ifdef __x86_64__
__attribute__((force_align_arg_pointer))
#endif
static void handler(int number, siginfo_t *info, void *context)
{
    int self = (int)syscall(SYS_gettid), none = 0, again = 0;
    if (!atomic_compare_exchange_strong(&inside, &none, self)) {
        while (none != self)
            pause(); /* another thread reports, and ends the process */
        again = 1;
    }
    if (again && atomic_load(&stage) != DESCRIBING)
        die(number);

    size_t bytes = one_line(text, number, info, again);
    if (!again && describe_hook != NULL) {
        atomic_store(&stage, DESCRIBING);
        size_t more = describe_hook(text + bytes, sizeof text - bytes, number, info, context);
        bytes += more < sizeof text - bytes ? more : sizeof text - bytes;
    }
    atomic_store(&stage, SEALING);
    if ((getpid() != drawn_by && draw() != 0) || seal() != FRODO_DONE)
        die(number);
    size_t sealed = cipher_hook(body, sizeof body, (const uint8_t *)text, bytes, key, length.shared_secret);
    atomic_store(&stage, WRITING);
    if (sealed > 0 && sealed <= sizeof body && write_all(report_file, ciphertext, length.ciphertext) == 0)
        (void)write_all(report_file, body, sealed);
    die(number);
}

int crash_handler_thread(void)
{
    size_t page = (size_t)sysconf(_SC_PAGESIZE), frame = getauxval(AT_MINSIGSTKSZ);
    stack_t stack;
    if (frame == 0)
        frame = OLD_FRAME;
    size_t bytes = (2 * frame + ROOM + page - 1) / page * page;
    uint8_t *at = mmap(NULL, page + bytes, PROT_READ | PROT_WRITE, MAP_PRIVATE | MAP_ANONYMOUS, -1, 0);
    if (at == MAP_FAILED)
        return -1;
    memset(&stack, 0, sizeof stack);
    stack.ss_sp = at + page;
    stack.ss_size = bytes;
    if (mprotect(at, page, PROT_NONE) != 0 || sigaltstack(&stack, NULL) != 0) {
        munmap(at, page + bytes);
        return -1;
    }
    memset(stack.ss_sp, 0, bytes); /* the pages are there before they are needed */
    return 0;
}

/* The file has to have the set's length: one byte more is asked for. */
static int read_key(const char *name)
{
    static uint8_t whole[FRODO_MAX_PUBLIC_KEY_LENGTH + 1];
    size_t bytes = 0;
    ssize_t n = 1;
    int file = open(name, O_RDONLY | O_CLOEXEC);
    if (file < 0)
        return -1;
    while ((n > 0 || (n < 0 && errno == EINTR)) && bytes <= length.public_key) {
        n = read(file, whole + bytes, length.public_key + 1 - bytes);
        bytes += n > 0 ? (size_t)n : 0;
    }
    close(file);
    if (n < 0)
        return -1;
    if (bytes != length.public_key) {
        errno = EINVAL;
        return -1;
    }
    memcpy(public_key, whole, bytes);
    return 0;
}

int crash_handler_install(uint32_t set_number, const char *public_key_file, int file, crash_cipher *cipher, crash_describe *describe)
{
    struct sigaction action;
    set = set_number;
    length = frodo_lengths(set);
    if (length.public_key == 0 || cipher == NULL || file < 0) {
        errno = EINVAL;
        return -1;
    }
    if (read_key(public_key_file) != 0 || draw() != 0 || crash_handler_thread() != 0)
        return -1;
    report_file = file;
    cipher_hook = cipher;
    describe_hook = describe;
    /* On trial: a call that is refused is refused now, and every page that it needs is there. What it made goes away. */
    if (seal() != FRODO_DONE) {
        errno = EINVAL;
        return -1;
    }
    wipe(key, sizeof key), wipe(ciphertext, sizeof ciphertext), wipe(text, sizeof text), wipe(body, sizeof body);

    memset(&action, 0, sizeof action);
    action.sa_sigaction = handler;
    action.sa_flags = SA_SIGINFO | SA_ONSTACK | SA_NODEFER; /* a fault in the handler enters it again */
    sigfillset(&action.sa_mask);
    for (int k = 0; k < TAKEN; k++)
        sigdelset(&action.sa_mask, taken[k]);
    for (int k = 0; k < TAKEN; k++)
        if (sigaction(taken[k], &action, NULL) != 0)
            return -1;
    return 0;
}
