/* The crash handler of examples/c, tried as a program would use it: processes with a broken heap die in many ways, and this one, which alone has the secret key, opens what
 * they left. Each has to die of its own signal and to leave exactly one report.
 *
 *   crash                              the whole test
 *   crash die HOW SET KEY-FILE REPORT  a dying process
 *
 * What stands in for the caller's cipher is the key repeated and XORed over the text: it shows that both sides hold the same key, and is no cipher to use. */
#include <errno.h>
#include <fcntl.h>
#include <pthread.h>
#include <stdio.h>
#include <stdlib.h>
#include <string.h>
#include <sys/mman.h>
#include <sys/random.h>
#include <sys/resource.h>
#include <sys/stat.h>
#include <sys/wait.h>
#include <unistd.h>

#include "../../examples/c/crash_handler.h"
#include "frodo.h"

#define TAG "end"
static const char state[] = "the state of the process follows\n";

static size_t stand_in_cipher(uint8_t *out, size_t room, const uint8_t *text, size_t bytes, const uint8_t *key, size_t key_bytes)
{
    if (room < bytes + sizeof TAG)
        return 0;
    memcpy(out, text, bytes);
    memcpy(out + bytes, TAG, sizeof TAG);
    for (size_t k = 0; k < bytes + sizeof TAG; k++)
        out[k] ^= key[k % key_bytes];
    return bytes + sizeof TAG;
}

static size_t cipher_that_fails(uint8_t *out, size_t room, const uint8_t *text, size_t bytes, const uint8_t *key, size_t key_bytes)
{
    (void)out, (void)room, (void)text, (void)bytes, (void)key, (void)key_bytes;
    return 0;
}

static size_t describe(char *text, size_t room, int number, const siginfo_t *info, const void *context)
{
    (void)number, (void)info, (void)context;
    if (room < sizeof state - 1)
        return 0;
    memcpy(text, state, sizeof state - 1);
    return sizeof state - 1;
}

static char *volatile nowhere; /* volatile: the compiler would warn of what is meant */

static size_t describe_that_faults(char *text, size_t room, int number, const siginfo_t *info, const void *context)
{
    (void)room, (void)number, (void)info, (void)context;
    memset(text, '?', 100);
    *nowhere = 1;
    return 100;
}

static size_t cipher_that_faults(uint8_t *out, size_t room, const uint8_t *text, size_t bytes, const uint8_t *key, size_t key_bytes)
{
    (void)out, (void)room, (void)text, (void)bytes, (void)key, (void)key_bytes;
    *nowhere = 1;
    return 1;
}

/* Breaks the heap's own records; what uses the heap from here on is ended by it. */
static uint8_t *break_heap(void)
{
    uint8_t *volatile hidden = malloc(5000);
    uint8_t *block = hidden;
    if (block == NULL)
        _exit(20);
    memset(block - 8, 0xEE, 5000 + 64);
    return block;
}

static int overflow(int depth)
{
    volatile char frame[4096];
    frame[depth & 4095] = (char)depth;
    return depth < 0 ? 0 : overflow(depth + 1) + frame[depth & 4095];
}

static pthread_barrier_t ready;
static volatile int depth_of_overflow;

static void *dying_thread(void *how)
{
    if (crash_handler_thread() != 0)
        _exit(21);
    pthread_barrier_wait(&ready);
    if (how != NULL)
        depth_of_overflow = overflow(0);
    *nowhere = 1;
    return NULL;
}

static void with_threads(int count, int overflowing)
{
    pthread_t thread[8];
    if (pthread_barrier_init(&ready, NULL, (unsigned)count + 1) != 0)
        _exit(22);
    for (int k = 0; k < count; k++)
        if (pthread_create(&thread[k], NULL, dying_thread, overflowing ? &ready : NULL) != 0)
            _exit(23);
    break_heap();
    pthread_barrier_wait(&ready);
    for (;;)
        pause();
}

/* Reads what is mapped beyond the end of a file. */
static void bus_error(const char *name)
{
    int file = open(name, O_RDWR | O_CREAT | O_TRUNC, 0600);
    volatile char *at = mmap(NULL, 65536, PROT_READ, MAP_SHARED, file, 0);
    if (file < 0 || at == MAP_FAILED || unlink(name) != 0)
        _exit(24);
    (void)*at;
}

/* The child dies first, then its parent, both with one handler and one file: two reports behind each other. Which child it was, and where its report ends. */
struct first {
    long process;
    long bytes;
};

static void forked(int file, const char *report)
{
    char name[4096];
    struct first first;
    int status = 0, note;
    pid_t child = fork();
    if (child == 0) {
        *nowhere = 1;
        _exit(25);
    }
    if (child < 0 || waitpid(child, &status, 0) != child || !WIFSIGNALED(status) || WTERMSIG(status) != SIGSEGV)
        _exit(26);
    snprintf(name, sizeof name, "%s.first", report);
    note = open(name, O_WRONLY | O_CREAT | O_TRUNC, 0600);
    first.process = child;
    first.bytes = (long)lseek(file, 0, SEEK_END);
    if (note < 0 || write(note, &first, sizeof first) != (ssize_t)sizeof first || close(note) != 0)
        _exit(31);
    *nowhere = 1;
}

static int die(const char *how, uint32_t of_set, const char *key_file, const char *report)
{
    struct rlimit none = { 0, 0 }, small = { 1 << 20, 1 << 20 };
    int file = open(report, O_WRONLY | O_CREAT | O_TRUNC | O_APPEND, 0600), ends[2];
    setrlimit(RLIMIT_CORE, &none);
    if (strcmp(how, "overflow") == 0)
        setrlimit(RLIMIT_STACK, &small);
    if (strcmp(how, "pipe") == 0) {
        if (pipe(ends) != 0 || close(ends[0]) != 0)
            return 27;
        file = ends[1];
    }
    crash_cipher *cipher = strcmp(how, "no cipher") == 0 ? cipher_that_fails : strcmp(how, "fault in the cipher") == 0 ? cipher_that_faults : stand_in_cipher;
    crash_describe *words = strcmp(how, "fault in describe") == 0 ? describe_that_faults : strcmp(how, "one line") == 0 ? NULL : describe;
    /* what cannot be right is refused first, and takes nothing */
    if (crash_handler_install(0, key_file, file, cipher, words) == 0 || crash_handler_install(of_set % 3 + 1, key_file, file, cipher, words) == 0)
        return 32;
    if (file < 0 || crash_handler_install(of_set, key_file, file, cipher, words) != 0)
        return 28;
    if (strcmp(how, "a thread") == 0)
        with_threads(1, 0);
    if (strcmp(how, "a thread's overflow") == 0)
        with_threads(1, 1);
    if (strcmp(how, "four threads") == 0)
        with_threads(4, 0);
    uint8_t *block = break_heap();
    if (strcmp(how, "free") == 0) {
        int quiet = open("/dev/null", O_WRONLY);
        dup2(quiet, 2); /* the heap says what it found */
        free(block);
    }
    if (strcmp(how, "overflow") == 0)
        depth_of_overflow = overflow(0);
    if (strcmp(how, "bus") == 0)
        bus_error(key_file);
    if (strcmp(how, "ill") == 0)
        raise(SIGILL);
    if (strcmp(how, "fpe") == 0)
        kill(getpid(), SIGFPE);
    if (strcmp(how, "fork") == 0)
        forked(file, report);
    *nowhere = 1;
    return 29;
}

/* The customer's side. */
static uint32_t set;
static struct frodo_set_lengths n;
static uint8_t seed[FRODO_MAX_SEED_LENGTH], pk[FRODO_MAX_PUBLIC_KEY_LENGTH], sk[FRODO_MAX_SECRET_KEY_LENGTH];
static uint8_t ss[FRODO_MAX_SHARED_SECRET_LENGTH], message[FRODO_MAX_MESSAGE_LENGTH], other_message[FRODO_MAX_MESSAGE_LENGTH];
static uint16_t noise[FRODO_MAX_NOISE_WORDS], work[FRODO_MAX_WORK_WORDS];
static uint8_t report[2 * (FRODO_MAX_CIPHERTEXT_LENGTH + CRASH_TEXT)];

static void fail(const char *how, const char *what, long found)
{
    printf("crash: FAILED: set %u, %s: %s (%ld)\n", (unsigned)set, how, what, found);
    exit(1);
}

static void make_key(const char *key_file)
{
    if (getrandom(seed, n.seed, 0) != (ssize_t)n.seed)
        fail("keys", "no random bytes", errno);
    uint32_t a = frodo_generate_keypair_from_seed(set, seed, n.seed, pk, n.public_key, sk, n.secret_key, noise, n.noise_words, work, n.work_words);
    int file = open(key_file, O_WRONLY | O_CREAT | O_TRUNC, 0600);
    if (a != FRODO_DONE || file < 0 || write(file, pk, n.public_key) != (ssize_t)n.public_key || close(file) != 0)
        fail("keys", "the key file cannot be written", errno);
}

/* Opens one report, `bytes` long, and holds its text against what has to be in it. */
static void opens(const char *how, uint8_t *at, size_t bytes, int number, pid_t process, const char *rest)
{
    char expected[32], dying[32];
    uint8_t *text = at + n.ciphertext;
    size_t room = bytes - n.ciphertext;
    uint32_t a = frodo_decapsulate(set, sk, n.secret_key, at, n.ciphertext, ss, n.shared_secret, message, n.message, noise, n.noise_words, work, n.work_words);
    if (a != FRODO_DONE)
        fail(how, "decapsulation was refused", a);
    for (size_t k = 0; k < room; k++)
        text[k] ^= ss[k % n.shared_secret];
    if (room < sizeof TAG || memcmp(text + room - sizeof TAG, TAG, sizeof TAG) != 0)
        fail(how, "the report does not open", (long)room);
    text[room - sizeof TAG] = 0;
    snprintf(expected, sizeof expected, "signal %d, ", number);
    snprintf(dying, sizeof dying, ", process %ld,", (long)process);
    if (strncmp((char *)text, expected, strlen(expected)) != 0 || strstr((char *)text, dying) == NULL)
        fail(how, (char *)text, number);
    if (strlen((char *)text) < strlen(rest) || strcmp((char *)text + strlen((char *)text) - strlen(rest), rest) != 0)
        fail(how, (char *)text, (long)strlen(rest));
}

enum { NO_REPORT, REPORT, LINE, AGAIN, TWO };

static void dies(const char *how, const char *folder, int number, int leaves)
{
    char key_file[4096], name[4096], number_of_set[16];
    int status = 0;
    snprintf(number_of_set, sizeof number_of_set, "%u", (unsigned)set);
    snprintf(key_file, sizeof key_file, "%s/key", folder);
    snprintf(name, sizeof name, "%s/report", folder);
    make_key(key_file);
    pid_t child = fork();
    if (child == 0) {
        execl("/proc/self/exe", "crash", "die", how, number_of_set, key_file, name, (char *)NULL);
        if (errno != ENOEXEC)
            _exit(30);
        /* under an emulator, which starts no program of its own processor: this process dies itself, without what only the customer has */
        memset(seed, 0, sizeof seed), memset(sk, 0, sizeof sk);
        _exit(die(how, set, key_file, name));
    }
    if (child < 0 || waitpid(child, &status, 0) != child)
        fail(how, "no process", errno);
    if (!WIFSIGNALED(status))
        fail(how, "the process did not die of a signal but with a status", WEXITSTATUS(status));
    if (WTERMSIG(status) != number)
        fail(how, "the process died of another signal", WTERMSIG(status));
    int file = open(name, O_RDONLY);
    ssize_t bytes = read(file, report, sizeof report);
    close(file);
    unlink(name), unlink(key_file);
    if (leaves == NO_REPORT) {
        if (bytes != 0)
            fail(how, "a report was written", bytes);
    } else if (leaves == TWO) {
        struct first first = { 0, 0 };
        snprintf(name, sizeof name, "%s/report.first", folder);
        file = open(name, O_RDONLY);
        if (read(file, &first, sizeof first) != (ssize_t)sizeof first || first.bytes <= (long)n.ciphertext || bytes - first.bytes <= (long)n.ciphertext)
            fail(how, "not two reports", bytes);
        close(file);
        unlink(name);
        opens(how, report + first.bytes, (size_t)(bytes - first.bytes), number, child, state);
        memcpy(other_message, message, sizeof message);
        opens(how, report, (size_t)first.bytes, number, (pid_t)first.process, state);
        if (memcmp(other_message, message, n.message) == 0)
            fail(how, "two reports with one message", 0);
    } else {
        if (bytes <= (ssize_t)n.ciphertext)
            fail(how, "no report", bytes);
        opens(how, report, (size_t)bytes, number, child, leaves == REPORT ? state : leaves == AGAIN ? ", the handler faulted in its turn\n" : "\n");
    }
    printf("crash: set %u, %s: died of signal %d, %s\n", (unsigned)set, how, number,
        leaves == NO_REPORT ? "no report was to be had" : leaves == TWO ? "two reports opened, of two messages" : "one report, opened");
}

static void whole(uint32_t of_set, const char *folder)
{
    set = of_set;
    n = frodo_lengths(set);
    dies("segv", folder, SIGSEGV, REPORT);
    if (set != FRODO1344SHAKE_SET)
        return;
    dies("bus", folder, SIGBUS, REPORT);
    dies("ill", folder, SIGILL, REPORT);
    dies("fpe", folder, SIGFPE, REPORT);
    dies("free", folder, SIGABRT, REPORT);
    dies("overflow", folder, SIGSEGV, REPORT);
    dies("a thread", folder, SIGSEGV, REPORT);
    dies("a thread's overflow", folder, SIGSEGV, REPORT);
    dies("four threads", folder, SIGSEGV, REPORT);
    dies("one line", folder, SIGSEGV, LINE);
    dies("fault in describe", folder, SIGSEGV, AGAIN);
    dies("fork", folder, SIGSEGV, TWO);
    dies("fault in the cipher", folder, SIGSEGV, NO_REPORT);
    dies("no cipher", folder, SIGSEGV, NO_REPORT);
    dies("pipe", folder, SIGSEGV, NO_REPORT);
}

int main(int count, char **words)
{
    if (count == 6 && strcmp(words[1], "die") == 0)
        return die(words[2], (uint32_t)strtoul(words[3], NULL, 10), words[4], words[5]);
    char folder[] = "/tmp/frodo-crash-XXXXXX";
    if (mkdtemp(folder) == NULL)
        fail("start", "no folder", errno);
    for (uint32_t s = FRODO640SHAKE_SET; s <= FRODO1344SHAKE_SET; s++)
        whole(s, folder);
    rmdir(folder);
    printf("crash: every process died of its own signal, and every report opened\n");
    return 0;
}
