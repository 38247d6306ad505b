/* What both targets share. With -DFIRE_LIBFUZZER libFuzzer supplies main and the inputs; else main is here, and draws its inputs from a seeded generator. */
#define _GNU_SOURCE
#include "common.h"

#include <errno.h>
#include <signal.h>
#include <stdarg.h>
#include <stdio.h>
#include <stdlib.h>
#include <string.h>
#include <sys/time.h>
#include <time.h>
#include <unistd.h>

int report_fd = 2;

/* ---- bytes */

uint64_t next_random(uint64_t *state)
{
    uint64_t z = *state += 0x9E3779B97F4A7C15u;

    z = (z ^ z >> 30) * 0xBF58476D1CE4E5B9u;
    z = (z ^ z >> 27) * 0x94D049BB133111EBu;
    return z ^ z >> 31;
}

struct bytes bytes_of(const uint8_t *data, size_t size)
{
    struct bytes b = {data, size, 0xCBF29CE484222325u};
    size_t i;

    for (i = 0; i < size; i++)
        b.state = (b.state ^ data[i]) * 0x100000001B3u;
    return b;
}

static uint32_t draw_byte(struct bytes *b)
{
    if (b->left == 0)
        return next_random(&b->state) & 255;
    b->left--;
    return *b->at++;
}

uint64_t draw_word(struct bytes *b)
{
    uint64_t word = 0;
    int i;

    for (i = 0; i < 8; i++)
        word = word << 8 | draw_byte(b);
    return word;
}

uint32_t draw_below(struct bytes *b, uint32_t n)
{
    uint32_t drawn = draw_byte(b);

    if (n > 256)
        drawn = drawn << 8 | draw_byte(b);
    return drawn % n;
}

int chance(struct bytes *b, uint32_t of_256)
{
    return draw_byte(b) >= 256 - of_256;
}

/* ---- findings */

static const uint8_t *input;
static size_t input_size;
static volatile sig_atomic_t in_call, ticks;

static void tell(void)
{
    size_t i;

    target_describe(report_fd);
    dprintf(report_fd, "fire: input ");
    for (i = 0; i < input_size; i++)
        dprintf(report_fd, "%02x", input[i]);
    dprintf(report_fd, "%s\n", input_size == 0 ? "-" : "");
}

static _Noreturn void stop(void)
{
#ifdef FIRE_LIBFUZZER
    abort(); /* libFuzzer keeps the input */
#else
    _exit(1);
#endif
}

_Noreturn void finding(const char *what, ...)
{
    va_list words;

    va_start(words, what);
    dprintf(report_fd, "fire: FINDING: ");
    vdprintf(report_fd, what, words);
    dprintf(report_fd, "\n");
    va_end(words);
    tell();
    stop();
}

void started(const uint8_t *data, size_t size)
{
    input = data;
    input_size = size;
}

void entered(void)
{
    ticks = 0;
    in_call = 1;
}

void left(void)
{
    in_call = 0;
}

static const int faults[] = {
    SIGSEGV, SIGBUS, SIGILL, SIGFPE,
#ifndef FIRE_LIBFUZZER
    SIGABRT, /* by which the C library ends a program whose heap it finds damaged; libFuzzer and the sanitizers have their own */
#endif
};
static struct sigaction before[sizeof faults / sizeof faults[0]];

/* qemu-x86_64 enters a handler with a stack that is 8 bytes off; what prints needs it aligned. */
#define HANDLER static __attribute__((force_align_arg_pointer)) void

/* A fault of the machine: it names the call, and hands on to the sanitizer where there is one. */
HANDLER on_fault(int number, siginfo_t *info, void *context)
{
    size_t i;

    dprintf(report_fd, "fire: FINDING: %s at the address %p, %s\n", strsignal(number), info->si_addr, in_call ? "in the call" : "outside of the call, in the driver");
    tell();
    for (i = 0; i < sizeof faults / sizeof faults[0]; i++)
        if (faults[i] == number && (before[i].sa_flags & SA_SIGINFO) && before[i].sa_sigaction != NULL)
            before[i].sa_sigaction(number, info, context);
    _exit(1);
}

HANDLER on_tick(int number)
{
    (void)number;
    if (in_call && ++ticks >= WATCH_SECONDS)
        finding("the call does not end: it has taken %d seconds of processor time", WATCH_SECONDS);
}

static void at_exit(void)
{
    target_report(report_fd);
}

static void prepare(void)
{
    static char stack[1 << 16];
    stack_t now, ours = {.ss_sp = stack, .ss_size = sizeof stack};
    struct itimerval second = {{1, 0}, {1, 0}};
    struct sigaction act;
    size_t i;

    report_fd = dup(2);
    if (sigaltstack(NULL, &now) == 0 && (now.ss_flags & SS_DISABLE))
        sigaltstack(&ours, NULL);
    memset(&act, 0, sizeof act);
    sigemptyset(&act.sa_mask);
    act.sa_sigaction = on_fault;
    act.sa_flags = SA_SIGINFO | SA_ONSTACK | SA_NODEFER;
    for (i = 0; i < sizeof faults / sizeof faults[0]; i++)
        sigaction(faults[i], &act, &before[i]);
    act.sa_handler = on_tick;
    act.sa_flags = SA_RESTART | SA_ONSTACK;
    sigaction(SIGVTALRM, &act, NULL);
    setitimer(ITIMER_VIRTUAL, &second, NULL);
    target_prepare();
    atexit(at_exit);
}

#ifdef FIRE_LIBFUZZER

int LLVMFuzzerInitialize(int *argc, char ***argv);

int LLVMFuzzerInitialize(int *argc, char ***argv)
{
    (void)argc;
    (void)argv;
    prepare();
    return 0;
}

#else

#define LONGEST 256

/* A file's bytes once, as the input. */
static int once(const char *file)
{
    static uint8_t data[65536];
    FILE *f = fopen(file, "rb");
    size_t size;

    if (f == NULL) {
        dprintf(report_fd, "fire: %s: %s\n", file, strerror(errno));
        return 2;
    }
    size = fread(data, 1, sizeof data, f);
    fclose(f);
    LLVMFuzzerTestOneInput(data, size);
    return 0;
}

/* main SEED SECONDS, or main FILE. */
int main(int argc, char **argv)
{
    static uint8_t data[LONGEST];
    uint64_t state;
    time_t end;

    prepare();
    if (argc == 2)
        return once(argv[1]);
    if (argc != 3) {
        fprintf(stderr, "usage: %s SEED SECONDS, or %s FILE\n", argv[0], argv[0]);
        return 2;
    }
    state = strtoull(argv[1], NULL, 10);
    end = time(NULL) + (time_t)strtoll(argv[2], NULL, 10);
    while (time(NULL) < end) {
        size_t size = next_random(&state) % (LONGEST + 1), i;

        for (i = 0; i < size; i++)
            data[i] = (uint8_t)next_random(&state);
        LLVMFuzzerTestOneInput(data, size);
    }
    return 0;
}

#endif
