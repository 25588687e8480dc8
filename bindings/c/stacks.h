/* For the headers' tests: a call is made in a child, on a stack of just so many bytes with a page below it that nobody may touch. */
#ifndef STACKS_H
#define STACKS_H

#include <signal.h>
#include <stddef.h>
#include <stdint.h>
#include <stdio.h>
#include <string.h>
#include <sys/mman.h>
#include <sys/wait.h>
#include <ucontext.h>
#include <unistd.h>

struct entry {
    const char *name;
    void (*call)(void);
    size_t stack;
    int least; /* whether a quarter of it is too little */
    uint64_t expected[3];
};

/* What a call came to. */
static uint64_t answered[3];

static ucontext_t here, there;

/* Makes the call on a stack of so many bytes, and ends the child with 0 where it answers as it should. */
static void call_on(const struct entry *e, size_t stack) {
    uint8_t *room = mmap(NULL, 4096 + stack, PROT_READ | PROT_WRITE, MAP_PRIVATE | MAP_ANONYMOUS, -1, 0);
    if (room == MAP_FAILED || mprotect(room, 4096, PROT_NONE) || getcontext(&there))
        _exit(2);
    there.uc_stack.ss_sp = room + 4096;
    there.uc_stack.ss_size = stack;
    there.uc_link = &here;
    makecontext(&there, e->call, 0);
    if (swapcontext(&here, &there))
        _exit(2);
    _exit(memcmp(answered, e->expected, sizeof answered) == 0 ? 0 : 1);
}

/* How the child ended that made the call. */
static int status_on(const struct entry *e, size_t stack) {
    int status = 0;
    pid_t child = fork();
    if (child == 0)
        call_on(e, stack);
    return child > 0 && waitpid(child, &status, 0) == child ? status : -1;
}

/* A thread of so many bytes in all can make every call. */
enum { EVERY = 192 * 1024 };

/* The stated stack suffices and is less than that, and a quarter of it does not suffice where much is used: so the number says something. */
static int stacks(const struct entry *entries, size_t count) {
    int wrong = 0;
    for (const struct entry *e = entries; e < entries + count; e++) {
        int enough = status_on(e, e->stack), short_of = e->least ? status_on(e, e->stack / 4) : SIGSEGV;
        if (EVERY <= e->stack || enough != 0 || !WIFSIGNALED(short_of) || WTERMSIG(short_of) != SIGSEGV) {
            printf("%s: status %d on %zu bytes of stack, %d on a quarter\n", e->name, enough, e->stack, short_of);
            wrong = 1;
        }
    }
    return wrong;
}

/* Prints the least stack in KiB with which each call answers, for whoever sets the header's numbers. */
static int measure(const struct entry *entries, size_t count) {
    for (const struct entry *e = entries; e < entries + count; e++) {
        size_t kib = 4;
        while (kib < 4096 && status_on(e, kib * 1024) != 0)
            kib += 4;
        printf("%s: %zu\n", e->name, kib);
    }
    return 0;
}

#endif
