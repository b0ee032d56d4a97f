/* The stack that a call takes, found by going through it one instruction at a time: how far the stack pointer, or a byte that
   was written below it, lies under the return address. The return address itself is not counted. On the way the instructions are counted. */
#define _GNU_SOURCE
#include <signal.h>
#include <stddef.h>
#include <stdint.h>
#include <string.h>
#include <ucontext.h>

enum { BELOW = 16384, PAINT = 0xA5 };

static uintptr_t entry_at, base, lowest;
static int inside;
static unsigned long steps;

static void stepped(int number, siginfo_t *info, void *context)
{
    greg_t *registers = ((ucontext_t *)context)->uc_mcontext.gregs;
    uintptr_t sp = (uintptr_t)registers[REG_RSP];
    (void)number;
    (void)info;
    if (inside)
        steps++;
    if (!inside && (uintptr_t)registers[REG_RIP] == entry_at) {
        inside = 1;
        base = sp;
        memset((void *)(sp - BELOW), PAINT, BELOW);
    }
    if (inside && sp > base) {
        /* it has returned */
        uintptr_t at = base - BELOW;
        while (at < base && *(uint8_t *)at == PAINT)
            at++;
        if (base - at > lowest)
            lowest = base - at;
        inside = 0;
    }
    if (inside && base - sp > lowest)
        lowest = base - sp;
}

/* Runs call(with), and gives the most stack that a call of the function at `entry` took on the way. */
size_t deepest_stack(uintptr_t entry, void (*call)(void *), void *with)
{
    static char handlers_own[65536];
    stack_t own = {.ss_sp = handlers_own, .ss_size = sizeof handlers_own};
    struct sigaction action = {.sa_sigaction = stepped, .sa_flags = SA_SIGINFO | SA_ONSTACK};
    entry_at = entry;
    inside = 0;
    lowest = 0;
    steps = 0;
    sigaltstack(&own, NULL);
    sigaction(SIGTRAP, &action, NULL);
    __asm__ volatile("pushfq\n\torq $0x100, (%%rsp)\n\tpopfq" ::: "memory", "cc");
    call(with);
    __asm__ volatile("pushfq\n\tandq $~0x100, (%%rsp)\n\tpopfq" ::: "memory", "cc");
    return lowest;
}

/* How many instructions the calls of that function took, the last time. */
unsigned long steps_taken(void)
{
    return steps;
}
