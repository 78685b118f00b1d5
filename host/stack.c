/* How far down a call writes to its stack: the paint that is left tells. */
#include "stack.h"

#include <pthread.h>
#include <stdio.h>
#include <stdlib.h>

enum { PAINTED = 1 << 18, PAINT = 0x5A };

/* Not in line: its caller then has its frame, whole, before it asks. */
__attribute__((noinline)) uintptr_t stack_pointer(void)
{
    uintptr_t p;
#if defined __x86_64__
    __asm__ volatile("leaq 8(%%rsp), %0" : "=r"(p)); /* above its own return address */
#elif defined __aarch64__
    __asm__ volatile("mov %0, sp" : "=r"(p));
#else
#error "Kerumpase has no library for this machine"
#endif
    return p;
}

typedef struct {
    void (*call)(void *);
    void *argument;
    volatile uint8_t *painted;
    uintptr_t lowest;
} painted_call;

static void *call_on_paint(void *p)
{
    painted_call *c = p;
    size_t clean = 0;
    uintptr_t here = stack_pointer();
    /* With no call in between: what made the thread has left its own marks below. */
    for (size_t i = 0; (uintptr_t)(c->painted + i) < here; i++)
        c->painted[i] = PAINT;
    c->call(c->argument);
    while (c->painted[clean] == PAINT)
        clean++;
    c->lowest = (uintptr_t)(c->painted + clean);
    return NULL;
}

static void stop_unless(int good, const char *why)
{
    if (!good) {
        fprintf(stderr, "host: %s\n", why);
        exit(2);
    }
}

uintptr_t stack_lowest(void (*call)(void *), void *argument)
{
    uint8_t *painted = aligned_alloc(4096, PAINTED);
    pthread_attr_t attributes;
    pthread_t thread;
    painted_call c = {call, argument, painted, 0};

    stop_unless(painted != NULL && pthread_attr_init(&attributes) == 0, "no memory");
    stop_unless(pthread_attr_setstack(&attributes, painted, PAINTED) == 0
                && pthread_create(&thread, &attributes, call_on_paint, &c) == 0
                && pthread_join(thread, NULL) == 0, "no thread");
    pthread_attr_destroy(&attributes);
    free(painted);
    return c.lowest;
}
