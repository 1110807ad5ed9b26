#define _GNU_SOURCE
#include "painted.h"

#include <pthread.h>
#include <stdio.h>
#include <stdlib.h>
#include <sys/mman.h>

enum { GUARD = 4096, LARGE = 1 << 20 };

void must(int holds, const char *what) {
    if (holds) return;
    perror(what);
    exit(2);
}

uint8_t *stack_of(size_t size) {
    uint8_t *space = mmap(NULL, GUARD + size, PROT_READ | PROT_WRITE, MAP_PRIVATE | MAP_ANONYMOUS, -1, 0);
    must(space != MAP_FAILED, "mmap");
    must(mprotect(space, GUARD, PROT_NONE) == 0, "mprotect");
    return space + GUARD;
}

void on_stack(uint8_t *stack, size_t size, void *(*work)(void *), void *with) {
    pthread_attr_t attributes;
    pthread_t thread;
    must(pthread_attr_init(&attributes) == 0, "pthread_attr_init");
    must(pthread_attr_setstack(&attributes, stack, size) == 0, "pthread_attr_setstack");
    must(pthread_create(&thread, &attributes, work, with) == 0, "pthread_create");
    must(pthread_join(thread, NULL) == 0, "pthread_join");
    pthread_attr_destroy(&attributes);
}

struct measured {
    void (*run)(void *);
    void *with;
    uint8_t *stack;
    uint8_t paint;
    size_t touched;
};

/* Paints what lies below this frame, runs, and looks for the lowest byte that has another colour. */
static void *measure(void *given) {
    struct measured *m = given;
    uint8_t *here = (uint8_t *)__builtin_frame_address(0) - 256, *low = m->stack;
    for (volatile uint8_t *at = low; at < here; at++) *at = m->paint;
    m->run(m->with);
    while (low < here && *(volatile uint8_t *)low == m->paint) low++;
    m->touched = (size_t)(here + 256 - low);
    return NULL;
}

size_t touched(void (*run)(void *), void *with) {
    uint8_t *stack = stack_of(LARGE);
    size_t most = 0;
    for (int paint = 0x5a; paint <= 0xa5; paint += 0xa5 - 0x5a) {
        struct measured m = {run, with, stack, (uint8_t)paint, 0};
        on_stack(stack, LARGE, measure, &m);
        if (m.touched > most) most = m.touched;
    }
    munmap(stack - GUARD, GUARD + LARGE);
    return most;
}
