/* How much stack work takes: it runs on a painted stack, and the lowest byte that it changes is looked for. */
#ifndef PAINTED_H
#define PAINTED_H

#include <stddef.h>
#include <stdint.h>

/* Ends the program where the test itself cannot go on. */
void must(int holds, const char *what);

/* A stack with an unreadable page below it, and work in a thread on it. */
uint8_t *stack_of(size_t size);
void on_stack(uint8_t *stack, size_t size, void *(*work)(void *), void *with);

/* The most bytes of stack that the work takes, painted in two colours: a byte may be written in the colour of one. */
size_t touched(void (*run)(void *), void *with);

#endif
