/* How deep calls go: they are made on a stack of their own that was painted before. */
#ifndef STACK_H
#define STACK_H

#include <stddef.h>

/* zeros before its first call */
struct stack {
    const unsigned char *top;
    unsigned char room[32768];
};

/* Makes a call on this stack. */
void call_on(struct stack *stack, void (*call)(void *), void *argument);

/* The bytes down to the deepest one that a call on it wrote, with the call's arguments and return address. */
size_t stack_used(const struct stack *stack);

#endif
