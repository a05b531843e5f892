#include "stack.h"

#include <stdlib.h>
#include <ucontext.h>

/* what a stack that is entered on another one is to do */
static struct stack *entered;
static void (*to_call)(void *);
static void *to_give;

/* never the same for long, so that what a call writes is not taken for paint */
static unsigned char paint(size_t at)
{
    return (unsigned char)(0x5b + 7 * at);
}

static void enter(void)
{
    entered->top = __builtin_frame_address(0);
    to_call(to_give);
}

void call_on(struct stack *stack, void (*call)(void *), void *argument)
{
    static ucontext_t here, there;
    if (!stack->top)
        for (size_t at = 0; at < sizeof stack->room; at++) stack->room[at] = paint(at);
    entered = stack;
    to_call = call;
    to_give = argument;
    if (getcontext(&there) != 0) abort();
    there.uc_stack.ss_sp = stack->room;
    there.uc_stack.ss_size = sizeof stack->room;
    there.uc_link = &here;
    makecontext(&there, enter, 0);
    if (swapcontext(&here, &there) != 0) abort();
}

size_t stack_used(const struct stack *stack)
{
    size_t at = 0;
    if (!stack->top) return 0;
    while (at < sizeof stack->room && stack->room[at] == paint(at)) at++;
    at -= at % sizeof(void *); /* words are written, and the first bytes of one may be like the paint */
    return (size_t)(stack->top - (stack->room + at));
}
