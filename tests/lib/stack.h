/*
 * The stack that a call takes: it runs on a stack of its own, which was painted before, and what lost its paint is counted.
 */
#ifndef STACK_H
#define STACK_H

#include <stddef.h>
#include <stdint.h>
#include <string.h>
#include <ucontext.h>

#define STACK_BYTES 65536u
#define STACK_PAINT 0xA5

/* The bytes of it that a function touches. Take off those of a function that does nothing: what is left is the call's. */
static inline size_t stack_touched(void (*function)(void))
{
    static uint8_t stack[STACK_BYTES];
    static ucontext_t here, there;
    size_t untouched = 0;
    memset(stack, STACK_PAINT, sizeof stack);
    getcontext(&there);
    there.uc_stack.ss_sp = stack, there.uc_stack.ss_size = sizeof stack, there.uc_link = &here;
    makecontext(&there, function, 0);
    swapcontext(&here, &there);
    while (untouched < STACK_BYTES && stack[untouched] == STACK_PAINT)
        untouched++;
    return STACK_BYTES - untouched;
}

#endif
