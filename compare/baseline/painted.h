/* Calls a function on a painted stack, and sees how much of it was written. x86-64 with the System V calling convention. */
#ifndef BASELINE_PAINTED_H
#define BASELINE_PAINTED_H

#include <stdint.h>

#define MOST_ARGUMENTS 12

typedef void (*any_function)(void);

/*
 * Calls the function with these arguments, all of them integers or pointers; those it has not are not looked at. The octets written
 * below the stack pointer at the call, the return address among them and the arguments that stand on the stack not, are kept under the name
 * where they are the most so far. Gives back what the function returned.
 */
uint64_t call_painted(const char *name, any_function function, const uint64_t arguments[MOST_ARGUMENTS]);

/* The most octets of the function of that name, 0 where it was not called. */
uint64_t most_octets(const char *name);

#endif
