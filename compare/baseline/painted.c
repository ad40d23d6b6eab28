#include "painted.h"

#include <stdio.h>
#include <stdlib.h>
#include <string.h>

#define WORDS 8192 /* 64 KB */
#define ARGUMENTS_ON_STACK 6
#define LARGEST_NAMES 64

static uint64_t stack[WORDS] __attribute__((aligned(64)));

static uint64_t paint;

static struct {
    const char *name;
    uint64_t most;
} functions[LARGEST_NAMES];
static unsigned function_count;

/* Six arguments go in registers, six on the new stack. */
static uint64_t switch_and_call(any_function function, const uint64_t *arguments, uint64_t *top) {
    register const uint64_t *a __asm__("r12") = arguments;
    register any_function f __asm__("r13") = function;
    register uint64_t *t __asm__("r14") = top;
    uint64_t returned;
    __asm__ volatile("mov %%rsp, %%rbx\n\t"
                     "mov %%r14, %%rsp\n\t"
                     "pushq 88(%%r12)\n\t"
                     "pushq 80(%%r12)\n\t"
                     "pushq 72(%%r12)\n\t"
                     "pushq 64(%%r12)\n\t"
                     "pushq 56(%%r12)\n\t"
                     "pushq 48(%%r12)\n\t"
                     "mov 0(%%r12), %%rdi\n\t"
                     "mov 8(%%r12), %%rsi\n\t"
                     "mov 16(%%r12), %%rdx\n\t"
                     "mov 24(%%r12), %%rcx\n\t"
                     "mov 32(%%r12), %%r8\n\t"
                     "mov 40(%%r12), %%r9\n\t"
                     "call *%%r13\n\t"
                     "mov %%rbx, %%rsp\n\t"
                     : "=a"(returned)
                     : "r"(a), "r"(f), "r"(t)
                     : "rbx", "rcx", "rdx", "rsi", "rdi", "r8", "r9", "r10", "r11", "memory", "cc");
    return returned;
}

/* Another paint at each call: a function may happen to write one of them. */
static void repaint(void) {
    paint = paint == 0xA5A5A5A5A5A5A5A5u ? 0x5A5A5A5A5A5A5A5Au : 0xA5A5A5A5A5A5A5A5u;
    for (uint64_t i = 0; i < WORDS; i++)
        stack[i] = paint;
}

static uint64_t lowest_written(void) {
    const uint8_t *octets = (const uint8_t *)stack;
    uint64_t i = 0;
    while (stack[i] == paint)
        i++;
    for (i *= 8; octets[i] == (uint8_t)paint; i++)
        ;
    return i;
}

static unsigned place_of(const char *name) {
    unsigned i = 0;
    while (i < function_count && strcmp(functions[i].name, name) != 0)
        i++;
    return i;
}

uint64_t call_painted(const char *name, any_function function, const uint64_t arguments[MOST_ARGUMENTS]) {
    repaint();
    uint64_t returned = switch_and_call(function, arguments, stack + WORDS);
    uint64_t first = lowest_written();
    uint64_t octets = sizeof stack - 8 * ARGUMENTS_ON_STACK - first;
    if (first < sizeof stack / 2) {
        fprintf(stderr, "%s: the painted stack is too short\n", name);
        exit(1);
    }
    unsigned place = place_of(name);
    if (place == function_count && function_count < LARGEST_NAMES)
        functions[function_count++].name = name;
    if (functions[place].most < octets)
        functions[place].most = octets;
    return returned;
}

uint64_t most_octets(const char *name) {
    unsigned place = place_of(name);
    return place < function_count ? functions[place].most : 0;
}
