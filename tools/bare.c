/*
 * What tools/digest.c needs of a host, without a C library, so that a cross build needs no sysroot: the start, the system calls write and
 * exit of Linux, and the functions that the compiler calls. Only for tools/cross; a unit on board has its own.
 */
#include <stddef.h>
#include <stdint.h>

void bare_write(const char *octets, size_t count);
int digest_main(void);
void bare_main(void);

#if defined(__x86_64__)
#define SYSTEM_WRITE 1
#define SYSTEM_EXIT 60
__asm__(".globl _start\n_start: call bare_main\n");
static long system_call(long number, long a, long b, long c) {
    long result;
    __asm__ volatile("syscall" : "=a"(result) : "a"(number), "D"(a), "S"(b), "d"(c) : "rcx", "r11", "memory");
    return result;
}
#elif defined(__aarch64__)
#define SYSTEM_WRITE 64
#define SYSTEM_EXIT 93
__asm__(".globl _start\n_start: bl bare_main\n");
static long system_call(long number, long a, long b, long c) {
    register long x8 __asm__("x8") = number;
    register long x0 __asm__("x0") = a;
    register long x1 __asm__("x1") = b;
    register long x2 __asm__("x2") = c;
    __asm__ volatile("svc 0" : "+r"(x0) : "r"(x8), "r"(x1), "r"(x2) : "memory");
    return x0;
}
#elif defined(__riscv)
#define SYSTEM_WRITE 64
#define SYSTEM_EXIT 93
__asm__(".globl _start\n_start: call bare_main\n");
static long system_call(long number, long a, long b, long c) {
    register long a7 __asm__("a7") = number;
    register long a0 __asm__("a0") = a;
    register long a1 __asm__("a1") = b;
    register long a2 __asm__("a2") = c;
    __asm__ volatile("ecall" : "+r"(a0) : "r"(a7), "r"(a1), "r"(a2) : "memory");
    return a0;
}
#elif defined(__arm__)
#define SYSTEM_WRITE 4
#define SYSTEM_EXIT 1
__asm__(".thumb\n.syntax unified\n.globl _start\n.thumb_func\n_start: bl bare_main\n");
static long system_call(long number, long a, long b, long c) {
    register long r7 __asm__("r7") = number;
    register long r0 __asm__("r0") = a;
    register long r1 __asm__("r1") = b;
    register long r2 __asm__("r2") = c;
    __asm__ volatile("svc 0" : "+r"(r0) : "r"(r7), "r"(r1), "r"(r2) : "memory");
    return r0;
}
#else
#error "no system calls for this target"
#endif

void bare_write(const char *octets, size_t count) {
    system_call(SYSTEM_WRITE, 1, (long)octets, (long)count);
}

void bare_main(void) {
    long status = digest_main();
    for (;;) {
        system_call(SYSTEM_EXIT, status, 0, 0);
    }
}

void *memmove(void *to, const void *from, size_t count) {
    uint8_t *a = (uint8_t *)to;
    const uint8_t *b = (const uint8_t *)from;
    size_t i;
    if (a < b) {
        for (i = 0; i < count; i++) {
            a[i] = b[i];
        }
    } else {
        for (i = count; i > 0; i--) {
            a[i - 1] = b[i - 1];
        }
    }
    return to;
}

void *memcpy(void *to, const void *from, size_t count) {
    return memmove(to, from, count);
}

void *memset(void *to, int value, size_t count) {
    uint8_t *a = (uint8_t *)to;
    size_t i;
    for (i = 0; i < count; i++) {
        a[i] = (uint8_t)value;
    }
    return to;
}

#if defined(__arm__)
/* The same by the names of the run-time ABI for the ARM architecture. */
#define COPIES(name) \
    void name(void *to, const void *from, size_t count); \
    void name(void *to, const void *from, size_t count) { memmove(to, from, count); }
COPIES(__aeabi_memcpy)
COPIES(__aeabi_memcpy4)
COPIES(__aeabi_memcpy8)
COPIES(__aeabi_memmove)
COPIES(__aeabi_memmove4)
COPIES(__aeabi_memmove8)

#define SETS(name) \
    void name(void *to, size_t count, int value); \
    void name(void *to, size_t count, int value) { memset(to, value, count); }
SETS(__aeabi_memset)
SETS(__aeabi_memset4)
SETS(__aeabi_memset8)

#define CLEARS(name) \
    void name(void *to, size_t count); \
    void name(void *to, size_t count) { memset(to, 0, count); }
CLEARS(__aeabi_memclr)
CLEARS(__aeabi_memclr4)
CLEARS(__aeabi_memclr8)

/* Division of 64 bits, bit by bit: the quotient is returned in r0 and r1, the remainder in r2 and r3. */
uint64_t bare_divide(uint64_t dividend, uint64_t divisor, uint64_t *remainder);
uint64_t bare_divide(uint64_t dividend, uint64_t divisor, uint64_t *remainder) {
    uint64_t quotient = 0, rest = 0;
    int bit;
    for (bit = 63; bit >= 0; bit--) {
        rest = rest << 1 | (dividend >> bit & 1);
        if (rest >= divisor) {
            rest -= divisor;
            quotient |= (uint64_t)1 << bit;
        }
    }
    *remainder = rest;
    return quotient;
}
__asm__(".thumb\n.syntax unified\n.globl __aeabi_uldivmod\n.thumb_func\n__aeabi_uldivmod:\n"
        "push {r6, lr}\nsub sp, sp, #16\nadd r6, sp, #8\nstr r6, [sp]\nbl bare_divide\n"
        "ldr r2, [sp, #8]\nldr r3, [sp, #12]\nadd sp, sp, #16\npop {r6, pc}\n");
#endif
