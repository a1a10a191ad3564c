/* The calls to qemu, the first instructions of a program, printf and a stack of one's own. */
#include "system.h"
#include <stdio.h>
#include <stdlib.h>
#include <ucontext.h>

int main(void);
void system_main(void);

#if defined __arm__
enum { READ = 3, WRITE = 4, EXIT = 1 };

static long call(long number, long a, long b, long c) {
    register long r0 __asm__("r0") = a;
    register long r1 __asm__("r1") = b;
    register long r2 __asm__("r2") = c;
    register long r7 __asm__("r7") = number;
    __asm__ volatile("svc #0" : "+r"(r0) : "r"(r1), "r"(r2), "r"(r7) : "memory");
    return r0;
}

__attribute__((naked)) void call_on(void (*function)(void), void *stack) {
    __asm__("push {r4, lr}\n mov r4, sp\n mov sp, r1\n blx r0\n mov sp, r4\n pop {r4, pc}\n");
}

__attribute__((naked)) void _start(void) {
    __asm__("bl system_main\n");
}
#elif defined __aarch64__
enum { READ = 63, WRITE = 64, EXIT = 93 };

static long call(long number, long a, long b, long c) {
    register long x0 __asm__("x0") = a;
    register long x1 __asm__("x1") = b;
    register long x2 __asm__("x2") = c;
    register long x8 __asm__("x8") = number;
    __asm__ volatile("svc #0" : "+r"(x0) : "r"(x1), "r"(x2), "r"(x8) : "memory");
    return x0;
}

__attribute__((naked)) void call_on(void (*function)(void), void *stack) {
    __asm__("stp x29, x30, [sp, #-16]!\n mov x29, sp\n mov sp, x1\n blr x0\n mov sp, x29\n ldp x29, x30, [sp], #16\n ret\n");
}

__attribute__((naked)) void _start(void) {
    __asm__("bl system_main\n");
}
#elif defined __riscv
enum { READ = 63, WRITE = 64, EXIT = 93 };

static long call(long number, long a, long b, long c) {
    register long a0 __asm__("a0") = a;
    register long a1 __asm__("a1") = b;
    register long a2 __asm__("a2") = c;
    register long a7 __asm__("a7") = number;
    __asm__ volatile("ecall" : "+r"(a0) : "r"(a1), "r"(a2), "r"(a7) : "memory");
    return a0;
}

#if __riscv_xlen == 64
#define STORE "sd"
#define LOAD "ld"
#else
#define STORE "sw"
#define LOAD "lw"
#endif

__attribute__((naked)) void call_on(void (*function)(void), void *stack) {
    __asm__("addi sp, sp, -16\n" STORE " ra, 8(sp)\n" STORE " s0, 0(sp)\n mv s0, sp\n mv sp, a1\n jalr a0\n"
            "mv sp, s0\n" LOAD " s0, 0(sp)\n" LOAD " ra, 8(sp)\n addi sp, sp, 16\n ret\n");
}

__attribute__((naked)) void _start(void) {
    __asm__("call system_main\n");
}
#endif

long system_read(void *to, size_t size) {
    return call(READ, 0, (long)to, (long)size);
}

void system_write(const char *from, size_t size) {
    call(WRITE, 1, (long)from, (long)size);
}

_Noreturn void exit(int status) {
    for (;;) {
        call(EXIT, status, 0, 0);
    }
}

void system_main(void) {
    exit(main());
}

static void print_text(const char *text) {
    size_t length = 0;
    while (text[length] != 0) {
        length += 1;
    }
    system_write(text, length);
}

static void print_number(size_t number) {
    char digits[24];
    char *at = digits + sizeof digits - 1;
    *at = 0;
    do {
        *--at = (char)('0' + number % 10);
        number /= 10;
    } while (number != 0);
    print_text(at);
}

int printf(const char *format, ...) {
    __builtin_va_list rest;
    __builtin_va_start(rest, format);
    for (const char *at = format; *at != 0; at++) {
        if (*at != '%') {
            system_write(at, 1);
        } else if (*++at == 's') {
            print_text(__builtin_va_arg(rest, const char *));
        } else if (*at == 'u') {
            print_number(__builtin_va_arg(rest, unsigned));
        } else {
            at += 1; /* %zu */
            print_number(__builtin_va_arg(rest, size_t));
        }
    }
    __builtin_va_end(rest);
    return 0;
}
