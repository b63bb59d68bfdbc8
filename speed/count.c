/* One turn of the implementation IMPL on a program and nothing else, with no C library, for x86-64: count PROGRAM STEPS. An emulator that logs
   each instruction so counts them on any processor. speed/count builds and runs it; programs.c has the programs. */
#include "programs.h"

/* Where the system begins a program: the words of its command line are at the stack pointer. */
__asm__(".globl _start\n_start: mov %rsp, %rdi\n and $-16, %rsp\n call begin\n");

/* What a compiler may call by itself. */
void *memcpy(void *to, const void *from, unsigned long n) {
    for (unsigned long i = 0; i < n; i++) ((volatile uint8_t *)to)[i] = ((const uint8_t *)from)[i];
    return to;
}
void *memset(void *to, int v, unsigned long n) {
    for (unsigned long i = 0; i < n; i++) ((volatile uint8_t *)to)[i] = v;
    return to;
}

static uint64_t number(const char *word) {
    uint64_t v = 0;
    for (; *word; word++) v = 10 * v + (*word - '0');
    return v;
}

/* `stack` is the number of words, then each; the status is 0 where all the steps were done. */
void begin(uint64_t *stack) {
    uint64_t k = number((const char *)stack[3]);
    program(number((const char *)stack[2]));
    fresh();
    uint64_t left = k - IMPL(mem, N, seg, w2, regs, k);
    __asm__ volatile("syscall" : : "a"(60), "D"(left != 0) : "rcx", "r11", "memory");
}
