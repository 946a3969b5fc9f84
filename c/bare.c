/* Runs the calls with no libc and no start files: memcpy and memset of our own, and an exit by system call (Linux on x86-64). */
#include <stddef.h>
#include "calls.h"

void *memcpy(void *to, const void *from, size_t n) {
    unsigned char *t = to;
    const unsigned char *f = from;
    while (n--) *t++ = *f++;
    return to;
}

void *memset(void *to, int c, size_t n) {
    unsigned char *t = to;
    while (n--) *t++ = (unsigned char)c;
    return to;
}

__attribute__((force_align_arg_pointer, noreturn)) void _start(void) {
    long status = calls_wrong() != 0;
    __asm__ volatile("syscall" : : "a"(60L), "D"(status) : "rcx", "r11", "memory");
    __builtin_unreachable();
}
