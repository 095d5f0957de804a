/* Linux's read, write and exit without a C library, for programs under qemu's user emulation.
 * Assumes 32-bit Arm, RISC-V or AArch64. */
#ifndef LINUX_CALLS_H
#define LINUX_CALLS_H

#if defined(__arm__)
enum { READ_CALL = 3, WRITE_CALL = 4, EXIT_CALL = 1 };
static inline long kernel(long call, long a, long b, long c)
{
    register long r0 __asm__("r0") = a, r1 __asm__("r1") = b, r2 __asm__("r2") = c;
    /* the call's number goes to r7, which may be the frame's pointer */
    __asm__ volatile("push {r7}\n\tmov r7, %1\n\tsvc 0\n\tpop {r7}"
                     : "+r"(r0) : "r"(call), "r"(r1), "r"(r2) : "memory");
    return r0;
}
#elif defined(__aarch64__)
enum { READ_CALL = 63, WRITE_CALL = 64, EXIT_CALL = 93 };
static inline long kernel(long call, long a, long b, long c)
{
    register long x8 __asm__("x8") = call, x0 __asm__("x0") = a;
    register long x1 __asm__("x1") = b, x2 __asm__("x2") = c;
    __asm__ volatile("svc 0" : "+r"(x0) : "r"(x8), "r"(x1), "r"(x2) : "memory");
    return x0;
}
#else
enum { READ_CALL = 63, WRITE_CALL = 64, EXIT_CALL = 93 };
static inline long kernel(long call, long a, long b, long c)
{
    register long a7 __asm__("a7") = call, a0 __asm__("a0") = a;
    register long a1 __asm__("a1") = b, a2 __asm__("a2") = c;
    __asm__ volatile("ecall" : "+r"(a0) : "r"(a7), "r"(a1), "r"(a2) : "memory");
    return a0;
}
#endif

#endif
