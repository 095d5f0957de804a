/* Multiplication of 64 bits and division of 32, which Arm's run-time names and ARMv6-M has no instruction for: the library calls these two.
 * Assumes little-endian Arm, where a result of 64 bits is the pair r0, r1. Weak, so that a toolchain's own come first where it is linked ahead. */
typedef unsigned u32;
typedef unsigned long long u64;

u64 __aeabi_lmul(u64 a, u64 b);
u64 __aeabi_uidivmod(u32 n, u32 d);

/* a times b modulo 2^64, of products of 16 bits by 16. */
__attribute__((weak)) u64 __aeabi_lmul(u64 a, u64 b)
{
    u32 a_low = (u32)a & 0xffff, a_high = (u32)a >> 16, b_low = (u32)b & 0xffff, b_high = (u32)b >> 16;
    u32 low = a_low * b_low;
    u32 one = a_high * b_low + (low >> 16);
    u32 other = a_low * b_high + (one & 0xffff);
    u32 high = a_high * b_high + (one >> 16) + (other >> 16);

    high += (u32)a * (u32)(b >> 32) + (u32)(a >> 32) * (u32)b;
    return (u64)high << 32 | (other << 16 | (low & 0xffff));
}

/* n divided by d, not 0: the quotient in the lower half, the remainder in the upper. */
__attribute__((weak)) u64 __aeabi_uidivmod(u32 n, u32 d)
{
    u32 quotient = 0, rest = 0;

    for (int i = 31; i >= 0; i--) {
        rest = rest << 1 | (n >> i & 1); /* at most the first 32 - i bits of n */
        quotient <<= 1;
        if (rest >= d) {
            rest -= d;
            quotient |= 1;
        }
    }
    return (u64)rest << 32 | quotient;
}
