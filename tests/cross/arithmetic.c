/* Tries the two functions of cross/thumbv6m.c: edges and many numbers, against sums of shifted numbers and against quotient times divisor plus rest.
 * Assumes a port, and that the archive comes ahead of a compiler's run-time. */
#include "port.h"

uint64_t __aeabi_lmul(uint64_t a, uint64_t b);
uint64_t __aeabi_uidivmod(uint32_t n, uint32_t d);

static uint64_t number = 1;

/* The next number: at times small, or with few bits. */
static uint64_t next(uint32_t turn)
{
    static const uint64_t edges[] = {0, 1, 2, 254, 255, 256, 65535, 65536, 0x7fffffff, 0x80000000, 0xffffffff, 0x100000000, 0x7fffffffffffffff, 0x8000000000000000, 0xffffffffffffffff};
    number ^= number << 13;
    number ^= number >> 7;
    number ^= number << 17;
    return turn % 3 == 0 ? edges[number % 15] : turn % 3 == 1 ? number >> 40 : number;
}

/* a times b modulo 2^64, a bit of b at a time. */
static uint64_t product(uint64_t a, uint64_t b)
{
    uint64_t sum = 0;
    for (; b != 0; b >>= 1, a += a)
        if (b & 1)
            sum += a;
    return sum;
}

static int divides(uint32_t n, uint32_t d)
{
    uint64_t both = __aeabi_uidivmod(n, d);
    uint32_t quotient = (uint32_t)both, rest = (uint32_t)(both >> 32);
    return rest < d && product(quotient, d) + rest == n;
}

void program(void)
{
    for (uint32_t turn = 0; turn < 90000; turn++) {
        uint64_t a = next(turn), b = next(turn / 3);
        if (__aeabi_lmul(a, b) != product(a, b))
            port_end("arithmetic: a product differs\n", 1);
        if ((uint32_t)b != 0 && !divides((uint32_t)a, (uint32_t)b))
            port_end("arithmetic: a division differs\n", 1);
    }
    port_end("arithmetic: 90000 products and divisions agree\n", 0);
}
