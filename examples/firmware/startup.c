/* Startup of a bare Cortex-M: the vector table, and what happens from reset to main. Assumes board.ld, and that the program defines main; the handlers
 * systick and uart may be defined by it too. */
#include <stdint.h>

extern uint8_t data_from[], data_to[], bss_from[], bss_to[], stack_top[];
extern const uint8_t data_kept[];

int main(void);
void reset(void);
void halt(void);
void systick(void) __attribute__((weak, alias("halt")));
void uart(void) __attribute__((weak, alias("halt")));

void reset(void)
{
    for (uint8_t *to = data_from, *end = data_to; to < end; to++)
        *to = data_kept[to - data_from];
    for (uint8_t *to = bss_from, *end = bss_to; to < end; to++)
        *to = 0;
    main();
    halt();
}

/* A fault, or an interrupt that nobody serves: ends qemu with a failure by semihosting (SYS_EXIT, "run-time error"). */
void halt(void)
{
    for (;;) {
        register uint32_t operation __asm__("r0") = 0x18;
        register uint32_t reason __asm__("r1") = 0x20023;
        __asm__ volatile("bkpt 0xab" : "+r"(operation) : "r"(reason) : "memory");
    }
}

/* ARMv7-M's first sixteen, then interrupt 0. */
__attribute__((section(".vectors"), used)) static const void *const vectors[17] = {
    stack_top, (const void *)reset, (const void *)halt, (const void *)halt, (const void *)halt, (const void *)halt, (const void *)halt, 0, 0, 0, 0,
    (const void *)halt, (const void *)halt, 0, (const void *)halt, (const void *)systick, (const void *)uart,
};
