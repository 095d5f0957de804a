/* The board as the firmware sees it: a UART with one interrupt, a radio, and what the main loop
 * does besides. far_end.c fakes all of it; a product has its chip's registers here.
 * Assumes that the UART raises its interrupt as long as a byte has come and is not read. So it does
 * while a byte is wanted for sending and there is room for it. */
#ifndef BOARD_H
#define BOARD_H

#include <stdint.h>

/* ---- The UART: one byte each way. A byte that comes while one is not read is lost. */

int uart_has_received(void);
/* Clears on a chip also what raises the interrupt beside the byte: an overrun, a broken stop bit. */
uint8_t uart_read(void);
int uart_can_send(void);
void uart_write(uint8_t byte);
/* Whether the interrupt is raised while uart_can_send. */
void uart_want_bytes(int wanted);

/* ---- The radio */

/* Takes over a passphrase. */
void radio_set(const uint8_t *passphrase, uint32_t length);

/* ---- What the firmware gives: its handler of the UART's interrupt, and how many bytes it found no place for */

void uart_interrupt(void);
extern volatile uint32_t uart_lost;

/* ---- Memory of the firmware, with guards on both sides that nobody writes; a product needs no guards */

#define PLACES 64u  /* bytes that are kept each way, a power of two */
#define GUARD 16u

struct guarded {
    volatile uint8_t before[GUARD];
    uint8_t bytes[PLACES];
    volatile uint8_t behind[GUARD];
};

/* Sets the guards, and starts the UART and its interrupt. */
void board_start(struct guarded *memory);
/* The rest of the main loop: looks at the guards, and takes its time. */
void other_duties(void);

#endif
