/* What the firmware asks of the board: a counter of ms that runs by itself, a UART, a page of flash, and a place for its
   log. board.c has it for the Cortex-M3 of QEMU's mps2-an385; yours has it for your processor. */
#ifndef BOARD_H
#define BOARD_H
#include <stdbool.h>
#include <stdint.h>

void board_start(void);
uint32_t board_now(void);          /* ms; asked once in 171 s at least */
bool board_receive(uint8_t *octet); /* false: none is there */
void board_send(uint8_t octet);    /* waits until the UART takes it */
uint32_t board_starts(void);       /* starts counted in flash before this one, which is counted now; 0: the first */
void board_log(const char *line);
uint32_t board_stack(void);        /* octets of stack that were ever used */
void board_stop(bool is_good);
#endif
