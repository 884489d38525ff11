#include "board.h"

#include <stddef.h>

#define REG(at) (*(volatile uint32_t *)(at))
enum { TIMER = 0x40000000, UART = 0x40004000, TX_FULL = 1, RX_FULL = 2, PER_MS = 25000, PAINT = 0x5a5a5a5a };
enum { WRITE0 = 4, EXIT = 0x18, GOOD = 0x20026, BAD = 0x20023 }; /* semihosting */

int run(void);
extern uint32_t data_start[], data_end[], data_load[], bss_start[], bss_end[], stack_top[], flash_page[];

void *memcpy(void *to, const void *from, size_t len);
void *memmove(void *to, const void *from, size_t len);
void *memset(void *to, int with, size_t len);

void *memcpy(void *to, const void *from, size_t len) {
    for (size_t i = 0; i < len; i++) ((uint8_t *)to)[i] = ((const uint8_t *)from)[i];
    return to;
}

void *memmove(void *to, const void *from, size_t len) {
    if ((uint8_t *)to < (const uint8_t *)from) return memcpy(to, from, len);
    for (size_t i = len; i-- > 0;) ((uint8_t *)to)[i] = ((const uint8_t *)from)[i];
    return to;
}

void *memset(void *to, int with, size_t len) {
    for (size_t i = 0; i < len; i++) ((uint8_t *)to)[i] = (uint8_t)with;
    return to;
}

static uint32_t semihosting(uint32_t what, const void *with) {
    register uint32_t r0 __asm__("r0") = what;
    register const void *r1 __asm__("r1") = with;
    __asm__ volatile("bkpt 0xab" : "+r"(r0) : "r"(r1) : "memory");
    return r0;
}

/* A counter of 25 MHz runs by itself; what it moved is added. An interrupt that counts ms would lose some. */
uint32_t board_now(void) {
    static uint32_t before, rest, ms;
    uint32_t at = UINT32_MAX - REG(TIMER + 4);
    rest += at - before;
    before = at;
    ms += rest / PER_MS;
    rest %= PER_MS;
    return ms;
}

bool board_receive(uint8_t *octet) {
    if (!(REG(UART + 4) & RX_FULL)) return false;
    *octet = (uint8_t)REG(UART);
    return true;
}

void board_send(uint8_t octet) {
    while (REG(UART + 4) & TX_FULL) {}
    REG(UART) = octet;
}

/* Flash is erased to ones, and a bit can be cleared without erasing: each start clears one more bit of the page, which has
   1,024 words. After 32,768 starts it is full, and later ones are counted as that many. It is never erased: a device that
   lost its power between that and the next write would open `first`. */
uint32_t board_starts(void) {
    uint32_t count = 0;
    for (size_t i = 0; i < 1024; i++)
        for (uint32_t bit = 0; bit < 32; bit++, count++)
            if (flash_page[i] >> bit & 1) {
                ((volatile uint32_t *)flash_page)[i] &= ~(1u << bit);
                return count;
            }
    return count;
}

void board_log(const char *line) { semihosting(WRITE0, line); }

uint32_t board_stack(void) {
    const uint32_t *it = bss_end;
    while (*it == PAINT) it++;
    return (uint32_t)(stack_top - it) * 4;
}

void board_stop(bool is_good) {
    semihosting(EXIT, (const void *)(uintptr_t)(is_good ? GOOD : BAD));
    for (;;) {}
}

void board_start(void) {
    REG(UART + 0x10) = 16, REG(UART + 8) = 3;
    REG(TIMER + 8) = UINT32_MAX, REG(TIMER + 4) = UINT32_MAX, REG(TIMER) = 1;
}

void reset(void);
void reset(void) {
    uint32_t *here;
    for (uint32_t *to = data_start, *from = data_load; to < data_end;) *to++ = *from++;
    for (uint32_t *to = bss_start; to < bss_end;) *to++ = 0;
    __asm__ volatile("mov %0, sp" : "=r"(here));
    for (uint32_t *to = bss_end; to < here;) *to++ = PAINT;
    board_start();
    board_stop(run() == 0);
}

static void stuck(void) {
    board_log("# fault\n");
    board_stop(false);
}

__attribute__((section(".vectors"), used)) static const void *const VECTORS[16] = {
    stack_top, reset, stuck, stuck, stuck, stuck, stuck, 0, 0, 0, 0, stuck, stuck, 0, stuck, stuck};
