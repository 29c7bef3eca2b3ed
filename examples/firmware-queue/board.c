/* The board, qemu's `virt`: a line of text to the UART, and the end of the run. */
#include "board.h"

#define UART_DATA (*(volatile uint8_t *)0x10000000)
#define UART_STATUS (*(volatile uint8_t *)0x10000005)
#define UART_READY 0x20
#define FINISHER (*(volatile uint32_t *)0x100000)
#define RIGHT 0x5555u
#define WRONG 0x13333u /* the exit status 1 */

static void put(const char *text) {
    for (; *text; text++) {
        while (!(UART_STATUS & UART_READY)) {
        }
        UART_DATA = (uint8_t)*text;
    }
}

static void put_number(uint32_t number) {
    char digits[11], *at = digits + 10;
    *at = 0;
    do
        *--at = (char)('0' + number % 10);
    while (number /= 10);
    put(at);
}

_Noreturn void stop(const char *wrong, uint32_t round) {
    static uint32_t stopped;
    if (!__atomic_exchange_n(&stopped, 1, __ATOMIC_RELAXED)) { /* the first hart that stops has the line */
        put(wrong ? "round " : "all ");
        put_number(round);
        put(wrong ? ": " : " rounds right");
        put(wrong ? wrong : "");
        put("\n");
        FINISHER = wrong ? WRONG : RIGHT;
    }
    for (;;) {
    }
}

/* Where start.S sends a hart that trapped. */
_Noreturn void trapped(uint32_t cause) {
    stop("a hart trapped", cause);
}
