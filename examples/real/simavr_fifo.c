/* simavr's FIFO of its peripherals: bytes, and 16-bit numbers of slots.
   package: libsimavr-dev
   queue: head=fifo.write,tail=fifo.read,slots=fifo.buffer,index=wrapping
   flags: -isystem out/usr/include
   answer: gcc 0, clang 0 */
#include <simavr/fifo_declare.h>

DECLARE_FIFO(uint8_t, bytes, 16);
DEFINE_FIFO(uint8_t, bytes);

static bytes_t fifo;
volatile uint8_t got;

void P0(void) {
  for (uint8_t n = 0;; n++)
    while (!bytes_write(&fifo, n)) __asm__ volatile("" ::: "memory");
}

void P1(void) {
  for (;;) {
    if (!bytes_isempty(&fifo))
      got = bytes_read(&fifo);
    __asm__ volatile("" ::: "memory");
  }
}
