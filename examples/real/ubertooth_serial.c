/* Ubertooth's firmware: the FIFO between its serial port and USB, of bytes, by its own file. Nothing in it is
   volatile, and gcc stores the index before the byte: right for an interrupt, not between two harts.
   package: ubertooth-firmware-source
   queue: head=fifo.head,tail=fifo.tail,slots=bytes,size=128,width=1,index=wrapping
   flags: -isystem out/usr/src/ubertooth-firmware-source/common -isystem out/usr/src/ubertooth-firmware-source/common/lpcusb/target
   answer: gcc 8, clang 0 */
#include <serial_fifo.c>

static U8 bytes[VCOM_FIFO_SIZE];
static fifo_t fifo = {.buf = bytes};
volatile U8 got;

void P0(void) {
  for (U8 n = 0;; n++)
    while (!fifo_put(&fifo, n)) __asm__ volatile("" ::: "memory");
}

void P1(void) {
  for (U8 one;;) {
    if (fifo_get(&fifo, &one))
      got = one;
    __asm__ volatile("" ::: "memory");
  }
}
