/* Linux's kfifo, a word at a time: kfifo_put and kfifo_get.
   package: linux-headers-6.12.117+deb12-common
   queue: head=fifo.kfifo.in,tail=fifo.kfifo.out,slots=fifo.buf,size=8
   flags: -D__KERNEL__ -Iout/shims/kernel -isystem out/usr/src/linux-headers-6.12.117+deb12-common/include
   answer: gcc 0, clang 0 */
#include <linux/kfifo.h>

static DEFINE_KFIFO(fifo, int, 8);
volatile int got;

void P0(void) {
  for (int n = 0;; n++)
    while (!kfifo_put(&fifo, n)) __asm__ volatile("" ::: "memory");
}

void P1(void) {
  for (int one;;) {
    if (kfifo_get(&fifo, &one))
      got = one;
    __asm__ volatile("" ::: "memory");
  }
}
