/* Linux's kfifo whose receiver looks at a word by kfifo_peek, and then drops it by kfifo_skip.
   package: linux-headers-6.12.117+deb12-common
   queue: head=fifo.kfifo.in,tail=fifo.kfifo.out,slots=fifo.buf,size=8
   flags: -D__KERNEL__ -Iout/shims/kernel -isystem out/usr/src/linux-headers-6.12.117+deb12-common/include
   answer: gcc 0, clang 0 */
#include <linux/kfifo.h>

static DEFINE_KFIFO(fifo, int, 8);
volatile int got;

void P0(void) {
  for (int n = 0;; n++)
    while (!kfifo_put(&fifo, n)) __asm__ volatile("" ::: "memory");
}

void P1(void) {
  for (int one;;) {
    if (kfifo_peek(&fifo, &one)) {
      got = one;
      kfifo_skip(&fifo);
    }
    __asm__ volatile("" ::: "memory");
  }
}
