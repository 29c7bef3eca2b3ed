/* Linux's kfifo of structs: kfifo_put and kfifo_get copy one whole.
   package: linux-headers-6.12.117+deb12-common
   queue: head=fifo.kfifo.in,tail=fifo.kfifo.out,slots=fifo.buf,size=8,width=12
   flags: -D__KERNEL__ -Iout/shims/kernel -isystem out/usr/src/linux-headers-6.12.117+deb12-common/include
   answer: gcc 0, clang 0 */
#include <linux/kfifo.h>

struct event { uint32_t time; uint16_t kind, code; uint32_t value; };
static DEFINE_KFIFO(fifo, struct event, 8);
volatile uint32_t got;

void P0(void) {
  for (uint32_t n = 0;; n++) {
    struct event one = {n, 1, 2, n};
    while (!kfifo_put(&fifo, one)) __asm__ volatile("" ::: "memory");
  }
}

void P1(void) {
  for (struct event one;;) {
    if (kfifo_get(&fifo, &one))
      got = one.time + one.kind + one.code + one.value;
    __asm__ volatile("" ::: "memory");
  }
}
