/* Linux's circular buffer with a sender that fills the slot which has to stay free.
   package: linux-headers-6.12.117+deb12-common
   queue: head=buffer.head,tail=buffer.tail,slots=bytes,size=16,index=wrapping
   flags: -D__KERNEL__ -Iout/shims/kernel -isystem out/usr/src/linux-headers-6.12.117+deb12-common/include
   answer: gcc 8, clang 8 */
#include <linux/types.h>
#include <linux/circ_buf.h>

#define SIZE 16
static char bytes[SIZE];
static struct circ_buf buffer = {.buf = bytes};
volatile char got;

void P0(void) {
  for (char n = 0;;) {
    int head = buffer.head, tail = READ_ONCE(buffer.tail);
    if (CIRC_SPACE(head, tail, SIZE) >= 0) {
      bytes[head] = n++;
      smp_store_release(&buffer.head, (head + 1) & (SIZE - 1));
    }
  }
}

void P1(void) {
  for (;;) {
    int head = smp_load_acquire(&buffer.head), tail = buffer.tail;
    if (CIRC_CNT(head, tail, SIZE) >= 1) {
      got = bytes[tail];
      smp_store_release(&buffer.tail, (tail + 1) & (SIZE - 1));
    }
  }
}
