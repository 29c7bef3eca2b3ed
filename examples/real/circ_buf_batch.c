/* Linux's circular buffer, filled up to its end at once: two words if CIRC_SPACE_TO_END has room for them, else one.
   package: linux-headers-6.12.117+deb12-common
   queue: head=head,tail=tail,slots=words,size=16,index=wrapping
   flags: -D__KERNEL__ -Iout/shims/kernel -isystem out/usr/src/linux-headers-6.12.117+deb12-common/include
   answer: gcc 0, clang 0 */
#include <linux/types.h>
#include <linux/circ_buf.h>

#define SIZE 16
static int words[SIZE], head, tail;
volatile int got;

void P0(void) {
  for (int n = 0;;) {
    int at = head, room = CIRC_SPACE_TO_END(at, READ_ONCE(tail), SIZE);
    if (room >= 1) {
      words[at] = n++;
      if (room >= 2)
        words[at + 1] = n++;
      smp_store_release(&head, (at + (room >= 2 ? 2 : 1)) & (SIZE - 1));
    }
  }
}

void P1(void) {
  for (;;) {
    int at = tail, count = CIRC_CNT_TO_END(smp_load_acquire(&head), at, SIZE);
    if (count >= 1) {
      got = words[at];
      smp_store_release(&tail, (at + 1) & (SIZE - 1));
    }
  }
}
