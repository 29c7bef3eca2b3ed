/* Linux's ptr_ring, which hands back one slot at a time: a slot that holds 0 is free.
   package: linux-headers-6.12.117+deb12-common
   tagged: slots=slot,size=8
   flags: -D__KERNEL__ -Iout/shims/kernel -isystem out/usr/src/linux-headers-6.12.117+deb12-common/include
   answer: gcc 0, clang 0 */
#include <linux/ptr_ring.h>

static void *slot[8];
static struct ptr_ring ring = {.size = 8, .batch = 1, .queue = slot};
static int word[4];
void *volatile got;

void P0(void) {
  for (unsigned n = 0;; n++)
    while (__ptr_ring_produce(&ring, &word[n % 4])) __asm__ volatile("" ::: "memory");
}

void P1(void) {
  for (;;) {
    void *one = __ptr_ring_consume(&ring);
    if (one)
      got = one;
    __asm__ volatile("" ::: "memory");
  }
}
