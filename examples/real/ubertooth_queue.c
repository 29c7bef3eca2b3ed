/* Ubertooth's firmware: its queue of addresses, by its own file. The first goes into the second slot, and one stays free.
   package: ubertooth-firmware-source
   queue: head=queue.tail,tail=queue.head,slots=queue.data,size=10,index=wrapping,offset=9
   flags: -isystem out/usr/src/ubertooth-firmware-source/bluetooth_rxtx
   answer: gcc 0, clang 0 */
#include <queue.c>

static queue_t queue;
static int word[4];
void *volatile got;

void P0(void) {
  for (int n = 0;; n++)
    while (!queue_insert(&queue, &word[n % 4])) __asm__ volatile("" ::: "memory");
}

void P1(void) {
  for (void *one;;) {
    if (queue_remove(&queue, &one))
      got = one;
    __asm__ volatile("" ::: "memory");
  }
}
