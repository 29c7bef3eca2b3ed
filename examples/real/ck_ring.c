/* Concurrency Kit's ck_ring, one sender and one receiver. A full ring keeps a slot free.
   package: libck-dev
   queue: head=ring.p_tail,tail=ring.c_head,slots=slot,size=8,capacity=7
   flags: -isystem out/usr/include
   answer: gcc 0, clang 0 */
#include <ck_ring.h>

static ck_ring_t ring = {.size = 8, .mask = 7};
static ck_ring_buffer_t slot[8];
static int word[4];
void *volatile got;

void P0(void) {
  for (int n = 0;; n++)
    while (!ck_ring_enqueue_spsc(&ring, slot, &word[n % 4])) {}
}

void P1(void) {
  for (void *one;;)
    if (ck_ring_dequeue_spsc(&ring, slot, &one))
      got = one;
}
