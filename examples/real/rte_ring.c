/* DPDK's rte_ring for one sender and one receiver, an object at a time.
   package: libdpdk-dev
   queue: head=place.ring.prod.tail,tail=place.ring.cons.tail,slots=place.slot,size=8,capacity=7
   flags: -Iout/shims/dpdk -isystem out/usr/include/dpdk
   answer: gcc 0, clang 0 */
#include <rte_ring.h>

static struct { struct rte_ring ring; void *slot[8]; } place = {
  .ring = {.size = 8, .mask = 7, .capacity = 7, .prod = {.sync_type = RTE_RING_SYNC_ST}, .cons = {.sync_type = RTE_RING_SYNC_ST}}};
static int word[4];
void *volatile got;

void P0(void) {
  for (unsigned n = 0;; n++)
    while (rte_ring_sp_enqueue(&place.ring, &word[n % 4])) {}
}

void P1(void) {
  for (void *one;;)
    if (!rte_ring_sc_dequeue(&place.ring, &one))
      got = one;
}
