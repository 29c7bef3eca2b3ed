/* DPDK's rte_ring, two objects at a time: both or none.
   package: libdpdk-dev
   queue: head=place.ring.prod.tail,tail=place.ring.cons.tail,slots=place.slot,size=8,capacity=7
   flags: -Iout/shims/dpdk -isystem out/usr/include/dpdk
   answer: gcc 0, clang 0 */
#include <rte_ring.h>

static struct { struct rte_ring ring; void *slot[8]; } place = {
  .ring = {.size = 8, .mask = 7, .capacity = 7, .prod = {.sync_type = RTE_RING_SYNC_ST}, .cons = {.sync_type = RTE_RING_SYNC_ST}}};
static int word[4];
void *volatile got;

void P0(void) {
  for (;;) {
    void *two[2] = {&word[0], &word[2]};
    while (!rte_ring_sp_enqueue_bulk(&place.ring, two, 2, NULL)) {}
  }
}

void P1(void) {
  for (void *two[2];;)
    if (rte_ring_sc_dequeue_bulk(&place.ring, two, 2, NULL)) {
      got = two[0];
      got = two[1];
    }
}
