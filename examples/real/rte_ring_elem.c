/* DPDK's rte_ring of elements of 16 bytes, one sender and one receiver.
   package: libdpdk-dev
   queue: head=place.ring.prod.tail,tail=place.ring.cons.tail,slots=place.slot,size=8,capacity=7,width=16
   flags: -Iout/shims/dpdk -isystem out/usr/include/dpdk
   answer: gcc 0, clang 0 */
#include <rte_ring.h>

struct event { uint32_t flow, type, time, value; };
static struct { struct rte_ring ring; struct event slot[8]; } place = {
  .ring = {.size = 8, .mask = 7, .capacity = 7, .prod = {.sync_type = RTE_RING_SYNC_ST}, .cons = {.sync_type = RTE_RING_SYNC_ST}}};
volatile uint32_t got;

void P0(void) {
  for (uint32_t n = 0;; n++) {
    struct event one = {n, 1, 2, n};
    while (rte_ring_sp_enqueue_elem(&place.ring, &one, sizeof one)) {}
  }
}

void P1(void) {
  for (struct event one;;)
    if (!rte_ring_sc_dequeue_elem(&place.ring, &one, sizeof one))
      got = one.flow + one.type + one.time + one.value;
}
