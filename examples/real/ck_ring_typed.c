/* Concurrency Kit's ck_ring of structs of 8 bytes, by CK_RING_PROTOTYPE.
   package: libck-dev
   queue: head=ring.p_tail,tail=ring.c_head,slots=slot,size=8,capacity=7
   flags: -isystem out/usr/include
   answer: gcc 0, clang 0 */
#include <ck_ring.h>

struct entry { unsigned key, value; };
CK_RING_PROTOTYPE(entries, entry)

static ck_ring_t ring = {.size = 8, .mask = 7};
static struct entry slot[8];
volatile unsigned got;

void P0(void) {
  for (unsigned n = 0;; n++) {
    struct entry one = {n, n + 1};
    while (!ck_ring_enqueue_spsc_entries(&ring, slot, &one)) {}
  }
}

void P1(void) {
  for (struct entry one;;)
    if (ck_ring_dequeue_spsc_entries(&ring, slot, &one))
      got = one.key + one.value;
}
