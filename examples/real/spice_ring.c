/* SPICE's ring between a guest's display driver and the host, with its notifications.
   package: libspice-protocol-dev
   queue: head=ring.prod,tail=ring.cons,slots=ring.items,size=8
   flags: -isystem out/usr/include/spice-1
   answer: gcc 0, clang 0 */
#include <spice/start-packed.h>
#include <spice/barrier.h>
#include <spice/ipc_ring.h>

SPICE_RING_DECLARE(words, uint32_t, 8)

static words ring __attribute__((aligned(4))) = {.num_items = 8, .notify_on_prod = 1};
static volatile words *const shared = &ring;
volatile uint32_t got;
volatile int notified;

void P0(void) {
  for (uint32_t n = 0;; n++) {
    int waits, notify;
    do { SPICE_RING_PROD_WAIT(shared, waits) } while (waits);
    *SPICE_RING_PROD_ITEM(shared) = n;
    SPICE_RING_PUSH(shared, notify)
    notified = notify;
  }
}

void P1(void) {
  for (;;) {
    int waits, notify;
    SPICE_RING_CONS_WAIT(shared, waits)
    if (!waits) {
      got = *SPICE_RING_CONS_ITEM(shared);
      SPICE_RING_POP(shared, notify)
      notified = notify;
    }
  }
}
