/* libxdp's rings of AF_XDP sockets: the library's sender and receiver, each with its copy of the other's index.
   package: libxdp-dev
   queue: head=sent,tail=taken,slots=slot,size=8
   flags: -Iout/shims -isystem out/usr/include
   answer: gcc 0, clang 0 */
#include <xdp/xsk.h>

static __u32 sent, taken;
static __u64 slot[8];
static struct xsk_ring_prod fill = {.cached_cons = 8, .mask = 7, .size = 8, .producer = &sent, .consumer = &taken, .ring = slot};
static struct xsk_ring_cons complete = {.mask = 7, .size = 8, .producer = &sent, .consumer = &taken, .ring = slot};
volatile __u64 got;

void P0(void) {
  for (__u64 n = 0;; n++) {
    __u32 at;
    while (!xsk_ring_prod__reserve(&fill, 1, &at)) {}
    *xsk_ring_prod__fill_addr(&fill, at) = n;
    xsk_ring_prod__submit(&fill, 1);
  }
}

void P1(void) {
  for (;;) {
    __u32 at;
    if (xsk_ring_cons__peek(&complete, 1, &at)) {
      got = *xsk_ring_cons__comp_addr(&complete, at);
      xsk_ring_cons__release(&complete, 1);
    }
  }
}
