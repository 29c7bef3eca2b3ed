/* libxdp's rings of AF_XDP sockets, as they send frames: descriptors of 16 bytes, two at a time. `len` is read.
   package: libxdp-dev
   queue: head=sent,tail=taken,slots=slot,size=8
   flags: -Iout/shims -isystem out/usr/include
   read: 8-11
   answer: gcc 0, clang 0 */
#include <xdp/xsk.h>

static __u32 sent, taken;
static struct xdp_desc slot[8];
static struct xsk_ring_prod tx = {.cached_cons = 8, .mask = 7, .size = 8, .producer = &sent, .consumer = &taken, .ring = slot};
static struct xsk_ring_cons rx = {.mask = 7, .size = 8, .producer = &sent, .consumer = &taken, .ring = slot};
volatile __u32 got;

void P0(void) {
  for (__u32 n = 0;;) {
    __u32 at;
    if (xsk_ring_prod__reserve(&tx, 2, &at) == 2) {
      *xsk_ring_prod__tx_desc(&tx, at) = (struct xdp_desc){.addr = n, .len = 64};
      *xsk_ring_prod__tx_desc(&tx, at + 1) = (struct xdp_desc){.addr = n + 64, .len = 64};
      xsk_ring_prod__submit(&tx, 2);
      n += 128;
    }
  }
}

void P1(void) {
  for (;;) {
    __u32 at;
    if (xsk_ring_cons__peek(&rx, 1, &at)) {
      got = xsk_ring_cons__rx_desc(&rx, at)->len;
      xsk_ring_cons__release(&rx, 1);
    }
  }
}
