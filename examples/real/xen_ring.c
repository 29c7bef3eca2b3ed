/* Xen's ring of requests and responses. The front end sends requests; the back end answers each in its slot and hands it back.
   package: libxen-dev
   queue: head=shared.ring.req_prod,tail=shared.ring.rsp_prod,slots=shared.ring.ring,size=8
   flags: -D__XEN_TOOLS__ -isystem out/usr/include
   answer: gcc 0, clang 0 */
#include <stdint.h>
#include <stddef.h>
#include <string.h>
#define xen_mb() __atomic_thread_fence(__ATOMIC_SEQ_CST)
#define xen_rmb() __atomic_thread_fence(__ATOMIC_ACQUIRE)
#define xen_wmb() __atomic_thread_fence(__ATOMIC_RELEASE)
#include <xen/io/ring.h>

DEFINE_RING_TYPES(words, uint32_t, uint32_t);

static union { words_sring_t ring; uint32_t room[16 + 8]; } shared = {.ring = {.req_event = 1, .rsp_event = 1}};
static words_front_ring_t front = {.nr_ents = 8, .sring = &shared.ring};
static words_back_ring_t back = {.nr_ents = 8, .sring = &shared.ring};
volatile uint32_t got, answered;

void P0(void) {
  for (uint32_t n = 0;;) {
    __asm__ volatile("" ::: "memory");
    if (!RING_FULL(&front)) {
      *RING_GET_REQUEST(&front, front.req_prod_pvt) = n++;
      front.req_prod_pvt++;
      RING_PUSH_REQUESTS(&front);
    }
    if (RING_HAS_UNCONSUMED_RESPONSES(&front)) {
      xen_rmb();
      answered = *RING_GET_RESPONSE(&front, front.rsp_cons);
      front.rsp_cons++;
    }
  }
}

void P1(void) {
  for (;;) {
    __asm__ volatile("" ::: "memory");
    if (RING_HAS_UNCONSUMED_REQUESTS(&back)) {
      xen_rmb();
      uint32_t one;
      RING_COPY_REQUEST(&back, back.req_cons, &one);
      back.req_cons++;
      got = one;
      *RING_GET_RESPONSE(&back, back.rsp_prod_pvt) = ~one;
      back.rsp_prod_pvt++;
      RING_PUSH_RESPONSES(&back);
    }
  }
}
