/* Xen's ring of bytes, which 9pfs and pvcalls take, by its own functions: packets of a word.
   package: libxen-dev
   queue: head=shared.prod,tail=shared.cons,slots=bytes,size=16,width=1
   flags: -D__XEN_TOOLS__ -isystem out/usr/include
   answer: gcc 0, clang 0 */
#include <stdint.h>
#include <stddef.h>
#include <string.h>
#include <xen/io/ring.h>

DEFINE_XEN_FLEX_RING(words);

#define SIZE 16
static struct { RING_IDX cons, prod; } shared;
static unsigned char bytes[SIZE] __attribute__((aligned(4)));
volatile uint32_t got;

void P0(void) {
  for (uint32_t n = 0;; n++) {
    RING_IDX prod = shared.prod, cons;
    do
      cons = __atomic_load_n(&shared.cons, __ATOMIC_ACQUIRE);
    while (SIZE - words_queued(prod, cons, SIZE) < 4);
    RING_IDX at = words_mask(prod, SIZE);
    words_write_packet(bytes, &n, 4, &at, words_mask(cons, SIZE), SIZE);
    __atomic_store_n(&shared.prod, prod + 4, __ATOMIC_RELEASE);
  }
}

void P1(void) {
  for (uint32_t one;;) {
    RING_IDX cons = shared.cons, prod = __atomic_load_n(&shared.prod, __ATOMIC_ACQUIRE);
    if (words_queued(prod, cons, SIZE) >= 4) {
      RING_IDX at = words_mask(cons, SIZE);
      words_read_packet(&one, bytes, 4, words_mask(prod, SIZE), &at, SIZE);
      __atomic_store_n(&shared.cons, cons + 4, __ATOMIC_RELEASE);
      got = one;
    }
  }
}
