/* A record is 0 as a free slot is: the receiver waits at it for ever, and the sender overwrites it.
   tagged: slots=q,size=8
   answer: another protocol: hart 0 at line 14 */
#include <stdatomic.h>

#define SLOTS 8

_Atomic unsigned q[SLOTS];
unsigned put, get;

static int send(unsigned word) {
  if (atomic_load_explicit(&q[put], memory_order_acquire) != 0)
    return 0;
  atomic_store_explicit(&q[put], word, memory_order_release);
  put = put + 1 == SLOTS ? 0 : put + 1;
  return 1;
}

static unsigned receive(void) {
  unsigned word = atomic_load_explicit(&q[get], memory_order_acquire);
  if (word == 0)
    return 0;
  atomic_store_explicit(&q[get], 0, memory_order_release);
  get = get + 1 == SLOTS ? 0 : get + 1;
  return word;
}

void P0(void) { for (unsigned i = 0;; i++) while (!send(i)) {} }
int P1(void) { for (unsigned sum = 0;;) if ((sum += receive()) == 77777) return sum; }
// exists (1:a0=0)
