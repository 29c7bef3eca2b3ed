/* The sender sends the next record only when the receiver has taken one more than was sent.
   queue: head=q.sent,tail=q.taken,slots=q.word,size=8
   answer: not shown: hart 0 at line 24 */
#include <stdatomic.h>

#define SLOTS 8

struct {
  atomic_uint sent, taken;
  int word[SLOTS];
} q;

static int receive(int *word) {
  unsigned n = atomic_load_explicit(&q.taken, memory_order_relaxed);
  if (n == atomic_load_explicit(&q.sent, memory_order_acquire))
    return 0;
  *word = q.word[n % SLOTS];
  atomic_store_explicit(&q.taken, n + 1, memory_order_release);
  return 1;
}

void P0(void) {
  for (unsigned n = 0;; n++) {
    while (atomic_load_explicit(&q.taken, memory_order_acquire) != n + 1) {}
    q.word[n % SLOTS] = n;
    atomic_store_explicit(&q.sent, n + 1, memory_order_release);
  }
}
int P1(void) { for (int word, sum = 0;;) if (receive(&word) && (sum += word) < 0) return sum; }
// exists (1:a0=0)
