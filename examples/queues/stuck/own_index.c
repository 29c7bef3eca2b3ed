/* The receiver compares its own index with itself, so it always finds the queue empty.
   queue: head=q.sent,tail=q.taken,slots=q.word,size=8
   answer: not shown: hart 1 at line 24 */
#include <stdatomic.h>

#define SLOTS 8

struct {
  atomic_uint sent, taken;
  int word[SLOTS];
} q;

static int send(int word) {
  unsigned n = atomic_load_explicit(&q.sent, memory_order_relaxed);
  if (n - atomic_load_explicit(&q.taken, memory_order_acquire) == SLOTS)
    return 0;
  q.word[n % SLOTS] = word;
  atomic_store_explicit(&q.sent, n + 1, memory_order_release);
  return 1;
}

static int receive(int *word) {
  unsigned n = atomic_load_explicit(&q.taken, memory_order_relaxed);
  if (n == atomic_load_explicit(&q.taken, memory_order_acquire))
    return 0;
  *word = q.word[n % SLOTS];
  atomic_store_explicit(&q.taken, n + 1, memory_order_release);
  return 1;
}

void P0(void) { for (int i = 0;; i++) while (!send(i)) {} }
int P1(void) { for (int word, sum = 0;;) if (receive(&word) && (sum += word) < 0) return sum; }
// exists (1:a0=0)
