/* One of two slots stays free, and the sender waits for two that are.
   queue: head=q.sent,tail=q.taken,slots=q.word,size=2
   answer: not shown: hart 0 at line 16 */
#include <stdatomic.h>

#define SLOTS 2

struct {
  atomic_uint sent, taken;
  int word[SLOTS];
} q;

static int send(int word) {
  unsigned n = atomic_load_explicit(&q.sent, memory_order_relaxed);
  unsigned used = n - atomic_load_explicit(&q.taken, memory_order_acquire);
  if (SLOTS - 1 - used < 2)
    return 0;
  q.word[n % SLOTS] = word;
  atomic_store_explicit(&q.sent, n + 1, memory_order_release);
  return 1;
}

static int receive(int *word) {
  unsigned n = atomic_load_explicit(&q.taken, memory_order_relaxed);
  if (n == atomic_load_explicit(&q.sent, memory_order_acquire))
    return 0;
  *word = q.word[n % SLOTS];
  atomic_store_explicit(&q.taken, n + 1, memory_order_release);
  return 1;
}

void P0(void) { for (int i = 0;; i++) while (!send(i)) {} }
int P1(void) { for (int word, sum = 0;;) if (receive(&word) && (sum += word) < 0) return sum; }
// exists (1:a0=0)
