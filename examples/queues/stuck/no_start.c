/* Both wait for a flag that nobody sets.
   queue: head=q.sent,tail=q.taken,slots=q.word,size=8
   answer: not shown: hart 0 at line 32 */
#include <stdatomic.h>

#define SLOTS 8

struct {
  atomic_uint sent, taken;
  int word[SLOTS];
} q;
atomic_int started;

static int send(int word) {
  unsigned n = atomic_load_explicit(&q.sent, memory_order_relaxed);
  if (n - atomic_load_explicit(&q.taken, memory_order_acquire) == SLOTS)
    return 0;
  q.word[n % SLOTS] = word;
  atomic_store_explicit(&q.sent, n + 1, memory_order_release);
  return 1;
}

static int receive(int *word) {
  unsigned n = atomic_load_explicit(&q.taken, memory_order_relaxed);
  if (n == atomic_load_explicit(&q.sent, memory_order_acquire))
    return 0;
  *word = q.word[n % SLOTS];
  atomic_store_explicit(&q.taken, n + 1, memory_order_release);
  return 1;
}

static void wait(void) { while (!atomic_load_explicit(&started, memory_order_acquire)) {} }

void P0(void) {
  wait();
  for (int i = 0;; i++) while (!send(i)) {}
}

int P1(void) {
  wait();
  for (int word, sum = 0;;) if (receive(&word) && (sum += word) < 0) return sum;
}
// exists (1:a0=0)
