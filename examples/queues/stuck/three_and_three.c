/* Of four slots the sender waits for three that are free, and the receiver for three that are full: with two of each both wait.
   queue: head=q.sent,tail=q.taken,slots=q.word,size=4
   answer: kept in every run, but not shown to go on
   named: hart 0 may wait for 3 free slots and hart 1 for 3 records, of 4 */
#include <stdatomic.h>

#define SLOTS 4

struct {
  atomic_uint sent, taken;
  int word[SLOTS];
} q;

static int send(int word) {
  unsigned n = atomic_load_explicit(&q.sent, memory_order_relaxed);
  if (n - atomic_load_explicit(&q.taken, memory_order_acquire) > SLOTS - 3)
    return 0;
  q.word[n % SLOTS] = word;
  atomic_store_explicit(&q.sent, n + 1, memory_order_release);
  return 1;
}

static int receive(int *word) {
  unsigned n = atomic_load_explicit(&q.taken, memory_order_relaxed);
  if (atomic_load_explicit(&q.sent, memory_order_acquire) - n < 3)
    return 0;
  *word = q.word[n % SLOTS];
  atomic_store_explicit(&q.taken, n + 1, memory_order_release);
  return 1;
}

void P0(void) { for (int i = 0;; i++) while (!send(i)) {} }
int P1(void) { for (int word, sum = 0;;) if (receive(&word) && (sum += word) < 0) return sum; }
// exists (1:a0=0)
