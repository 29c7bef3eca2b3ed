/* Three records published by one store, and a receiver that takes all that wait.
   queue: head=q.sent,tail=q.taken,slots=q.word,size=8
   answer: kept in every run, and goes on while its harts run */
#include <stdatomic.h>

#define SLOTS 8

struct {
  atomic_uint sent, taken;
  int word[SLOTS];
} q;

static int send_three(int a, int b, int c) {
  unsigned n = atomic_load_explicit(&q.sent, memory_order_relaxed);
  if (SLOTS - (n - atomic_load_explicit(&q.taken, memory_order_acquire)) < 3)
    return 0;
  q.word[n % SLOTS] = a;
  q.word[(n + 1) % SLOTS] = b;
  q.word[(n + 2) % SLOTS] = c;
  atomic_store_explicit(&q.sent, n + 3, memory_order_release);
  return 1;
}

static int receive_all(void) {
  unsigned n = atomic_load_explicit(&q.taken, memory_order_relaxed);
  unsigned end = atomic_load_explicit(&q.sent, memory_order_acquire);
  int sum = 0;
  while (n != end)
    sum += q.word[n++ % SLOTS];
  atomic_store_explicit(&q.taken, n, memory_order_release);
  return sum;
}

void P0(void) { for (int i = 0;; i += 3) while (!send_three(i, i + 1, i + 2)) {} }
int P1(void) { for (int sum = 0;;) if ((sum += receive_all()) < 0) return sum; }
// exists (1:a0=0)
