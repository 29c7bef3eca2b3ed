/* Numbers of buffers go there full and come back free, and both queues open empty: hart 0 waits for a free one, hart 1 for a full one, for ever.
   queue: head=full.sent,tail=full.taken,slots=full.word,size=2
   queue: head=free.sent,tail=free.taken,slots=free.word,size=2,sender=1,receiver=0
   answer: kept in every run, but not shown to go on
   named: not shown that more is published or taken */
#include <stdatomic.h>

#define SLOTS 2

struct queue {
  atomic_uint sent, taken;
  unsigned word[SLOTS];
} full, free;

int buffer[SLOTS];

static int send(struct queue *q, unsigned word) {
  unsigned n = atomic_load_explicit(&q->sent, memory_order_relaxed);
  if (n - atomic_load_explicit(&q->taken, memory_order_acquire) == SLOTS)
    return 0;
  q->word[n % SLOTS] = word;
  atomic_store_explicit(&q->sent, n + 1, memory_order_release);
  return 1;
}

static int receive(struct queue *q, unsigned *word) {
  unsigned n = atomic_load_explicit(&q->taken, memory_order_relaxed);
  if (n == atomic_load_explicit(&q->sent, memory_order_acquire))
    return 0;
  *word = q->word[n % SLOTS];
  atomic_store_explicit(&q->taken, n + 1, memory_order_release);
  return 1;
}

void P0(void) {
  unsigned at;
  for (int i = 0;; i++) {
    while (!receive(&free, &at)) {}
    buffer[at % SLOTS] = i;
    while (!send(&full, at)) {}
  }
}

int P1(void) {
  unsigned at;
  for (int sum = 0; sum >= 0;) {
    while (!receive(&full, &at)) {}
    sum += buffer[at % SLOTS];
    while (!send(&free, at)) {}
  }
  return 0;
}
// exists (1:a0=1)
