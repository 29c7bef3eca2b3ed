/* A queue for one producer and one consumer: one hart pushes 5 and 7, the other pops twice. May a pop give a word out of
   order, or one that was never pushed? */
#include <stdatomic.h>

#define SLOTS 2

struct queue {
  atomic_uint head, tail;
  int slot[SLOTS];
} q;

static int push(struct queue *to, int word) {
  unsigned tail = atomic_load_explicit(&to->tail, memory_order_relaxed);
  if (tail - atomic_load_explicit(&to->head, memory_order_acquire) == SLOTS)
    return 0;
  to->slot[tail % SLOTS] = word;
  atomic_store_explicit(&to->tail, tail + 1, memory_order_release);
  return 1;
}

static int pop(struct queue *from, int *word) {
  unsigned head = atomic_load_explicit(&from->head, memory_order_relaxed);
  if (head == atomic_load_explicit(&from->tail, memory_order_acquire))
    return 0;
  *word = from->slot[head % SLOTS];
  atomic_store_explicit(&from->head, head + 1, memory_order_release);
  return 1;
}

void P0(void) {
  push(&q, 5);
  push(&q, 7);
}

void P1(void) {
  int r0 = 0, r1 = 0;
  pop(&q, &r0);
  pop(&q, &r1);
}

/* forall (1:r0=0 /\ 1:r1=0 \/ 1:r0=0 /\ 1:r1=5 \/ 1:r0=5 /\ 1:r1=0 \/ 1:r0=5 /\ 1:r1=7) */
