/* Sends addresses of buffers of a pool: the receiver writes into what it received, and so into the pool alone.
   queue: head=q.head,tail=q.tail,slots=q.at,size=4
   answer: kept in every run, and goes on while its harts run */
#include <stdatomic.h>

#define SLOTS 4
#define BUFFERS 4

struct buffer {
  unsigned length, data[2];
} pool[BUFFERS];

struct {
  atomic_uint head, tail;
  struct buffer *at[SLOTS];
} q;

void P0(void) {
  for (unsigned i = 0;; i++) {
    unsigned n = atomic_load_explicit(&q.head, memory_order_relaxed);
    while (n - atomic_load_explicit(&q.tail, memory_order_acquire) == SLOTS) {}
    q.at[n % SLOTS] = &pool[i % BUFFERS];
    atomic_store_explicit(&q.head, n + 1, memory_order_release);
  }
}

void P1(void) {
  for (unsigned n = 0;; n++) {
    while (atomic_load_explicit(&q.head, memory_order_acquire) == n) {}
    struct buffer *buffer = q.at[n % SLOTS];
    buffer->data[0] = n;
    buffer->length++;
    atomic_store_explicit(&q.tail, n + 1, memory_order_release);
  }
}
// exists (pool=1)
