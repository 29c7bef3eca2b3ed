/* A ring of bytes: width=1 says that a slot is one byte.
   queue: head=q.in,tail=q.out,slots=q.data,size=16,width=1
   answer: kept in every run, and goes on while its harts run */
#include <stdatomic.h>
#include <stdint.h>

#define SLOTS 16

struct {
  atomic_uint in, out;
  uint8_t data[SLOTS];
} q;

static int put(uint8_t byte) {
  unsigned in = atomic_load_explicit(&q.in, memory_order_relaxed);
  if (in - atomic_load_explicit(&q.out, memory_order_acquire) >= SLOTS)
    return 0;
  q.data[in & (SLOTS - 1)] = byte;
  atomic_store_explicit(&q.in, in + 1, memory_order_release);
  return 1;
}

static int get(void) {
  unsigned out = atomic_load_explicit(&q.out, memory_order_relaxed);
  if (out == atomic_load_explicit(&q.in, memory_order_acquire))
    return -1;
  uint8_t byte = q.data[out & (SLOTS - 1)];
  atomic_store_explicit(&q.out, out + 1, memory_order_release);
  return byte;
}

void P0(void) { for (int i = 0;; i++) while (!put(i)) {} }
int P1(void) { for (int sum = 0;;) if ((sum += get()) < -1000) return sum; }
// exists (1:a0=0)
