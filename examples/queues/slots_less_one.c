/* Numbers of slots, any number of them; one slot stays free, to tell full from empty.
   queue: head=put,tail=get,slots=ring,size=6,index=wrapping
   answer: kept in every run, and goes on while its harts run */
#include <stdatomic.h>

#define SLOTS 6

atomic_uint put, get;
int ring[SLOTS];

static unsigned after(unsigned n) { return n + 1 == SLOTS ? 0 : n + 1; }

static int send(int word) {
  unsigned n = atomic_load_explicit(&put, memory_order_relaxed);
  if (after(n) == atomic_load_explicit(&get, memory_order_acquire))
    return 0;
  ring[n] = word;
  atomic_store_explicit(&put, after(n), memory_order_release);
  return 1;
}

static int receive(int *word) {
  unsigned n = atomic_load_explicit(&get, memory_order_relaxed);
  if (n == atomic_load_explicit(&put, memory_order_acquire))
    return 0;
  *word = ring[n];
  atomic_store_explicit(&get, after(n), memory_order_release);
  return 1;
}

void P0(void) { for (int i = 0;; i++) while (!send(i)) {} }
int P1(void) { for (int word, sum = 0;;) if (receive(&word) && (sum += word) < 0) return sum; }
// exists (1:a0=0)
