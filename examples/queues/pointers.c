/* Indices that are addresses of slots: base is where the slots lie, as `ztso show` says, and scale the bytes from one to the next.
   queue: head=put,tail=get,slots=ring,size=6,index=wrapping,scale=4,base=ring
   answer: kept in every run, and goes on while its harts run */
#include <stdatomic.h>

#define SLOTS 6

extern int ring[SLOTS];
int *_Atomic put = ring, *_Atomic get = ring;
int ring[SLOTS];

static int *after(int *slot) { return slot + 1 == ring + SLOTS ? ring : slot + 1; }

static int send(int word) {
  int *slot = atomic_load_explicit(&put, memory_order_relaxed);
  if (after(slot) == atomic_load_explicit(&get, memory_order_acquire))
    return 0;
  *slot = word;
  atomic_store_explicit(&put, after(slot), memory_order_release);
  return 1;
}

static int receive(int *word) {
  int *slot = atomic_load_explicit(&get, memory_order_relaxed);
  if (slot == atomic_load_explicit(&put, memory_order_acquire))
    return 0;
  *word = *slot;
  atomic_store_explicit(&get, after(slot), memory_order_release);
  return 1;
}

void P0(void) { for (int i = 0;; i++) while (!send(i)) {} }
int P1(void) { for (int word, sum = 0;;) if (receive(&word) && (sum += word) < 0) return sum; }
// exists (1:a0=0)
