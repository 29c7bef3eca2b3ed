/* The number of a full slot is that of a slot which is free for the next round: the receiver waits for ever, and the sender overwrites.
   tagged: slots=q,size=4,width=12,tells=number
   answer: another protocol: hart 0 at line 20 */
#include <stdatomic.h>

#define SLOTS 4

struct slot {
  _Atomic unsigned sequence;
  int time, value;
} q[SLOTS] = {{0}, {1}, {2}, {3}};
unsigned put, get;

static int send(int time, int value) {
  struct slot *slot = &q[put % SLOTS];
  if (atomic_load_explicit(&slot->sequence, memory_order_acquire) != put)
    return 0;
  slot->time = time;
  slot->value = value;
  atomic_store_explicit(&slot->sequence, put + SLOTS, memory_order_release);
  put++;
  return 1;
}

static int receive(int *sum) {
  struct slot *slot = &q[get % SLOTS];
  if (atomic_load_explicit(&slot->sequence, memory_order_acquire) != get + 1)
    return 0;
  *sum += slot->time + slot->value;
  atomic_store_explicit(&slot->sequence, get + SLOTS, memory_order_release);
  get++;
  return 1;
}

void P0(void) { for (int i = 0;; i++) while (!send(i, -i)) {} }
int P1(void) { for (int sum = 0;;) if (receive(&sum) && sum < 0) return sum; }
// exists (1:a0=0)
