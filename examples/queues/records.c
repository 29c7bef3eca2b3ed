/* Records of 12 bytes, filled where they lie: the slots have the name of their first field.
   queue: head=q.sent,tail=q.taken,slots=q.record,size=4,width=12
   answer: kept in every run, and goes on while its harts run */
#include <stdatomic.h>

#define SLOTS 4

struct record { int time, from, value; };

struct {
  atomic_uint sent, taken;
  struct record record[SLOTS];
} q;

static int send(int time, int value) {
  unsigned n = atomic_load_explicit(&q.sent, memory_order_relaxed);
  if (n - atomic_load_explicit(&q.taken, memory_order_acquire) >= SLOTS)
    return 0;
  struct record *record = &q.record[n % SLOTS];
  record->time = time;
  record->from = 7;
  record->value = value;
  atomic_store_explicit(&q.sent, n + 1, memory_order_release);
  return 1;
}

static int receive(void) {
  unsigned n = atomic_load_explicit(&q.taken, memory_order_relaxed);
  if (n == atomic_load_explicit(&q.sent, memory_order_acquire))
    return 0;
  struct record *record = &q.record[n % SLOTS];
  int found = record->time + record->from + record->value;
  atomic_store_explicit(&q.taken, n + 1, memory_order_release);
  return found;
}

void P0(void) { for (int i = 0;; i++) while (!send(i, -i)) {} }
int P1(void) { for (int sum = 0;;) if ((sum += receive()) < 0) return sum; }
// exists (1:a0=0)
