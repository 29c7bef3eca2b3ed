/* Vyukov's bounded queue as he publishes it, with one sender and one receiver: a free cell has its position's number, a full one 1 more.
   tagged: slots=buffer,size=4,width=8,tells=number
   answer: kept in every run, and goes on while its harts run */
#include <stdatomic.h>

#define CELLS 4

struct cell {
  _Atomic unsigned sequence;
  void *data;
} buffer[CELLS] = {{0}, {1}, {2}, {3}};
unsigned enqueue_pos, dequeue_pos;

static int enqueue(void *data) {
  unsigned pos = enqueue_pos;
  for (;;) {
    struct cell *cell = &buffer[pos % CELLS];
    int dif = (int)(atomic_load_explicit(&cell->sequence, memory_order_acquire) - pos);
    if (dif == 0) {
      enqueue_pos = pos + 1;
      cell->data = data;
      atomic_store_explicit(&cell->sequence, pos + 1, memory_order_release);
      return 1;
    }
    if (dif < 0)
      return 0;
    pos = enqueue_pos;
  }
}

static int dequeue(void **data) {
  unsigned pos = dequeue_pos;
  for (;;) {
    struct cell *cell = &buffer[pos % CELLS];
    int dif = (int)(atomic_load_explicit(&cell->sequence, memory_order_acquire) - (pos + 1));
    if (dif == 0) {
      dequeue_pos = pos + 1;
      *data = cell->data;
      atomic_store_explicit(&cell->sequence, pos + CELLS, memory_order_release);
      return 1;
    }
    if (dif < 0)
      return 0;
    pos = dequeue_pos;
  }
}

void P0(void) { for (int i = 0;; i++) while (!enqueue((void *)i)) {} }
int P1(void) { void *data; for (int sum = 0;;) if (dequeue(&data) && (sum += (int)data) < 0) return sum; }
// exists (1:a0=0)
