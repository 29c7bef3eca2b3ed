/* A byte for each slot, in an array beside the slots, says that a record is stored there, as in atomic_queue's AtomicQueue2.
   tagged: slots=q.element,size=8,tag=q.state[0]+1,tells=bit:255:0:1
   answer: kept in every run, and goes on while its harts run */
#include <stdatomic.h>

#define SLOTS 8

enum { EMPTY, STORED };

struct {
  _Atomic unsigned char state[SLOTS];
  unsigned element[SLOTS];
} q;
unsigned put, get;
volatile unsigned given, taken;

static int push(unsigned word) {
  if (atomic_load_explicit(&q.state[put], memory_order_acquire) != EMPTY)
    return 0;
  q.element[put] = word;
  atomic_store_explicit(&q.state[put], STORED, memory_order_release);
  put = (put + 1) % SLOTS;
  return 1;
}

static int pop(volatile unsigned *word) {
  if (atomic_load_explicit(&q.state[get], memory_order_acquire) != STORED)
    return 0;
  *word = q.element[get];
  atomic_store_explicit(&q.state[get], EMPTY, memory_order_release);
  get = (get + 1) % SLOTS;
  return 1;
}

void P0(void) { for (;;) while (!push(given)) {} }
void P1(void) { for (;;) pop(&taken); }
