/* Numbers modulo twice the slots: any number of slots, and all of them in use.
   queue: head=q.put,tail=q.get,slots=q.word,size=5,index=wrapping,modulus=10
   answer: kept in every run, and goes on while its harts run */
#include <stdatomic.h>

#define SLOTS 5

struct {
  atomic_uint put, get;
  int word[SLOTS];
} q;

static unsigned after(unsigned n) { return n + 1 == 2 * SLOTS ? 0 : n + 1; }
static unsigned slot(unsigned n) { return n < SLOTS ? n : n - SLOTS; }

static int send(int word) {
  unsigned n = atomic_load_explicit(&q.put, memory_order_relaxed);
  unsigned other = atomic_load_explicit(&q.get, memory_order_acquire);
  if (n != other && slot(n) == slot(other))
    return 0;
  q.word[slot(n)] = word;
  atomic_store_explicit(&q.put, after(n), memory_order_release);
  return 1;
}

static int receive(int *word) {
  unsigned n = atomic_load_explicit(&q.get, memory_order_relaxed);
  if (n == atomic_load_explicit(&q.put, memory_order_acquire))
    return 0;
  *word = q.word[slot(n)];
  atomic_store_explicit(&q.get, after(n), memory_order_release);
  return 1;
}

void P0(void) { for (int i = 0;; i++) while (!send(i)) {} }
int P1(void) { for (int word, sum = 0;;) if (receive(&word) && (sum += word) < 0) return sum; }
// exists (1:a0=0)
