// A stack onto which two harts push by an exchange of the top; a third takes all of it. May it see both words, or a cut?
#include <stdatomic.h>
#include <stddef.h>

struct node { struct node *_Atomic next; int word; };

struct node a = { NULL, 1 }, b = { NULL, 2 };
struct node *_Atomic top;

// for a moment, until the link is stored, what lies below can't be seen
static void push(struct node *n) {
  struct node *below = atomic_exchange_explicit(&top, n, memory_order_acq_rel);
  atomic_store_explicit(&n->next, below, memory_order_release);
}

void P0(void) { push(&a); }

void P1(void) { push(&b); }

int P2(void) {
  int sum = 0;
  for (struct node *n = atomic_exchange_explicit(&top, NULL, memory_order_acquire); n;
       n = atomic_load_explicit(&n->next, memory_order_acquire))
    sum = 10 * sum + n->word;
  return sum;
}

// exists (2:a0=12 \/ 2:a0=21)
