/* The control word first: the card may take the descriptor before its buffer is there.
   tagged: slots=ring,size=8,width=8,tag=ring[0].control,tells=bit:0x80000000
   answer: hart 0 at line 23 */
#include <stdatomic.h>

#define DESCRIPTORS 8
#define OWN 0x80000000u

struct descriptor {
  unsigned buffer;
  _Atomic unsigned control;
} ring[DESCRIPTORS];
unsigned put, get;
struct frame {
  unsigned buffer, length;
} volatile given, taken;

static int transmit(unsigned buffer, unsigned length) {
  struct descriptor *d = &ring[put];
  if (atomic_load_explicit(&d->control, memory_order_acquire) & OWN)
    return 0;
  atomic_store_explicit(&d->control, OWN | length, memory_order_release);
  d->buffer = buffer;
  put = (put + 1) % DESCRIPTORS;
  return 1;
}

static int fetch(volatile struct frame *frame) {
  struct descriptor *d = &ring[get];
  unsigned control = atomic_load_explicit(&d->control, memory_order_acquire);
  if (!(control & OWN))
    return 0;
  frame->length = control & ~OWN;
  frame->buffer = d->buffer;
  atomic_store_explicit(&d->control, 0, memory_order_release);
  get = (get + 1) % DESCRIPTORS;
  return 1;
}

void P0(void) { for (unsigned n = 0;; n++) while (!transmit(n, given.length)) {} }
void P1(void) { for (;;) fetch(&taken); }
