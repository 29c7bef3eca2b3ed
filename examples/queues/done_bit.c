/* A receive ring of a controller: it sets DONE in a status byte, beside what it found. The driver clears that bit alone, and drops data with errors.
   tagged: slots=ring,size=4,width=8,tag=ring[0].status+1,tells=bit:1
   read: 5
   answer: kept in every run, and goes on while its harts run */
#include <stdatomic.h>

#define BUFFERS 4
#define DONE 1

struct received {
  unsigned data;
  _Atomic unsigned char status;
  unsigned char errors;
} ring[BUFFERS];
unsigned put, get;
volatile unsigned wire, got;
volatile unsigned char flags;

static int deliver(unsigned data) {
  struct received *r = &ring[put];
  if (atomic_load_explicit(&r->status, memory_order_acquire) & DONE)
    return 0;
  r->data = data;
  r->errors = flags;
  atomic_store_explicit(&r->status, flags << 1 | DONE, memory_order_release);
  put = (put + 1) % BUFFERS;
  return 1;
}

static int poll(void) {
  struct received *r = &ring[get];
  unsigned status = atomic_load_explicit(&r->status, memory_order_acquire);
  if (!(status & DONE))
    return 0;
  if (r->errors == 0)
    got = r->data;
  atomic_store_explicit(&r->status, status & ~DONE, memory_order_release);
  get = (get + 1) % BUFFERS;
  return 1;
}

void P0(void) { for (;;) while (!deliver(wire)) {} }
void P1(void) { for (;;) poll(); }
