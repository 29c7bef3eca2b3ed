/* A UART's FIFO of received bytes: numbers of slots in a byte each. The data begin in the word of the indices, so they are named by it.
   queue: head=rx_head,tail=rx_head+1,slots=rx_head+2,size=16,width=1,bytes=1,index=wrapping
   answer: kept in every run, and goes on while its harts run */
#include <stdatomic.h>
#include <stdint.h>

#define SLOTS 16

struct {
  _Atomic uint8_t head, tail;
  uint8_t data[SLOTS];
} rx;

volatile int rx_register, dropped;

static void on_receive(void) {
  uint8_t byte = rx_register, head = atomic_load_explicit(&rx.head, memory_order_relaxed), next = (head + 1) % SLOTS;
  if (next == atomic_load_explicit(&rx.tail, memory_order_acquire)) {
    dropped++;
    return;
  }
  rx.data[head] = byte;
  atomic_store_explicit(&rx.head, next, memory_order_release);
}

static int getchar_now(void) {
  uint8_t tail = atomic_load_explicit(&rx.tail, memory_order_relaxed);
  if (tail == atomic_load_explicit(&rx.head, memory_order_acquire))
    return -1;
  uint8_t byte = rx.data[tail];
  atomic_store_explicit(&rx.tail, (tail + 1) % SLOTS, memory_order_release);
  return byte;
}

void P0(void) { for (;;) on_receive(); }
int P1(void) { for (int sum = 0;;) if ((sum += getchar_now()) < -1000) return sum; }
// exists (1:a0=0)
