/* A ring of 16-bit counts, as virtio's: the driver keeps a copy of its count, and the room that it has, in halves of its own, and works by these.
   queue: head=ring.added,tail=ring.used,slots=ring.word,size=8,bytes=2
   answer: kept in every run, and goes on while its harts run */
#include <stdatomic.h>
#include <stdint.h>

#define SLOTS 8

volatile struct {
  uint16_t added;
  int word[SLOTS];
  uint16_t used;
} ring;

static volatile struct {
  uint16_t added, room;
} driver = {0, SLOTS};

static int add(int word) {
  unsigned n = driver.added;
  if (driver.room == 0) {
    driver.room = SLOTS - (uint16_t)(n - ring.used);
    if (driver.room == 0)
      return 0;
    atomic_thread_fence(memory_order_acquire);
  }
  ring.word[n % SLOTS] = word;
  driver.room--;
  driver.added = n + 1;
  atomic_thread_fence(memory_order_release);
  ring.added = n + 1;
  return 1;
}

static int use(int *word) {
  unsigned n = ring.used;
  if (n == ring.added)
    return 0;
  atomic_thread_fence(memory_order_acquire);
  *word = ring.word[n % SLOTS];
  atomic_thread_fence(memory_order_release);
  ring.used = n + 1;
  return 1;
}

void P0(void) { for (int i = 0;; i++) while (!add(i)) {} }
int P1(void) { for (int word, sum = 0;;) if (use(&word) && (sum += word) < 0) return sum; }
// exists (1:a0=0)
