// A queue with several senders: each claims a position, fills its slot and marks it full. May two claim one position, or the
// receiver find a slot marked full and empty? With -DWRONG a position is claimed by a load and a store.
#include <atomic>

struct Queue {
  std::atomic<unsigned> next{0}, full[2]{};
  volatile unsigned record[2]{};
} q;

static void send(unsigned record) {
#ifdef WRONG
  unsigned position = q.next.load(std::memory_order_relaxed);
  q.next.store(position + 1, std::memory_order_relaxed);
#else
  unsigned position = q.next.fetch_add(1, std::memory_order_relaxed);
#endif
  q.record[position & 1] = record;
  q.full[position & 1].store(1, std::memory_order_release);
}

extern "C" void P0() { send(5); }
extern "C" void P1() { send(7); }
extern "C" int P2() { return q.full[0].load(std::memory_order_acquire) ? q.record[0] : 1; }

// exists (q.next=1 \/ 2:a0=0)
