// A lock round a count. May a count be lost? With -DWRONG the lock is looked at and then taken, by two instructions.
#include <atomic>

std::atomic<int> held{0};
volatile int count;

static void add() {
#ifdef WRONG
  while (held.load(std::memory_order_acquire)) {}
  held.store(1, std::memory_order_relaxed);
#else
  while (held.exchange(1, std::memory_order_acquire)) {}
#endif
  count = count + 1;
  held.store(0, std::memory_order_release);
}

extern "C" void P0() { add(); }
extern "C" void P1() { add(); }

// exists (count=1)
