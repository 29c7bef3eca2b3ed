// A seqlock: a reader tries again if the number is odd or has changed meanwhile. May it read one new word and one old? With -DWRONG
// the writer counts only after it has written.
#include <atomic>

struct Seqlock {
  std::atomic<unsigned> number{0}, first{0}, second{0};
} lock;

extern "C" void P0() {
#ifndef WRONG
  lock.number.store(1, std::memory_order_relaxed);
  std::atomic_thread_fence(std::memory_order_release);
#endif
  lock.first.store(1, std::memory_order_relaxed);
  lock.second.store(1, std::memory_order_relaxed);
  lock.number.store(2, std::memory_order_release);
}

extern "C" int P1() {
  unsigned number = lock.number.load(std::memory_order_acquire);
  unsigned first = lock.first.load(std::memory_order_relaxed), second = lock.second.load(std::memory_order_relaxed);
  std::atomic_thread_fence(std::memory_order_acquire);
  if (number % 2 || number != lock.number.load(std::memory_order_relaxed)) return -1;
  return first != second;
}

// exists (1:a0=1)
