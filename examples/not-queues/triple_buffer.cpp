// A triple buffer: the writer fills one buffer, the reader reads another, and each exchanges its own for the third. May the reader
// read a record of which half is newer? With -DWRONG it loads and stores in place of the exchange.
#include <atomic>

struct TripleBuffer {
  struct Record { volatile unsigned first, second; } at[3]{};
  std::atomic<unsigned> spare{1};  // a buffer's number, and 4 if its record is new
} buffer;

extern "C" void P0() {
  unsigned mine = 0;
  for (unsigned n = 1; n <= 3; ++n) {
    buffer.at[mine].first = n;
    buffer.at[mine].second = n;
    mine = buffer.spare.exchange(mine | 4, std::memory_order_acq_rel) & 3;
  }
}

extern "C" int P1() {
  if (!(buffer.spare.load(std::memory_order_relaxed) & 4)) return 0;
#ifdef WRONG
  unsigned mine = buffer.spare.load(std::memory_order_acquire) & 3;
  buffer.spare.store(2, std::memory_order_release);
#else
  unsigned mine = buffer.spare.exchange(2, std::memory_order_acq_rel) & 3;
#endif
  unsigned first = buffer.at[mine].first;
  return first != buffer.at[mine].second;
}

// exists (1:a0=1)
