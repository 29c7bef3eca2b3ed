// Boost's spsc_queue with a capacity that is known when it is compiled: numbers of slots, of which one stays free. Its
// constructor, which writes only zeros, doesn't run.
// package: libboost1.74-dev
// queue: head=room.queue.write_index_,tail=room.queue.read_index_,slots=room.queue.storage_,size=8,width=4,index=wrapping
// flags: -D_GNU_SOURCE -Iout/shims/threads -isystem out/usr/include
// clang: -fstandalone-debug
// answer: gcc 0, clang 0
#include <boost/lockfree/spsc_queue.hpp>

[[clang::no_destroy]] static union Room {
  constexpr Room() : none() {}
  ~Room() {}
  char none;
  boost::lockfree::spsc_queue<int, boost::lockfree::capacity<7>> queue;
} room;
volatile int got;

extern "C" void P0() {
  for (int n = 0;; n++)
    while (!room.queue.push(n)) {}
}

extern "C" void P1() {
  for (int one;;)
    if (room.queue.pop(one))
      got = one;
}
