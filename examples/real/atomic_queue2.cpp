// atomic_queue's AtomicQueue2 for one sender and one receiver: a byte for each slot, in an array beside the slots, is 2 where a record
// is stored there. Its constructor, which writes only zeros, doesn't run.
// package: libatomic-queue-dev
// tagged: slots=room.queue.elements_,size=8,tag=room.queue.states_[0],tells=bit:255:0:2
// flags: -DNDEBUG -std=c++17 -U__UINT32_TYPE__ -D__UINT32_TYPE__=unsigned -Iout/shims/threads -isystem out/usr/include
// clang: -fstandalone-debug
// answer: gcc 0, clang 0
#include <atomic_queue/atomic_queue.h>

[[clang::no_destroy]] static union Room {
  constexpr Room() : none() {}
  ~Room() {}
  char none;
  atomic_queue::AtomicQueue2<unsigned, 8, false, false, false, true> queue;
} room;
volatile unsigned given, got;

extern "C" void P0() {
  for (;;)
    room.queue.push(given);
}

extern "C" void P1() {
  for (;;)
    got = room.queue.pop();
}
