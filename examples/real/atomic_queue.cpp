// atomic_queue's AtomicQueue for one sender and one receiver: a slot that holds 0 is free. Its constructor, which writes only
// zeros, doesn't run.
// package: libatomic-queue-dev
// tagged: slots=room.queue.elements_,size=8
// flags: -DNDEBUG -std=c++17 -U__UINT32_TYPE__ -D__UINT32_TYPE__=unsigned -Iout/shims/threads -isystem out/usr/include
// clang: -fstandalone-debug
// answer: gcc 0, clang 0
#include <atomic_queue/atomic_queue.h>

[[clang::no_destroy]] static union Room {
  constexpr Room() : none() {}
  ~Room() {}
  char none;
  atomic_queue::AtomicQueue<unsigned, 8, 0u, false, false, false, true> queue;
} room;
volatile unsigned got;

extern "C" void P0() {
  for (;;)
    room.queue.push(7);
}

extern "C" void P1() {
  for (;;)
    got = room.queue.pop();
}
