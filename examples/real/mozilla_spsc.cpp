// Mozilla's SPSCQueue, as Firefox hands audio between threads. Its constructor asks for memory and doesn't run: of what it would
// write the capacity and the address of the slots stand here.
// package: libmozjs-102-dev
// queue: head=opened.write,tail=opened.read,slots=slot,size=8,index=wrapping
// flags: -D_GNU_SOURCE -DNDEBUG -std=c++17 -Iout/shims/threads -isystem out/usr/include/mozjs-102
// answer: gcc 0, clang 0
#include <mozilla/SPSCQueue.h>

int slot[8];
struct {
  int read, write, capacity;
  int *data;
} opened{0, 0, 8, slot};
static mozilla::SPSCQueue<int> &queue = reinterpret_cast<mozilla::SPSCQueue<int> &>(opened);
volatile int got;

extern "C" void P0() {
  for (int n = 0;; n++)
    while (!queue.Enqueue(n)) {}
}

extern "C" void P1() {
  for (int one;;)
    if (queue.Dequeue(&one, 1))
      got = one;
}
