// moodycamel's ReaderWriterQueue of one block, whose receiver looks at a record where it lies: peek and pop. Its constructor asks
// for memory and doesn't run: what it would make stands here.
// package: libreaderwriterqueue-dev
// queue: head=block.tail,tail=block.front,slots=slot,size=8,index=wrapping
// flags: -D_GNU_SOURCE -D__unix__ -DNDEBUG -fno-strict-aliasing -Iout/shims/threads -isystem out/usr/include
// answer: gcc 0, clang 0
#include <readerwriterqueue.h>

typedef moodycamel::ReaderWriterQueue<int, 8> Queue;
constexpr int LINE = MOODYCAMEL_CACHE_LINE_SIZE, WORD = sizeof(std::size_t);

int slot[8];
struct Block {
  std::size_t front, front_copy;
  char fill[LINE - 2 * WORD];
  std::size_t tail, tail_copy;
  char fill_too[LINE - 2 * WORD];
  Block *next;
  int *data;
  std::size_t mask;
} block{0, 0, {}, 0, 0, {}, &block, slot, 7};
struct {
  Block *front;
  char fill[LINE - WORD];
  Block *tail;
  std::size_t largest;
} opened{&block, {}, &block, 8};
static Queue &queue = reinterpret_cast<Queue &>(opened);
volatile int got;

extern "C" void P0() {
  for (int n = 0;; n++)
    while (!queue.try_enqueue(n)) {}
}

extern "C" void P1() {
  for (;;)
    if (int *one = queue.peek()) {
      got = *one;
      queue.pop();
    }
}
