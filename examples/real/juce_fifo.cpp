// JUCE's AbstractFifo, by its own files: numbers of slots of an array, of which one stays free. Its constructor doesn't run: the
// capacity that it would write stands here.
// package: juce-modules-source-data
// queue: head=opened.end,tail=opened.start,slots=slot,size=8,index=wrapping
// flags: -D_GNU_SOURCE -std=c++17 -Iout/shims/threads -isystem out/usr/share/juce/modules
// answer: gcc 0, clang 0
#include <algorithm>
#include <atomic>
#define JUCE_API
#define JUCE_LEAK_DETECTOR(name)
#define JUCE_DECLARE_NON_COPYABLE(name)
#define JUCE_DECLARE_NON_COPYABLE_WITH_LEAK_DETECTOR(name)
#define jassert(holds)
namespace juce { using std::min; constexpr int jmin(int a, int b) { return b < a ? b : a; } }
#include <juce_core/memory/juce_Atomic.h>
#include <juce_core/containers/juce_AbstractFifo.h>
#include <juce_core/containers/juce_AbstractFifo.cpp>

struct {
  int size, start, end;
} opened{8, 0, 0};
int slot[8];
static juce::AbstractFifo &fifo = reinterpret_cast<juce::AbstractFifo &>(opened);
volatile int got;

extern "C" void P0() {
  for (int n = 0;;) {
    int first, size, second, rest;
    fifo.prepareToWrite(1, first, size, second, rest);
    if (size == 1) {
      slot[first] = n++;
      fifo.finishedWrite(1);
    }
  }
}

extern "C" void P1() {
  for (;;) {
    int first, size, second, rest;
    fifo.prepareToRead(1, first, size, second, rest);
    if (size == 1) {
      got = slot[first];
      fifo.finishedRead(1);
    }
  }
}
