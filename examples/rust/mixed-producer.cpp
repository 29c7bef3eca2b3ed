// A queue with a producer in C++ and a consumer in Rust (mixed-consumer.rs): one hart pushes 5 and 7, the other pops twice. May
// a pop give a word out of order, or one that was never pushed?
#include <array>
#include <atomic>
#include <cstdint>

struct Queue {
  std::atomic<std::uint32_t> head{0}, tail{0};
  std::array<std::uint32_t, 2> slots{};

  bool push(std::uint32_t word) noexcept {
    const auto write = tail.load(std::memory_order_relaxed);
    if (write - head.load(std::memory_order_acquire) == slots.size())
      return false;
    slots[write % slots.size()] = word;
    tail.store(write + 1, std::memory_order_release);
    return true;
  }
};

extern "C" {
constinit Queue queue;
unsigned P0() {
  unsigned pushed = queue.push(5);
  return pushed + queue.push(7);
}
}

// forall (0:a0=2 /\ (1:a0=0 \/ 1:a0=5 \/ 1:a0=0x57))
