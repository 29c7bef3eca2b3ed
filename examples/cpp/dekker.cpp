// Dekker's entry by sequentially consistent stores and loads: each hart raises its flag, and enters if the other's is down. May
// both enter?
#include <array>
#include <atomic>

class Door {
 public:
  bool enter(int self) noexcept {
    up_[self].store(1);
    return up_[1 - self].load() == 0;
  }

 private:
  std::array<std::atomic<int>, 2> up_{};
};

constinit Door d;

extern "C" bool P0() { return d.enter(0); }
extern "C" bool P1() { return d.enter(1); }

// exists (0:a0=1 /\ 1:a0=1)
