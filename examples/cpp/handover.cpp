// The queue of docs/functions.md called from C++, behind a class that passes whole objects: may the second hart miss one of two
// messages?
#include <array>
#include <cstdint>

#include "queue.h"

namespace post {

LAMPORT_QUEUE(Places, 2);

struct Message {
  std::uint32_t length;
};

template <typename T, std::size_t Buffers>
class Channel {
 public:
  void send(const T &value) noexcept {
    buffers[next_] = value;
    while (!QUEUE_TRY_SEND(&q, next_)) {
    }
    next_ = next_ + 1 == Buffers ? 0 : next_ + 1;
  }

  T receive() noexcept {
    received got{};
    do
      got = QUEUE_TRY_RECEIVE(&q);
    while (!got.ok);
    return buffers[got.word];
  }

  Places q{};
  std::array<T, Buffers> buffers{};

 private:
  std::uint32_t next_{0};
};

constinit Channel<Message, 3> mail;

}  // namespace post

extern "C" void P0() {
  post::mail.send({7});
  post::mail.send({8});
}

extern "C" std::uint32_t P1() {
  const auto first = post::mail.receive();
  return first.length + post::mail.receive().length;
}

// exists (~ 1:a0=15)
