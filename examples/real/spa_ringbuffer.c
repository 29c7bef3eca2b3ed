/* PipeWire's ring buffer of bytes, as its streams use it: a word at a time.
   package: libspa-0.2-dev
   queue: head=ring.writeindex,tail=ring.readindex,slots=bytes,size=32,width=1
   flags: -isystem out/usr/include/spa-0.2
   answer: gcc 0, clang 0 */
#include <spa/utils/ringbuffer.h>

static struct spa_ringbuffer ring;
static uint8_t bytes[32] __attribute__((aligned(4)));
volatile uint32_t got;

void P0(void) {
  for (uint32_t n = 0, at;; n++) {
    while (spa_ringbuffer_get_write_index(&ring, &at) > 28) {}
    spa_ringbuffer_write_data(&ring, bytes, 32, at & 31, &n, 4);
    spa_ringbuffer_write_update(&ring, at + 4);
  }
}

void P1(void) {
  for (uint32_t one, at;;)
    if (spa_ringbuffer_get_read_index(&ring, &at) >= 4) {
      spa_ringbuffer_read_data(&ring, bytes, 32, at & 31, &one, 4);
      spa_ringbuffer_read_update(&ring, at + 4);
      got = one;
    }
}
