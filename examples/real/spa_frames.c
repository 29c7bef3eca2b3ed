/* PipeWire's ring buffer of bytes, as audio has it: whole frames of 16 bytes.
   package: libspa-0.2-dev
   queue: head=ring.writeindex,tail=ring.readindex,slots=bytes,size=64,width=1
   flags: -isystem out/usr/include/spa-0.2
   answer: gcc 0, clang 0 */
#include <spa/utils/ringbuffer.h>

static struct spa_ringbuffer ring;
static uint8_t bytes[64] __attribute__((aligned(4)));
volatile uint32_t got;

void P0(void) {
  for (uint32_t n = 0, at;; n++) {
    uint32_t frame[4] = {n, n, n, n};
    while (spa_ringbuffer_get_write_index(&ring, &at) > 48) {}
    spa_ringbuffer_write_data(&ring, bytes, 64, at & 63, frame, 16);
    spa_ringbuffer_write_update(&ring, at + 16);
  }
}

void P1(void) {
  for (uint32_t frame[4], at;;)
    if (spa_ringbuffer_get_read_index(&ring, &at) >= 16) {
      spa_ringbuffer_read_data(&ring, bytes, 64, at & 63, frame, 16);
      spa_ringbuffer_read_update(&ring, at + 16);
      got = frame[0] + frame[1] + frame[2] + frame[3];
    }
}
