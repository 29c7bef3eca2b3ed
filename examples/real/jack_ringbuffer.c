/* JACK's ring buffer, as Faust has it in a header: bytes, in place, by the vectors of what may be written and read.
   package: faust-common
   queue: head=ring.write_ptr,tail=ring.read_ptr,slots=bytes,size=32,width=1,index=wrapping
   flags: -isystem out/usr/include
   answer: gcc 0, clang 0 */
#include <faust/gui/ring-buffer.h>

static char bytes[32];
static ringbuffer_t ring = {.buf = bytes, .size = 32, .size_mask = 31};
volatile char got;

void P0(void) {
  for (char n = 0;;) {
    ringbuffer_data_t part[2];
    ringbuffer_get_write_vector(&ring, part);
    if (part[0].len) {
      *part[0].buf = n++;
      ringbuffer_write_advance(&ring, 1);
    }
  }
}

void P1(void) {
  for (;;) {
    ringbuffer_data_t part[2];
    ringbuffer_get_read_vector(&ring, part);
    if (part[0].len) {
      got = *part[0].buf;
      ringbuffer_read_advance(&ring, 1);
    }
  }
}
