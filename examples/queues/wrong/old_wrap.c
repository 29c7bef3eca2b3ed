/* The driver publishes each round with the flags of the first one.
   tagged: slots=ring,size=8,width=16,tag=14+2,tells=phases:0x8080:0:0x80:0x8080:0x8000
   answer: another protocol: hart 0 at line 43 */
#include <stdatomic.h>
#include <stdint.h>

#define SIZE 8
#define AVAIL 0x80
#define USED 0x8000

struct descriptor {
  uint64_t address;
  uint32_t length;
  uint16_t id;
  _Atomic uint16_t flags;
} ring[SIZE];
struct side {
  uint16_t index;
  _Bool wrap;
} driver = {0, 1}, device = {0, 1};
struct buffer {
  uint64_t address;
  uint32_t length;
  uint16_t id;
} volatile given, taken;

static void advance(struct side *side) {
  if (++side->index == SIZE) {
    side->index = 0;
    side->wrap = !side->wrap;
  }
}

static int publish(uint64_t address, uint32_t length, uint16_t id) {
  struct descriptor *d = &ring[driver.index];
  uint16_t flags = atomic_load_explicit(&d->flags, memory_order_acquire);
  _Bool avail = flags & AVAIL, used = flags & USED;
  if (avail != used || used == driver.wrap)
    return 0;
  d->address = address;
  d->length = length;
  d->id = id;
  atomic_store_explicit(&d->flags, AVAIL, memory_order_release);
  advance(&driver);
  return 1;
}

static int use(volatile struct buffer *buffer) {
  struct descriptor *d = &ring[device.index];
  uint16_t flags = atomic_load_explicit(&d->flags, memory_order_acquire);
  _Bool avail = flags & AVAIL, used = flags & USED;
  if (avail == used || used == device.wrap)
    return 0;
  buffer->address = d->address;
  buffer->length = d->length;
  buffer->id = d->id;
  atomic_store_explicit(&d->flags, device.wrap ? AVAIL | USED : 0, memory_order_release);
  advance(&device);
  return 1;
}

void P0(void) { for (;;) while (!publish(given.address, given.length, given.id)) {} }
void P1(void) { for (;;) use(&taken); }
